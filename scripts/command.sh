# To be sourced by the commands in bin/, with `root` set to the repository: how they take options, fail and end.
#
# Exit status: 0 done, 1 refused or failed, 2 usage error. The reason is on standard error.
# Options come before all other arguments: --help (or -h) and --version; `--` ends them. A command defines `usage`, which prints its
# help. It may define `about`, which prints what --version says behind the version, and `option`, which takes an option of its own.
set -uo pipefail
. "$root/scripts/say.sh"

# what a person types: bin/list in the repository, and the name alone if it is installed
command=$self
[ "$self" = "bolsterweft-${self#bolsterweft-}" ] || command=bin/$self

misused() {
    say "$@"
    printf 'See %s --help.\n' "$command" >&2
    exit 2
}

about() { :; }

# option ARGUMENTS..: takes the option that they begin with, and sets `words` to the arguments behind it.
option() { misused "unknown option: $1"; }

# options ARGUMENTS..: answers --help and --version; sets `words` to the arguments behind the options.
options() {
    words=("$@")
    case ${1-} in
    -h | --help)
        [ $# -eq 1 ] || misused "$1 stands alone"
        usage
        exit
        ;;
    --version)
        [ $# -eq 1 ] || misused "$1 stands alone"
        printf '%s (Bolsterweft) %s\n' "$self" "$(cat -- "$root/VERSION")"
        about
        exit
        ;;
    --) words=("${@:2}") ;;
    -?*) option "$@" ;;
    esac
}
