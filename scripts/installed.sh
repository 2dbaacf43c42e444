# What bin/install puts in the place of scripts/programs.sh, with `root` being the folder of the installed files: programs that were
# proved before they were installed, and need nothing else.
. "${BASH_SOURCE[0]%/*}/run.sh"

# programs CRATE..: sets `programs`.
programs() { programs=("${@/#/$root/}"); }

# proved_by CRATE..: what --version says of the programs.
proved_by() { printf 'proved by %s\n' "$(cd -- "$root" && sort -u -- "${@/%/.by}")"; }
