# To be sourced by what runs, proves or installs the programs, with `root` set to the repository: what is built from its sources.
#
#   built/proved/NAME.STAMP     proved, of the sources with this stamp; beside it NAME.STAMP.by, the kit that proved it
#   built/unproved/NAME.STAMP   built from them without a proof
#   target/bin/NAME             the program that was proved last, also if the sources have changed since
#
# The stamp is a part of the name, so one rename records a program and its sources together, and a program is never taken for that of
# other sources. built/ and target/ may be removed at any time.
. "${BASH_SOURCE[0]%/*}/say.sh"
. "${BASH_SOURCE[0]%/*}/lock.sh"
. "${BASH_SOURCE[0]%/*}/run.sh"

# How long bin/prove takes from nothing, on four cores.
minutes=10

# below ROOT CRATE: the crates and the kit's libraries below CRATE, by ROOT/crates.txt.
below() {
    awk -v crate="$2" '
        { sub(/#.*/, "") }
        split($0, parts, ":") == 2 { split(parts[1], words, " "); needs[words[1]] = parts[2] }
        function visit(name,    list, count, i) {
            if (seen[name]++) return
            count = split(needs[name], list, " ")
            for (i = 1; i <= count; i++) visit(list[i])
            if (name != crate) print name
        }
        END { visit(crate); exit !(crate in needs) }' "$1/crates.txt"
}

# stamp ROOT CRATE: sets `stamp`, of all that decides whether CRATE is proved and what it does: its files and those of the crates below;
# and `folders`, where these are. What rt leaves in a crate's out/ is no part of it.
stamp() {
    local crate list
    folders=()
    list=$(below "$1" "$2") || return
    for crate in $list "$2"; do
        [ ! -d "$1/crates/$crate" ] || folders+=("crates/$crate")
    done
    stamp=$(
        cd -- "$1" &&
            find "${folders[@]}" \( -path 'crates/*/out' -o -name must-fail \) -prune -o -type f -print0 | LC_ALL=C sort -z | xargs -0 sha256sum | sha256sum
    ) || return
    stamp=${stamp%% *}
}

# programs CRATE..: sets `programs` to the programs to run, each the proved one, if its sources have been proved here. Any other is one that
# is built without a proof, and a line on standard error says so.
programs() {
    local crate place missing=()
    unproved=
    programs=()
    for crate in "$@"; do
        stamp "$root" "$crate" || fail "the sources cannot be read: $root/crates"
        place=$root/built/proved/$crate.$stamp
        [ -x "$place" ] || { unproved=yes && place=$root/built/unproved/$crate.$stamp; }
        [ -x "$place" ] || missing+=("$place")
        programs+=("$place")
    done
    [ -n "$unproved" ] || return 0
    unproved="this program is not proved here yet: bin/prove does it, in about $minutes minutes"
    if [ "${#missing[@]}" -eq 0 ]; then
        say "$unproved"
    else
        build_unproved "${missing[@]}"
    fi
}

# build_unproved PLACE..: one command builds what belongs there, two programs at a time; others that come meanwhile wait for it.
build_unproved() {
    local place build builds=() folder=$root/built/unproved
    find_kit
    [ -n "$kit" ] || fail "there is no built program, and without the Rattle kit none can be built: install the kit, so that rt is on PATH"
    say "$unproved; building it without a proof, less than a minute"
    mkdir -p -- "$folder" 2>/dev/null && [ -w "$folder" ] || fail "$folder cannot be written: whoever may write it runs bin/prove or this command once"
    (
        exec {building}<"$folder" && flock "$building" || exit
        for place in "$@"; do
            [ "${#builds[@]}" -lt 2 ] || wait "${builds[-2]}" || exit
            one_unproved "$place" &
            builds+=($!)
        done
        for build in "${builds[@]}"; do wait "$build" || exit; done
    ) || fail "the program could not be built"
}

# one_unproved PLACE: builds one, if no other command has built it meanwhile.
one_unproved() {
    local crate=${1##*/}
    crate=${crate%%.*}
    [ ! -x "$1" ] || return 0
    "$root/scripts/unproved" "$root" "$crate" "$folder/new.$crate" </dev/null || return
    stamp "$root" "$crate" && [ "$stamp" = "${1##*.}" ] || fail 'the sources have changed meanwhile: try again'
    rm -f -- "$folder/$crate".*
    mv -- "$folder/new.$crate" "$1"
}

# proved_by CRATE..: what --version says of the programs.
proved_by() {
    local crate kits=()
    for crate in "$@"; do
        stamp "$root" "$crate" || return
        kits+=("$root/built/proved/$crate.$stamp.by")
        [ -x "${kits[-1]%.by}" ] || {
            printf 'not proved here yet: bin/prove does it\n'
            return
        }
    done
    printf 'proved by %s\n' "$(sort -u -- "${kits[@]}")"
}

# The crates that the library for C is made of. Each is an object of its own in libbolsterweft.a: a program links what it calls, and the
# compiler makes each as quick as if it were alone.
library=(host_c host_lines_c host_list_c host_sheet_c host_asked_c host_book_c)

# is_archive CRATE: whether it is a static library, by crates.txt, and so an archive for C.
is_archive() { grep -q "^$1 staticlib *:" -- "$root/crates.txt"; }

# made_of CRATE: sets `file` to the name of what is made of it.
made_of() {
    file=$1
    ! is_archive "$1" || file=lib$1.a
}

# archives CRATE..: sets `archives` to the proved archives of these crates for C. A crate is proved first if its sources have not been
# proved here.
archives() {
    local crate missing=()
    local -A stamps=()
    archives=()
    for crate in "$@"; do
        stamp "$root" "$crate" || return
        stamps[$crate]=$stamp
        archives+=("$root/built/proved/lib$crate.a.$stamp")
        [ -e "${archives[-1]}" ] || missing+=("$crate")
    done
    [ "${#missing[@]}" -eq 0 ] || prove_archives "${missing[@]}"
}

# prove_archives CRATE..: of the sources that have the `stamps`.
prove_archives() {
    local crate made=$root/target/archives
    lock "$root" && since && rm -rf -- "$made" && "$root/scripts/proved" "$made" "$@" >"$made.log" 2>&1 </dev/null || {
        cat "$made.log" >&2
        return 1
    }
    for crate in "$@"; do record "$crate" "${stamps[$crate]}" "$made/lib$crate.a" || return; done
}

# merge OUT ARCHIVE..: one archive of several.
merge() {
    find_kit
    rm -f -- "$1" && "$tools/llvm-ar" qcsL "$@"
}

# since: notes the time, for `record`.
since() {
    mkdir -p -- "$root/target" "$root/built/proved" && : >"$root/target/since"
}

# record CRATE STAMP FILE: puts FILE, which was proved of CRATE, in place for the sources of this stamp. They must still be the sources,
# and must not have been written since `since` noted the time: a file that is changed and changed back deceives only the stamp.
record() {
    local place=$root/built/proved/${3##*/}.$2
    stamp "$root" "$1" && [ "$stamp" = "$2" ] && [ -z "$(written_since)" ] || {
        say "the sources of $1 have changed while they were proved: what was proved is not recorded. Try again"
        return 1
    }
    rt version >"$place.by" && cp -- "$3" "$place.new" && mv -- "$place.new" "$place" && rm -f -- "$root/built/unproved/${3##*/}".*
}

# written_since: a file or a folder in `folders` that has been written since then, if there is one. A crate's folder itself is written when rt
# makes its out/.
written_since() {
    find "${folders[@]/#/$root/}" -mindepth 1 -path '*/crates/*/out' -prune -o -mindepth 1 -newercm "$root/target/since" -print -quit
}
