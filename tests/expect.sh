# To be sourced by tests of commands, with `folder` set to one that they can write: what a command writes, says and ends with.
passed=0 failed=0

# judge NAME HOLDS: counts a test; one that does not hold is shown with what was written and said last.
judge() {
    if [ "$2" -eq 0 ]; then
        passed=$((passed + 1))
    else
        failed=$((failed + 1))
        printf '%s: status %s, or other bytes or words than expected; it wrote\n' "$1" "${ended-}"
        head -c 400 "$folder/written"
        printf 'and said\n'
        head -c 800 "$folder/said"
    fi
}

# do_it COMMAND..: keeps what it writes on standard output and on standard error, and its status
do_it() {
    "$@" 2>"$folder/said" | cat >"$folder/written"
    ended=${PIPESTATUS[0]}
}

# expect NAME STATUS FILE COMMAND..: it writes the file's bytes, and is silent on standard error exactly if it ends with 0
expect() {
    local name=$1 status=$2 file=$3 silent=0
    shift 3
    do_it "$@"
    [ ! -s "$folder/said" ] || silent=1
    cmp -s "$folder/written" "$file" && [ "$ended" -eq "$status" ] && [ "$silent" -eq $((status != 0)) ]
    judge "$name" $?
}

# says NAME STATUS FILE WORDS COMMAND..: it writes the file's bytes, and one of the lines on standard error matches the words, a regular
# expression
says() {
    local name=$1 status=$2 file=$3 words=$4
    shift 4
    do_it "$@"
    cmp -s "$folder/written" "$file" && [ "$ended" -eq "$status" ] && grep -qE -- "$words" "$folder/said"
    judge "$name" $?
}

# holds NAME COMMAND..: the command ends with 0
holds() {
    local name=$1
    shift
    do_it "$@"
    judge "$name" "$ended"
}

# counted: the last line of a test
counted() {
    printf '%d passed, %d failed\n' "$passed" "$failed"
    [ "$failed" -eq 0 ]
}

within() { (cd "$1" && "${@:2}"); }
