# To be sourced: how a script speaks and fails. Standard output is for what was asked for; all else goes to standard error.
self=${0##*/}

say() {
    printf '%s: %s\n' "$self" "$*" >&2
}

fail() {
    say "$@"
    exit 1
}
