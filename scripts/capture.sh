# To be sourced by the commands in bin/ that read a capture or commands, behind scripts/command.sh: the kinds, and how a file, a capture and a
# sheet are read.

# The longest capture that is read. A program is given one byte more, so that it sees what is too long.
most=65534
# The longest register sheet: 500 lines of twelve bytes. Of a sheet, too, one byte more is handed on.
most_sheet=6000

kinds='  1  nikobus         the Nikobus serial line
  2  nest-command    what is sent to the Nest backplate
  3  nest-response   what the Nest backplate sends
  4  nibe            the Nibe pump'\''s RS-485 line
  5  homiq           the Homiq line'

# number_of KIND: sets `number` to the number of a kind, which is given by its number or its name.
number_of() {
    local of_kind its_name
    number=
    while read -r of_kind its_name _; do
        [ "$1" != "$of_kind" ] && [ "$1" != "$its_name" ] || number=$of_kind
    done <<<"$kinds"
    [ -n "$number" ] || misused "unknown kind: $1. The kinds are
$kinds"
}

# make_room: sets `room` to a folder for what the program writes. It is kept there until it is known to be complete: a program cannot
# tell by its status that it could not write.
make_room() {
    room=$(mktemp -d) || fail 'there is no folder for the lines: TMPDIR must name one that can be written'
    trap 'rm -rf "$room"' EXIT
}

# reason: the system's own words for an error, which end what the shell or a command said of it.
reason() { sed -n '$s/.*: //p' "$room/said"; }

# open_input FILE: standard input is this file from now on; `-` leaves it as it is.
open_input() {
    file=$1
    [ "$file" != - ] || return 0
    [ ! -d "$file" ] || fail "cannot read $file: Is a directory"
    { exec <"$file"; } 2>"$room/said" || fail "cannot read $file: $(reason)"
}

# Where the program is run: in the caller's folder, if this is empty.
folder=

# give_sheet FILE: the program is run in a folder in which this file is sheet.txt. What is wrong with the sheet, the program says.
give_sheet() {
    folder=$room/folder
    mkdir -- "$folder" || fail "there is no folder for the sheet: TMPDIR must name one that can be written"
    [ ! -d "$1" ] || fail "cannot read $1: Is a directory"
    { head -c "$((most_sheet + 1))" <"$1" >"$folder/sheet.txt"; } 2>"$room/said" || fail "cannot read $1: $(reason)"
}

# give_capture HEAD PROGRAM: gives the program a line HEAD and then the capture, and keeps what it writes in $room/lines.
give_capture() {
    local ended
    { printf '%s\n' "$1" && head -c "$((most + 1))" 2>"$room/said"; } | run_in_folder "$2" >"$room/lines"
    ended=("${PIPESTATUS[@]}")
    [ "${ended[1]}" -eq 0 ] || fail "the program ended with status ${ended[1]}"
    [ "${ended[0]}" -eq 0 ] || fail "cannot read ${file/#-/standard input}: $(reason)"
}

# run_in_folder PROGRAM: to be called in a process of its own.
run_in_folder() {
    [ -z "$folder" ] || cd -- "$folder" || exit
    run "$1"
}

# kept PATTERN..: fails unless the last line that the program wrote, with its LF, is as one of the patterns: it then wrote all. Sets `last`.
kept() {
    local pattern
    # the x keeps the LF before it
    last=$(tail -n 1 "$room/lines" && printf x)
    for pattern in "$@"; do
        [[ ! $last =~ ^${pattern}$'\n'x$ ]] || return 0
    done
    fail 'not all lines could be kept: is the disk full?'
}
