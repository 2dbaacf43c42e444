# To be sourced: the lock on target/ and built/. The tests and bin/prove write there, and two at once would spoil each other's files.
. "${BASH_SOURCE[0]%/*}/say.sh"

# lock ROOT: waits until nobody else holds the lock of the repository ROOT. It is then held until this process and all processes that it
# started have ended; they find it held. The lock is on the repository's folder itself: it needs no file of its own. tests/proved.py has the
# same for Python.
lock() {
    [ -z "${BOLSTERWEFT_LOCK-}" ] || [ ! "/proc/self/fd/$BOLSTERWEFT_LOCK" -ef "$1" ] || return 0
    exec {BOLSTERWEFT_LOCK}<"$1" || return
    export BOLSTERWEFT_LOCK
    flock --nonblock "$BOLSTERWEFT_LOCK" && return
    say 'waiting for another command that writes target/'
    flock "$BOLSTERWEFT_LOCK"
}
