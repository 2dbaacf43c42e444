"""The proved programs, for the tests in Python; and the lock on target/ and built/, as in scripts/lock.sh: the tests and bin/prove write
there, and two at once would spoil each other's files."""
import fcntl
import os
import pathlib
import subprocess
import sys

ROOT = pathlib.Path(__file__).resolve().parent.parent
# What bin/prove is asked for, of each program.
GOALS = {"listing": "list", "verdicts": "why", "encoding": "encode"}


def lock_is_held():
    """Whether a process above this one holds the lock and handed it down."""
    try:
        return os.path.samestat(os.fstat(int(os.environ.get("BOLSTERWEFT_LOCK", ""))), os.stat(ROOT))
    except (ValueError, OSError):
        return False


def lock():
    """Waits until nobody else holds the lock, and holds it until this process has ended."""
    if lock_is_held():
        return
    folder = os.open(ROOT, os.O_RDONLY)  # never closed: the lock would go with it
    try:
        fcntl.flock(folder, fcntl.LOCK_EX | fcntl.LOCK_NB)
    except BlockingIOError:
        print("%s: waiting for another command that writes target/" % os.path.basename(sys.argv[0]), file=sys.stderr)
        fcntl.flock(folder, fcntl.LOCK_EX)
    os.set_inheritable(folder, True)  # what is started with close_fds=False has it, and does not wait for it
    os.environ["BOLSTERWEFT_LOCK"] = str(folder)


def quietly(*words):
    """Runs a command; what it writes is shown if it fails, and that is the end."""
    lock()
    (ROOT / "target").mkdir(exist_ok=True)
    done = subprocess.run(words, cwd=ROOT, stdout=subprocess.PIPE, stderr=subprocess.STDOUT, close_fds=False, check=False)
    if done.returncode != 0:
        sys.stdout.buffer.write(done.stdout)
        sys.exit(1)


def program(name):
    """The program's path; it is proved and built if that has not been done."""
    quietly("bin/prove", GOALS[name])
    return ROOT / "target" / "bin" / name


def calls():
    """The command bin/calls, with its programs proved."""
    quietly("bin/prove", "calls")
    return ROOT / "bin" / "calls"
