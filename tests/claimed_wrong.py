#!/usr/bin/env python3
"""Whether hollow claims are seen. Each edit here takes something away from what is claimed of a public function, in a copy of the crates;
tests/claimed.py must fail on the copy, with the words given. The edits that give a function a `requires` are tried on the prover, too:
the function still keeps its contract, so its own crate is proved, but its row in crates/claims must be refused. (Hollow claims and rows that
the prover alone refuses are crates/claims/must-fail.)

Prints what is amiss and `N passed, M failed`: a test is an edit, tried on one of the two.
"""
import pathlib
import re
import shutil
import subprocess
import sys
import tempfile
from typing import NamedTuple

sys.dont_write_bytecode = True  # or Python leaves a folder beside those that are imported

import proved

ROOT = proved.ROOT


class Edit(NamedTuple):
    """What is changed where, the words with which tests/claimed.py refuses it, and the row that the prover refuses, if it is tried there."""

    name: str
    path: str
    old: str
    new: str
    words: str
    row: str = ""


ROWS = "crates/claims/proofs/Table/"
HOST = "crates/host/src/number_calls.rt"
# The functions that are made to ask, as their heads stand in the file
HEADS = {
    "bolsterweft_value_read": '\npub extern "C" fn bolsterweft_value_read(bytes: &[u8], width: u32, is_signed: u32) -> Raw\n',
    "bolsterweft_text": '\npub extern "C" fn bolsterweft_text(raw: i64, decimals: u32, room: &mut [u8]) -> Count\n',
}


def asking(name, clause, row):
    """The function asks this of its caller."""
    head = HEADS[name]
    return Edit(name + " asks", HOST, head, head + "    requires { %s }\n" % clause, "host::number_calls::%s has a `requires`" % name, row)


EDITS = [
    asking("bolsterweft_value_read", "(width ≡ 2) × (length bytes.now ≡ 2)", "value-read-proper"),
    asking("bolsterweft_text", "decimals ≡ 2", "text-of-proper"),
    Edit("an argument from another parameter", ROWS + "Lines.antt", "content = a.1.0.now; at = a.1.1.0; len = a.1.1.1.0;",
         "content = a.1.0.now; at = a.1.1.1.0; len = a.1.1.0;", "gives the arguments"),
    Edit("the room afterwards from another parameter", ROWS + "Puts.antt", "later = λ κs s. s.1.0.now;\n    }\n\npub front-proper",
         "later = λ κs s. s.0.now;\n    }\n\npub front-proper", "takes the room afterwards from"),
    Edit("an argument under another name", "crates/claims/specs/Paper/Table/Frames.antt", "  pub place : ℕ\n\nabbrev pub search",
         "  pub from : ℕ\n\nabbrev pub search", "the claim of frames::search has the arguments"),
    Edit("another function's code", ROWS + "Frames.antt", "frames.search.Symbol.code", "frames.one_frame.Symbol.code", "is not made of"),
    Edit("a row that is not listed", ROWS + "Book.antt", "rows = opening ∷ entry", "rows = opening", "is not in its file's list"),
    Edit("a claim of another function", "crates/claims/specs/Paper/Table/Book.antt", '"book::open"', '"book::opens"', "book::open has 0 claims"),
]


def copy(to):
    """The crate `claims` and those below, without what rt left in them and without their edits, as a repository."""
    lines = (ROOT / "crates.txt").read_text(encoding="utf-8").splitlines()
    below = next(line.split(":")[1].split() for line in lines if line.startswith("claims:"))
    wanted = [line for line in lines if re.split("[ :]", line)[0] in (*below, "claims")]
    (to / "crates.txt").write_text("".join(line + "\n" for line in wanted), encoding="utf-8")
    for line in wanted:
        crate = line.split(":")[0]
        shutil.copytree(ROOT / "crates" / crate, to / "crates" / crate, ignore=shutil.ignore_patterns("out", "must-fail"))
    (to / ".git").mkdir()


def change(root, edits):
    """Makes the edits in a copy. A text that does not stand exactly once is amiss."""
    for edit in edits:
        path = root / edit.path
        text = path.read_text(encoding="utf-8")
        if text.count(edit.old) != 1:
            return "%s: the text to change stands %d times in %s" % (edit.name, text.count(edit.old), edit.path)
        path.write_text(text.replace(edit.old, edit.new), encoding="utf-8")
    return ""


def run(*words, **more):
    done = subprocess.run(words, stdout=subprocess.PIPE, stderr=subprocess.STDOUT, text=True, check=False, **more)
    return done.returncode, done.stdout


def seen_by_test(edits):
    """Each edit alone, in one copy that is mended after each."""
    with tempfile.TemporaryDirectory() as folder:
        root = pathlib.Path(folder)
        copy(root)
        for edit in edits:
            path = root / edit.path
            before = path.read_text(encoding="utf-8")
            wrong = change(root, [edit])
            status, said = run(sys.executable, str(ROOT / "tests" / "claimed.py"), folder)
            if wrong or status != 1 or edit.words not in said:
                yield wrong or "%s: tests/claimed.py does not see it" % edit.name
            path.write_text(before, encoding="utf-8")


def seen_by_prover(edits):
    """The edits of one crate at once: each has its row refused, and the crate itself is proved. (`rt ci` takes of the crates below what it
    proved before.)"""
    with tempfile.TemporaryDirectory() as folder:
        root = pathlib.Path(folder)
        copy(root)
        wrong = change(root, edits)
        if wrong:
            yield wrong
            return
        status, said = run("rt", "ci", cwd=folder)
    is_proved = re.search(r"^rt: host (proved|is kept)", said, re.M)
    for edit in edits:
        if status == 0 or not is_proved or "rt: claims NOT PROVED" not in said or not re.search(r"error: `%s`" % re.escape(edit.row), said):
            yield "%s: the prover does not refuse %s" % (edit.name, edit.row)


def main():
    proved.lock()
    tried = [edit for edit in EDITS if edit.row]
    wrong = list(seen_by_test(EDITS)) + list(seen_by_prover(tried))
    for line in wrong:
        print(line)
    print("%d passed, %d failed" % (len(EDITS) + len(tried) - len(wrong), len(wrong)))
    return 1 if wrong else 0


sys.exit(main())
