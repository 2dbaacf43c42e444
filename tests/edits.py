#!/usr/bin/env python3
"""Whether the must-fail edits show what they are said to show.

tests/edits.py LOG             by what `rt ci` wrote of them, which is LOG
tests/edits.py --try [CRATE..] by a check of each edit, of these crates or of all. That takes about as long as `rt ci` from nothing, and is
                               not part of the gate. What the checks wrote is left in target/edits/CRATE/EDIT.log

Both ways:
- `rt ci`, or the check, refuses each edit; and not only because a proof names what the edit took away, nor only by a limit of the prover's.
- No two changes of an edit stand in the same function (tests/changes.py says which functions a change stands in), nor in two that call each
  other: these have one proof.
- docs/PROMISES.md names each wrong answer and each public function.

`rt ci` writes of an edit only the first thing that the prover says. So it takes --try to see of each change that
- where it stands, the prover says of the function that a fact does not hold: not only that the proof no longer fits the code, nor that it
  waits for another function. Of a changed definition it says so at all. (The name of a goal has the condition in it that leads there. Where a
  changed condition leaves but missing names, the proof's names are fitted to it, and the edit is checked again);
- each public function of a library is left unproved by two wrong answers at least, of its own code or of what it calls. (A changed definition
  does not count.)

Prints what is amiss and `N passed, M failed`: a test is an edit, a change, or a public function.
"""
import pathlib
import re
import shutil
import subprocess
import sys
import tempfile

sys.dont_write_bytecode = True  # or Python leaves a folder beside those that are imported

import changes
import functions
import proved

LOGS = functions.ROOT / "target" / "edits"
# What the prover says where a proof's text does not fit the code any more.
NAMES = r"has no `|has no field|is not in scope|was not admitted|was rejected|exports no|Need-"


def is_fact(said):
    """Whether what the prover says is that something does not hold, and not that a proof's text does not fit the code."""
    return bool(said) and not re.search(NAMES, said)


# ---- what `rt ci` says of each edit


def refused(log):
    """Each edit that `rt ci` names, and what is amiss with what it says of it."""
    for crate, edit, said in re.findall(r"^rt: must-fail (\w+)/(\S+)\.edit: (.*)$", log, re.M):
        amiss = ""
        if not said.startswith("refused, as it must be"):
            amiss = said
        elif "(only " in said:
            amiss = "refused for another reason than a fact: %s" % said
        elif ": error: " in said and not is_fact(said):
            amiss = "refused for another reason than a fact: %s" % said
        yield (crate, edit), amiss


# ---- a check of each edit


def copied(folder, crates):
    """A copy of the crates, without what rt left in them and without their edits."""
    for crate in crates:
        shutil.copytree(functions.ROOT / "crates" / crate, folder / "crates" / crate, ignore=shutil.ignore_patterns("out", "must-fail"))
    shutil.copy(functions.ROOT / "crates.txt", folder)
    (folder / ".git").mkdir()


def check(folder, crate):
    """What a check of a crate writes, over what earlier checks kept, and whether it is proved."""
    done = subprocess.run(
        ["rt", "check"], cwd=folder / "crates" / crate, stdin=subprocess.DEVNULL, stdout=subprocess.PIPE, stderr=subprocess.STDOUT, text=True, check=False
    )
    return done.stdout, done.returncode == 0


def named_goals(folder, crate, function, place):
    """What the kit names in the goals of a function: the conditions that lead to them, and the goals, in the order of the code."""
    with tempfile.TemporaryDirectory() as name:
        words = ["rt", "check", "--generated", name, "--start", function]
        subprocess.run(words, cwd=folder / "crates" / crate, stdin=subprocess.DEVNULL, stdout=subprocess.DEVNULL, stderr=subprocess.DEVNULL, check=False)
        goals = pathlib.Path(name) / ("Rattle-%s-proofs" % crate) / place / "Goals.antt"
        found = re.findall(r"^abbrev pub (\S+) :", goals.read_text(encoding="utf-8"), re.M) if goals.exists() else []
    return [name for name in found if not name.startswith("the-")]


def fitted(text, before, after):
    """A proof with the names of the changed code in place of those before."""
    led = [[name for name in names if re.match("(Then|Else)-", name)] for names in (before, after)]
    if len(led[0]) == len(led[1]):
        pairs = {old[5:]: new[5:] for old, new in zip(*led) if old != new and old[:5] == new[:5]}
        for old in sorted(pairs, key=len, reverse=True):
            text = re.sub(r"((?<=[Tt]hen-)|(?<=[Ee]lse-)|(?<=if-))%s(?![\w-])" % re.escape(old), pairs[old], text)
    if len(before) == len(after):
        for old, new in sorted(zip(before, after), key=lambda pair: -len(pair[0])):
            text = re.sub(r"(?<![\w-])%s(?![\w-])" % re.escape(old), new, text)
    return text


def fit(folder, crate, path, log, before):
    """Fits the proofs of the functions in which a change stands, and of which nothing is said but missing names; what was there is added to
    what is to be put back. Whether there was any."""
    all_changes = changes.changes_in(path)
    for change in all_changes:
        for function in sorted(changes.stands_in(change, all_changes)) if change.of_code() else ():
            place = "/".join(function.split("::")[1:])
            proofs = sorted((folder / "crates" / crate / "proofs" / place).glob("*.antt"))
            if log.refused_by_a_fact(function) or not log.said.get(function) or not proofs:
                continue
            now = named_goals(folder, crate, function, place)
            texts = {proof: proof.read_text(encoding="utf-8") for proof in proofs}
            # the goals of the code as it stands
            source = folder / "crates" / crate / change.file
            edited = source.read_text(encoding="utf-8")
            source.write_text(before[source], encoding="utf-8")
            stood = named_goals(folder, crate, function, place)
            source.write_text(edited, encoding="utf-8")
            for proof, text in texts.items():
                before.setdefault(proof, text)
                proof.write_text(fitted(text, stood, now), encoding="utf-8")
    return any("proofs" in place.relative_to(folder).parts for place in before)


def try_edits(wanted):
    """Writes the log of each edit of these crates."""
    proved.lock()
    everything = [path.name for path in (functions.ROOT / "crates").iterdir()]
    with tempfile.TemporaryDirectory() as name:
        folder = pathlib.Path(name)
        copied(folder, everything)
        for crate in wanted:
            said, holds = check(folder, crate)
            if not holds:
                sys.exit("edits: %s is not proved without an edit\n%s" % (crate, said[-3000:]))
            for path in changes.edits_of(crate):
                before = {}
                try:
                    for change in changes.changes_in(path):
                        place = folder / "crates" / crate / change.file
                        before.setdefault(place, place.read_text(encoding="utf-8"))
                        place.write_text(changes.made(change, place.read_text(encoding="utf-8")), encoding="utf-8")
                    said, _ = check(folder, crate)
                    if fit(folder, crate, path, Log(crate, said), before):
                        said, _ = check(folder, crate)
                except SystemExit as cannot:
                    said = "%s\n" % cannot
                (LOGS / crate).mkdir(parents=True, exist_ok=True)
                (LOGS / crate / (path.stem + ".log")).write_text(said, encoding="utf-8")
                for place, text in before.items():
                    place.write_text(text, encoding="utf-8")


class Log:
    """What the prover said of an edit: of each function, and at all; and which functions that it calls each waits for."""

    def __init__(self, crate, written):
        self.said, self.waits, self.at_all = {}, {}, []
        error = re.compile(r"(?:note: )?(?:\./)?proofs/(\S+)/(?:Proof|Answers|Invariants)\.antt(?::\d+:\d+)?: error: (.*)")
        for line in written.splitlines():
            found = error.match(line)
            for function in functions.proved_in(crate, found.group(1)) if found else ():
                self.said.setdefault(function, []).append(found.group(2))
            if ": error" in line or "it is not proved that" in line or "found no proof" in line:
                self.at_all.append(line.strip())
            found = re.match(r"fn (\S+): (?:not proved|no proof|could not tell)(.*)", line)
            if found:
                self.verdict(*found.groups())

    def verdict(self, function, rest):
        why, _, called = rest.partition("it calls ")
        self.waits[function] = re.findall(r"`(\w+(?:::\w+)+)`", called)
        if "`search` did not prove" in why:
            self.said.setdefault(function, []).append(why.strip(" :;"))

    def refused_by_a_fact(self, function):
        return function in self.waits and any(map(is_fact, self.said.get(function, [])))


def left_unproved(log, stands):
    """For each function the changes that leave it unproved: its own, and those of the functions that it waits for."""
    by = {function: {name} for function, name in stands.items() if log.refused_by_a_fact(function)}
    grown = True
    while grown:
        grown = False
        for function, calls in log.waits.items():
            more = set().union(*(by.get(called, set()) for called in calls)) - by.get(function, set())
            if more:
                by.setdefault(function, set()).update(more)
                grown = True
    return by


# ---- each edit


def edit_shows(path, shown, log):
    """What is amiss with each change of an edit; what it leaves unproved is added to what is shown. With no log it is read from the files
    alone."""
    stands, all_changes = {}, changes.changes_in(path)
    for change in all_changes:
        amiss = ""
        if not change.of_code():
            amiss = "" if not log or any(map(is_fact, log.at_all)) else "refused for another reason than a fact: %s" % log.at_all[:1]
        else:
            inside = changes.stands_in(change, all_changes)
            inside = inside.union(*(cycle for cycle in functions.called_by_each_other(change.crate) if cycle & inside))
            twice = sorted(inside & stands.keys())
            stands.update(dict.fromkeys(inside, change.name))
            if twice:
                amiss = "stands in %s, as %s does" % (twice[0], stands[twice[0]])
            elif log and not any(map(log.refused_by_a_fact, inside)):
                amiss = "no fact refuses it: %s" % ["%s: %s" % (function, log.said.get(function, ["proved"])[0][:200]) for function in sorted(inside)]
        yield change, amiss
    for function, names in left_unproved(log, stands).items() if log else ():
        shown.setdefault(function, set()).update(names)


def main(words):
    if not words:
        print(__doc__, file=sys.stderr)
        return 2
    tries = words[0] == "--try"
    promises = (functions.ROOT / "docs/PROMISES.md").read_text(encoding="utf-8")
    wrong, tests, shown = [], 0, {}
    crates = changes.crates_with_edits()
    if tries:
        crates = [crate for crate in crates if crate in words[1:] or not words[1:]]
        try_edits(crates)
    else:
        said = dict(refused(pathlib.Path(words[0]).read_text(encoding="utf-8", errors="replace")))
        for crate in crates:
            for path in changes.edits_of(crate):
                tests += 1
                amiss = said.get((crate, path.stem), "`rt ci` says nothing of it")
                if amiss:
                    wrong.append("%s/%s: %s" % (crate, path.stem, amiss))
    for crate in crates:
        for path in changes.edits_of(crate):
            try:
                log = Log(crate, (LOGS / crate / (path.stem + ".log")).read_text(encoding="utf-8")) if tries else None
                found = list(edit_shows(path, shown, log))
            except SystemExit as cannot:
                tests += 1
                wrong.append(str(cannot))
                continue
            for change, amiss in found:
                tests += 1
                if not amiss and not re.search(r"`%s`" % change.name, promises):
                    amiss = "docs/PROMISES.md does not name it"
                if amiss:
                    wrong.append("%s/%s, %s: %s" % (crate, path.stem, change.name, amiss))
    for crate in functions.libraries():
        for function in functions.public_functions(crate):
            tests += 1
            by = sorted(shown.get(function, ()))
            if tries and not words[1:] and crate not in functions.REPEATS and len(by) < 2:
                wrong.append("%s: refused by %d wrong answers only: %s" % (function, len(by), ", ".join(by)))
            elif not re.search(r"\b%s\b" % function.split("::")[-1], promises):
                wrong.append("%s: docs/PROMISES.md does not name it" % function)
    for line in wrong:
        print(line)
    print("%d passed, %d failed" % (tests - len(wrong), len(wrong)))
    return 1 if wrong or not tests else 0


if __name__ == "__main__":
    sys.exit(main(sys.argv[1:]))
