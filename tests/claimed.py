#!/usr/bin/env python3
"""Whether every public function of the libraries has its claim (crates/claims/specs/Paper/Table) and its row (crates/claims/proofs/Table),
each once, and what the types do not hold of them:

- no public function has a `requires` (the prover refuses its row, too);
- the arguments of a claim have the names of the function's parameters, in their order;
- a row is made of that function's own modules, gives each argument the parameter of its name, and takes the lent room afterwards from
  the `&mut` parameter;
- the row is in its file's list. (That all lists are in the table, and which numbers each function refuses with, the prover holds.)

Prints what is amiss and `N passed, M failed`: a test is a public function. With a folder as its argument it reads the crates there.
"""
import pathlib
import re
import sys

sys.dont_write_bytecode = True  # or Python leaves a folder beside the one that is imported

import functions

# The calls for the tests in C are the same functions by another calling convention; the claims themselves are no code.
LEFT_OUT = functions.REPEATS | {"claims"}
CLAIMS = "crates/claims/specs/Paper/Table"
ROWS = "crates/claims/proofs/Table"


def blocks(path):
    """The paragraphs of a file. (A name with an underscore stands in « and » there.)"""
    return re.split(r"\n\n+", re.sub("[«»]", "", path.read_text(encoding="utf-8")))


# ---- the code: each public function's parameters


def parameters(text, owner):
    """The names and types of a parameter list; `self` is of the type that the function is declared for."""
    found = []
    for part in re.split(r",\s*(?![^\[]*\])", text.strip().rstrip(",")):
        name, _, kind = part.strip().partition(": ")
        if name:
            found.append((name, kind or owner))
    return found


def declared(root, crate):
    """Each public function of a crate: its parameters, and whether it asks something of its caller."""
    for path in sorted((root / "crates" / crate / "src").rglob("*.rt")):
        lines = path.read_text(encoding="utf-8").splitlines()
        owners = {number: line.split()[1] for number, line in enumerate(lines) if line.startswith("impl ")}
        for function in functions.functions_in(crate, path, root):
            if function.public:
                head = "\n".join(lines[function.first : function.last])
                owner = next((owners[number] for number in sorted(owners, reverse=True) if number < function.first), "")
                inside = re.match(r'\s*pub (?:extern "C" )?fn \w+(?:<[^(]*>)?\((.*?)\)(?: ->|\n)', head, re.S).group(1)
                asks = re.search(r"^\s*requires\b", head.split("\n{\n")[0].split("\n    {\n")[0], re.M)
                yield function.name, parameters(inside, owner), bool(asks)


# ---- the claims: each claim's function, and the names and types of its arguments


def claims(root):
    for path in sorted((root / CLAIMS).glob("*.antt")):
        records = {}
        makers = {}
        for block in blocks(path):
            record = re.search(r"^pub record (\w+)(?: \(State : Type 0\))? : Type 0 where\n((?:  pub .*\n?)+)", block, re.M)
            if record:
                records[record.group(1)] = re.findall(r"^  pub ([\w-]+) : (.*)$", record.group(2), re.M)
            maker = re.search(r"^abbrev (\w+) : .*\n", block, re.M)
            if maker and "Args = " in block:
                makers[maker.group(1)] = arguments(block, records)
            claim = re.search(r"^abbrev pub ([\w-]+) : Claim ", block, re.M)
            if claim:
                name = re.search(r'"(\w+(?:::\w+)+)"', block)
                used = next((makers[word] for word in re.findall(r"= (\w+)", block) if word in makers), None)
                yield (path.stem, claim.group(1)), name.group(1) if name else "", used or arguments(block, records)


def arguments(block, records):
    found = re.search(r"Args = (?:\(?)(\w+)", block)
    return records.get(found.group(1), []) if found else []


# ---- the rows


def imports(text):
    """What each name that a file imports stands for."""
    return {
        name or path.split(".")[-1]: path for path, name in re.findall(r"^use (Rattle\.[\w.]+?)(?: as ([\w-]+))?$", text, re.M)
    }


def rows(root):
    """Each row: its file, its name, its claim, the modules that it is made of, what it gives the arguments, and its room afterwards."""
    for path in sorted((root / ROWS).glob("*.antt")):
        text = path.read_text(encoding="utf-8")
        known = imports(text)
        listed = re.search(r"^rows =(.*?)(?=\n\n|\Z)", text, re.M | re.S)
        for block in blocks(path):
            row = re.search(r"^abbrev pub ([\w-]+) : Row$", block, re.M)
            if not row:
                continue
            body = re.sub(r"\s+", " ", block)
            claim = re.search(r"claim = λ κs\. (\w+)\.([\w-]+);", body)
            made = re.search(r"function = function_of (\S+)\.Symbol\.symbol (\S+)\.Kinds\.ps (\S+)\.Kinds\.r (\S+)\.Symbol\.code;", body)
            given = re.search(r"args = λ κs a\. (?:record \{ (.*?) \}|tt);", body)
            later = re.search(r"later = λ κs s\. (.*?);", body)
            yield {
                "place": "%s, %s" % (path.name, row.group(1)),
                "claim": (known.get(claim.group(1), "").split(".")[-1], claim.group(2)) if claim else None,
                "made": {known.get(part.split(".")[0], "") + part[len(part.split(".")[0]) :] for part in made.groups()} if made else set(),
                "args": [tuple(part.split(" = ")) for part in (given.group(1) or "").split("; ") if part] if given else None,
                "later": later.group(1) if later else None,
                "listed": bool(listed) and row.group(1) in re.findall(r"[\w-]+", listed.group(1)),
            }


# ---- what is amiss


def place(number):
    return ".1" * number + ".0"


def amiss(name, params, asks, claim, row):
    """What is wrong with a function's claim and row."""
    crate, *rest = name.split("::")
    if asks:
        yield "%s has a `requires`" % name
    if [argument for argument, _ in claim] != [parameter for parameter, _ in params]:
        yield "the claim of %s has the arguments %s" % (name, [argument for argument, _ in claim])
        return
    if row["made"] != {"Rattle.%s.proofs.%s" % (crate, ".".join(rest))}:
        yield "%s is not made of %s alone: %s" % (row["place"], name, sorted(row["made"]))
    lent = [kind.startswith("&") and argument[1] != "Bor (List ℕ)" for argument, (_, kind) in zip(claim, params)]
    given = [(parameter, "a" + place(i) + (".now" if lent[i] else "")) for i, (parameter, _) in enumerate(params)]
    if row["args"] != given:
        yield "%s gives the arguments %s" % (row["place"], row["args"])
    rooms = ["s%s.now" % place(i) for i, (_, kind) in enumerate(params) if kind.startswith("&mut")]
    if [row["later"]] != (rooms or ["[]"]):
        yield "%s takes the room afterwards from %s" % (row["place"], row["later"])
    if not row["listed"]:
        yield "%s is not in its file's list" % row["place"]


def main():
    root = pathlib.Path(sys.argv[1]) if len(sys.argv) > 1 else functions.ROOT
    libraries = [crate for crate in functions.libraries(root) if crate != "claims"]
    public = {name: (params, asks) for crate in libraries for name, params, asks in declared(root, crate)}
    claimed = list(claims(root))
    rowed = list(rows(root))
    wrong = []
    for name, (params, asks) in public.items():
        if name.split("::")[0] in LEFT_OUT:
            wrong += ["%s has a `requires`" % name] if asks else []
            continue
        own = [(key, args) for key, function, args in claimed if function == name]
        tied = [row for row in rowed if own and row["claim"] == own[0][0]]
        if len(own) != 1 or len(tied) != 1:
            wrong.append("%s has %d claims and %d rows" % (name, len(own), len(tied)))
        else:
            wrong += amiss(name, params, asks, own[0][1], tied[0])
    wrong += ["%s: %s is no public function" % (key, function) for key, function, _ in claimed if function not in public]
    wrong += ["%s has no claim" % row["place"] for row in rowed if row["claim"] not in [key for key, _, _ in claimed]]
    for line in wrong:
        print(line)
    print("%d passed, %d failed" % (max(0, len(public) - len(wrong)), len(wrong)))
    return 1 if wrong or not public else 0


if __name__ == "__main__":
    sys.exit(main())
