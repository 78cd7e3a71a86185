#!/usr/bin/env python3
"""Lists the clauses of every public function, and of the functions of public traits: crate, function, clause.

    tools/clauses.py            the list, and the count
    tools/clauses.py --count    the count alone

It ends with an error where a clause has no name, and where docs/PROOFS.md lacks one or tells one that is not there. Public functions that
have no clause at all are named.
"""
import glob
import os
import re
import sys

TOP = os.path.dirname(os.path.dirname(os.path.abspath(__file__)))
OWNER = re.compile(r"(?:pub )?(?:unsafe )?(impl|trait)\b(?:<[^>]*>)? ?(.*?) ?\{$")
FUNCTION = re.compile(r"\s*(pub )?(?:const )?(?:extern \"C\" )?fn (\w+)")
HIDDEN = re.compile(r"\s*pub\([a-z]+\) ")
CLAUSE = re.compile(r"\s*ensures (?:(\w+) )?\{")
CRATE = re.compile(r"### `(\w+)`")
ROW = re.compile(r"\| (?:`([\w:]+)` )?\| `(\w+)` \|")


def owner_of(line):
    """The type or trait that an `impl` or `trait` speaks of, and whether its functions are public by themselves."""
    kind, rest = OWNER.match(line).groups()
    name = re.split(r"[<: ]", rest.split(" for ")[-1].strip())[0]
    return name, kind == "trait" and line.startswith("pub")


def functions():
    """Each public function with its clauses' names, None where a clause has none."""
    for path in sorted(glob.glob(f"{TOP}/crates/*/src/**/*.rt", recursive=True)):
        crate = path.split("/crates/")[1].split("/")[0]
        owner, by_trait, clauses = "", False, None
        for line in open(path, encoding="utf8"):
            line = line.rstrip("\n")
            if OWNER.match(line):
                owner, by_trait = owner_of(line)
            if line == "}":
                owner, by_trait = "", False
            found = FUNCTION.match(line)
            if found or HIDDEN.match(line):
                clauses = None
            if found and (found.group(1) or by_trait) and not HIDDEN.match(line):
                clauses = []
                yield crate, f"{owner}::{found.group(2)}" if owner else found.group(2), clauses
            clause = CLAUSE.match(line)
            if clause and clauses is not None:
                clauses.append(clause.group(1))


def told():
    """The clauses that docs/PROOFS.md tells, by crate and function."""
    crate = name = ""
    for line in open(f"{TOP}/docs/PROOFS.md", encoding="utf8"):
        heading, row = CRATE.match(line), ROW.match(line)
        if heading:
            crate = heading.group(1)
        if row:
            name = row.group(1) or name
            yield crate, name, row.group(2)


def main():
    found = list(functions())
    clauses = [(crate, name, clause) for crate, name, names in found for clause in names]
    bare = [(crate, name) for crate, name, names in found if not names]
    unnamed = [c for c in clauses if c[2] is None]
    written = list(told())
    missing = [c for c in clauses if c not in written]
    stale = [c for c in written if c not in clauses]
    if "--count" not in sys.argv:
        for crate, name, clause in clauses:
            print(crate, name, clause or "(no name)")
    for crate, name in bare:
        print("no clause:", crate, name)
    for crate, name, clause in missing:
        print("not in docs/PROOFS.md:", crate, name, clause or "(no name)")
    for crate, name, clause in stale:
        print("in docs/PROOFS.md alone:", crate, name, clause)
    print(f"{len(clauses)} clauses of {len(found) - len(bare)} public functions, {len(unnamed)} without a name")
    sys.exit(1 if unnamed or missing or stale else 0)


main()
