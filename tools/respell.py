#!/usr/bin/env python3
"""Brings the names of this repository's definitions and lemmas to the spelling of today's Rattle.

A word in which dashes join parts becomes snake case, a type or fact becomes camel case: `rows-of` becomes `rows_of`,
`All-lawful` becomes `AllLawful`. Only names that a file of specs/ or proofs/ declares itself are turned; names of goals, of the
library and of src/ stay. Run once at the top of the repository, after the kit's script.
"""

import re
import subprocess
import sys

TOKEN = re.compile(r"[^\s(){}\[\];,.«»\":→λ∙`]+")
DECLARED = re.compile(r"^\s*(?:(?:pub|abbrev|unfoldable)\s+)*([^\s():{}\[\];,]+)\s*(?:\(.*\)\s*)?:\s")
HEADED = re.compile(r"^\s*(?:pub\s+)?(?:record|data)\s+([^\s():{}]+)")


def listed(*patterns):
    return subprocess.run(["git", "ls-files", *patterns], capture_output=True, text=True, check=True).stdout.split()


OTHERS = {"refusalOf": "refusal_of", "getD-padded": "get_or_padded"}
FUNCTIONS = {name for path in listed("crates/*.rt") for name in re.findall(r"\bfn (\w+)", open(path, encoding="utf8").read())}


def respelled(name):
    parts = name.split("-")
    if name[0].isupper():
        return "".join(part[0].upper() + part[1:] for part in parts)
    return "_".join(parts)


def declared_names(files):
    own, goals = set(), set()
    for path in files:
        for line in open(path, encoding="utf8"):
            if line.lstrip().startswith("--"):
                continue
            goals.update(re.findall(r"\bgoal\.([^\s(){};,]+)", line))
            for form in (DECLARED, HEADED):
                found = form.match(line)
                if found and "-" in found.group(1) and re.match(r"[A-Za-z]", found.group(1)):
                    own.add(found.group(1))
    return own - goals


def turned(text, names):
    def new(found):
        # a step of a generated record is named by the code: only one that has a function's name is respelled
        step = re.search(r"\b[cw]\.$", text[: found.start()]) and names.get(found.group()) not in FUNCTIONS
        return found.group() if step else names.get(found.group(), found.group())

    return TOKEN.sub(new, text)


def in_backticks(text, names):
    return re.sub(r"`[^`\n]*`", lambda found: turned(found.group(), names), text)


def antt_line(line, names):
    at = re.search(r"(^|\s)--(\s|$)", line)
    code, comment = (line[: at.start()], line[at.start() :]) if at else (line, "")
    return turned(code, names) + in_backticks(comment, names)


def rattle_line(line, names):
    if line.lstrip().startswith("//"):
        return in_backticks(line, names)
    parts = re.split(r'("(?:[^"\\]|\\.)*")', line)
    return "".join(part if i % 2 else turned(part, names) for i, part in enumerate(parts))


def main():
    proofs = listed("crates/*.antt")
    names = {name: respelled(name) for name in declared_names(proofs)} | OTHERS
    forms = [(proofs, antt_line), (listed("crates/*.rt"), rattle_line), (listed("*.md"), in_backticks)]
    for files, form in forms:
        for path in files:
            text = open(path, encoding="utf8").read()
            new = "".join(form(line, names) for line in text.splitlines(keepends=True))
            if new != text:
                open(path, "w", encoding="utf8").write(new)
    for name in sorted(names):
        print(name, names[name])


sys.exit(main())
