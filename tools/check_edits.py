#!/usr/bin/env python3
"""Tells which must-fail edits lack their reason, or cannot be applied, and where there are too many.

    tools/check_edits.py

An edit is a file of `crates/NAME/must-fail/`: one that ends in `.edit` is tried by the gate, and one that ends in `.md`
is kept beside it and tried by `tools/try_edits.py`. Its first line is `# why: WHAT A WRONG PROGRAM WOULD DO; refused
by: CLAUSE`. Then come a line `file: PATH`, and pairs of lines `old: TEXT` and `new: TEXT`, each old text once in that
file as the pairs before it left it. An edit of `specs/` or `proofs/` shows nothing of a contract. A crate has at most
8 edits, of both kinds together. The gate tries at most 100, in at most 18 crates, those of crates of one's own not
counted: each costs a check of its crate, and each crate that has any is proved once more. Each edit that a page of
docs/ names, as `CRATE/NAME`, is there.

There is a line a fault; the last line tells how many edits and faults there are, and the exit status is 0 where
there is no fault.
"""
import re
import sys

from common import IN_GATE, TOP, crates_in, edits_of, reason_of

MOST_OF_A_CRATE, MOST_IN_GATE, MOST_CRATES = 8, 100, 18


def faults_of(path):
    """What is wrong with an edit."""
    if not all(reason_of(path)):
        yield "its first line is not '# why: ..; refused by: ..'"
    told, text, old = None, "", None
    for line in path.read_text(encoding="utf-8").splitlines():
        kind, colon, rest = line.partition(":")
        rest = rest.removeprefix(" ")
        if not colon or kind not in ("file", "old", "new"):
            continue
        if kind == "file":
            told = path.parent.parent / rest.strip()
            if not rest.strip().startswith("src/"):
                yield f"it changes {rest.strip()}, which is no code"
            text = told.read_text(encoding="utf-8") if told.is_file() else ""
        elif kind == "old":
            old = rest
            if text.count(old) != 1:
                yield f"its old text stands {text.count(old)} times: {old.strip()[:60]}"
        elif old is not None:
            text, old = text.replace(old, rest, 1), None
    if told is None:
        yield "it names no file"


def faults_of_crate(edits):
    """What is wrong with the edits of a crate."""
    if len(edits) > MOST_OF_A_CRATE:
        yield f"has {len(edits)} edits, more than {MOST_OF_A_CRATE}"
    names = [path.stem for path in edits]
    yield from (f"has two edits {name}" for name in sorted({it for it in names if names.count(it) > 1}))


def faults_of_pages(edits):
    """Edits that pages name and that are not there."""
    for path in sorted(TOP.glob("docs/*.md")):
        for crate, name in re.findall(r"`(\w+)/(\w+)`", path.read_text(encoding="utf-8")):
            if crate in edits and name not in [*(it.stem for it in edits[crate]), "specs", "proofs", "src"]:
                yield f"docs/{path.name} names the edit {crate}/{name}, and there is none"


def main():
    edits = {path.name: edits_of(TOP, path.name) for path in sorted(TOP.glob("crates/*"))}
    faults = [f"{crate}/{path.stem}: {it}" for crate, paths in edits.items() for path in paths for it in faults_of(path)]
    faults += [f"{crate} {it}" for crate, paths in edits.items() for it in faults_of_crate(paths)]
    in_gate = {crate: sum(path.suffix == IN_GATE for path in edits.get(crate, [])) for crate in crates_in(TOP)}
    tried, crates = sum(in_gate.values()), sum(number > 0 for number in in_gate.values())
    if tried > MOST_IN_GATE or crates > MOST_CRATES:
        faults.append(f"the gate tries {tried} edits in {crates} crates, and not at most {MOST_IN_GATE} in {MOST_CRATES}")
    faults += faults_of_pages(edits)
    print(*faults, sep="\n", end="\n" if faults else "")
    number = sum(map(len, edits.values()))
    print(f"{number} edits, of which the gate tries {tried} in {crates} crates; {len(faults)} faults")
    return 1 if faults else 0


if __name__ == "__main__":
    sys.exit(main())
