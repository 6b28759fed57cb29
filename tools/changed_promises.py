#!/usr/bin/env python3
"""Tells what callers were promised in one revision and are promised otherwise, or no longer, in another.

    tools/changed_promises.py OLD [NEW] [--diff]

Compared are the text of each public call of crates/*/src, its signature with its clauses, and that of each definition of
crates/*/specs, without comments and layout. NEW is the tree as it stands where it is left out. A call is known by its
crate, its type where it is one on a value, and its name; a definition by its crate and its name. What stands elsewhere
with the same text, once at least, is told as moved. With --diff both texts of what changed are shown.

A definition that reads otherwise may say less, the same or more: that is for a reader to see. The last line tells how
many there are of each kind; the exit status is 0.
"""
import io
import re
import subprocess
import sys
import tarfile
import tempfile
from pathlib import Path

from common import TOP

BLOCK = re.compile(r"^(?:pub )?(?:impl|trait)\b(?:<[^{]*?>)? ?(?:\w+(?:<[^{]*?>)? for )?(\w+)")
CALL = re.compile(r"^( *)pub (?:const |unsafe )*fn (\w+)")
DEFINED = re.compile(r"^ *(?:pub )?(?:abbrev|unfoldable|record|data) (?:pub )?([^\W\d][\w'\-]*)")
OF_BLOCK = re.compile(r"^  pub ([^\W\d][\w'\-]*) :")


def plain(lines):
    """These lines as one text, without comments and layout."""
    return re.sub(r"\s+", " ", " ".join(re.sub(r"(^|\s)(//|--).*", "", line) for line in lines)).strip()


def calls_of(text):
    """The public calls of a source file: the type and name of each, and its signature with its clauses."""
    kind, lines = "", text.splitlines()
    for at, line in enumerate(lines):
        opened, call = BLOCK.match(line), CALL.match(line)
        kind = opened[1] + "::" if opened else "" if line == "}" else kind
        if call:
            ends = (it for it in range(at, len(lines)) if lines[it] == call[1] + "{" or lines[it].endswith((" {", ";")))
            last = next(ends, at)
            yield kind + call[2], plain(lines[at : last + 1]).removesuffix("{").strip()


def definitions_of(text):
    """The definitions of a file of specs/: the name of each, and its text up to the next one."""
    found, name = {}, None
    for line in text.splitlines():
        if re.match(r"(abbrev |unfoldable )?mutual$", line) or line.startswith("use "):
            name = None
            continue
        defined = DEFINED.match(line) or OF_BLOCK.match(line) if not line.startswith("  pub ") or name is None else None
        if defined:
            name = defined[1]
        if name is not None:
            found.setdefault(name, []).append(line)
    return {it: plain(lines) for it, lines in found.items()}


def promised_in(top):
    """All calls and definitions of a tree, by kind, crate and name, with their texts."""
    found = {}
    for path in sorted(top.glob("crates/*/src/**/*.rt")):
        crate = path.relative_to(top).parts[1]
        found.update({("call", f"{crate}::{name}"): text for name, text in calls_of(path.read_text(encoding="utf-8"))})
    for path in sorted(top.glob("crates/*/specs/**/*.antt")):
        crate = path.relative_to(top).parts[1]
        found.update({("definition", f"{crate}.{name}"): text for name, text in definitions_of(path.read_text(encoding="utf-8")).items()})
    return found


def promised_at(revision):
    """All calls and definitions of a revision."""
    packed = subprocess.run(["git", "archive", revision, "crates"], cwd=TOP, capture_output=True, check=True).stdout
    with tempfile.TemporaryDirectory() as folder, tarfile.open(fileobj=io.BytesIO(packed)) as files:
        files.extractall(folder, filter="data")
        return promised_in(Path(folder))


def compared(old, new):
    """What became of each promise of the old tree that the new one has not word for word: its kind, name and fate."""
    elsewhere = {}
    for (kind, name), text in new.items():
        elsewhere.setdefault((kind, re.split(r"::|\.", name, maxsplit=1)[1], text), name)
    for (kind, name), text in sorted(old.items()):
        if new.get((kind, name)) == text:
            continue
        moved = elsewhere.get((kind, re.split(r"::|\.", name, maxsplit=1)[1], text))
        yield kind, name, f"moved to {moved}" if moved else "changed" if (kind, name) in new else "gone"


def main(words):
    revisions = [it for it in words if not it.startswith("--")]
    if not 1 <= len(revisions) <= 2 or set(words) - set(revisions) - {"--diff"}:
        sys.exit(__doc__)
    old = promised_at(revisions[0])
    new = promised_at(revisions[1]) if len(revisions) == 2 else promised_in(TOP)
    counts = {}
    for kind, name, fate in compared(old, new):
        counts[kind, fate.split()[0]] = counts.get((kind, fate.split()[0]), 0) + 1
        print(f"{kind} {name}: {fate}")
        if "--diff" in words and fate == "changed":
            print(f"  old: {old[kind, name]}\n  new: {new[kind, name]}")
    told = [f"{count} {kind}s {fate}" for (kind, fate), count in sorted(counts.items())]
    print(f"{len(old)} promises before, {len(new)} now, {len(new.keys() - old.keys())} new; " + (", ".join(told) or "no other is changed"))


if __name__ == "__main__":
    main(sys.argv[1:])
