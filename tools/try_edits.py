#!/usr/bin/env python3
"""Tries the must-fail edits that the gate passes over, and tells in which function each was refused.

    tools/try_edits.py [--all | --gate] [--checked] [CRATE ..]

It tries the kept edits of these crates, or of all that have any: with --all those of the gate too, with --gate these
alone. The crates are copied into a temporary folder, where each of these edits is named as one of the gate and no other
stands, and `rt ci CRATE ..` is called there. A kit whose `rt ci` takes names has it take what an earlier `rt ci` passed
on this machine: after the whole test each crate with two edits or more is proved once more, and each edit costs a check
of its crate; of what was tried before, and of which nothing changed, the result is taken. With --checked it calls
`rt must-fail CRATE ..`, which takes what `rt check` kept of these crates and of those below them: for crates that are
being worked on. Where `rt ci` takes no names, as in rattle-kit-13b, it calls `rt must-fail CRATE ..` in both cases: that
first proves the libraries below, but for those that `rt check` built in this clone from the same sources, which are
handed on; the first edit of a crate then costs a proof of it, and each further one a check.

There is a line an edit. Where it was refused in another function than its first line names, that is told and is no
fault, since the prover often stops before the clause. Faults are edits that are NOT REFUSED, BAD EDITs, which do not
compile or cannot be read, and those that were NOT TRIED. What else rt says goes to standard error. The last line tells
how many edits and faults there are, and the exit status is 0 where there is no fault.
"""
import os
import re
import shutil
import subprocess
import sys
import tempfile
from pathlib import Path

from common import IN_GATE, KEPT, TOP, crates_in, edits_of, reason_of

KINDS = {"--all": (IN_GATE, KEPT), "--gate": (IN_GATE,)}
TRIED = re.compile(r"rt: must-fail (\w+)/([\w.-]+)\.edit: (.*)")
REFUSED = re.compile(r"refused, as it must be(?: \((only [^)]*)\))?(?:: (.*))?", re.S)
OWN_WORDS = re.compile(r"rt:|\d+ passed")
PLACE = re.compile(r"(?:note: )?(?:\./)?((?:src|proofs)/\S+?):(\d+):\d+:")
FUNCTION = re.compile(r"\s*(?:pub(?:\(\w+\))? )?(?:const |unsafe )*fn (\w+)")


def linked(path, to):
    """Hands a file on under another name, without its bytes where the two folders stand together."""
    try:
        os.link(path, to)
    except OSError:
        shutil.copy2(path, to)


def copied(chosen, to):
    """Copies the crates to the folder, with these edits alone, named as those of the gate, and hands on the libraries that
    `rt check` built (it leaves a stamp beside them, and rt takes none whose sources are others)."""
    for name in ("crates.txt", "HANDLES"):
        shutil.copyfile(TOP / name, to / name)
    shutil.copytree(TOP / "crates", to / "crates", ignore=shutil.ignore_patterns("out", "must-fail"))
    for crate, paths in chosen.items():
        (to / f"crates/{crate}/must-fail").mkdir()
        for path in paths:
            shutil.copyfile(path, to / f"crates/{crate}/must-fail/{path.stem}{IN_GATE}")
    for stamp in TOP.glob("crates/*/out/rlib/stamp"):
        shutil.copytree(stamp.parent, to / stamp.parent.relative_to(TOP), copy_function=linked)


def told_by(command, folder):
    """What rt says of each edit, by crate and name, or None where it has no word of its own, as where it does not know the
    command; its other lines go to standard error as they come."""
    found, last, speaks = {}, None, False
    with subprocess.Popen(command, cwd=folder, stdout=subprocess.PIPE, stderr=subprocess.STDOUT, errors="replace") as ran:
        for line in ran.stdout:
            edit = TRIED.match(line)
            if edit:
                last, speaks = (edit[1], edit[2]), True
                found[last] = [edit[3]]
            elif OWN_WORDS.match(line):
                last, speaks = None, True
                print(line, end="", file=sys.stderr, flush=True)
            elif last:
                # (a try that did not come so far has further lines)
                found[last].append(line.rstrip())
    return {at: "\n  ".join(lines) for at, lines in found.items()} if speaks else None


def tried(chosen, folder, is_checked):
    """What rt says of each of these edits, which stand in the folder."""
    said = None if is_checked else told_by(["rt", "ci", *chosen], folder)
    return told_by(["rt", "must-fail", *chosen], folder) or {} if said is None else said


def function_at(crate, said):
    """The function at the place that the prover names first, and this place; None and an empty text where it names none."""
    place = PLACE.match(said or "")
    if not place:
        return None, ""
    path, line = place[1], int(place[2])
    if path.startswith("proofs/"):
        # (the folder of a function's proof has its name)
        return Path(path).parent.name, path
    lines = (TOP / f"crates/{crate}" / path).read_text(encoding="utf-8").splitlines()[:line]
    names = [found[1] for found in map(FUNCTION.match, lines) if found]
    return (names[-1] if names else None), f"{path}:{line}"


def verdict(crate, edit, text):
    """What is told of an edit, and whether it is a fault."""
    refused = REFUSED.fullmatch(text)
    if not refused:
        return text or "NOT TRIED: rt says nothing of it", True
    function, place = function_at(crate, refused[2])
    clause = reason_of(edit)[1]
    named = {path.split()[0].split("::")[-1] for path in re.findall(r"`([^`]+)`", clause) or [clause]}
    words = f"refused in {function}, {place}" if function else "refused"
    words += f" ({refused[1]})" if refused[1] else ""
    return words if function in named else f"{words}; its first line says {clause}", False


def tell(chosen, said):
    """Prints a line an edit, and how many there are; returns the number of faults."""
    faults, elsewhere = 0, 0
    for crate, paths in chosen.items():
        for path in paths:
            words, is_fault = verdict(crate, path, said.get((crate, path.stem), ""))
            print(f"{crate}/{path.stem}: {words}")
            faults += is_fault
            elsewhere += "; its first line says" in words
    number = sum(map(len, chosen.values()))
    print(f"{number} edits in {len(chosen)} crates, {elsewhere} of them refused elsewhere than told; {faults} faults")
    return faults


def main(words):
    options, names = [it for it in words if it.startswith("-")], [it for it in words if not it.startswith("-")]
    kinds = [KINDS[it] for it in options if it in KINDS] or [(KEPT,)]
    lacking = [it for it in names if not (TOP / f"crates/{it}").is_dir()]
    if lacking or len(kinds) > 1 or not set(options) <= {*KINDS, "--checked"}:
        print(f"there is no crate {lacking[0]}" if lacking else __doc__, file=sys.stderr)
        return 2
    edits = {crate: [path for path in edits_of(TOP, crate) if path.suffix in kinds[0]] for crate in names or crates_in(TOP)}
    chosen = {crate: paths for crate, paths in edits.items() if paths}
    if not chosen:
        print("0 edits")
        return 0
    with tempfile.TemporaryDirectory(prefix="teg-edits-") as room:
        copied(chosen, Path(room))
        said = tried(chosen, room, "--checked" in options)
    return 1 if tell(chosen, said) else 0


if __name__ == "__main__":
    sys.exit(main(sys.argv[1:]))
