"""What the tools share: the top of the repository, its crates and their edits, the exit statuses of the program, and small
nets to try it with."""
import re
from enum import IntEnum
from pathlib import Path

TOP = Path(__file__).resolve().parent.parent
# The line of crates.txt behind which crates of one's own stand, which the pages do not tell.
OWN = "# Crates of one's own"
# How the files of must-fail/ end: edits that the gate tries, and kept ones, which it passes over (tools/try_edits.py).
IN_GATE, KEPT = ".edit", ".md"
# The first line of an edit.
REASON = re.compile(r"(?:# )?why: (\S.*?); refused by: (\S.*?)\.?")


class Block:
    """A block of crates.txt: its title, what it says behind that, and its crates, each with those of its line."""

    def __init__(self, comment):
        self.title, _, self.says = comment.partition(": ")
        self.crates = {}


def lines_in(text):
    """The crates of these lines, each with those that it stands on."""
    told = (line.partition(":") for line in text.splitlines() if line.strip() and not line.startswith("#"))
    return {crate.strip(): others.split() for crate, _, others in told}


def own_in(top):
    """The crates of one's own, each with those that it stands on."""
    return lines_in((top / "crates.txt").read_text().partition(OWN)[2].partition("\n")[2])


def blocks_in(top):
    """The blocks of crates.txt, in its order, but for crates of one's own. A block begins with the comment above its first
    crate; a comment with an empty line behind it is none."""
    blocks, comment = [Block("")], []
    for line in (top / "crates.txt").read_text().partition(OWN)[0].splitlines():
        if line.startswith("#"):
            comment.append(line.lstrip("# "))
        elif not line.strip():
            comment = []
        else:
            if comment:
                blocks.append(Block(" ".join(comment)))
            blocks[-1].crates.update(lines_in(line))
            comment = []
    return [it for it in blocks if it.crates]


def crates_in(top):
    """The crates of crates.txt, in its order, but for those of one's own."""
    return [crate for block in blocks_in(top) for crate in block.crates]


def edits_of(top, crate):
    """The files of a crate's edits, those of the gate and the kept ones, by name."""
    return sorted(path for path in (top / f"crates/{crate}/must-fail").glob("*") if path.suffix in (IN_GATE, KEPT))


def reason_of(edit):
    """What a wrong program would do, and which clause refuses it, by the first line of an edit; two empty texts where it has
    another one."""
    said = REASON.fullmatch(edit.read_text(encoding="utf-8").partition("\n")[0])
    return (said[1], said[2]) if said else ("", "")


class Status(IntEnum):
    """How a call of the program ends, as `Status::code` of `teg_files` has it (tools/test_pages.py compares the two)."""

    DONE = 0
    WORDS = 2
    TEXT = 3
    NET = 4
    SCHEDULE = 5
    LATE = 6
    TOO_LONG = 7
    LOG = 8
    CALC = 9
    NAME = 10
    READ_FAULT = 64
    WRITE_FAULT = 65
    NO_MEMORY = 70


def net(name):
    """The text of a net of tools/rows/nets: `loop` (two transitions), `driven` (an input, a machine and an output),
    `kanban` (three machines with cards) and others, each with a comment that says what it is."""
    return (TOP / f"tools/rows/nets/{name}.toml").read_text(encoding="utf-8")
