#!/usr/bin/env python3
"""Runs the rows of tools/rows: calls of the program, each with its files, its exit status and what it prints.

    tools/run_rows.py [--teg PROGRAM] [FILE..]

PROGRAM is the built teg; where none is named it is the one that `rt ci` leaves. FILE is a file of rows; where none
is named it is each of tools/rows/*.rows. Of a file of rows

    row NAME        begins a row;
    file NAME       gives the runs below, up to the end of the row, a file with the text that follows;
    run WORDS       is a call of the program with these words, quoted as for a shell;
    status N        is how the runs just above end, and the text that follows is what each of them prints;
    keep NAME       gives the runs below, up to the end of the row, a file with the text just above;
    | TEXT          is a line of a text, and `|- TEXT` one without a line end;
    N| TEXT         are N such lines, in which {i} is 0 in the first, 1 in the second and so on, {i+1} one more, and {i:8}
                    has zeros before it up to 8 digits;
    # REMARK        is for the reader, as an empty line is.

In words and texts `{N times PIECE}` is the piece N times and `{byte 0d}` the byte of this hexadecimal number. In what
is printed `...` stands for any text. Each run has a new folder, with the files that its words name; the nets of
tools/rows/nets stand there for all rows.

A line is told for each run that ends or prints otherwise. The last line is 'N passed, M failed', and the exit status
0 where some passed and none failed.
"""
import argparse
import re
import shlex
import sys
import tempfile
from concurrent.futures import ThreadPoolExecutor
from dataclasses import dataclass
from itertools import zip_longest
from pathlib import Path

from built_program import BUILT, TOP, is_there, run, summed_up

ROWS = Path(TOP, "tools", "rows")


@dataclass
class Run:
    """A call of the program: where its row stands, the files and words that it is given, how it ends and what it
    prints. Texts are lists of pieces of bytes."""
    where: str
    files: dict
    words: list
    status: int
    printed: list


def written_out(text):
    """The bytes of a text, with what stands in braces for long pieces and odd bytes written out."""
    text = re.sub(r"\{(\d+) times (.+?)\}", lambda found: int(found[1]) * found[2], text)
    parts = re.split(r"\{byte ([0-9a-f]{2})\}", text)
    return b"".join(bytes.fromhex(part) if odd % 2 else part.encode() for odd, part in enumerate(parts))


def lines_of(mark, text):
    """The bytes of the line, or the lines, with this mark and text."""
    end = "" if mark.endswith("-") else "\n"
    count = int(mark.split("|")[0] or 1)
    if "{i" not in text:
        return count * written_out(text + end)
    numbered = (text.replace("{i}", str(i)).replace("{i+1}", str(i + 1)) for i in range(count))
    padded = (re.sub(r"\{i:(\d+)\}", lambda found: str(i).zfill(int(found[1])), line) for i, line in enumerate(numbered))
    return b"".join(written_out(line + end) for line in padded)


def runs_of(path, nets):
    """The runs of a file of rows, in order, each with these nets beside its own files."""
    row, files, asked, text = None, {}, [], None
    for number, line in enumerate(path.read_text(encoding="utf-8").split("\n"), 1):
        where = f"{path.name}:{number}"
        mark, _, rest = line.partition(" ")
        if re.fullmatch(r"\d*\||\|-", mark) and text is not None:
            text.append(lines_of(mark, rest))
        elif mark == "row" and not asked:
            row, files, text = rest, nets, None
        elif mark == "file" and row and not asked:
            text = []
            files = {**files, rest: text}
        elif mark == "keep" and text is not None:
            files = {**files, rest: text}
        elif mark == "run" and row:
            asked.append((f"{where}: {row}", files, [written_out(word) for word in shlex.split(rest)]))
        elif mark == "status" and asked:
            text = []
            yield from (Run(*one, int(rest), text) for one in asked)
            asked = []
        elif line and mark != "#":
            sys.exit(f"{where}: this has no place here: {line}")
    if asked:
        sys.exit(f"{path.name}: the last run has no status")


def is_as_wanted(wanted, printed):
    """Whether this is printed, where `...` in what is wanted stands for any text."""
    pattern = re.escape(wanted).replace(re.escape("..."), ".*")
    return wanted == printed or "..." in wanted and re.fullmatch(pattern, printed, re.S) is not None


def first_apart(wanted, printed):
    """The first line of what is printed that is not as wanted, told in one line."""
    for number, (line, due) in enumerate(zip_longest(printed.split("\n"), wanted.split("\n"), fillvalue=""), 1):
        if not is_as_wanted(due, line):
            return f"line {number} is {line[:200]!r}, not {due[:200]!r}"
    return f"what is printed is not {wanted[:200]!r}"


def difference(asked, program):
    """How the run ends or prints otherwise than its row says, or None."""
    with tempfile.TemporaryDirectory(prefix="teg-rows-") as folder:
        for name, text in asked.files.items():
            if name.encode() in asked.words:
                Path(folder, name).write_bytes(b"".join(text))
        status, printed = run([program, *asked.words], folder)
    wanted = b"".join(asked.printed).decode(errors="replace")
    if status != asked.status:
        return f"{asked.where}: status {status}, not {asked.status}: {printed[:200]!r}"
    if not is_as_wanted(wanted, printed):
        return f"{asked.where}: {first_apart(wanted, printed)}"
    return None


def main():
    words = argparse.ArgumentParser(description="Runs the rows of tools/rows against the built program.")
    words.add_argument("--teg", default=BUILT, metavar="PROGRAM", help="the program; by default the one `rt ci` leaves")
    words.add_argument("rows", nargs="*", type=Path, metavar="FILE", help="files of rows; by default all")
    given = words.parse_args()
    if not is_there(given.teg):
        return summed_up(0, 1)
    nets = {net.name: [net.read_bytes()] for net in ROWS.glob("nets/*.toml")}
    runs = [asked for path in given.rows or sorted(ROWS.glob("*.rows")) for asked in runs_of(path, nets)]
    program = str(Path(given.teg).resolve())
    with ThreadPoolExecutor(max_workers=4) as pool:
        told = list(pool.map(lambda asked: difference(asked, program), runs))
    for line in filter(None, told):
        print(line)
    return summed_up(told.count(None), len(told) - told.count(None))


if __name__ == "__main__":
    sys.exit(main())
