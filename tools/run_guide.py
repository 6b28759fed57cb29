#!/usr/bin/env python3
"""Runs the guide for planners and the other documents: what they show is what the program prints.

    tools/run_guide.py [--witnesses [--runner PATH]] [PROGRAM]

PROGRAM is the built teg; where none is named it is the one that `rt ci` leaves. The commands of README.md, of
docs/GUIDE*.md, of tools/recipe_rows.md, which has what these commands make of other files, and of the other files of
docs/ are run by bash, file after file in this order, in a folder that has the program as ./teg, and as ./try too, which
answers alike, and examples/ and docs/:

- In a fenced block, a line that begins with `$ ` is a command. The lines below it, up to the next
  command or the end of the block, are what it prints.
- A fenced block of toml, sed, awk or py whose first line is `# NAME` with that ending is a file of that name for the
  commands below.
- A command that calls python3's reader of TOML is left out where this python3 has none (before version 3.11).

Each file of examples/ is named by a command of the guide, a script of examples/tables by what runs it; and each command
that takes a net alone, by the usage, answers for each net there: with status 0, or, where the net is refused, as `check`
does.

With --witnesses each answer of `check`, `list`, `cycle`, `dates`, `slack`, `size`, `bound`, `jit`, `forever` and `timetable` that a
command of the guide asks for is handed to the program witness_runner that `rt ci` leaves, which has to tell it as shown, and then with
one number of it made greater by one, or of a circuit that stands without numbers or keeps delays with the last place left
out, which has to be told as not shown or refuted. PATH is another checker, as pace_runner: answers that it does not read are passed
over and counted.

A difference is told. The last line is 'N passed, M failed', and the exit status 0 where some passed and none failed.
"""
import argparse
import importlib.util
import os
import re
import sys
import tempfile

from built_program import BUILT, WITNESS, is_there, run, summed_up
from common import TOP, Status


# What asks for an answer that a checker reads, and how such answers begin.
ASKS = re.compile(r"\./(?:teg|try) (?:check|list|cycle|dates|slack|size|bound|jit|forever|timetable)(?: [\w./]+)+(?: --rounds)?")
TABLE = "latest inputs for "
FOREVER = "latest inputs forever\n"
SETTLED = "settled after "
LISTED = "dates of "
NO_CIRCUIT = "no circuit\n"
SLACK = "\nplace "
BOUND = "bound "
NO_CHECKER = 4
KEPT = re.compile(r"settled after .*\nkept\n")
CLAIMS = ("live\n", "refused: token-free circuit ", "cycle time ", NO_CIRCUIT, "size ", BOUND, "no bound: ", "late ", SETTLED, LISTED, TABLE, FOREVER)


def blocks_of(text):
    """The fenced blocks of a Markdown text: the line at which each begins, its language and its lines."""
    begun = None
    for number, line in enumerate(text.splitlines(), 1):
        if line.startswith("```"):
            if begun:
                yield begun
                begun = None
            else:
                begun = number + 1, line[3:].strip(), []
        elif begun:
            begun[2].append(line)


def commands_of(block):
    """The commands of a block: the line of each, what it is, and what it prints."""
    found = []
    for number, line in enumerate(block[2], block[0]):
        if line.startswith("$ "):
            found.append((number, line[2:], []))
        elif found:
            found[-1][2].append(line + "\n")
    return [(number, command, "".join(lines)) for number, command, lines in found]


def indented(text):
    return "".join(f"    {line}\n" for line in text.splitlines()) or "    (nothing)\n"


def raised(line):
    """The line with its last number made greater by one, and with the number before a step and the date before a period and a step."""
    for number in (r"(.* )(\d+)", r"(.* )(\d+)(?= step )", r"(.* )(\d+)(?= period \d+ step )"):
        if re.match(number, line):
            yield re.sub(number, lambda found: f"{found[1]}{int(found[2]) + 1}", line, count=1)


def changed(text):
    """The answer with a number made greater by one, the last of a line: of the table of latest dates in each line that tells
    a date, of settled dates, releases without end, delays that die out, lists, slacks and bounds in each line, and else in the
    first line that has one. The circuit of delays that are kept, and one that stands alone, loses its last place; that there is
    no circuit is told twice."""
    lines = text.splitlines(keepends=True)
    numbered = [at for at, line in enumerate(lines) if re.search(r" \d+\b", line)]
    if KEPT.match(text):
        yield re.sub(r"^(circuit.*) \S+$", r"\1", text, count=1, flags=re.M)
        return
    if text == NO_CIRCUIT:
        yield text + text
        return
    if text.startswith(TABLE):
        numbered = [at for at in numbered[1:] if not lines[at].endswith(" free\n")]
    elif not numbered:
        yield re.sub(r" \S+\n", "\n", text, count=1)
    elif not text.startswith((SETTLED, LISTED, BOUND, FOREVER)) and SLACK not in text:
        numbered = numbered[:1]
    for at in numbered:
        for other in raised(lines[at]):
            yield "".join([*lines[:at], other, *lines[at + 1 :]])


class Checker:
    """A checker of answers: the program, whether it has to read all, whether it told each answer as it should, and how many
    it did not read."""

    def __init__(self, program):
        self.program = os.path.abspath(program)
        self.reads_all = os.path.basename(program) == os.path.basename(WITNESS)
        self.told = []
        self.passed_over = 0


def odd_witnesses(command, folder, checker):
    """Of each answer that the command asks for: its words, and how often the checker tells otherwise than it should. What it
    need not read is counted."""
    for asked in ASKS.findall(command):
        words = asked.split()
        text = run(words, folder)[1]
        if not text.startswith(CLAIMS):
            continue
        further = {"jit": words[3:], "forever": words[3:], "timetable": words[3:5]}
        files = [words[2], "answer.txt", *further.get(words[1], [])]
        odd = 0
        for other, is_shown in [(text, True), *((it, False) for it in changed(text))]:
            with open(f"{folder}/answer.txt", "w", encoding="utf-8") as file:
                file.write(other)
            status, told = run([checker.program, *files], folder)
            if status == NO_CHECKER and not checker.reads_all:
                checker.passed_over += 1
                break
            odd += not told.startswith({0: "shown ", 1: "refuted ", 3: "not shown "}.get(status, "?")) or is_shown != (status == 0)
        else:
            yield asked, odd


def run_blocks(name, text, folder, checker=None):
    """Runs the commands of a document, and tells for each whether it prints what the document shows. Where a
    checker is given, it is told there whether each answer is shown."""
    for block in blocks_of(text):
        named = re.fullmatch(r"# (\w+)\.(toml|sed|awk|py)", block[2][0]) if block[2] else None
        if named and named[2] == block[1]:
            with open(f"{folder}/{named[1]}.{named[2]}", "w", encoding="utf-8") as file:
                file.write("".join(f"{line}\n" for line in block[2]))
        for number, command, wanted in commands_of(block):
            if "tomllib" in command and not importlib.util.find_spec("tomllib"):
                continue
            printed = run(["bash", "-c", command], folder)[1]
            well = printed == wanted
            if not well:
                print(f"{name}:{number}: {command}\n  it shows\n{indented(wanted)}  it prints\n{indented(printed)}", end="")
            if checker is not None:
                for asked, odd in odd_witnesses(command, folder, checker):
                    checker.told.append(not odd)
                    if odd:
                        print(f"{name}:{number}: {asked}: {odd} texts are told otherwise than they should be")
            yield well


def odd_commands(commands, net, folder):
    """The commands that end otherwise than they should on a net of examples/, each told."""
    first = run(["./teg", "check", f"examples/{net}"], folder)
    others = {command: run(["./teg", command, f"examples/{net}"], folder) for command in commands}
    odd = [command for command, said in others.items() if said != first and (said[0], first[0]) != (Status.DONE, Status.DONE)]
    for command in odd:
        print(f"examples/{net}: {command} ends with {others[command][0]}, and check with {first[0]}")
    return odd


def files_below(folder):
    """The files of a folder and of those below it, each by its path from there, but for what python3 keeps of modules."""
    for path, folders, names in os.walk(folder):
        folders[:] = [name for name in folders if name != "__pycache__"]
        yield from (os.path.relpath(os.path.join(path, name), folder) for name in names)


def named_as(name):
    """How a command names a file of examples/: a script of examples/tables by what runs it, and a module by its folder."""
    name = re.sub(r"^(tables/run) common$", r"\1", re.sub(r"^tables/(\w+)\.awk$", r"tables/run \1", name))
    return "examples/" + re.sub(r"^python/\w+\.py$", "python", name)


def run_nets(guides, folder):
    """Runs the commands that take a net alone on each net of examples/."""
    usage = run(["./teg"], folder)[1]
    of_net = re.findall(r"^(?:usage:| {6}) teg (\w+) NET(?: \[.*)?$", usage, re.M)
    shown = "\n".join(command for guide in guides for block in blocks_of(guide) for _, command, _ in commands_of(block))
    for name in sorted(files_below(f"{folder}/examples")):
        odd = odd_commands(of_net, name, folder) if name.endswith(".toml") else []
        if named_as(name) not in shown:
            print(f"examples/{name}: no command of the guide names it")
        yield not odd and named_as(name) in shown


def documents():
    """The documents by name, in the order in which their commands are run."""
    guide = sorted(TOP.glob("docs/GUIDE*.md"))
    others = sorted(path for path in TOP.glob("docs/*.md") if path not in guide)
    paths = [TOP / "README.md", *guide, TOP / "tools/recipe_rows.md", *others]
    return {str(path.relative_to(TOP)): path.read_text(encoding="utf-8") for path in paths}


def furnish(folder, program):
    """Puts into the folder what the commands of the documents find there: the program, the nets and the pages."""
    for name in ("teg", "try"):
        os.symlink(os.path.abspath(program), f"{folder}/{name}")
    for name in ("examples", "docs"):
        os.symlink(f"{TOP}/{name}", f"{folder}/{name}")


def main(program, checker):
    if not is_there(program) or checker is not None and not is_there(checker.program):
        return summed_up(0, 1)
    texts = documents()
    guides = {name: text for name, text in texts.items() if name.startswith("docs/GUIDE")}
    with tempfile.TemporaryDirectory(prefix="teg-guide-") as folder:
        furnish(folder, program)
        seen = {name: checker if name in guides else None for name in texts}
        shown = [well for name, text in texts.items() for well in run_blocks(name, text, folder, seen[name])]
        nets = list(run_nets(guides.values(), folder))
    witnesses = checker.told if checker is not None else []
    told = [*shown, *nets, *witnesses]
    print(f"documents: {len(shown)} commands, and {len(nets)} files of examples/")
    if checker is not None:
        passed_over = f", and {checker.passed_over} passed over" if checker.passed_over else ""
        print(f"witnesses: {len(witnesses)} answers, each as it is and with a number changed{passed_over}")
    return summed_up(told.count(True) if shown and nets and (checker is None or witnesses) else 0, told.count(False))


if __name__ == "__main__":
    words = argparse.ArgumentParser(usage=__doc__)
    words.add_argument("--witnesses", action="store_true")
    words.add_argument("--runner", default=WITNESS)
    words.add_argument("program", nargs="?", default=BUILT)
    asked = words.parse_args()
    sys.exit(main(asked.program, Checker(asked.runner) if asked.witnesses else None))
