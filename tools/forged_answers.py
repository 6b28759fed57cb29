#!/usr/bin/env python3
"""Forges printed answers of `teg`, and counts what the checker of answers takes for shown.

    tools/forged_answers.py [--teg PATH] [--runner PATH]

PATH is the built program, or that of the checker, as pace_runner; where none is named it is the one that `rt ci` leaves. Sixteen nets, those of
examples/, drawn ones and one without a circuit, are asked some hundred and eighty questions of the commands that the checker
reads. Of each answer a number, a name, a word or a line is changed, left out, doubled or moved, one at a time, and each text is
handed to the checker.

A text that it shows has to be true by `teg` itself: it is what the program prints for what the text itself asks (so many firings
of a list, a place and a target of a size), or differs from that in a witness alone (a circuit, the path of a late firing, the
step of a latest date), of which several are right and which the checker looks at. Any other is false, and told with its first
line that the program does not print.

For each command it tells how many texts were tried, how many were shown, and how many of these are what the program prints,
have another witness, and are false. The last line is 'N passed, M failed', where a text fails that is shown and false, or an
answer of `teg` that is not shown. What the checker does not read is passed over. The exit status is 0 where none failed.
"""
import argparse
import itertools
import os
import re
import sys
import tempfile

from built_program import BUILT, TOP, WITNESS, is_there, run, summed_up

EXAMPLES = ("job_shop", "kanban", "loop", "no_cards", "production_line", "railway", "single_track", "workshop")
DRAWN = [(4, 7, 1), (4, 9, 2), (5, 9, 3), (6, 12, 4), (6, 14, 5), (7, 12, 6), (8, 20, 7)]
LOOSE = """[[transition]]
name = "a"
[[transition]]
name = "b"
[[transition]]
name = "c"
[[place]]
name = "ab"
from = "a"
to = "b"
hold = 3
[[place]]
name = "bc"
from = "b"
to = "c"
hold = 2
tokens = 1
"""
# How lines begin that name a witness, and how the lines end that name a step.
WITNESSES = ("circuit ", "path ")
STEP = re.compile(r" (by \S+|next|due)$")
# What is counted of each command.
TRIED, SHOWN, SAID, OTHER, FALSE = range(5)


def nets(folder):
    """The nets, by the paths of their files: those of examples/, one without a circuit and drawn ones that are written there."""
    for name in EXAMPLES:
        yield f"{TOP}/examples/{name}.toml"
    yield written(f"{folder}/loose.toml", LOOSE.splitlines())
    for transitions, places, seed in DRAWN:
        path = f"{folder}/net{seed}.toml"
        text = run([sys.executable, f"{TOP}/tools/random_net.py", str(transitions), str(places), str(seed)], folder)[1]
        with open(path, "w", encoding="utf-8") as file:
            file.write(text)
        yield path


def names_of(path):
    """The names of the transitions that are no inputs, of its places, and of all transitions of a net file."""
    with open(path, encoding="utf-8") as file:
        text = file.read()
    tables = re.findall(r'\[\[(transition|place)\]\]\s+name = "([^"]+)"(?:\s+role = "(\w+)")?', text)
    places = [name for kind, name, _ in tables if kind == "place"]
    transitions = [name for kind, name, _ in tables if kind == "transition"]
    asked = [name for kind, name, role in tables if kind == "transition" and role != "input"]
    return asked, places, transitions


def written(path, lines):
    """The path of a file with these lines."""
    with open(path, "w", encoding="utf-8") as file:
        file.write("".join(f"{line}\n" for line in lines))
    return path


def questions(net, folder):
    """The words of each question about a net: a command, and what the checker reads beside the net."""
    asked, places, transitions = names_of(net)
    base = f"{folder}/{os.path.basename(net)}"
    yield ["check", net], []
    yield ["cycle", net], []
    yield ["cycle", net, "--rounds"], []
    yield ["dates", net], []
    yield ["list", net, "3"], []
    yield ["slack", net], []
    yield ["bound", net], []
    if places:
        yield ["size", net, places[-1], "5/1"], []
    if asked:
        due = written(f"{base}.due.csv", [f"{asked[-1]},{number},{9000 + 2000 * number}" for number in (1, 2, 3)])
        yield ["jit", net, due], [due]
        late = written(f"{base}.late.csv", [f"{asked[-1]},{number},{number}" for number in (2, 3)])
        yield ["jit", net, late], [late]
        orders = written(f"{base}.orders.csv", [f"{name},2,4000,9000,11000" for name in asked[-2:]])
        yield ["forever", net, orders], [orders]
        rush = written(f"{base}.rush.csv", [f"{name},2,4,9000,9001" for name in asked[-2:]])
        yield ["forever", net, rush], [rush]
    table = f"{TOP}/examples/railway_late.csv"
    if net.endswith("/railway.toml"):
        for period in ("24", "30", "32"):
            yield ["timetable", net, period, table], [period, table]
    elif transitions:
        plan = written(f"{base}.plan.csv", [*(f"{name},0" for name in transitions), f"{transitions[0]},2,7"])
        yield ["timetable", net, "100000", plan], ["100000", plan]


def forged(text, names):
    """Texts that differ from this one in one thing."""
    for found in re.finditer(r"-?\d+", text):
        number = int(found[0])
        for other in {number + 1, number - 1, number + 10, 0, -number} - {number}:
            yield text[: found.start()] + str(other) + text[found.end() :]
    words = list(re.finditer(r"\S+", text))
    for found in words:
        yield text[: found.start()] + text[found.end() :]
        yield text[: found.start()] + found[0] + " " + found[0] + text[found.end() :]
        if found[0] in names:
            for other in [name for name in names if name != found[0]][:4]:
                yield text[: found.start()] + other + text[found.end() :]
        elif not re.fullmatch(r"-?\d+", found[0]):
            for other in ("free", "due", "next", "by", "nobody"):
                yield text[: found.start()] + other + text[found.end() :]
    lines = text.splitlines(keepends=True)
    for at in range(len(lines)):
        yield "".join([*lines[:at], *lines[at + 1 :]])
        yield "".join([*lines[: at + 1], *lines[at:]])
        if at + 1 < len(lines):
            yield "".join([*lines[:at], lines[at + 1], lines[at], *lines[at + 2 :]])
    yield text + "and no more\n"
    yield text + text
    yield text.replace("\n", "\r\n")


def status_of(runner, net, beside, text, folder):
    """The status of the checker for a text."""
    path = f"{folder}/answer.txt"
    with open(path, "w", encoding="utf-8", newline="") as file:
        file.write(text)
    return run([runner, net, path, *beside], folder)[0]


def asked_by(words, text):
    """The words of the question that the text answers: of a list its number, of a size its place and its target, else these."""
    first = text.split("\n", 1)[0].split()
    if words[0] == "list" and len(first) == 4:
        return ["list", words[1], first[2]]
    if words[0] == "size" and len(first) > 2:
        return ["size", words[1], *first[1:3]]
    return words


def without_witness(line):
    """A line without the witness that it names."""
    for first in WITNESSES:
        if line.startswith(first):
            return first
    return STEP.sub("", line)


def truth_of(teg, words, text, folder):
    """Whether the text is what the program prints, has another witness, or is false, with its first line that is not printed."""
    own = run([teg, *asked_by(words, text)], folder)[1]
    if own == text:
        return SAID, None
    if [without_witness(line) for line in own.split("\n")] == [without_witness(line) for line in text.split("\n")]:
        return OTHER, None
    pairs = itertools.zip_longest(own.split("\n"), text.split("\n"))
    return FALSE, next(line for other, line in pairs if other != line)


def tried(teg, runner, words, beside, names, folder):
    """What was counted of the answer to these words, and the faults."""
    text = run([teg, *words], folder)[1]
    counts = [0] * 5
    status = status_of(runner, words[1], beside, text, folder)
    if status == 4:
        return counts, []
    faults = [] if status == 0 else [f"{' '.join(words)}: its answer is not shown ({status})"]
    for other in dict.fromkeys(forged(text, names)):
        if other == text:
            continue
        counts[TRIED] += 1
        if status_of(runner, words[1], beside, other, folder) == 0:
            truth, line = truth_of(teg, words, other, folder)
            counts[SHOWN] += 1
            counts[truth] += 1
            if truth == FALSE:
                faults.append(f"{' '.join(words)}: shown and false: {line}")
    return counts, faults


def main():
    words = argparse.ArgumentParser(usage=__doc__)
    words.add_argument("--teg", default=BUILT)
    words.add_argument("--runner", default=WITNESS)
    asked = words.parse_args()
    teg, runner = os.path.abspath(asked.teg), os.path.abspath(asked.runner)
    if not is_there(teg) or not is_there(runner):
        return 1
    counts, answers, failed = {}, 0, 0
    with tempfile.TemporaryDirectory() as folder:
        for net in nets(folder):
            _, places, transitions = names_of(net)
            for question, beside in questions(net, folder):
                told, faults = tried(teg, runner, question, beside, places + transitions, folder)
                answers += told[TRIED] > 0
                before = counts.get(question[0], [0] * 5)
                counts[question[0]] = [own + more for own, more in zip(before, told)]
                failed += len(faults)
                for fault in faults:
                    print(fault)
    for command, told in counts.items():
        print(
            f"{command}: {told[TRIED]} forged texts, {told[SHOWN]} shown:"
            f" {told[SAID]} as the program prints, {told[OTHER]} with another witness, {told[FALSE]} false"
        )
    print(f"{answers} answers")
    return summed_up(sum(told[TRIED] for told in counts.values()), failed)


if __name__ == "__main__":
    sys.exit(main())
