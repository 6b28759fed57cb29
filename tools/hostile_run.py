#!/usr/bin/env python3
"""Runs the built program on hostile files, words and outputs: each run ends in time, with the answer that is due.

    tools/hostile_run.py [--teg PROGRAM] [--seconds S] [--only WORD] [--dear]

PROGRAM is the built teg; where none is named it is the one that `rt ci` leaves. Files have 4,194,304 bytes,
as many as a file may have, or nearly so, where nothing else is said. A case of `forever` or `timetable` is
skipped where the usage does not list the command, and a line says so. A case passes where its run ends within
S seconds (5) of processor time, whatever else the machine does, with the status that is due, writes the text
that is due, where that is fixed, and nothing to standard error. A run that waits for ever is ended by the
clock, after twenty times as long. With --only just the cases whose line has the word. There is a line a case,
with its processor seconds and the most memory that it held, or that this script held as it began it. The last
line is 'N passed, M failed', and the exit status 0 where some passed and none failed.

Inputs that ask for much work stand in dear_cases.py. With --dear just those of them are run that may take
longer than the others, and S is 60 where it is not given: what fails there is what is left to be done.
"""
import argparse
import math
import os
import random
import resource
import shutil
import signal
import subprocess
import sys
import tempfile
import threading
import time
from pathlib import Path

import common
from built_program import BUILT, is_there, summed_up
from common import Status
from dear_cases import answered_cases, dear_cases

MOST = 4_194_304
DONE, WORDS, TEXT, NET, SCHEDULE = Status.DONE, Status.WORDS, Status.TEXT, Status.NET, Status.SCHEDULE
LATE, LOG, CALC, NAME = Status.LATE, Status.LOG, Status.CALC, Status.NAME
READ_FAULT, WRITE_FAULT = Status.READ_FAULT, Status.WRITE_FAULT

SOLE = '[[transition]]\nname = "a"\n'
LOOP, LINE = common.net("loop"), common.net("driven")
WIDE = {digits: ["1" + "0" * (digits - 2) + "1", "9" * digits] for digits in (19, 20)}
WRAPPED = str(2**64 + 10)


class Case:
    """A run: its words, the files that it finds, the status that is due, and the text that is due, if that is fixed: as
    it stands, or a call that makes it."""

    def __init__(self, label, words, files, status, text=None, output=None):
        self.label, self.words, self.files = label, words, files
        self.status, self.text, self.output = status, text, output


# ---- files

def filled(piece, head="", tail=""):
    """This head, this piece again and again, and this tail: as many pieces as fit."""
    head, piece, tail = (it if isinstance(it, bytes) else it.encode() for it in (head, piece, tail))
    return head + piece * ((MOST - len(head) - len(tail)) // len(piece)) + tail


def counted(entry, head="", tail=""):
    """This head, the entries of 0, 1 and so on, as many as fit, and this tail."""
    parts, room, number = [head], MOST - len(head) - len(tail), 0
    while len(part := entry(number)) <= room:
        parts.append(part)
        room -= len(part)
        number += 1
    return "".join(parts + [tail]).encode()


def colliding(number):
    """A name of 32 bytes. All of these have one hash in the library's tables, whose seed is fixed."""
    return f"XF3E0KQkNt315cBfdPh%_$U6{number:08}"


def apart(names):
    """The net of transitions alone that have these names."""
    return "".join(f'[[transition]]\nname = "{name}"\n' for name in names)


# ---- nets

def net_cases():
    """Net files, each checked."""
    none, no_toml = (NET, "refused: no transitions\n"), (TEXT, "refused: not TOML\n")
    sole = (DONE, "live\ntransitions 1\nplaces 0\n")
    place = SOLE + '[[place]]\nname = "p"\nfrom = "a"\nto = "a"\n'
    dates = 'transition=[{name="a",role="input"}]\ninput=[{transition="a",dates=['
    ends = SOLE + '[[place]]\nname="p"\nto="a"\nfrom='
    producers = filled('"a",', ends + "[", "]")

    def net(what):
        return NET, f"refused: {what}\n"

    table = [
        ("arrays in arrays, open", filled("[", "x="), no_toml),
        ("arrays in arrays", filled("[", "x=", "") [: MOST // 2] + b"]" * (MOST // 2 - 2), no_toml),
        ("tables in tables, open", filled("{a=", "x="), no_toml),
        ("tables in tables by their keys", filled("a.", "", "a=1"), no_toml),
        ("tables in tables by a header", filled("a.", "[", "a]"), no_toml),
        ("one line, a comment", filled("x", "#"), none),
        ("one line, a text", filled("x", 'x="', '"'), net("top unknown key x")),
        ("one line, an open text", filled("x", 'x="'), no_toml),
        ("one line, a key", filled("k", "", "=1"), net("top unknown key " + "k" * (MOST - 2))),
        ("one line, a key of bytes that are written as four", filled("\\u0001", '"', '"=1'),
         net("top unknown key " + "\\x01" * ((MOST - 4) // 6))),
        ("one line, an array of tables", filled("{},", "transition=[", "]"), net("transition 1 missing name")),
        ("one field, a name", filled("n", '[[transition]]\nname="', '"'), net("transition 1 bad name")),
        ("one field, an upstream transition", filled("n", ends + '"', '"'),
         net("place 1 unknown transition " + "n" * (MOST - len(ends) - 2))),
        ("all blanks", filled(" "), none),
        ("all line ends", filled("\n"), none),
        ("all line ends of two bytes", filled("\r\n"), none),
        ("all carriage returns", filled("\r"), no_toml),
        ("all header", filled("[[transition]]\n"), net("transition 1 missing name")),
        ("all header, open", filled("["), no_toml),
        ("all header of one table", filled("[x]\n"), no_toml),
        ("all header of tables", counted(lambda i: f"[x{i}]\n"), net("top unknown key x0")),
        ("all quotes", filled('"'), no_toml),
        ("all single quotes", filled("'"), no_toml),
        ("all quotes in a text", filled('"', "x='", "'"), net("top unknown key x")),
        ("all backslashes in a text", filled("\\\\", 'x="', '"'), net("top unknown key x")),
        ("bytes that are no text", filled(b"\xff"), no_toml),
        ("a last byte that is no text", filled("\n", "", b"\xff"), no_toml),
        ("bytes of 0", filled(b"\0"), no_toml),
        ("bytes drawn at random", random.Random(1).randbytes(MOST), no_toml),
        ("names that collide", counted(lambda i: f'{{name="{colliding(i)}"}},', "transition=[", "]"),
         net("top out of range transition")),
        ("names of places that collide",
         counted(lambda i: f'{{name="{colliding(i)}",from="a",to="a"}},', 'transition=[{name="a"}]\nplace=[', "]"),
         net("top out of range place")),
        ("names of inputs that collide",
         counted(lambda i: f'{{transition="{colliding(i)}",dates=[]}},', 'transition=[{name="a"}]\ninput=[', "]"),
         net(f"input 1 unknown transition {colliding(0)}")),
        ("upstream transitions that collide",
         counted(lambda i: f'"{colliding(i)}",', ends + "[", "]"), net(f"place 1 unknown transition {colliding(0)}")),
        ("keys that collide", counted(lambda i: f'"{colliding(i)}"=1\n'), net(f"top unknown key {colliding(0)}")),
        ("names that are one", filled('{name="a"},', "transition=[", "]"), net("transition 2 repeated")),
        ("keys that are one", filled("a=1\n"), no_toml),
        ("many producers", producers, net(f"place p has {producers.count(b',')} producers and 1 consumers")),
        ("many dates", filled("0,", dates, "]}]"), net("input 1 out of range dates")),
        ("a hold of the greatest whole number", filled("\n", f"{place}hold={2**63 - 1}\n"), net("place 1 out of range hold")),
        ("a hold of all digits", filled("9", f"{place}hold="), no_toml),
        ("a fraction of all digits", filled("9", "x=0."), net("top unknown key x")),
        ("a comment behind a net", filled("#", SOLE), sole),
        ("one byte too many", filled("#") + b"#", (TEXT, "refused: the net is longer than 4194304 bytes\n")),
    ]
    for digits, numbers in WIDE.items():
        for number in numbers:
            if int(number) < 2**63:
                table.append((f"dates {number}", filled(number + ",", dates, "]}]"), net("input 1 out of range dates")))
                table.append((f"a hold of {number}", filled("\n", f"{place}hold={number}\n"), net("place 1 out of range hold")))
            else:
                table.append((f"dates {number}", filled(number + ",", dates, "]}]"), no_toml))
                table.append((f"a hold of {number}", filled("\n", f"{place}hold={number}\n"), no_toml))
    for label, file, (status, text) in table:
        yield Case(f"net: {label}", ["check", "net"], {"net": file}, status, text)


def widest_cases():
    """The widest net, by each command that takes a net: a ring of 400 transitions, ten places from each to the next."""
    ends = [(i % 400, (i + 1) % 400) for i in range(4000)]
    net = apart(f"t{i}" for i in range(400)) + "".join(
        f'[[place]]\nname = "p{i}"\nfrom = "t{a}"\nto = "t{b}"\nhold = 1\ntokens = {int(b == 0)}\n' for i, (a, b) in enumerate(ends))
    for words in ("check net", "list net 10000", "form net", "cycle net", "cycle net --rounds", "dates net", "dates net --limit none",
                  "date net t0 1000000000000000000", "slack net", "transfer net", "migrate net", "size net p0 1/1"):
        yield Case(f"widest net: {words}", words.split(), {"net": net}, DONE)


# ---- files of rows

class Rows:
    """A format of rows: the command, a net and a transition of it that rows may name, what stands behind it in a
    row, of which each number may be the last field, a header, how refusals begin and what they say, and what the
    command comes to without rows and with the one row."""

    def __init__(self, kind, words, net, name, numbers, header, status, begins, no_row, without, with_one):
        self.kind, self.words, self.net, self.name, self.numbers, self.header = kind, words, net, name, numbers, header
        self.status, self.begins, self.no_row, self.without, self.with_one = status, begins, no_row, without, with_one

    def refused(self, row, what):
        return self.status, f"refused: {self.begins} row {row} {what}\n"

    def case(self, label, file, answer, net=None):
        return Case(f"{self.kind}: {label}", self.words, {"net": net or self.net, "rows": file}, *answer)


FORMATS = [
    Rows("due file", ["jit", "net", "rows"], LINE, "y", ",1,10", "transition,number,date", SCHEDULE, "due", "is not a due date",
         (DONE, "latest inputs for 0 firings\n"),
         (DONE, "latest inputs for 1 firings\ninput u 1 7 by ua\nlatest a 1 9 by ay\nlatest y 1 10 due\n")),
    Rows("log", ["replay", "net", "rows"], LOOP, "a", ",10", "transition,date", LOG, "log", "is not a firing",
         (DONE, "replayed 0 firings\nfirings 0\nhigh water 0\ngreatest lateness 0\n"),
         (DONE, "replayed 1 firings\nfirings 1\nhigh water 1\ngreatest lateness 10\n")),
    Rows("endless due file", ["forever", "net", "rows"], LINE, "y", ",1,3,10", "transition,every,gap,dates", SCHEDULE, "due",
         "is not an endless due row", (DONE, "latest inputs forever\ninput u free\n"),
         (DONE, "latest inputs forever\ninput u 7 period 1 step 3\n")),
    Rows("timetable", ["timetable", "net", "6", "rows"], SOLE, "a", ",10", "transition,first", SCHEDULE, "timetable",
         "is not an entry", (SCHEDULE, "refused: no departure of a\n"),
         (DONE, "settled after 0 period 1\nrecovered after 0\ndelays a 0\n")),
]


def rows_cases(it):
    """Files of rows of one format."""
    row, bad = it.name + it.numbers, it.refused(1, it.no_row)
    unknown, wide = it.refused(1, "unknown transition"), it.refused(1, "out of range")
    before, last = row.rpartition(",")[0] + ",", row.rpartition(",")[2]
    table = [
        ("all line ends", filled("\n"), it.without),
        ("all line ends of two bytes", filled("\r\n"), it.without),
        ("all carriage returns", filled("\r"), it.without),
        ("all blanks", filled(" "), bad),
        ("one line", filled("y"), bad),
        ("one line of numbers", filled("1"), bad),
        ("one field in quotes", filled("y", '"', '"'), bad),
        ("one field in quotes, open", filled("y", '"'), bad),
        ("one field, a name", filled("y", "", it.numbers), unknown),
        ("one field, a number", filled("9", before), wide),
        ("one field, zeros and a number", filled("0", before, last), it.with_one),
        ("all commas", filled(","), bad),
        ("all header", filled(it.header + "\n"), it.refused(2, it.no_row)),
        ("all quotes", filled('"'), bad),
        ("all quotes and line ends", filled('"\n'), bad),
        ("quotes in quotes", filled('""', '"', f'"{it.numbers}'), unknown),
        ("all empty fields in quotes", filled('"",'), bad),
        ("an open quote behind a row", filled("\n", f'{row}\n"'), it.refused(2, it.no_row)),
        ("bytes that are no text", filled(b"\xff"), bad),
        ("a name that is no text", filled(b"\xff", "", it.numbers), unknown),
        ("bytes of 0", filled(b"\0"), bad),
        ("bytes drawn at random", random.Random(1).randbytes(MOST), bad),
        ("names that collide, unknown", counted(lambda i: f"{colliding(i)}{it.numbers}\n"), unknown),
        ("a number that wraps", filled("\n", before + WRAPPED), wide),
        ("one byte too many", filled("\n") + b"\n", (TEXT, f"refused: the {it.kind.replace('endless ', '')} is longer than 4194304 bytes\n")),
    ]
    table += [(f"a number of {digits} digits, {number}", filled("\n", before + number), wide) for digits in WIDE for number in WIDE[digits]]
    for label, file, answer in table:
        yield it.case(label, file, answer)


def further_rows():
    """Files of rows that one format alone has."""
    due, log, endless, timetable = FORMATS
    collided = apart(map(colliding, range(400)))
    yield due.case("rows that are one", filled("y,1,10\n"), due.refused(2, "repeated"))
    yield due.case("names of the net that collide", counted(lambda i: f"{colliding(i % 400)},{i // 400 + 1},9\n"), (DONE, None), collided)
    yield due.case("the greatest number", filled("\n", "y,10000,1000000000000"), (DONE, None))
    yield due.case("a row that comes late", filled("\n", "y,1,2"), (LATE, "late y 1 due 2 least 3\npath u 1 by ua a 1 by ay y 1\n"))
    yield due.case("an input", filled("\n", "u,1,2"), due.refused(1, "input transition"))
    yield log.case("the greatest date", filled("\n", "a,1000000000000000000"),
                   (DONE, "replayed 1 firings\nfirings 1\nhigh water 1\ngreatest lateness 1000000000000000000\n"))
    firings = MOST // len("a,0\n")
    yield log.case("many firings of one date", filled("a,0\n"),
                   (DONE, f"replayed {firings} firings\nfirings {firings}\nhigh water 0\ngreatest lateness 0\n"), SOLE)
    legal = counted(lambda i: f"{'ab'[i % 2]},{5 * (i // 2) + 3 * (i % 2):09}\n")
    firings = legal.count(b"\n")
    yield log.case("many firings of two transitions", legal,
                   (DONE, f"replayed {firings} firings\nfirings {firings}\nhigh water 1\ngreatest lateness 0\n"))
    yield log.case("a last firing that is not legal", legal[:-24] + b"b,999999999\nb,999999999\n", (LOG, None))
    yield log.case("names of the net that collide", counted(lambda i: f"{colliding(i % 400)},{i}\n"), (DONE, None), collided)
    yield endless.case("rows that are one", filled("y,1,3,10\n"), endless.refused(2, "repeated"))
    yield endless.case("one row of many dates", filled("9,", "y,1,3,", "9"), endless.refused(1, "out of range"))
    yield endless.case("dates that fall", filled("\n", "y,1,3,10,9"), endless.refused(1, "falls"))
    yield endless.case("an input", filled("\n", "u,1,3,10"), endless.refused(1, "input transition"))
    yield timetable.case("rows that are one", filled("a,10\n"), timetable.refused(2, "repeated"))
    yield timetable.case("a delay of each number", filled("\n", "a,0\n" + "".join(f"a,{k},1\n" for k in range(1, 10001))),
                         (DONE, f"settled after 10000 period 1\nrecovered after 10000\ndelays a {'1 ' * 10000}0\n"))
    yield timetable.case("many delays", counted(lambda i: f"{colliding(i % 400)},{i // 400 + 1},1\n",
                                                "".join(f"{colliding(i)},0\n" for i in range(400))),
                         (SCHEDULE, "refused: timetable of 400 transitions and 4000 places\n"),
                         collided + "".join(f'[[place]]\nname="p{i}"\nfrom="{colliding(0)}"\nto="{colliding(0)}"\ntokens=1\n' for i in range(4000)))


# ---- words

def words_cases(usage):
    """Words that ask for nothing, or for much; of each command the files are not there where the words are refused."""
    long = "x" * 131_000
    odd = [
        [], [""], [" "], ["-"], ["--"], ["---"], ["-h"], ["--help"], ["-V"], ["--version"], ["--limit"], ["--rounds"], ["help"],
        ["check"], ["check", "net", "net"], ["check", "net", "--rounds"], ["check", "net", "--limit", "5"], ["check", "--help", "net"],
        ["check", "net", "--", "--rounds"], ["CHECK", "net"], ["chec", "net"], ["check "], ["check\n", "net"], ["\u00e9\u4e16", "net"],
        [long], [long, "net"], ["list", "net", long], ["calc", long], ["calc", "e" + " " * 4096], ["x"] * 1000,
        [b"\xff"], ["check", b"net\xff"], [b"\xff\xfe", "net"], ["calc", b"\xc3("],
        ["list", "net"], ["list", "net", "0"], ["list", "net", "10001"], ["list", "net", "+3"], ["list", "net", "-3"],
        ["list", "net", "3 "], ["list", "net", "\u0663"], ["list", "net", "0x3"], ["list", "net", "3.0"], ["list", "net", ""],
        *(["list", "net", number] for digits in WIDE for number in WIDE[digits]), ["list", "net", WRAPPED], ["list", "net", "0" * 19 + "3"],
        ["dates", "net", "--limit"], ["dates", "net", "--limit", "0"], ["dates", "net", "--limit", "200001"], ["dates", "net", "--limit="],
        ["dates", "net", "--limit", "5", "--limit", "5"], ["dates", "net", "--limit", "None"], ["dates", "net", "--limit", "1e3"],
        ["dates", "net", "--limit", "9" * 19], ["dates", "net", "--limit", "9" * 20], ["cycle", "net", "--rounds", "--rounds"],
        ["cycle", "net", "--rounds=1"], ["date", "net", "a"], ["date", "net", "a", "0"], ["date", "net", "a", "1000000000000000001"],
        ["date", "net", "a", "0" * 19 + "1"], ["jit", "net"], ["replay", "net"], ["replay", "net", "rows", "rows"],
        ["slack"], ["transfer", "net", "--limit", "none"], ["transfer", "net", "--limit", "0"], ["form", "net", "1"],
        ["calc"], ["calc", "e", "e"], ["calc", "e", "--limit", "5"], ["trial"], ["trial", "0"], ["trial", "401"],
        *(["trial", number] for digits in WIDE for number in WIDE[digits]), ["migrate"], ["migrate", "net", "net"],
        ["size", "net", "ab"], ["size", "net", "ab", "3"], ["size", "net", "ab", "/"], ["size", "net", "ab", "3/"], ["size", "net", "ab", "/3"],
        ["size", "net", "ab", "1/0"], ["size", "net", "ab", "1/2/3"], ["size", "net", "ab", "1000000000001/1"],
        ["size", "net", "ab", "1/1000001"], ["size", "net", "ab", "9" * 19 + "/1"], ["size", "net", "ab", "9" * 20 + "/1"],
        ["forever", "net"], ["timetable", "net", "6"], ["timetable", "net", "0", "rows"], ["timetable", "net", "1000001", "rows"],
        ["timetable", "net", "9" * 20, "rows"], ["bound"], ["bound", "net", "1"],
    ]
    for words in odd:
        yield Case("words: none" if not words else "words:", words, {}, WORDS, usage)
    net = {"net": LOOP}
    for words, status, text in [
        (["--", "check", "net"], DONE, "live\ntransitions 2\nplaces 2\n"),
        (["list", "net", "0000000000000000001"], DONE, "dates of 1 firings\ntransition a b\n1 0 3\n"),
        (["--limit=1", "dates", "net"], DONE, "settled after 0 period 1\ntransition a 0 step 5\ntransition b 3 step 5\n"),
        (["date", "net", "a", "1000000000000000000"], DONE, "date a 1000000000000000000 4999999999999999995\n"),
        (["date", "net", "", "1"], NAME, "refused: no transition \n"),
        (["date", "net", "A\\\u00e9 ", "1"], NAME, "refused: no transition A\\\\\\xc3\\xa9\\x20\n"),
        (["date", "net", long, "1"], NAME, f"refused: no transition {long}\n"),
        (["size", "net", "q", "1/1"], NAME, "refused: no place q\n"),
        (["calc", ""], CALC, "refused: syntax at 0\n"),
        (["calc", "g1d"], CALC, "refused: syntax at 3\n"),
        (["calc", "\n"], CALC, "refused: syntax at 0\n"),
        (["calc", "\u00e9"], CALC, "refused: syntax at 0\n"),
        (["calc", "(" * 4096], CALC, "refused: too deep at 64\n"),
        (["calc", "(" * 64 + "e" + ")" * 64], DONE, "series 0 period 1 step 0\n"),
        (["calc", "star(" * 64 + "e" + ")" * 64], DONE, "series 0 period 1 step 0\n"),
        (["calc", "+".join(["e"] * 2048)], DONE, "series 0 period 1 step 0\n"),
        (["calc", ".".join(["g1d1"] * 819)], DONE, None),
        (["calc", "e" + " " * 4095], DONE, "series 0 period 1 step 0\n"),
        (["calc", "g9999999999999999999d0"], CALC, "refused: series needs 10000000000000000000\n"),
        (["calc", "g0d9999999999999999999"], CALC, "refused: number 9999999999999999999\n"),
        (["calc", "g0d-9999999999999999999"], CALC, "refused: number -9999999999999999999\n"),
        (["calc", "g0d10000000000000000000"], CALC, "refused: syntax at 22\n"),
        (["calc", "star(g20000d1)"], CALC, None),
        (["calc", "star(g1d2)+star(g19999d1)"], CALC, None),
        (["calc", "left(star(g9973d1),star(g9967d2))"], CALC, None),
    ]:
        yield Case("words:", words, net, status, text)


# ---- files that cannot be read, outputs that take nothing

def file_cases():
    """Names that lead to no file, or to none that can be read."""
    no_net, live = "fault: cannot read the net\n", (DONE, "live\ntransitions 2\nplaces 2\n")
    for label, name in [("that is not there", "absent"), ("that is a folder", "folder"), ("of no letter", ""), ("that is too long", "x" * 5000),
                        ("below a file", "net/net"), ("that leads to itself", "ring"), ("of the root", "/"), ("with a line end", "net\n"),
                        ("that its owner may not read", "locked"), ("of memory that is not there", "/proc/self/mem")]:
        if name == "locked" and os.geteuid() == 0:
            print("skipped: a file that its owner may not read: root may read all files")
            continue
        yield Case(f"file: a name {label}", ["check", name], {"net": LOOP, "locked": LOOP}, READ_FAULT, no_net)
    yield Case("file: a name by a link", ["check", "link"], {"net": LOOP}, *live)
    yield Case("file: an empty device", ["check", "/dev/null"], {}, NET, "refused: no transitions\n")
    yield Case("file: an endless device", ["check", "/dev/zero"], {}, TEXT, "refused: the net is longer than 4194304 bytes\n")
    yield Case("file: a hole of many bytes", ["check", "hole"], {}, TEXT, "refused: the net is longer than 4194304 bytes\n")
    for it in FORMATS:
        words = [{"rows": "folder"}.get(word, word) for word in it.words]
        file = {"endless due file": "due file"}.get(it.kind, it.kind)
        yield Case(f"file: a folder for the {it.kind}", words, {"net": it.net}, READ_FAULT, f"fault: cannot read the {file}\n")
        words = [{"rows": "absent"}.get(word, word) for word in it.words]
        yield Case(f"file: no {it.kind}", words, {"net": it.net}, READ_FAULT, f"fault: cannot read the {file}\n")
        yield Case(f"file: no {it.kind}, and a net that is refused", words, {"net": ""}, NET, "refused: no transitions\n")


def output_cases():
    """Outputs that take nothing, or not all."""
    for output in OUTPUTS:
        yield Case(f"output: {output}", ["check", "net"], {"net": LOOP}, WRITE_FAULT, "", output)
        yield Case(f"output: {output}, for the usage", [], {}, WRITE_FAULT, "", output)
        yield Case(f"output: {output}, for a fault", ["check", "absent"], {}, WRITE_FAULT, "", output)
        yield Case(f"output: {output}, for a long text", ["list", "net", "10000"], {"net": LOOP}, WRITE_FAULT, "", output)


OUTPUTS = ["closed", "a full device", "a pipe that no one reads", "a file that is open to be read"]


def output_of(output, folder):
    """The standard output of a run: the file descriptor, and what is done in the new process before the program begins."""
    if output == "a full device":
        return os.open("/dev/full", os.O_WRONLY), None
    if output == "a pipe that no one reads":
        reads, writes = os.pipe()
        os.close(reads)
        return writes, None
    if output == "a file that is open to be read":
        return os.open(folder / "net", os.O_RDONLY | os.O_CREAT), None
    return os.open(folder.parent / "written", os.O_RDWR | os.O_CREAT | os.O_TRUNC), (lambda: os.close(1)) if output == "closed" else None


# ---- runs

def prepare(folder, files):
    """A folder with these files, and with what some names lead to."""
    shutil.rmtree(folder, ignore_errors=True)
    (folder / "folder").mkdir(parents=True)
    for name, held in files.items():
        (folder / name).write_bytes(held if isinstance(held, bytes) else held.encode())
    os.symlink("ring", folder / "ring")
    os.symlink("net", folder / "link")
    with open(folder / "hole", "wb") as hole:
        hole.truncate(2**40)
    if "locked" in files:
        os.chmod(folder / "locked", 0)


def run(case, program, folder, seconds):
    """Runs a case: its exit status, None where the clock ended it, what it took, and its standard error."""
    output, first = output_of(case.output, folder)

    def begin():
        # (the limit is of whole seconds; what comes late within the last one is told by what it took)
        resource.setrlimit(resource.RLIMIT_CPU, (math.ceil(seconds), math.ceil(seconds) + 1))
        if first:
            first()

    with open(folder.parent / "errors", "w+b") as errors:
        child = subprocess.Popen([program, *case.words], cwd=folder, stdin=subprocess.DEVNULL, stdout=output, stderr=errors,
                                 preexec_fn=begin)
        os.close(output)
        begun, clock = time.monotonic(), threading.Timer(20 * seconds, child.kill)
        clock.start()
        _, ended, used = os.wait4(child.pid, 0)
        in_time = time.monotonic() - begun < 20 * seconds
        clock.cancel()
        child.returncode = os.waitstatus_to_exitcode(ended)
        errors.seek(0)
        return child.returncode if in_time else None, used, errors.read()


def fault_of(case, program, folder, seconds):
    """Runs a case: what it took, and what is wrong, or nothing."""
    prepare(folder, case.files)
    status, used, errors = run(case, program, folder, seconds)
    took = used.ru_utime + used.ru_stime
    if status is None:
        return used, f"no end within {20 * seconds:g} seconds by the clock"
    if took > seconds or status in (-signal.SIGXCPU, -signal.SIGKILL):
        return used, f"no end within {seconds:g} processor seconds"
    if status != case.status:
        return used, f"status {status} in place of {case.status}: {written(folder)[:80]!r}"
    if errors:
        return used, f"standard error: {errors[:80]!r}"
    if not case.output and case.text is not None:
        due = case.text() if callable(case.text) else case.text
        if written(folder) != due.encode():
            return used, f"another text: {written(folder)[:80]!r}"
    return used, None


def written(folder):
    path = folder.parent / "written"
    return path.read_bytes() if path.is_file() else b""


def shown(case):
    """A case in a line, its words cut where they are long."""
    words = [word.decode(errors="backslashreplace") if isinstance(word, bytes) else word for word in case.words]
    cut = [f"{word[:20]}..({len(word)})" if len(word) > 30 else word for word in words[:6]] + ["..."] * (len(words) > 6)
    return f"{case.label} {' '.join(ascii(word)[1:-1] or '(empty)' for word in cut)}" if case.label == "words:" else case.label


def cases(usage):
    yield from net_cases()
    yield from widest_cases()
    for it in FORMATS:
        yield from rows_cases(it)
    yield from further_rows()
    yield from (Case(*case) for case in answered_cases())
    yield from words_cases(usage)
    yield from file_cases()
    yield from output_cases()


def main():
    reader = argparse.ArgumentParser()
    reader.add_argument("--teg", default=BUILT)
    reader.add_argument("--seconds", type=float)
    reader.add_argument("--only", default="")
    reader.add_argument("--dear", action="store_true")
    given = reader.parse_args()
    seconds = given.seconds or (60 if given.dear else 5)
    program = os.path.abspath(given.teg)
    if not is_there(program):
        return 1
    usage = subprocess.run([program], stdin=subprocess.DEVNULL, stdout=subprocess.PIPE).stdout.decode()
    built = {line.split(" teg ")[1].split()[0] for line in usage.splitlines()}
    passed = failed = 0
    skipped = set()
    with tempfile.TemporaryDirectory() as top:
        for case in (Case(*case) for case in dear_cases()) if given.dear else cases(usage):
            command = case.words[0] if case.words and case.status != WORDS else None
            if command in {"forever", "timetable"} - built:
                skipped.add(command)
                continue
            if given.only not in shown(case):
                continue
            used, fault = fault_of(case, program, Path(top) / "files", seconds)
            passed, failed = passed + (not fault), failed + bool(fault)
            took = f"{used.ru_utime + used.ru_stime:6.2f} s {used.ru_maxrss // 1024:5} MB"
            print(f"{'failed' if fault else 'passed'} {took}  {shown(case)}{': ' + fault if fault else ''}", flush=True)
    for command in sorted(skipped):
        print(f"skipped: the files of {command}: the program has no such command")
    return summed_up(passed, failed)


if __name__ == "__main__":
    sys.exit(main())
