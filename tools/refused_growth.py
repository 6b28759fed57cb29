#!/usr/bin/env python3
"""Refuses each growth of the built program in turn, one in a run: it answers as ever, or for want of memory.

    tools/refused_growth.py [--teg PROGRAM] [--only WORD]

PROGRAM is the built teg; where none is named it is the one that `rt ci` leaves. Each case below is run once to
count how often it asks for memory, then once for each such call, which finds none; a case whose words the
program refuses is skipped. A run passes where it ends with the status and the text of the case, or with status
70 and no text. With --only just the cases whose line has the word. There is a line a case, which says how its
runs ended; the last line is 'N passed, M failed', and the exit status 0 where some passed and none failed.

No contract ties want of memory to a growth that was refused, so this is tried. It works on Linux with x86-64.
The program stays as it was built: it calls malloc and realloc of the C library through slots that the loader
fills. When its first instruction is reached, each of these slots gets an address where no code is. So each call
stops the run, which this script traces, and either goes on at the address that was there, or returns a null
pointer.
"""
import argparse
import ctypes
import os
import signal
import struct
import sys
import tempfile
from pathlib import Path

from built_program import BUILT, is_there, summed_up
from common import Status, net

WORDS, NO_MEMORY = Status.WORDS, Status.NO_MEMORY
GROWING = (b"malloc", b"realloc", b"calloc", b"aligned_alloc")

LOOP, LINE, KANBAN = net("loop"), net("driven"), net("kanban")
TWO_INPUTS = """transition = [
    {name = "u", role = "input"}, {name = "v", role = "input"}, {name = "w", role = "input"},
    {name = "a"}, {name = "y", role = "output"}, {name = "z", role = "output"},
]
place = [
    {name = "ua", from = "u", to = "a", hold = 2},
    {name = "va", from = "v", to = "a", hold = 1, tokens = 1},
    {name = "aa", from = "a", to = "a", hold = 3, tokens = 1},
    {name = "ay", from = "a", to = "y", hold = 1},
    {name = "vz", from = "v", to = "z", hold = 5},
]
"""
LISTED = """
[[input]]
transition = "u"
dates = [0, 1, 7]
every = 2
gap = 8

[[input]]
transition = "v"
dates = [2, 2]
every = 1
gap = 4
"""
FILES = {"loop": LOOP, "line": LINE, "kanban": KANBAN, "no_token": LOOP.replace("tokens = 1\n", ""),
         "two_inputs": TWO_INPUTS, "listed": TWO_INPUTS + LISTED,
         "due": "y,1,10\ny,2,11\n", "late": "y,1,2\n", "two_dues": "y,1,20\nz,2,40\na,3,15\n",
         "log": "a,0\nb,3\na,5\n", "early": "a,0\nb,2\n",
         "endless": "y,2,8,10,11\n", "late_endless": "y,1,2,10\n", "two_endless": "y,2,8,10,11\nz,1,4,12\n",
         "table": "a,0\nb,3\na,1,2\n", "two_delays": "a,0\nb,3\na,1,20\na,2,3\n"}
CASES = [
    "check loop", "check no_token", "check log", "check absent", "list loop 3", "form loop", "cycle loop", "cycle loop --rounds",
    "dates loop", "date loop b 1000", "date loop c 1", "list kanban 7", "form kanban", "cycle kanban", "cycle kanban --rounds",
    "dates kanban", "dates kanban --limit none", "dates kanban --limit 4", "jit line due", "jit line late", "jit line log",
    "replay loop log", "replay loop early", "replay loop due", "slack kanban", "transfer line", "migrate line", "size kanban c21 5/1",
    "trial 3", "calc star(g1d2)+g0d5", "calc g1d", "", "forever line endless", "forever line late_endless", "forever line log",
    "timetable loop 6 table", "timetable loop 5 table", "timetable loop 4 table", "bound loop", "bound line", "bound kanban",
    "forever two_inputs two_endless", "transfer two_inputs", "jit two_inputs two_dues", "timetable loop 6 two_delays",
    "timetable loop 5 two_delays", "dates listed", "list listed 5", "date listed y 1000", "migrate listed",
]


# ---- the slots of the program

class Program:
    """A program file: where it begins, and in which slots the loader puts the addresses of the calls that grow."""

    def __init__(self, path):
        self.path, self.file = path, Path(path).read_bytes()
        self.entry, heads = struct.unpack_from("<2Q", self.file, 24)
        size, count = struct.unpack_from("<2H", self.file, 54)
        self.heads = [struct.unpack_from("<2I6Q", self.file, heads + i * size) for i in range(count)]
        found = {}
        dynamic = next(head for head in self.heads if head[0] == 2)
        for place in range(dynamic[2], dynamic[2] + dynamic[5], 16):
            tag, value = struct.unpack_from("<2Q", self.file, place)
            found.setdefault(tag, value)
        names, symbols = self.place_of(found[5]), self.place_of(found[6])
        self.slots = []
        for table, length in ((found.get(7), found.get(8)), (found.get(23), found.get(2))):
            for place in range(self.place_of(table), self.place_of(table) + length, 24) if table else ():
                slot, kind = struct.unpack_from("<2Q", self.file, place)
                name = names + struct.unpack_from("<I", self.file, symbols + 24 * (kind >> 32))[0]
                if self.file[name:self.file.index(b"\0", name)] in GROWING:
                    self.slots.append(slot)

    def place_of(self, address):
        """Where in the file that stands which is loaded at the address."""
        head = next(head for head in self.heads if head[0] == 1 and head[3] <= address < head[3] + head[5])
        return address - head[3] + head[2]


# ---- runs

LIBRARY = ctypes.CDLL(None, use_errno=True)
LIBRARY.ptrace.argtypes = [ctypes.c_long, ctypes.c_long, ctypes.c_void_p, ctypes.c_void_p]
TRACE_ME, GO_ON, REGISTERS, SET_REGISTERS = 0, 7, 12, 13
RESULT, NEXT, STACK = 10, 16, 19


def trace(request, process, data=None):
    if LIBRARY.ptrace(request, process, None, data) == -1:
        raise OSError(ctypes.get_errno(), "ptrace")


class Run:
    """A run of the program that is traced up to its end: its status and its text, and how often it asked for memory."""

    def __init__(self, program, words, folder, refused):
        self.asked, self.refused = 0, refused
        with open(folder.parent / "written", "w+b") as written:
            self.process = os.fork()
            if self.process == 0:
                os.chdir(folder)
                os.dup2(written.fileno(), 1)
                trace(TRACE_ME, 0)
                os.execve(program.path, [program.path, *words], {"LD_BIND_NOW": "1"})
            os.waitpid(self.process, 0)
            with open(f"/proc/{self.process}/mem", "r+b", buffering=0) as self.memory:
                self.begin(program)
                self.status = self.finish()
            written.seek(0)
            self.text = written.read()

    def word(self, address, value=None):
        """The word at the address; a value is put there first."""
        self.memory.seek(address)
        if value is not None:
            self.memory.write(struct.pack("<Q", value))
            self.memory.seek(address)
        return struct.unpack("<Q", self.memory.read(8))[0]

    def registers(self):
        held = (ctypes.c_ulonglong * 27)()
        trace(REGISTERS, self.process, ctypes.byref(held))
        return held

    def begin(self, program):
        """Goes on up to the program's first instruction, and puts an address without code in each slot."""
        auxiliary = Path(f"/proc/{self.process}/auxv").read_bytes()
        entry = dict(struct.iter_unpack("<2Q", auxiliary))[9]
        first = self.word(entry)
        self.word(entry, first & ~0xFF | 0xCC)
        trace(GO_ON, self.process)
        os.waitpid(self.process, 0)
        self.word(entry, first)
        held = self.registers()
        held[NEXT] = entry
        trace(SET_REGISTERS, self.process, ctypes.byref(held))
        self.there = {}
        for number, slot in enumerate(program.slots):
            place = entry - program.entry + slot
            self.there[16 * number + 16] = self.word(place)
            self.word(place, 16 * number + 16)

    def finish(self):
        """Goes on from call to call, of which one finds no memory; the exit status."""
        passed_on = 0
        while True:
            trace(GO_ON, self.process, passed_on)
            ended = os.waitpid(self.process, 0)[1]
            if not os.WIFSTOPPED(ended):
                return os.waitstatus_to_exitcode(ended)
            passed_on = os.WSTOPSIG(ended)
            held = self.registers()
            if passed_on == signal.SIGSEGV and held[NEXT] in self.there:
                passed_on = 0
                self.asked += 1
                if self.asked == self.refused:
                    held[RESULT], held[NEXT] = 0, self.word(held[STACK])
                    held[STACK] += 8
                else:
                    held[NEXT] = self.there[held[NEXT]]
                trace(SET_REGISTERS, self.process, ctypes.byref(held))


def main():
    reader = argparse.ArgumentParser()
    reader.add_argument("--teg", default=BUILT)
    reader.add_argument("--only", default="")
    given = reader.parse_args()
    if not is_there(given.teg):
        return 1
    program = Program(os.path.abspath(given.teg))
    passed = failed = 0
    with tempfile.TemporaryDirectory() as top:
        folder = Path(top) / "files"
        folder.mkdir()
        for name, text in FILES.items():
            (folder / name).write_text(text)
        for case in CASES:
            if given.only not in case:
                continue
            whole = Run(program, case.split(), folder, 0)
            if case and whole.status == WORDS:
                print(f"skipped: {case}: the program has no such command")
                continue
            ends = {"as ever": 0, "for want of memory": 0}
            for refused in range(1, whole.asked + 1):
                run = Run(program, case.split(), folder, refused)
                if (run.status, run.text) == (whole.status, whole.text):
                    ends["as ever"] += 1
                elif (run.status, run.text) == (NO_MEMORY, b""):
                    ends["for want of memory"] += 1
                else:
                    failed += 1
                    print(f"failed  {case or '(no words)'}: growth {refused} ends with {run.status}: {run.text[:60]!r}")
            passed += sum(ends.values())
            print(f"{whole.asked:5} growths, status {whole.status:2}: {case or '(no words)'}: "
                  + ", ".join(f"{count} {how}" for how, count in ends.items()), flush=True)
    return summed_up(passed, failed)


if __name__ == "__main__":
    sys.exit(main())
