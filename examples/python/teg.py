"""A plan as calls, and teg's answers as values.

    plan = Plan().ring(("saw", 4)).ring(("drill", 7)).wait("saw", "drill", 5).wait("drill", "saw", tokens=2)
    plan.cycle().ratio      # Fraction(7, 1)

Each question writes the net to a file, runs the program and reads what it prints. `Net.read(PATH)` asks the same of a file
that is there. What a date, a period, a part is, the guide says (docs/GUIDE.md); `never` is NEVER here, and `epsilon` is
EPSILON. Where the program ends with another status than 0, `Refused` is raised. Nothing here is proved: the numbers are
those that the program prints.
"""
import json
import math
import os
import subprocess
import tempfile
import warnings
from collections import Counter
from fractions import Fraction
from typing import NamedTuple, Optional

NEVER, EPSILON = math.inf, -math.inf
PROGRAM = os.path.join(os.path.dirname(os.path.abspath(__file__)), "..", "..", "teg")


class Refused(Exception):
    """An answer that is none: the exit status and the text of the program."""

    def __init__(self, status, text):
        super().__init__(text.strip() or f"status {status}")
        self.status, self.text = status, text


class Late(Refused):
    """Due dates that cannot be met: the first such row, the least date of its firing, and the lines behind it."""

    def __init__(self, status, text):
        super().__init__(status, text)
        first, *self.chain = text.splitlines()
        words = first.split(" ")
        self.transition, self.number, self.due, self.least = words[1], int(words[2]), int(words[4]), int(words[6])


class Part(NamedTuple):
    """A part of a net: its ratio and a circuit that has it, and potentials; without a circuit None, () and its member."""
    ratio: Optional[Fraction]
    circuit: tuple
    potentials: dict


class Cycle(NamedTuple):
    """The cycle time, a circuit that has it, and the parts. Without a circuit it is None, () and ()."""
    ratio: Optional[Fraction]
    circuit: tuple
    parts: tuple


class Round(NamedTuple):
    """A round of `cycle --rounds`: of a part, its ratio and circuit, and of each transition its place and potential."""
    part: int
    ratio: Fraction
    circuit: tuple
    choices: dict


class Series(NamedTuple):
    """Values up to where they repeat: `period` later each is greater by `step`."""
    values: tuple
    period: int
    step: int

    def at(self, k):
        """The value of number k, counted from 1."""
        turns = max(0, -(-(k - len(self.values)) // self.period))
        return self.values[k - 1 - turns * self.period] + turns * self.step


class Latest(NamedTuple):
    """The latest date of a firing, None where it is free, and what it is there for: `due`, `next`, `by` a place, `free`."""
    date: Optional[int]
    why: str
    place: str


class Replayed(NamedTuple):
    """Of a log that keeps to the plan: the firings, the most tokens in all places, and the greatest lateness."""
    firings: int
    high_water: int
    lateness: int


class Delays(NamedTuple):
    """Delays of a timetable: none past number `recovered`, or None where `circuit` keeps them; of each transition."""
    recovered: Optional[int]
    circuit: tuple
    delays: dict


class Bound(NamedTuple):
    """The bound, or None and the cause; and from which number on the dates repeat, with which period."""
    bound: Optional[int]
    cause: str
    after: Optional[int]
    period: Optional[int]


def number(word):
    """The number of a word of an answer."""
    return {"never": NEVER, "epsilon": EPSILON}.get(word) or int(word)


def series(words, period):
    """The series of the words `VALUE .. step STEP`."""
    return Series(tuple(map(number, words[:-2])), period, int(words[-1]))


def periodic(words):
    """The series of the words `VALUE .. period PERIOD step STEP`."""
    return Series(tuple(map(number, words[:-4])), int(words[-3]), int(words[-1]))


def run(program, command, words=(), options=(), files=()):
    """The lines of an answer, each as its words. Each file is its rows, or its text, and stands before `words`."""
    with tempfile.TemporaryDirectory(prefix="teg-") as folder:
        paths = []
        for text in files:
            if not isinstance(text, str):
                text = "".join(",".join(map(str, row)) + "\n" for row in text)
            paths.append(os.path.join(folder, str(len(paths))))
            with open(paths[-1], "w", encoding="utf-8", newline="") as file:
                file.write(text)
        asked = [program, command, *options, "--", *paths[:1], *map(str, words), *paths[1:]]
        done = subprocess.run(asked, stdin=subprocess.DEVNULL, stdout=subprocess.PIPE, check=False)
    text = done.stdout.decode(errors="replace")
    if done.returncode:
        raise (Late if text.startswith("late ") else Refused)(done.returncode, text)
    return [line.split(" ") for line in text.splitlines()]


def calc(expression, program=PROGRAM):
    """The series of an expression (chapter 5). Its values are those of shift 0, 1, 2, .."""
    return periodic(run(program, "calc", [expression])[0][1:])


def trial(machines, program=PROGRAM):
    """What `trial` tells (chapter 11), by its words."""
    lines = {" ".join(words[:-1]): words[-1] for words in run(program, "trial", [machines])}
    return {name: Fraction(value) if name == "cycle time" else int(value) for name, value in lines.items()}


class Net:
    """A net, by the text of its file, and the questions that it answers."""

    def __init__(self, text="", program=PROGRAM):
        self._text, self.program = text, program

    @classmethod
    def read(cls, path, program=PROGRAM):
        """The net of a file."""
        with open(path, encoding="utf-8", newline="") as file:
            return cls(file.read(), program)

    def text(self):
        """The text of the net's file."""
        return self._text

    def ask(self, command, *words, rows=None, limit=None, options=()):
        """The lines of the answer to any command, each as its words. `rows` are those of its second file."""
        options = [*options, *(["--limit", str(limit)] if limit is not None else [])]
        return run(self.program, command, words, options, [self.text()] if rows is None else [self.text(), rows])

    def check(self):
        """The number of transitions and of places of a net that can run (chapter 1)."""
        return tuple(int(words[1]) for words in self.ask("check")[1:])

    def list(self, count):
        """Of each transition the dates of its first firings (chapter 2)."""
        _, names, *rows = self.ask("list", count)
        return {name: [number(row[i]) for row in rows] for i, name in enumerate(names) if i}

    def form(self):
        """The stars, (TO, FROM) to time, and the entries, (TO, FROM, TOKENS) to time (chapter 3)."""
        lines = self.ask("form")[1:]
        stars = {(words[1], words[2]): int(words[3]) for words in lines if words[0] == "star"}
        return stars, {(words[1], words[2], int(words[3])): int(words[4]) for words in lines if words[0] == "entry"}

    def cycle(self):
        """The pace, the bottleneck, and the parts with their potentials (chapter 4)."""
        first, *lines = self.ask("cycle")
        if first[0] == "no":
            return Cycle(None, (), ())
        parts = []
        for words in lines[1:]:
            if words[0] == "part":
                parts.append(Part(Fraction(words[3]) if words[2] == "ratio" else None, (), {}))
            elif words[0] == "circuit":
                parts[-1] = parts[-1]._replace(circuit=tuple(words[1:]))
            else:
                parts[-1].potentials[words[1]] = int(words[2]) if words[0] == "potential" else None
        return Cycle(Fraction(first[2]), tuple(lines[0][1:]), tuple(parts))

    def rounds(self):
        """The rounds that led to the pace, in order (chapter 4)."""
        rounds = []
        for words in self.ask("cycle", options=["--rounds"]):
            if words[0] == "part" and words[2] == "round":
                rounds.append(Round(int(words[1]), Fraction(words[5]), (), {}))
            elif words[0] == "circuit" and rounds:
                rounds[-1] = rounds[-1]._replace(circuit=tuple(words[1:]))
            elif words[0] == "choice":
                rounds[-1].choices[words[1]] = (words[2], int(words[3]))
        return rounds

    def dates(self, limit=None):
        """Of each transition its dates for ever (chapter 6); `limit` is a number, or "none"."""
        first, *lines = self.ask("dates", limit=limit)
        return {words[1]: series(words[2:], int(first[4])) for words in lines}

    def date(self, transition, k, limit=None):
        """The date of one firing (chapter 6)."""
        return number(self.ask("date", transition, k, limit=limit)[0][3])

    def jit(self, due):
        """Of rows (TRANSITION, NUMBER, DATE) the latest dates, by (TRANSITION, NUMBER) (chapter 7). Raises `Late`."""
        lines = self.ask("jit", rows=due)[1:]
        latest = {}
        for _, transition, k, date, *why in lines:
            told = Latest(None, "free", "") if date == "free" else Latest(int(date), why[0], why[1] if len(why) > 1 else "")
            latest[transition, int(k)] = told
        return latest

    def replay(self, log):
        """Of rows (TRANSITION, DATE) the firings, the high water and the greatest lateness (chapter 8)."""
        return Replayed(*(int(words[-1]) for words in self.ask("replay", rows=log)[1:]))

    def slack(self):
        """Of each place by how much it may be longer, "critical", or None where no circuit passes (chapter 9)."""
        kinds = {"critical": lambda words: "critical", "no": lambda words: None, "slack": lambda words: int(words[3])}
        return {words[1]: kinds[words[2]](words) for words in self.ask("slack")[1:]}

    def transfer(self, limit=None):
        """Of each input and each output the waits between them (chapter 10)."""
        answer = {}
        for words in self.ask("transfer", limit=limit)[1:]:
            if words[0] == "from":
                waits, period = answer.setdefault(words[1], {}), int(words[6])
            else:
                waits[words[1]] = series(words[2:], period)
        return answer

    def migrate(self):
        """The text of the net in the second form (chapter 12)."""
        return "".join(" ".join(words) + "\n" for words in self.ask("migrate"))

    def size(self, place, pace):
        """How many further tokens the place needs for the pace, None where no number is enough; and a circuit (chapter 13)."""
        lines = self.ask("size", place, "{0.numerator}/{0.denominator}".format(Fraction(pace)))
        extra = None if lines[0][3] == "impossible" else int(lines[0][4])
        return extra, tuple(lines[1][1:]) if len(lines) > 1 else ()

    def forever(self, orders):
        """Of rows (TRANSITION, EVERY, GAP, DATE, ..) the latest dates of each input, None where free (chapter 14). Raises `Late`."""
        lines = self.ask("forever", rows=orders)[1:]
        return {words[1]: None if words[2] == "free" else periodic(words[2:]) for words in lines}

    def timetable(self, period, first, delays=(), limit=None):
        """How delays (TRANSITION, NUMBER, MINUTES) spread, where `first` has the first departures (chapter 15)."""
        lines = self.ask("timetable", period, rows=[*first.items(), *delays], limit=limit)
        circuit = tuple(lines[2][1:]) if lines[2][0] == "circuit" else ()
        spread = {words[1]: [int(word) for word in words[2:]] for words in lines if words[0] == "delays"}
        return Delays(int(lines[1][2]) if lines[1][0] == "recovered" else None, circuit, spread)

    def bound(self):
        """How soon the plan repeats at the latest, and when it does (chapter 16)."""
        first, *rest = self.ask("bound")
        if first[0] == "no":
            return Bound(None, " ".join(first[2:]), None, None)
        return Bound(int(first[1]), "", int(rest[0][2]), int(rest[0][4]))

    def first_departures(self):
        """Of a net of one part, the first departures of a timetable of every period that is no shorter than its pace."""
        cycle = self.cycle()
        if len(cycle.parts) != 1:
            raise ValueError(f"the net has {len(cycle.parts)} parts with potentials of their own")
        potentials = cycle.parts[0].potentials
        least = min(potentials.values())
        return {name: (value - least) // cycle.ratio.denominator for name, value in potentials.items()}


class Plan(Net):
    """A net that is made by calls, each of which returns the plan."""

    def __init__(self, program=PROGRAM):
        super().__init__("", program)
        self.roles, self.places, self.lists = {}, {}, {}

    def event(self, name, role="internal"):
        """A transition. It is named by each of the other calls too; the first one gives it its place in the order."""
        if role != "internal" or name not in self.roles:
            self.roles[name] = role
        return self

    def wait(self, start, end, time=0, tokens=0, ready=None, name=None):
        """A place, named `start>end` where no name is given, with `_2`, `_3`, .. behind further ones."""
        self.event(start).event(end)
        own, copy = name or f"{start}>{end}", 1
        while own in self.places:
            copy += 1
            own = f"{name or start + '>' + end}_{copy}"
        self.places[own] = {"name": own, "from": start, "to": end, "hold": time, "tokens": tokens}
        if ready is not None:
            self.places[own]["ready"] = list(ready)
        return self

    def ring(self, *turns):
        """Jobs that take turns at a machine, the first one first: pairs of a job and the time until the next may begin."""
        for i, (job, time) in enumerate(turns):
            self.wait(job, turns[(i + 1) % len(turns)][0], time, int(i == len(turns) - 1))
        return self

    def cards(self, count, time, *pairs):
        """Cards of a round, each back `time` later: pairs of who gives one back and who takes one, both in their order."""
        for i, (_, taker) in enumerate(pairs):
            more = int(i < count % len(pairs))
            self.wait(pairs[(i - count) % len(pairs)][0], taker, time, count // len(pairs) + more)
        return self

    def input(self, name, dates=None, every=None, gap=None):
        """An input, with the dates of its firings, and after how many they repeat, so much later."""
        if dates is not None:
            self.lists[name] = {"transition": name, "dates": list(dates)}
            if every is not None:
                self.lists[name].update(every=every, gap=gap)
        return self.event(name, "input")

    def output(self, name):
        """An output."""
        return self.event(name, "output")

    def lone(self):
        """The names that stand once, each of which may be another one misspelt."""
        said = Counter(place[end] for place in self.places.values() for end in ("from", "to"))
        said.update(name for name, role in self.roles.items() if role != "internal")
        return [name for name in self.roles if said[name] == 1]

    def text(self):
        """The text of the plan's file. Warns of names that stand once."""
        for name in self.lone():
            warnings.warn(f"{name} is named once: is it another name?", stacklevel=2)
        roles = [{"name": name, "role": role} for name, role in self.roles.items()]
        kinds = [("transition", roles), ("place", self.places.values()), ("input", self.lists.values())]
        lines = []
        for kind, entries in kinds:
            for entry in entries:
                lines.append(f"[[{kind}]]")
                lines += [f"{key} = {json.dumps(value, ensure_ascii=False)}" for key, value in entry.items()]
                lines.append("")
        return "\n".join(lines)
