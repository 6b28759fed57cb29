#!/usr/bin/env python3
"""Tells what a run of `rt ci` costs: processor seconds by crate for its proof, its tests and its edits.

    tools/gate_times.py --run LOG COMMAND..
    tools/gate_times.py LOG

The first runs the command, `rt ci` say, and passes on what it writes. Each line is also written to LOG, behind the
seconds since the start. Meanwhile it looks four times a second at the prover's processes below the command, and at
the end it writes a line for each to LOG: its crate, its kind, its processor seconds, and when it began and ended;
and a line with the total. Then it prints the table, as the second form does of a LOG that is there. The exit status
is the command's.

Kinds are `proof`, `tests`, `edits`, and `seed`. A crate with two edits or more is checked once more: a kit that does so
before they are tried and once after them, in a folder of that name, has `seed`, which the table counts with the edits;
with rattle-kit-13b, which does so after them alone, it stands among the edits. What is left of the total is rt itself,
the compilers, and the runs of tests and programs. What a run takes over from earlier ones costs nothing: of a kit that
keeps what passed, `rt ci --anew` proves all, and rattle-kit-13b always does. The longest chain is that of crates.txt with
the greatest sum of seconds by the clock from begin to end of a proof: no number of processors ends sooner. It reads
/proc, and needs nothing beside python3.
"""
import os
import re
import resource
import subprocess
import sys
import threading
import time
from pathlib import Path

TOP = Path(__file__).resolve().parent.parent
TICKS = os.sysconf("SC_CLK_TCK")
PAUSE = 0.25
KINDS = ("proof", "tests", "edits", "seed")
LINE = re.compile(r"^# (\S+) (proof|tests|edits|seed) ([\d.]+) ([\d.]+) ([\d.]+)$")
TOTAL = re.compile(r"^# total ([\d.]+) processor seconds in ([\d.]+) seconds on (\d+) processors$")


def read(path):
    try:
        return Path(path).read_bytes()
    except OSError:
        return b""


def processes():
    """Of each process: its parent, and its processor seconds with those of its children that have ended."""
    found = {}
    for name in filter(str.isdigit, os.listdir("/proc")):
        fields = read(f"/proc/{name}/stat").rpartition(b") ")[2].split()
        if len(fields) > 14:
            found[int(name)] = int(fields[1]), sum(map(int, fields[11:15])) / TICKS
    return found


def work_of(pid):
    """The crate and the kind of what a prover's process does, or None where it is none."""
    words = read(f"/proc/{pid}/cmdline").decode(errors="replace").split("\0")
    if os.path.basename(words[0]) != "rattle" or "--crate-name" not in words:
        return None
    crate = words[words.index("--crate-name") + 1]
    try:
        folder = os.path.basename(os.readlink(f"/proc/{pid}/cwd"))
    except OSError:
        return None
    if folder.startswith("rt-edit"):
        kept = words[words.index("--incremental") + 1] if "--incremental" in words else ""
        return crate, "seed" if os.path.basename(kept) == "seed" else "edits"
    return crate, "tests" if "--test" in words else "proof"


class Sampler(threading.Thread):
    """Looks at the processes below one, until it is told to end."""

    def __init__(self, top, begun):
        super().__init__(daemon=True)
        self.top, self.begun, self.ends, self.works = top, begun, threading.Event(), {}

    def run(self):
        while not self.ends.wait(PAUSE):
            self.look()

    def look(self):
        found, now = processes(), time.monotonic() - self.begun
        below = {}
        for pid, (parent, _) in found.items():
            below.setdefault(parent, []).append(pid)
        left = [(pid, None) for pid in below.get(self.top, [])]
        seconds = {}
        while left:
            pid, root = left.pop()
            if root is None and (pid in self.works or work_of(pid)):
                root = pid
                if pid not in self.works:
                    self.works[pid] = [*work_of(pid), 0, now, now]
            if root is not None:
                seconds[root] = seconds.get(root, 0) + found[pid][1]
            left += [(it, root) for it in below.get(pid, [])]
        for pid, took in seconds.items():
            work = self.works[pid]
            work[2], work[4] = max(work[2], took), now


def run(log, command):
    """Runs the command, and gives its exit status."""
    begun = time.monotonic()
    with open(log, "w", encoding="utf-8") as out:
        ran = subprocess.Popen(command, stdout=subprocess.PIPE, stderr=subprocess.STDOUT, errors="replace")
        sampler = Sampler(ran.pid, begun)
        sampler.start()
        for line in ran.stdout:
            print(line, end="", flush=True)
            out.write(f"{time.monotonic() - begun:8.1f} {line}")
            out.flush()
        status = ran.wait()
        sampler.ends.set()
        sampler.join()
        for crate, kind, took, first, last in sampler.works.values():
            out.write(f"# {crate} {kind} {took:.1f} {first:.1f} {last:.1f}\n")
        used = resource.getrusage(resource.RUSAGE_CHILDREN)
        out.write(f"# total {used.ru_utime + used.ru_stime:.1f} processor seconds in {time.monotonic() - begun:.1f} seconds on {len(os.sched_getaffinity(0))} processors\n")
    return status


def crates():
    """Each crate with those that it stands on, by crates.txt, lowest first."""
    deps = {}
    for line in (TOP / "crates.txt").read_text().splitlines():
        name, colon, rest = line.partition("#")[0].partition(":")
        if colon:
            deps[name.split()[0]] = rest.split()
    order = []

    def add(name):
        for dep in deps.get(name, []):
            add(dep)
        if name in deps and name not in order:
            order.append(name)

    for name in deps:
        add(name)
    return {name: [it for it in deps[name] if it in deps] for name in order}


def longest_chain(clock):
    """The crates of the chain whose proofs take longest, one after the other."""
    best = {}
    for name, deps in crates().items():
        below = max((best[it] for it in deps), default=(0, []))
        best[name] = (below[0] + clock.get(name, 0), [*below[1], name])
    return max(best.values(), default=(0, []))


def tell(log):
    """Prints the table of a log."""
    took, clock, tried, total = {}, {}, {}, None
    for line in Path(log).read_text(encoding="utf-8").splitlines():
        found, edit = LINE.match(line), re.search(r"rt: must-fail (\w+)/", line)
        total = TOTAL.match(line) or total
        if found:
            crate, kind = found[1], found[2]
            took.setdefault(crate, dict.fromkeys(KINDS, 0))[kind] += float(found[3])
            if kind == "proof":
                clock[crate] = clock.get(crate, 0) + float(found[5]) - float(found[4])
        elif edit:
            tried[edit[1]] = tried.get(edit[1], 0) + 1
    if total is None:
        print(f"{log} has no line with the total: it is not of a run that ended under --run")
        return
    sums = dict.fromkeys(KINDS, 0)
    print("| Crate | Proof | Tests | Edits | Number | All | Clock of the proof |")
    print("|---|---:|---:|---:|---:|---:|---:|")
    for crate, of in sorted(took.items(), key=lambda it: -sum(it[1].values())):
        for kind in KINDS:
            sums[kind] += of[kind]
        edits = of["edits"] + of["seed"]
        print(f"| `{crate}` | {of['proof']:.0f} | {of['tests']:.0f} | {edits:.0f} | {tried.get(crate, 0)} | {sum(of.values()):.0f} | {clock.get(crate, 0):.0f} |")
    edits = sums["edits"] + sums["seed"]
    print(f"| all | {sums['proof']:.0f} | {sums['tests']:.0f} | {edits:.0f} | {sum(tried.values())} | {sum(sums.values()):.0f} | |")
    length, chain = longest_chain(clock)
    print(f"\nLongest chain: {length:.0f} seconds by the clock: " + ", ".join(f"{it} {clock[it]:.0f}" for it in chain if it in clock))
    if sums["seed"]:
        print(f"Of the edits' {edits:.0f}, {sums['seed']:.0f} went into proving their crates before and after them.")
    rest = max(0, float(total[1]) - sum(sums.values()))
    print(f"In all {total[1]} processor seconds ({rest:.0f} of them beside the prover), in {total[2]} seconds on {total[3]} processors.")


def main(words):
    if len(words) > 2 and words[0] == "--run":
        status = run(words[1], words[2:])
        tell(words[1])
        return status
    if len(words) != 1 or words[0].startswith("-"):
        print(__doc__)
        return 2
    tell(words[0])
    return 0


if __name__ == "__main__":
    sys.exit(main(sys.argv[1:]))
