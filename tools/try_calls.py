#!/usr/bin/env python3
"""Compares the sources as they stand with the proved program: whether they answer alike each call that the pages show.

    tools/try_calls.py [PROGRAM]

PROGRAM is the built teg; where none is named it is the one that `rt ci` leaves. The commands of the documents are run, as
tools/run_guide.py runs them, and of each call of ./teg and ./try among them are kept the words, the files that these name,
what standard input gives where they name it, the text and the exit status; equal calls once. `rt try` then compiles the
sources once, as ./try does each time, and runs them on all of these calls. It takes some six minutes on slow processors,
and is for a developer, before a release.

A call that ends or prints otherwise is told, with what rt says of it, and so is one that gives no answer. The last line is
'N passed, M failed', and the exit status 0 where some passed and none failed.
"""
import hashlib
import os
import re
import shlex
import subprocess
import sys
import tempfile
from pathlib import Path

import run_guide
from built_program import BUILT, is_there, summed_up
from common import TOP

# As in ./try.
SECONDS = "120"


def kept(content, folder):
    """Keeps the bytes in a file of this folder, and returns its name, which is told by what they are."""
    name = hashlib.sha256(content).hexdigest()[:16]
    Path(folder, name).write_bytes(content)
    return name


def record(program, folder, words):
    """Runs the program, and keeps the call in this folder: under calls/ its words, in which `files/` and the name of its copy
    stands for each file, its text beside them, and its status."""
    is_file = [os.path.exists(word) and not os.path.isdir(word) for word in words]
    names = [f"files/{kept(Path(word).read_bytes(), f'{folder}/files')}" if file else word for word, file in zip(words, is_file)]
    found = [f"{folder}/{name}" if file else name for name, file in zip(names, is_file)]
    ran = subprocess.run([program, *found], stdin=subprocess.DEVNULL, stdout=subprocess.PIPE)
    call = "".join(f"{name}\n" for name in names).encode()
    name = hashlib.sha256(call).hexdigest()[:16]
    for ending, content in (("", b""), (".args", call), (".stdout", ran.stdout)):
        Path(f"{folder}/calls/{name}{ending}").write_bytes(content)
    Path(f"{folder}/status/{name}").write_text(str(ran.returncode))
    sys.stdout.buffer.write(ran.stdout)
    return ran.returncode


def record_documents(program, folder):
    """Runs the commands of the documents, and keeps their calls of the program in this folder."""
    for part in ("files", "calls", "status", "work"):
        os.mkdir(f"{folder}/{part}")
    recorder = Path(folder, "recorder")
    words = [sys.executable, os.path.abspath(__file__), "--record", os.path.abspath(program), folder]
    recorder.write_text(f'#!/bin/sh\nexec {shlex.join(words)} "$@"\n')
    recorder.chmod(0o755)
    run_guide.furnish(f"{folder}/work", recorder)
    return [well for name, text in run_guide.documents().items() for well in run_guide.run_blocks(name, text, f"{folder}/work")]


def try_calls(folder):
    """Runs the sources on the calls that are kept in this folder, and returns what rt says of them."""
    data = [word for name in os.listdir(f"{folder}/files") for word in ("--data", f"files/{name}={folder}/files/{name}")]
    words = ["rt", "try", "--seconds", SECONDS, *data, "--cases", f"{folder}/calls"]
    ran = subprocess.run(words, cwd=f"{TOP}/crates/teg", stdin=subprocess.DEVNULL, stdout=subprocess.PIPE, stderr=subprocess.STDOUT)
    return ran.stdout.decode(errors="replace")


def odd_calls(folder, told):
    """The calls that are kept in this folder which the sources end or print otherwise than the program, by what rt has told, each
    told with what rt says of it."""
    results = {name: (said, result) for said, name, result in re.findall(r"((?:(?!case=).*\n)*)case=(\w+) (.*)\n", told)}
    for path in Path(folder, "status").iterdir():
        status = path.read_text()
        said, result = results.get(path.name, ("", "rt says nothing"))
        well = re.match(f"run=ended status={status} .*output=expected ", result) is not None
        if not well:
            words = shlex.join(Path(f"{folder}/calls/{path.name}.args").read_text().splitlines())
            print(f"{words}\n  the program ends with status {status}; of the sources, {result}\n{run_guide.indented(said)}", end="")
        yield not well


def main(program):
    if not is_there(program):
        return summed_up(0, 1)
    with tempfile.TemporaryDirectory(prefix="teg-calls-") as folder:
        commands = record_documents(program, folder)
        told = try_calls(folder)
        odd = list(odd_calls(folder, told))
    if "case=" not in told:
        print(told, end="")
    print(f"{len(commands)} commands of the documents, {len(odd)} calls")
    return summed_up(odd.count(False), odd.count(True))


if __name__ == "__main__":
    if sys.argv[1:2] == ["--record"]:
        sys.exit(record(sys.argv[2], sys.argv[3], sys.argv[4:]))
    sys.exit(main(sys.argv[1] if sys.argv[1:] else BUILT))
