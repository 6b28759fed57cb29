"""The programs that `rt ci` leaves, and how the tools run them and sum up what came of it."""
import os
import subprocess

TOP = os.path.dirname(os.path.dirname(os.path.abspath(__file__)))
BUILT = f"{TOP}/crates/teg/out/teg"
WITNESS = f"{TOP}/crates/witness_runner/out/witness_runner"


def run(words, folder):
    """The status and the text of a run. What goes to standard error is told with the text, since nothing may."""
    ran = subprocess.run(words, cwd=folder, stdin=subprocess.DEVNULL, stdout=subprocess.PIPE, stderr=subprocess.STDOUT)
    return ran.returncode, ran.stdout.decode(errors="replace")


def is_there(program):
    """Whether this is a program that can be run; where it is none, that is told."""
    there = os.access(program, os.X_OK)
    if not there:
        print(f"{program} is no program: `rt ci` or ./teg builds it")
    return there


def summed_up(passed, failed):
    """Tells the counts in the last line. The exit status: 0 where something passed and nothing failed, else 1."""
    print(f"{passed} passed, {failed} failed")
    return 1 if failed or not passed else 0
