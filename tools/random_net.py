#!/usr/bin/env python3
"""Writes a random live net of one part as a net file: the measure for `cycle` and what stands on it.

usage: random_net.py [TRANSITIONS [PLACES [SEED]]]        (400 transitions, 4,000 places, seed 1)

A ring of all transitions makes the net one part. Places without tokens lead only from a lower to a
higher number, so the net is live. Holding times are 0 to 1,000, tokens 0 to 3.
"""
import random
import sys


def random_places(transitions, places, seed):
    """The places in order: the numbers of their ends, the holding time and the tokens."""
    draw = random.Random(seed)
    for number in range(1, places + 1):
        if number <= transitions:
            start, end = number, number % transitions + 1
        else:
            start, end = draw.randint(1, transitions), draw.randint(1, transitions)
        tokens = draw.randint(0 if start < end else 1, 3)
        yield start, end, draw.randint(0, 1000), tokens


def main():
    words = [int(word) for word in sys.argv[1:]]
    transitions, places, seed = (words + [400, 4000, 1][len(words):])[:3]
    lines = []
    for number in range(1, transitions + 1):
        lines += ["[[transition]]", f'name = "m{number}"', ""]
    for number, (start, end, hold, tokens) in enumerate(random_places(transitions, places, seed), 1):
        lines += [
            "[[place]]",
            f'name = "p{number}"',
            f'from = "m{start}"',
            f'to = "m{end}"',
            f"hold = {hold}",
            f"tokens = {tokens}",
            "",
        ]
    print("\n".join(lines))


if __name__ == "__main__":
    main()
