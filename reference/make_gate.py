"""Make the script that the gate runs through the workbench, and what it has to print.

The first part is by hand: its answers are typed, from the published test vectors among others, and this program only holds itself to
them. The rest is made with fixed seeds, and the answers are the reference's. Very long lines are left out."""

from __future__ import annotations

import os
import sys

import make_scripts
from workbench import Workbench

HERE = os.path.dirname(os.path.abspath(__file__))
CRATE = os.path.join(HERE, "..", "crates", "workbench")
LONGEST = 20_000
SEEDS = {"permutations": 11, "steps": 20, "pages": 21, "cipher": 12, "test": 17, "cards": 13, "writer": 14, "unread": 15,
         "edges": 16}


def answers(script: bytes) -> bytes:
    """What a script prints."""
    workbench = Workbench()
    lines = script.split(b"\n")
    if not lines[-1]:
        lines.pop()
    return "".join(answer + "\n" for line in lines for answer in workbench.answer(line)).encode()


def made() -> bytes:
    """The part that is made; a kind that ends without a line feed comes last."""
    parts = []
    for kind, seed in SEEDS.items():
        lines = make_scripts.make(seed, kind).split(b"\n")
        parts.append(b"\n".join(line for line in lines if len(line) <= LONGEST))
    return b"".join(parts)


def read(name: str) -> bytes:
    with open(os.path.join(HERE, name), "rb") as file:
        return file.read()


def main() -> int:
    script, expected = read("by-hand.txt"), read("by-hand.expected")
    if answers(script) != expected:
        print("the reference differs from by-hand.expected", file=sys.stderr)
        return 1
    script += b"\n"
    more = made()
    for name, text in (("stdin", script + more), ("stdout", expected + answers(more))):
        with open(os.path.join(CRATE, name), "wb") as file:
            file.write(text)
    return 0


if __name__ == "__main__":
    sys.exit(main())
