"""Compare the built programs with the reference: compare.py SEED [COUNT]. Build them first: `rt run` in crates/workbench and in crates/lister."""

from __future__ import annotations

import os
import subprocess
import sys

import make_scripts
from dukkovil import listing
from make_gate import answers
from make_listings import inputs

CRATES = os.path.join(os.path.dirname(os.path.abspath(__file__)), "..", "crates")


def run(program: str, given: bytes) -> bytes:
    return subprocess.run([os.path.join(CRATES, program, "out", program)], input=given, capture_output=True, check=True).stdout


def main() -> int:
    seed = int(sys.argv[1])
    count = int(sys.argv[2]) if len(sys.argv) > 2 else 1
    wrong = 0
    for kind in make_scripts.KINDS:
        script = make_scripts.make(seed, kind, count)
        same = run("workbench", script) == answers(script)
        print(f"workbench {kind}: {script.count(10)} lines, " + ("same" if same else "DIFFERENT"))
        wrong += not same
    listed = list(inputs(make_scripts.Script(seed, count)))
    differing = sum(run("lister", given) != listing(given).encode() for given in listed)
    print(f"lister: {len(listed)} inputs, {differing} different")
    return 1 if wrong or differing else 0


if __name__ == "__main__":
    sys.exit(main())
