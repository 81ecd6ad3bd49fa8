"""What the steps of the gate share: the way to the other tools, and what a step does if it is run alone."""

import os
import sys

sys.dont_write_bytecode = True

TOP = os.path.abspath(os.path.join(os.path.dirname(os.path.abspath(__file__)), "..", ".."))
sys.path += [os.path.join(TOP, "tools", folder) for folder in ("oracles", "pages", "release")]


def main(faults):
    """Prints what a step finds wrong: the status of its program."""
    wrong = list(faults)
    for line in wrong:
        print("WRONG", line)
    return 1 if wrong else 0
