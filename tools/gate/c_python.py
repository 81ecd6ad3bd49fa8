"""The tests of the Python package, over a shared library."""

import os
import subprocess
import sys

from steps import TOP

TESTS = os.path.join(TOP, "python", "tests")
# They take no longer, in seconds.
PATIENCE = 600


def faults(library):
    """What the tests find wrong: the names of those that fail, and the end of what they say."""
    environment = {**os.environ, "JILLAPUN_LIBRARY": library.library._name, "PYTHONDONTWRITEBYTECODE": "1"}
    words = [sys.executable, "-m", "unittest", "discover", "-s", TESTS]
    ran = subprocess.run(words, env=environment, capture_output=True, text=True, timeout=PATIENCE, check=False)
    lines = ran.stderr.strip().split("\n")
    print("python: %s %s" % (lines[-3] if len(lines) > 2 else "", lines[-1]))
    if ran.returncode:
        yield from (line for line in lines if line.startswith(("FAIL: ", "ERROR: ")))
        yield "the tests of the Python package end with status %d: %s" % (ran.returncode, ran.stderr[-2000:])
