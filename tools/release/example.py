#!/usr/bin/env python3
"""Adds what docs/examples has to copies of the last commit, and proves it there.

    make example
    python3 tools/release/example.py --try

- `iso_8859_1.patch`: a codec, as a crate. Its tests stand in it, and not in a crate of their own, so that the patch is one
  crate.
- `ibm912.patch`: an encoding over an index that is there. It changes three files; the others are written anew by
  `generate_encodings.py`.

A copy takes over what earlier checks of its crates and of those below have kept in `out/`, which saves minutes. It is
removed at the end. With `--try`, as the gate calls it, nothing is proved: what is patched is compiled and run.
"""

import os
import shutil
import subprocess
import sys
import tempfile

TOP = os.path.join(os.path.dirname(os.path.abspath(__file__)), "..", "..")
GENERATE = ["python3", os.path.join("tools", "generate_encodings.py")]
CHECK, TRY = ["rt", "check"], ["rt", "try", "--test"]
# The program, compiled with an encoding more, on a byte of it.
RECODE = ["rt", "try", "--", "--from", "cp912", "--to", "utf-8", "--indexes", "{top}/indexes"]
# A patch, the crates of which what is kept is taken over, and then the commands, each with the folder it is run in, and with
# its input and output if these count: those that try what is patched, and those that prove it.
EXAMPLES = [
    (
        "iso_8859_1.patch",
        ["encoding_mem", "encoding_tables"],
        [("crates/encoding_iso_8859_1", TRY)],
        [("crates/encoding_iso_8859_1", ["rt", "check", "--test"]), ("crates/encoding_iso_8859_1", ["rt", "test"])],
    ),
    (
        "ibm912.patch",
        ["encoding_mem", "encoding_labels", "encoding_tables", "encoding_codecs", "encoding_front"],
        [(".", GENERATE), ("crates/recode_cli", RECODE, "\udca1", "\u0104")],
        [(".", GENERATE), ("crates/encoding_labels", CHECK), ("crates/encoding_front", CHECK)],
    ),
]


def faults(proves=False):
    """What is wrong with the examples, each in a copy of the last commit."""
    for patch, crates, tried, proved in EXAMPLES:
        with tempfile.TemporaryDirectory() as copy:
            archive = subprocess.run(["git", "archive", "HEAD"], cwd=TOP, check=True, capture_output=True)
            subprocess.run(["tar", "-x"], cwd=copy, check=True, input=archive.stdout)
            for crate in crates if proves else ():
                kept = os.path.join(TOP, "crates", crate, "out")
                if os.path.isdir(kept):
                    shutil.copytree(kept, os.path.join(copy, "crates", crate, "out"), symlinks=True)
            subprocess.run(["git", "apply", os.path.join("docs", "examples", patch)], cwd=copy, check=True)
            for folder, command, *more in proved if proves else tried:
                given, wanted = more or (None, None)
                ran = subprocess.run(
                    [word.format(top=copy) for word in command], cwd=os.path.join(copy, folder), input=given,
                    capture_output=True, encoding="utf-8", errors="surrogateescape", check=False,
                )  # fmt: skip
                print(patch + ":", " ".join(command), folder, ran.stdout.rstrip().rsplit("\n", 1)[-1], flush=True)
                if ran.returncode or wanted not in (None, ran.stdout):
                    yield "%s: %s in %s: %s" % (patch, " ".join(command), folder, (ran.stdout + ran.stderr)[-4000:])
                    break


def main():
    wrong = list(faults(proves="--try" not in sys.argv))
    print(*wrong, sep="\n", end="", file=sys.stderr)
    return 1 if wrong else 0


if __name__ == "__main__":
    sys.exit(main())
