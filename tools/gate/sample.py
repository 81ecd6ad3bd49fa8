#!/usr/bin/env python3
"""Runs `recode` on a text in Shift_JIS with half a character in it.

    python3 tools/gate/sample.py

The program is the one that `rt ci` or `rt run` has left in its `out/`. What must come of it is said by Python's codec
cp932: the text in UTF-8 with U+FFFD in that place, a line of the log with the offset of the half, and status 1.
"""

import os
import subprocess
import sys

from steps import TOP, main

PROGRAM = os.path.join(TOP, "crates/recode_cli/out/recode_cli")
INDEXES = os.path.join(TOP, "indexes")
WORDS = ["--from", "shift_jis", "--to", "utf-8", "--indexes", INDEXES]

BEFORE = """毎朝歩く道に、古い本屋が一軒ある。店先の棚には『文字の歴史』という本が並び、値段は 500 円ではなく「五百円」
と書いてある。ﾊﾝｶｸの札もあり、題名は "Kanji & Kana" のように英語の場合もある。店主は言う――「文字は、読まれて
初めて文字になるのです。」ギリシャ文字のαβγ、キリル文字のЖж、記号の①②③や㈱、髙橋さんの「髙」、～と－の違い
まで、彼は何でも知っている。ある日、彼が見せてくれた手紙は、途中で文字が一つ欠けていた。最後の一行は"""

# The first byte of a character, before a line feed: in Shift_JIS no second byte is below 40.
HALF = "記".encode("cp932")[:1]

AFTER = """
「ソースの表を十分に能く見よ」で、終わりの点は残っていた。
"""


def faults():
    """What the program does wrong."""
    before = BEFORE.encode("cp932")
    given = before + HALF + AFTER.encode("cp932")
    ran = subprocess.run([PROGRAM, *WORDS], input=given, capture_output=True, timeout=60, check=False)
    wanted = {
        "status": (ran.returncode, 1),
        "output": (ran.stdout, (BEFORE + "\ufffd" + AFTER).encode("utf-8")),
        "log": (ran.stderr, b"bad %d %d\n" % (len(before), len(HALF))),
    }
    return ["%s: %r and not %r" % (name, found, right) for name, (found, right) in wanted.items() if found != right]


if __name__ == "__main__":
    sys.exit(main(faults()))
