#!/usr/bin/env python3
"""Runs two programs with memory refused: each of their requests in turn, and then all of them.

    python3 tools/gate/refused_memory.py

They are `recode` and `test_refusals`, which makes each call of the encoding crates that takes memory, as `rt ci` or
`rt run` has left them in their `out/`. An allocator is compiled, by the kit's own clang, and loaded before the program.
It refuses the Nth request (malloc, calloc, realloc, posix_memalign, aligned_alloc), for N = 1, 2, 3, .. until there is
none left to refuse, or every one. No test can hand in an allocator that refuses, since calls take that of std, and
`rt try --fail-alloc` refuses one request for each build of half a minute.

`recode` must end with status 3, write `recode: out of memory` to standard error, and write nothing to standard output.
Only for two requests may it end as it does with memory: std, before it collects the words of the command line and their
slices, asks for the room of all of them, and if that is refused it asks word by word. It can also leave out the second
line of a message, which explains it, or write `recode: out of memory` in place of the first.

`test_refusals` must print its stored output, with `refused, then` in one line, that of the call whose request was
refused; it compares the tables itself, before and after. Each call must have been refused, but for those that take no
memory. A load says whether memory was refused to the reader of the text or, after all requests of that, to the tables.
Where every request is refused those that take no memory have their result, and no other call has.
"""

import itertools
import os
import shutil
import subprocess
import sys
import tempfile

from steps import TOP, main

INDEXES = os.path.join(TOP, "indexes")
PROGRAM = os.path.join(TOP, "crates/recode_cli/out/recode_cli")
CALLS = os.path.join(TOP, "crates/test_refusals/out/test_refusals")

# Refuses request N of the process, or all from it on, by the environment, and reports that it does.
ALLOCATOR = r"""
typedef unsigned long size;

extern void *__libc_malloc(size);
extern void *__libc_calloc(size, size);
extern void *__libc_realloc(void *, size);
extern void *__libc_memalign(size, size);
extern int *__errno_location(void);
extern char *getenv(const char *);
extern long atol(const char *);
extern long write(int, const void *, size);

enum { OUT_OF_MEMORY = 12 };

static long refused = -1, requests;
static int is_all;

static int is_refused(void) {
    if (refused < 0) {
        const char *word = getenv("REFUSED_REQUEST");
        refused = word ? atol(word) : 0;
        is_all = getenv("REFUSED_ALL") != 0;
    }
    requests++;
    if (refused == 0 || requests < refused || (requests > refused && !is_all))
        return 0;
    const char *file = getenv("REFUSED_FD");
    if (file)
        (void)!write(atol(file), "x", 1);
    *__errno_location() = OUT_OF_MEMORY;
    return 1;
}

void *malloc(size bytes) { return is_refused() ? 0 : __libc_malloc(bytes); }
void *calloc(size count, size bytes) { return is_refused() ? 0 : __libc_calloc(count, bytes); }
void *realloc(void *old, size bytes) { return is_refused() ? 0 : __libc_realloc(old, bytes); }
void *aligned_alloc(size align, size bytes) { return is_refused() ? 0 : __libc_memalign(align, bytes); }
int posix_memalign(void **out, size align, size bytes) {
    void *room = is_refused() ? 0 : __libc_memalign(align, bytes);
    if (room == 0)
        return OUT_OF_MEMORY;
    *out = room;
    return 0;
}
"""

OUT_OF_MEMORY = (3, b"", b"recode: out of memory\n")

# Requests whose refusal changes nothing, for each command line that is not refused.
SPARED = 2

# The status if the words are refused.
REFUSED_WORDS = 2

# The words, with INDEXES for the folder of indexes and FAULTY for one with a faulty text in it, the input, and status,
# output and log; or none for a text of clap's or the program's own, which other tests compare.
LINES = [
    ("--from utf-8 --to utf-8", b"a\xffb", (1, b"a\xef\xbf\xbdb", b"bad 1 1\n")),
    (
        "--from shift_jis --to iso-2022-jp --indexes INDEXES",
        b"\x83\x6e\xff",
        (1, b"\x1b$B%O\x1b(B&#65533;", b"bad 2 1\nlost 1 65533\n"),
    ),
    ("--from gb18030 --to windows-1252 --indexes INDEXES", b"\x81\x30\x81\x30", (1, b"&#128;", b"lost 0 128\n")),
    (
        "--from windows-1252 --to big5 --indexes INDEXES --mark keep --limit 9",
        b"\xe9",
        (1, b"&#233;", b"lost 0 233\n"),
    ),
    (
        "--from shift_jis --to utf-8 --indexes /dev/null",
        b"a",
        (
            3,
            b"",
            b"recode: index-jis0208.txt: missing\n"
            b"recode: /dev/null/index-jis0208.txt: Not a directory (os error 20); set --indexes to the folder of the index files\n",
        ),
    ),
    ("--from shift_jis --to utf-8 --indexes FAULTY", b"a", (3, b"", b"recode: index-jis0208.txt: line 2: Order\n")),
    ("--from big5 --to utf-8 --indexes FAULTY", b"a", (3, b"", b"recode: index-big5.txt: table: Entry\n")),
    (
        "--from foo --to utf-8",
        b"a",
        (
            2,
            b"",
            b"recode: unknown label foo\nrecode: --from: no encoding has this label; recode --list prints all labels\n",
        ),
    ),
    ("--from utf-8", b"a", None),
    ("--from utf-8 --to utf-8 --limit +5", b"a", None),
    ("--help", b"a", None),
    ("--version", b"a", (0, b"recode 0.1.0\n", b"")),
    ("--list", b"a", None),
]

FAULTY = {"index-jis0208.txt": b"1\t0x3000\n0\t0x3001\n", "index-big5.txt": b"0\t0x3000\n1\t0x0041\n"}

# The calls of `test_refusals` that take no memory.
FREE = {
    "read_ranges of no rows",
    "read_ranges of a faulty pointer",
    "read_ranges of a faulty row",
    "load of a faulty pointer",
    "load of a faulty row",
    "load of ranges with a faulty pointer",
    "load of ranges with a faulty row",
    "decode_latin1 of ASCII",
    "encode_latin1_lossy of ASCII",
}

# Those that load a text.
LOADS = {"load", "load of ranges", "load beside others"}

# What is printed if memory is refused to a call, and, of a load, to the tables.
REFUSED, TO_TABLES = "refused", "refused to the tables"

# Those that need an index: if every request is refused there is none.
NEEDING = {"encode", "decode of windows-1252", "encode by what was loaded"}


def run(program, words, given, allocator=None, request=0, are_all=False):
    """Status, standard output and standard error, and whether a request was refused."""
    read, write = os.pipe()
    env = {"PATH": "/usr/bin:/bin"}
    if allocator:
        env |= {"LD_PRELOAD": allocator, "REFUSED_REQUEST": str(request), "REFUSED_FD": str(write)}
    if are_all:
        env["REFUSED_ALL"] = "1"
    ran = subprocess.run([program, *words], input=given, capture_output=True, env=env, pass_fds=[write], timeout=60)
    os.close(write)
    with os.fdopen(read, "rb") as told:
        was_refused = told.read() != b""
    return (ran.returncode, ran.stdout, ran.stderr), was_refused


def shown(place, ended):
    status, out, error = ended
    return "%s: status %d, %r, %r" % (place, status, out[:200], error[:200])


def may_end(ended, wanted):
    """Whether a run may end so if memory was refused: of its two lines, the first can be replaced, and the second missing."""
    first, second = OUT_OF_MEMORY[2], b"".join(wanted[2].splitlines(True)[1:2])
    short = *wanted[:2], wanted[2].split(b"\n")[0] + b"\n"
    return ended in (OUT_OF_MEMORY, (*OUT_OF_MEMORY[:2], first + second), short)


def sweep(words, given, wanted, allocator):
    """How many requests were refused, and what the program did wrong."""
    free, _ = run(PROGRAM, words, given)
    wanted = wanted or free
    wrong = [] if free == wanted else [shown("with memory", free)]
    request, spared = 0, 0
    while True:
        ended, was_refused = run(PROGRAM, words, given, allocator, request + 1)
        if not was_refused:
            break
        request += 1
        if ended == wanted:
            spared += 1
        elif not may_end(ended, wanted):
            wrong.append(shown("at request %d" % request, ended))
    if spared > SPARED and wanted[0] != REFUSED_WORDS or request <= SPARED:
        wrong.append("%d of %d refusals are without effect" % (spared, request))
    ended, _ = run(PROGRAM, words, given, allocator, 1, True)
    if ended != OUT_OF_MEMORY:
        wrong.append(shown("with every request refused", ended))
    return request, wrong


def sweep_program(allocator):
    """Refuses the requests of `recode`, and says what was wrong."""
    wrong = []
    with tempfile.TemporaryDirectory() as faulty:
        for name, text in FAULTY.items():
            with open(os.path.join(faulty, name), "wb") as file:
                file.write(text)
        folders = {"INDEXES": INDEXES, "FAULTY": faulty}
        for line, given, wanted in LINES:
            words = [folders.get(word, word) for word in line.split()]
            requests, faults = sweep(words, given, wanted, allocator)
            print("%d refused: recode %s" % (requests, line))
            wrong += ["recode %s: %s" % (line, fault) for fault in faults]
    return wrong


def words_of(name):
    """What a call prints if its requests are refused, in their order: the same for one or more of them."""
    if name in FREE:
        return []
    return [REFUSED] + [TO_TABLES] * (name in LOADS)


def sweep_calls(allocator):
    """Refuses the requests of the calls, and says what was wrong."""
    with open(os.path.join(TOP, "crates/test_refusals/stdout"), encoding="utf-8") as file:
        lines = file.read().splitlines()
    names = [line.split(": ")[0] for line in lines]
    wrong = []

    def look(place, ended, allowed):
        status, out, error = ended
        given = out.decode(errors="replace").splitlines()
        if status != 0 or error or given not in allowed:
            wrong.append(shown(place, ended))
            return None
        return allowed.index(given)

    look("calls with memory", run(CALLS, [], b"")[0], [lines])

    def with_line(place, words):
        return lines[:place] + [lines[place].replace(": ", ": %s, then " % words, 1)] + lines[place + 1 :]

    # what is printed if the request of one call is refused
    ways = [(place, words) for place, name in enumerate(names) for words in words_of(name)]
    allowed = [with_line(*way) for way in ways]
    told = [[] for _ in names]
    request = 0
    while True:
        ended, was_refused = run(CALLS, [], b"", allocator, request + 1)
        if not was_refused:
            break
        request += 1
        way = look("calls at request %d" % request, ended, allowed)
        if way is not None:
            place, words = ways[way]
            told[place].append(words)
    for name, words in zip(names, told):
        counts = ["%d %s" % (len(list(group)), word) for word, group in itertools.groupby(words)]
        print("%s: %s" % (name, ", ".join(counts) or "0 refused"))
        if [word for word, _ in itertools.groupby(words)] != words_of(name):
            wrong.append("%s: %s" % (name, ", ".join(counts)))
    none = list(lines)
    for place, name in enumerate(names):
        if name in NEEDING:
            none[place] = name + ": no index"
        elif name not in FREE:
            none[place] = "{0}: {1}, then {1}".format(name, words_of(name)[0])
    look("calls with every request refused", run(CALLS, [], b"", allocator, 1, True)[0], [none])
    return wrong


def compiled(folder):
    """The allocator, made by the clang of the kit, which has no headers; or by `cc`, if a kit has no clang."""
    source, allocator = os.path.join(folder, "refusing.c"), os.path.join(folder, "refusing.so")
    with open(source, "w", encoding="ascii") as file:
        file.write(ALLOCATOR)
    kit = os.path.dirname(os.path.dirname(os.path.realpath(shutil.which("rt"))))
    clang = os.path.join(kit, "toolchain", "bin", "clang")
    compiler = [clang, "-fuse-ld=lld"] if os.path.isfile(clang) else ["cc"]
    subprocess.run([*compiler, "-O1", "-shared", "-fPIC", "-nostdlib", "-o", allocator, source], check=True)
    return allocator


def faults():
    """What both programs did wrong."""
    missing = [program for program in (PROGRAM, CALLS) if not os.path.isfile(program)]
    if missing:
        return ["%s was not built" % os.path.relpath(program, TOP) for program in missing]
    with tempfile.TemporaryDirectory() as folder:
        allocator = compiled(folder)
        return sweep_program(allocator) + sweep_calls(allocator)


if __name__ == "__main__":
    sys.exit(main(faults()))
