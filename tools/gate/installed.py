#!/usr/bin/env python3
"""Installs all in a folder, calls `recode` and `recode-places` there, and removes all: as `make install` and `make uninstall`.
A file of someone else's has to stay as it is, and all can be read by others whatever the umask.

    python3 tools/gate/installed.py

The commands find the installed index texts from any folder, by any way to them, and hand all words on as they are, but for
a file name that is not UTF-8: each must do what the program does with the same words and the folder named. bash completes
their words. What README.md shows is so, also of `make try`, which compiles the program without a proof. The other targets that
it shows have to be there.
"""

import os
import re
import select
import shutil
import subprocess
import sys
import tempfile

sys.dont_write_bytecode = True

from steps import TOP, main

import fresh
import install

# No command takes longer, in seconds, and none that compiles.
PATIENCE = 60
COMPILES = 900

JAPANESE = ["--from", "shift_jis", "--to", "utf-8"]
WESTERN = ["--from", "utf-8", "--to", "windows-1252"]

# Words without a folder of indexes, and the input.
PLAIN = [
    (JAPANESE, b"A\x83\x6e"),
    (JAPANESE, b"A\x83\x6e\xff"),
    (["--from", " shift_jis\t", "--to", "utf-8"], b"\x83\x6e"),
    ([*WESTERN, "--unmappable", "stop"], "é日".encode()),
    (["--from", "no such", "--to", "utf-8"], b""),
    ([*JAPANESE, "--limit=1"], b"ab"),
    ([*JAPANESE, "two words"], b""),
    (["--from", b"\xff"], b""),
    (["--list"], b""),
    (["--help"], b""),
    (["-V"], b""),
    ([], b""),
]
# Words that name a folder: the command adds nothing.
NAMED = [[*JAPANESE, "--indexes", "/dev/null"], ["--indexes=/dev/null", *JAPANESE], [*JAPANESE, "--indexes"]]


def ran(words, given, folder=None, patience=PATIENCE, **more):
    done = subprocess.run(words, input=given, cwd=folder, capture_output=True, timeout=patience, check=False, **more)
    return done.returncode, done.stdout, done.stderr


def files_in(folder):
    return {os.path.relpath(os.path.join(place, name), folder) for place, _, names in os.walk(folder) for name in names}


def ways(top, command, folder):
    """Ways to a command: its path, that from its folder and from the one above, a link to it, its folder's name, the path."""
    path = os.path.join(top, "bin", command)
    link, linked = os.path.join(folder, command), os.path.join(folder, "linked")
    os.symlink(path, link)
    os.symlink(os.path.join(top, "bin"), linked)
    there = {**os.environ, "PATH": os.path.join(top, "bin") + ":" + os.environ["PATH"]}
    near = {**os.environ, "PATH": ":" + os.environ["PATH"]}
    yield [path], {"folder": "/"}
    yield ["./" + command], {"folder": os.path.join(top, "bin")}
    yield ["bin/" + command], {"folder": top}
    yield [link], {"folder": "/"}
    yield [os.path.join(linked, command)], {"folder": "/"}
    yield [command], {"folder": "/", "env": there}
    yield [command], {"folder": os.path.join(top, "bin"), "env": near}
    os.remove(link)
    os.remove(linked)


def recode_faults(top, folder):
    """What `recode` does otherwise than its program."""
    program, path = os.path.join(top, install.PROGRAMS[0][1]), os.path.join(top, "bin", "recode")
    named = ["--indexes", os.path.join(top, install.INDEXES)]
    for words, given in PLAIN:
        wanted, found = ran([program, *named, *words], given, "/"), ran([path, *words], given, "/")
        if found != wanted:
            yield "recode %r: %r and not %r" % (words, found, wanted)
    for words in NAMED:
        wanted, found = ran([program, *words], b"A", "/"), ran([path, *words], b"A", "/")
        if found != wanted:
            yield "recode %r: %r and not %r" % (words, found, wanted)
    for words, more in ways(top, "recode", folder):
        found = ran([*words, *JAPANESE], b"A\x83\x6e", **more)
        if found != (0, "Aハ".encode(), b""):
            yield "recode as %s: %r" % (words[0], found)


def places_faults(top, folder):
    """What `recode-places` does otherwise than it should."""
    given = os.path.join(folder, "given")
    with open(given, "wb") as file:
        file.write(b"A\n\xff")
    program, path = os.path.join(top, install.PROGRAMS[1][1]), os.path.join(top, "bin", "recode-places")
    named = ["--indexes", os.path.join(top, install.INDEXES)]
    for words, status in (([*JAPANESE, given], 1), (["--help"], 0), ([*JAPANESE, given, "more"], 2)):
        wanted, found = ran([program, *named, *words], b"bad 2 1\n", "/"), ran([path, *words], b"bad 2 1\n", "/")
        if found != wanted or found[0] != status:
            yield "recode-places %r: %r and not %r" % (words, found, wanted)
    # A file whose name is not UTF-8 is shown by its descriptor; one that is not there, or whose name is UTF-8, as it is.
    other, missing, accented = (os.path.join(os.fsencode(folder), name) for name in (b"caf\xe9", b"no \xe9", b"caf\xc3\xa9"))
    shutil.copyfile(given, other)
    shutil.copyfile(given, accented)
    status, output, said = ran([path, *JAPANESE, given], b"bad 2 1\n", "/")
    refused = 2, b"", b"recode-places: a word is not UTF-8\n"
    for name, shown in ((other, b"/dev/fd/3"), (accented, accented), (missing, None)):
        found = ran([path, *JAPANESE, name], b"bad 2 1\n", "/")
        wanted = (status, output.replace(given.encode(), shown), said) if shown else refused
        if found != wanted:
            yield "recode-places %r: %r and not %r" % (name, found, wanted)


# What is typed, a word in each place where bash breaks it, and the ways to complete the last.
COMPLETED = [
    (["recode", "--from", "SHIFT_J"], ["shift_jis"]),
    (["recode", "--to", "=", "koi8-"], ["koi8-r", "koi8-ru", "koi8-u"]),
    (["recode", "--from", "utf-8", "--m"], ["--mark"]),
    (["recode", "--mark", ""], ["keep", "remove", "sniff"]),
    (["recode", "--indexes", "/de"], ["/dev"]),
    (["recode", "--limit", ""], []),
    (["recode-places", "--from", "gb1"], ["gb18030"]),
    (["recode-places", "--co"], ["--count"]),
]
COMPLETE = """
. "$0"
COMP_WORDS=("$@") COMP_CWORD=$(($# - 1))
_jillapun_recode "$1"
printf '%s\\n' "${COMPREPLY[@]}" | sort -u
"""

# What is typed in a terminal before a tab, in a folder with the file `plan.csv`, and what stands there after it.
TYPED = [
    ("recode --from shift_jis --to utf-8 < pl", "recode --from shift_jis --to utf-8 < plan.csv "),
    ("recode --from shift_jis --to utf-8 > pl", "recode --from shift_jis --to utf-8 > plan.csv "),
    ("recode --from shift_jis --to utf-8 2> pl", "recode --from shift_jis --to utf-8 2> plan.csv "),
    ("recode --f", "recode --from "),
    ("recode-places --fo", "recode-places --folds "),
    ("recode-places --from gbk --to utf-8 pl", "recode-places --from gbk --to utf-8 plan.csv "),
    ("recode-places --from gbk --to utf-8 plan.csv < pl", "recode-places --from gbk --to utf-8 plan.csv < plan.csv "),
]
# What bash prints once a line can be typed.
PROMPT = "$ "


def completed(script, line, folder, there):
    """What a terminal shows once bash has completed the line."""
    ours, theirs = os.openpty()
    command, streams = ["bash", "--norc", "--noprofile", "-i"], {"stdin": theirs, "stdout": theirs, "stderr": theirs}
    shell = subprocess.Popen(command, cwd=folder, env=there, start_new_session=True, **streams)
    os.close(theirs)

    def shown(typed):
        os.write(ours, typed.encode())
        found = ""
        while not found.endswith(PROMPT) and select.select([ours], [], [], PATIENCE)[0]:
            found += os.read(ours, 10_000).decode()
        return found

    shown("")
    shown(". '%s'\n" % script)
    # Control-U empties the line.
    found = shown(line + "\t\x15\n")
    shell.kill()
    shell.wait()
    os.close(ours)
    return found


def completion_faults(top, folder):
    """What bash completes otherwise than it should."""
    if not shutil.which("bash"):
        print("left out: the completion, since there is no bash here")
        return
    script = os.path.join(top, "share", "bash-completion", "completions", "recode")
    there = {**os.environ, "PATH": os.path.join(top, "bin") + ":" + os.environ["PATH"], "LC_ALL": "C"}
    for words, wanted in COMPLETED:
        _, output, said = ran(["bash", "-c", COMPLETE, script, *words], b"", "/", env=there)
        if output.decode().split() != wanted:
            yield "completion of %r: %r and not %r: %s" % (words, output, wanted, said.decode())
    place = os.path.join(folder, "typed")
    os.mkdir(place)
    with open(os.path.join(place, "plan.csv"), "wb"):
        pass
    there.update(TERM="dumb", PS1=PROMPT, HISTFILE="")
    for line, wanted in TYPED:
        found = completed(script, line, place, there)
        if wanted not in found:
            yield "%s, and a tab: %r" % (line, found)


def read(name):
    with open(os.path.join(TOP, name), encoding="utf-8") as file:
        return file.read()


# The lines of a session: a command, and what it prints on both streams.
COMMAND = "    $ "
ENDS = "\n(status=$?; printf '\\0'; exit $status)\n"
# A call of `make` with a target, and the targets that are made here. The others would prove all.
MAKE = re.compile(r"\bmake (\w+)")
MADE = {"try"}


def sessions():
    """Those of README.md, each a list of commands with their outputs."""
    found = []
    for line in read("README.md").split("\n"):
        if not line.startswith("    "):
            found.append([])
        elif line.startswith(COMMAND):
            found[-1].append([line[len(COMMAND) :], ""])
        else:
            found[-1][-1][1] += line[4:] + "\n"
    return [session for session in found if session]


def made_faults(session):
    """What a session that calls `make` shows otherwise than it is. Each target has to be there. A command that makes those of
    `MADE` alone is run at the top: it has to print what is shown, and on standard error what it likes."""
    # In a `make` of another one it would print the folder as well.
    plain = {name: value for name, value in os.environ.items() if name not in ("MAKEFLAGS", "MAKELEVEL", "MFLAGS")}
    for command, wanted in session:
        targets = set(MAKE.findall(command))
        for target in sorted(targets):
            if not re.search("^%s:" % target, read("Makefile"), re.M):
                yield "README.md: there is no target %s" % target
        if targets and targets <= MADE:
            words = ["bash", "-o", "pipefail", "-c", command]
            status, output, said = ran(words, b"", TOP, COMPILES, env={**plain, "LC_ALL": "C.UTF-8"})
            if (status, output) != (0, wanted.encode()):
                yield "README.md: %s: status %d, %r and not %r: %s" % (command, status, output, wanted, said.decode()[-2000:])


def readme_faults(top, folder):
    """What README.md shows otherwise than it is. Its sessions without `make` are run one after another in one folder."""
    there = {**os.environ, "PATH": os.path.join(top, "bin") + ":" + os.environ["PATH"], "LC_ALL": "C.UTF-8"}
    for session in sessions():
        if any(MAKE.search(command) for command, _ in session):
            yield from made_faults(session)
            continue
        script = "exec 2>&1\n" + "".join(command + ENDS for command, _ in session)
        outputs = ran(["bash"], script.encode(), folder, env=there)[1].decode().split("\0")
        for (command, wanted), found in zip(session, outputs):
            if found != wanted:
                yield "README.md: %s: %r and not %r" % (command, found, wanted)


# The check that README.md shows: module, function, crate; then the words that are changed, their replacement, the file.
CHECK = re.compile(r"`rt check --only (\w+)::(\w+)` in `(crates/\w+)`.*Change `([^`]+)` to `([^`]+)` in `(src/\w+\.rt)`")


def prover_faults():
    """Whether the function that README.md has checked is there, and the words that it has changed. `rt` is not run."""
    found = CHECK.search(read("README.md"))
    if not found:
        yield "README.md does not show the prover at work"
        return
    module, function, crate, old, _, source = found.groups()
    text = read(os.path.join(crate, source))
    if source != "src/%s.rt" % module or not re.search(r"\bfn %s\(" % function, text) or text.count(old) != 1:
        yield "README.md: %s has not %s and, once, %s" % (source, function, old)


def sources_faults():
    """Which files are packed from a clone alone, or from files that were unpacked alone."""
    for place in install.SOURCES:
        if found := set(install.tracked(place)) ^ set(install.unpacked(place)):
            yield "packed from a clone or without one alone: %s" % sorted(found)


def fresh_faults():
    """Whether a run of `rt` is left out if, and only if, nothing has changed."""
    with tempfile.TemporaryDirectory() as folder:
        fresh.KEPT = os.path.join(folder, "kept")
        source, output = os.path.join(folder, "source"), os.path.join(folder, "output")

        def found(text=None):
            if text:
                install.written(text, source)
            return fresh.Made("recode_cli", [output], [source])

        install.written("one", output)
        said = [found("a").is_fresh()]
        found().keep()
        said += [found().is_fresh(), found("b").is_fresh(), found("a").is_fresh()]
        install.written("two", output)
        said.append(found().is_fresh())
        os.remove(output)
        said.append(found().is_fresh())
    if said != [False, True, False, True, False, False]:
        yield "tools/release/fresh.py: %s" % said


def faults():
    """What is wrong with what is installed."""
    yield from sources_faults()
    yield from fresh_faults()
    yield from prover_faults()
    sources = [os.path.join(TOP, source) for source, _ in [*install.PROGRAMS, *install.FILES]]
    if not all(map(os.path.isfile, sources)):
        print("left out: the installed commands, since not all is built (make build, make c)")
        return
    with tempfile.TemporaryDirectory() as folder:
        top = os.path.join(folder, "a prefix")
        placed(top)
        wanted = {*install.targets(), install.LIST}
        if files_in(top) != wanted:
            yield "installed, and not removed or the other way round: %s" % (files_in(top) ^ wanted)
        for place, _, _ in os.walk(top):
            if os.stat(place).st_mode & 0o777 != 0o755:
                yield "installed under umask 077: %s has the mode %o" % (place, os.stat(place).st_mode)
        yield from recode_faults(top, folder)
        yield from places_faults(top, folder)
        yield from completion_faults(top, folder)
        yield from readme_faults(top, folder)
        yield from others_faults(top)
    print("installed, called and removed")


def placed(top, *words):
    """Installs all, as `make install` does, under a umask that is for one's own: the status, and what is said."""
    command = [sys.executable, install.__file__, "--prefix", top, *words]
    return subprocess.run(command, umask=0o077, capture_output=True, text=True, timeout=PATIENCE, check=False)


def others_faults(top):
    """What is wrong if some of what is there is someone else's: a file beside it, and the command `recode`."""
    path = os.path.join(top, "bin", "recode")
    if placed(top).returncode:
        yield "a second `make install`: %s" % placed(top)
    for name in ("other", "recode"):
        install.written("#!/bin/sh\n", os.path.join(top, "bin", name), 0o755)
    again, removed = placed(top), placed(top, "--remove")
    if not again.returncode or "bin/recode" not in again.stderr or removed.returncode or path not in removed.stdout:
        yield "with a command of someone else's: %s, %s" % (again, removed)
    if files_in(top) != {"bin/other", "bin/recode"} or any(os.path.exists(os.path.join(top, own)) for own in install.OWN):
        yield "left after `make uninstall`: %s" % files_in(top)
    if not placed(top).returncode or files_in(top) != {"bin/other", "bin/recode"}:
        yield "over a command of someone else's: %s" % files_in(top)


if __name__ == "__main__":
    sys.exit(main(faults()))
