#!/usr/bin/env python3
"""Measures `recode` beside iconv, uconv and programs over the crate encoding_rs: see docs/PERFORMANCE.md.

    python3 bench/programs.py [--rounds N] [--megabytes N] [--program PATH] [--linear|--damaged] [--write] [WORD..]

With words it measures the workloads that have one of them in their names. It wants `recode` built (`make build`); for
the programs over encoding_rs cargo and Debian's package librust-encoding-rs-dev, for uconv Debian's icu-devtools. It
makes its inputs, words of characters that the indexes map, the same in each run. What counts is the processor time of
whole runs. In a round `recode` runs between two runs of each peer, and what it is compared with is their mean: so a
machine that is slow for a moment is slow for both. A ratio is the median of all rounds, with its quartiles. If those
are more than a tenth apart, as many rounds are run again, up to five times in all; one that stays so has a `~`, and
is no figure to quote. Each output of `recode` is compared with that of the program over encoding_rs. With --linear it
measures something else: whether ten times the input takes ten times the processor time and no more memory. With
--damaged it measures inputs with many losses, to /dev/null and to files, beside the program over encoding_rs, which
writes its log in blocks, and `iconv -c`, which writes none. With --write the results go to bench/results; those of the
workloads also to the table of docs/PERFORMANCE.md and to docs/programs.svg.
"""

import argparse
import glob
import os
import random
import re
import shutil
import statistics
import subprocess
import sys
import tempfile
import time

HERE = os.path.dirname(os.path.abspath(__file__))
INDEXES = os.path.join(HERE, "..", "indexes")
RECODE = os.path.join(HERE, "..", "crates", "recode_cli", "out", "recode_cli")
RESULTS = os.path.join(HERE, "results")

# A ratio as it is printed: the median, and the quartiles.
RATIO = re.compile(r"~?([\d.]+) \(([\d.]+) to ([\d.]+)\)")

# The files of the code that is measured.
SOURCES = [":(top,glob)crates/*/src/**", ":(top,glob)rust/*/src/**"]

# Name, text, source, target.
WORKLOADS = [
    ("ASCII, UTF-8 to UTF-8", "ascii", "utf-8", "utf-8"),
    ("mixed, UTF-8 to UTF-8", "mixed", "utf-8", "utf-8"),
    ("mixed, UTF-16LE to UTF-8", "mixed", "utf-16le", "utf-8"),
    ("windows-1252 to UTF-8", "western", "windows-1252", "utf-8"),
    ("UTF-8 to windows-1252", "western", "utf-8", "windows-1252"),
    ("Shift_JIS to UTF-8", "japanese", "shift_jis", "utf-8"),
    ("UTF-8 to Shift_JIS", "japanese", "utf-8", "shift_jis"),
    ("EUC-JP to UTF-8", "japanese", "euc-jp", "utf-8"),
    ("UTF-8 to EUC-JP", "japanese", "utf-8", "euc-jp"),
    ("ISO-2022-JP to UTF-8", "japanese", "iso-2022-jp", "utf-8"),
    ("UTF-8 to ISO-2022-JP", "japanese", "utf-8", "iso-2022-jp"),
    ("gb18030 to UTF-8", "chinese", "gb18030", "utf-8"),
    ("UTF-8 to gb18030", "chinese", "utf-8", "gb18030"),
    ("UTF-8 to GBK", "chinese", "utf-8", "gbk"),
    ("Big5 to UTF-8", "traditional", "big5", "utf-8"),
    ("UTF-8 to Big5", "traditional", "utf-8", "big5"),
    ("EUC-KR to UTF-8", "korean", "euc-kr", "utf-8"),
    ("UTF-8 to EUC-KR", "korean", "utf-8", "euc-kr"),
]

# Texts in which much is lost: name, text, the encoding that it is in, source, target.
LOSSY = [
    ("windows-1252 read as UTF-8", "western", "windows-1252", "utf-8", "utf-8"),
    ("Big5 to EUC-JP", "traditional", "big5", "big5", "euc-jp"),
    ("mixed, UTF-8 to Shift_JIS", "mixed", "utf-8", "utf-8", "shift_jis"),
]

# Damaged inputs: name, what stands in an ASCII text, in how many bytes it does once, source, target.
DAMAGED = [
    ("a malformed byte in 7, UTF-8 to UTF-8", b"\xff", 7, "utf-8", "utf-8"),
    ("a malformed byte in 1000, UTF-8 to UTF-8", b"\xff", 1000, "utf-8", "utf-8"),
    ("a lost character in 7 bytes, UTF-8 to windows-1252", "\u65e5".encode(), 7, "utf-8", "windows-1252"),
    ("a lost character in 1000 bytes, UTF-8 to windows-1252", "\u65e5".encode(), 1000, "utf-8", "windows-1252"),
]

# The sources and targets of the shortest runs.
STARTS = [("utf-8", "utf-8"), ("shift_jis", "utf-8"), ("gb18030", "utf-8"), ("big5", "euc-jp")]

# The names that iconv and uconv have for the same tables, and those of Python's codecs, if they differ.
ICONV = {"windows-1252": "CP1252", "shift_jis": "CP932", "euc-kr": "UHC"}
UCONV = {"shift_jis": "windows-31j", "euc-kr": "windows-949"}
PYTHON = {"windows-1252": "cp1252", "shift_jis": "cp932", "euc-kr": "cp949"}


def characters(index, start, end):
    """The characters of an index from one pointer to below another."""
    found = []
    with open(os.path.join(INDEXES, "index-%s.txt" % index), encoding="utf-8") as text:
        for line in text:
            if line.strip() and not line.startswith("#"):
                pointer, code = line.split()[:2]
                if start <= int(pointer) < end:
                    found.append(chr(int(code, 16)))
    return found


def texts():
    """Texts of half a million characters, each of words from a few ranges with their shares."""
    rng = random.Random("programs")
    latin = [chr(c) for c in range(0x61, 0x7B)]
    accents = list("éèàêçôûâîïëüöäßñáíóúãõøåæœ")
    kana = [chr(c) for c in range(0x3041, 0x3094)] + [chr(c) for c in range(0x30A1, 0x30F7)]
    kanji = characters("jis0208", 1410, 4375)
    hanzi = [c for row in range(0x2F, 0x57) for c in characters("gb18030", row * 190 + 96, row * 190 + 190)]
    hanzi = [c for c in hanzi if c < "\uE000"]
    traditional = characters("big5", 5495, 10896)
    hangul = [c for row in range(0x2F, 0x48) for c in characters("euc-kr", row * 190 + 96, row * 190 + 190)]
    greek = [chr(c) for c in range(0x3B1, 0x3CA)]
    cyrillic = [chr(c) for c in range(0x430, 0x450)]
    emoji = [chr(c) for c in range(0x1F600, 0x1F640)]
    parts = {
        "ascii": [(1, latin)],
        "western": [(7, latin), (3, latin + accents)],
        "japanese": [(6, kana), (3, kanji), (1, latin)],
        "chinese": [(9, hanzi), (1, latin)],
        "traditional": [(9, traditional), (1, latin)],
        "korean": [(9, hangul), (1, latin)],
        "mixed": [(4, latin), (2, accents), (2, greek), (2, cyrillic), (2, kana), (2, hanzi), (1, hangul), (1, emoji)],
    }
    for name, ranges in parts.items():
        words, count = [], 0
        while count < 500_000:
            letters = rng.choices([r for _, r in ranges], weights=[w for w, _ in ranges])[0]
            word = "".join(rng.choices(letters, k=rng.randint(1, 9)))
            count += len(word) + 1
            words.append(word + ("\n" if rng.random() < 0.1 else " "))
        yield name, "".join(words)


def run(command, source, target, log=os.devnull):
    """Runs a command from one file to another: processor time, and the exit status."""
    with open(source, "rb") as stdin, open(target, "wb") as stdout, open(log, "wb") as stderr:
        process = subprocess.Popen(command, stdin=stdin, stdout=stdout, stderr=stderr)
        _, status, usage = os.wait4(process.pid, 0)
        process.returncode = os.waitstatus_to_exitcode(status)
    return usage.ru_utime + usage.ru_stime, process.returncode


def resident(command, source):
    """The largest resident set that is seen in some runs, in MB: a short run may end before it is looked at."""
    most = 0
    for _ in range(5):
        most = max(most, resident_once(command, source))
    return most


def resident_once(command, source):
    most = 0
    with open(source, "rb") as stdin, open(os.devnull, "wb") as none:
        process = subprocess.Popen(command, stdin=stdin, stdout=none, stderr=none)
        while process.poll() is None:
            try:
                with open("/proc/%d/status" % process.pid) as status:
                    lines = [line.split() for line in status if line.startswith("VmHWM")]
                most = max([most] + [int(line[1]) / 1024 for line in lines])
            except OSError:
                pass
            time.sleep(0.001)
    return most


def peer(work, *features):
    """The program over encoding_rs with these features, built if it can be."""
    if not shutil.which("cargo") or not os.path.isdir("/usr/share/cargo/registry"):
        return None
    folder = os.path.join(work, "-".join(("programs", *features)))
    shutil.copytree(os.path.join(HERE, "programs"), folder)
    built = subprocess.run(["cargo", "build", "--release", "--offline", "--quiet", "--features", ",".join(features)], cwd=folder)
    return os.path.join(folder, "target", "release", "programs") if built.returncode == 0 else None


def recode(program, source, target, *options):
    return [program, "--from", source, "--to", target, "--mark", "keep", "--indexes", INDEXES, *options]


def peers(work):
    """What `recode` is compared with, by name: what to run for two encodings."""
    tools = {}
    other, fast = peer(work), peer(work, "fast")
    if other:
        tools["encoding_rs"] = lambda source, target: [other, source, target]
    if fast:
        tools["encoding_rs, fast"] = lambda source, target: [fast, source, target, "65536"]
    for name, names in (("iconv", ICONV), ("uconv", UCONV)):
        if shutil.which(name):
            tools[name] = lambda source, target, name=name, names=names: [
                name, "-f", names.get(source, source), "-t", names.get(target, target)]
    return tools


class Ratio:
    """How many times as fast the first of two commands is, by rounds in turns."""

    def __init__(self, ratios):
        self.median = statistics.median(ratios)
        self.low, _, self.high = statistics.quantiles(ratios, n=4) if len(ratios) > 1 else 3 * ratios

    def is_steady(self):
        return self.high - self.low <= self.median / 10

    def shown_median(self):
        return "%s%.2f" % ("" if self.is_steady() else "~", self.median)

    def __str__(self):
        return "%s (%.2f to %.2f)" % (self.shown_median(), self.low, self.high)


def compared(ours, theirs, path, rounds, targets=(os.devnull, os.devnull)):
    """The ratio of two commands on an input, and the median time of each. The targets are of the output and the log."""
    ratios, own, other = [], [], []
    before = run(theirs, path, *targets)[0]
    for number in range(MOST_ROUNDS * rounds):
        if number >= rounds and number % rounds == 0 and Ratio(ratios).is_steady():
            break
        spent = run(ours, path, *targets)[0]
        after = run(theirs, path, *targets)[0]
        ratios.append((before + after) / 2 / spent)
        own.append(spent)
        other.append(after)
        before = after
    return Ratio(ratios), statistics.median(own), statistics.median(other)


def same_output(ours, theirs, path, work):
    """Whether two commands write the same."""
    targets = [os.path.join(work, name) for name in ("ours", "theirs")]
    for command, target in zip((ours, theirs), targets):
        run(command, path, target)
    with open(targets[0], "rb") as first, open(targets[1], "rb") as second:
        return first.read() == second.read()


def write_input(work, block, megabytes, name="input"):
    path = os.path.join(work, name)
    with open(path, "wb") as output:
        output.write(block * max(1, megabytes * 1_000_000 // len(block)))
    return path


def workload(program, tools, title, labels, path, work, rounds):
    """A row of the table: its cells, and the ratio to each peer by its name."""
    ours = recode(program, *labels)
    size = os.path.getsize(path) / 1e6
    ratios, speeds, own = {}, [], []
    for name, command in tools.items():
        theirs = command(*labels)
        if run(theirs, path, os.devnull)[1] not in ((0,) if name == "iconv" else (0, 1)):
            speeds.append("fails")
            continue
        ratios[name], spent, other = compared(ours, theirs, path, rounds)
        own.append(spent)
        speeds.append("%.0f" % (size / other))
    if "encoding_rs" in tools and not same_output(ours, tools["encoding_rs"](*labels), path, work):
        title += " (differs)"
    wide, _, _ = compared(recode(program, *labels, "--pivot", "utf16"), ours, path, rounds)
    cells = [title, "%.0f" % (size / statistics.median(own))] + speeds
    cells += [str(ratios[name]) if name in ratios else "-" for name in tools]
    return cells + [str(wide), "%.1f" % resident(ours, path)], ratios


def start_rows(program, tools, work, rounds):
    """Rows of the processor time of a run of 100 bytes, in milliseconds: the indexes of both encodings are read."""
    path = os.path.join(work, "input")
    with open(path, "wb") as output:
        output.write(b"x" * 100)
    for labels in STARTS:
        commands = [recode(program, *labels)] + [command(*labels) for command in tools.values()]
        times = [[] for _ in commands]
        for _ in range(8 * rounds):
            for spent, command in zip(times, commands):
                spent.append(run(command, path, os.devnull)[0])
        yield ["%s to %s" % labels] + ["%.1f" % (1000 * statistics.median(spent)) for spent in times]


# The sizes of input, in MB, that show how the cost of a run grows.
SIZES = (10, 100)

# What the numbers of a result are.
SPEED_UNIT = 'MB of input a second of processor time; "to" says how many times as fast recode is, with quartiles'
GROWTH_UNIT = "milliseconds of processor time for each MB"

# How many times the rounds are run, at most, until a ratio is steady.
MOST_ROUNDS = 5


def growth(program, labels, block, work, rounds):
    """Processor time for each MB of each size, in milliseconds, the ratio of the two, and the largest resident sets."""
    ours = recode(program, *labels)
    paths = [write_input(work, block, size, "%d MB" % size) for size in SIZES]
    sizes = [os.path.getsize(path) / 1e6 for path in paths]
    spent, ratios = [[], []], []
    for number in range(MOST_ROUNDS * rounds):
        if number >= rounds and number % rounds == 0 and Ratio(ratios).is_steady():
            break
        costs = [run(ours, path, os.devnull)[0] / size * 1000 for path, size in zip(paths, sizes)]
        ratios.append(costs[1] / costs[0])
        for all_costs, cost in zip(spent, costs):
            all_costs.append(cost)
    cells = ["%.2f" % statistics.median(costs) for costs in spent]
    return cells + [str(Ratio(ratios))] + ["%.1f" % resident_once(ours, path) for path in paths]


def damaged(block, fault, distance):
    """A text with a fault in each so many bytes."""
    kept = distance - len(fault)
    return b"".join(block[at : at + kept] + fault for at in range(0, len(block), kept))


def damaged_inputs():
    """The inputs with many faults: name, bytes, source, target."""
    made = dict(texts())
    for title, fault, distance, source, target in DAMAGED:
        yield title, damaged(made["ascii"].encode(), fault, distance), source, target
    for title, text, encoding, source, target in LOSSY:
        yield title, made[text].encode(PYTHON.get(encoding, encoding), "ignore"), source, target


def measure_damaged(given, work):
    """The head and rows of inputs with many losses: speeds of ours, beside its peers, to /dev/null and to files."""
    tools = {name: command for name, command in peers(work).items() if name == "encoding_rs"}
    tools["iconv -c"] = lambda source, target: [
        "iconv", "-c", "-f", ICONV.get(source, source), "-t", ICONV.get(target, target)]
    files = [os.path.join(work, name) for name in ("output", "log")]
    rows = []
    for title, block, source, target in damaged_inputs():
        if given.words and not any(word.lower() in title.lower() for word in given.words):
            continue
        path = write_input(work, block, given.megabytes)
        cells = [title]
        for targets in ((os.devnull, os.devnull), files):
            found = [compared(recode(given.program, source, target), command(source, target), path, given.rounds, targets)
                     for command in tools.values()]
            own = statistics.median(spent for _, spent, _ in found)
            cells += ["%.1f" % (os.path.getsize(path) / 1e6 / own)] + [str(ratio) for ratio, _, _ in found]
        rows.append(cells)
        print(" | ".join(cells), flush=True)
    head = ["Damaged input"]
    for where in ("to /dev/null", "to files"):
        head += ["recode " + where] + ["to %s, %s" % (name, where) for name in tools]
    return head, rows


def table(head, rows):
    lines = ["| " + " | ".join(head) + " |", "|---|" + "---:|" * (len(head) - 1)]
    return "\n".join(lines + ["| " + " | ".join(cells) + " |" for cells in rows])


def plot(rows):
    """An SVG of the ratios of each workload, on a scale of powers of two."""
    import math

    colours = {"encoding_rs": "#2b6cb0", "encoding_rs, fast": "#90cdf4", "iconv": "#b7791f", "uconv": "#f6ad55"}
    left, unit, height = 210, 80, 60
    place = lambda ratio: left + unit * (math.log2(max(ratio, 0.25)) + 2)
    width, bottom = place(16) + 60, 30 + height * len(rows)
    legend = 18 * (len(colours) + 1)
    out = ['<svg xmlns="http://www.w3.org/2000/svg" width="%d" height="%d" font-family="sans-serif" font-size="12">' % (width, bottom + legend)]
    out.append('<rect width="100%" height="100%" fill="white"/>')
    for mark in (0.25, 0.5, 1, 2, 4, 8, 16):
        stroke = "#444" if mark == 1 else "#ddd"
        out.append('<line x1="%d" y1="24" x2="%d" y2="%d" stroke="%s"/>' % (place(mark), place(mark), bottom, stroke))
        out.append('<text x="%d" y="16" text-anchor="middle">%g</text>' % (place(mark), mark))
    for number, (title, ratios) in enumerate(rows):
        top = 30 + height * number
        out.append('<text x="%d" y="%d" text-anchor="end">%s</text>' % (left - 8, top + 30, title))
        for offset, (name, ratio) in enumerate(ratios.items()):
            start, end = sorted((place(1), place(ratio.median)))
            y = top + 3 + 13 * offset
            out.append('<rect x="%.1f" y="%d" width="%.1f" height="11" fill="%s"/>' % (start, y, max(end - start, 1), colours[name]))
            out.append('<text x="%.1f" y="%d" font-size="10">%.2f</text>' % (max(end, place(1)) + 4, y + 10, ratio.median))
    for number, (name, colour) in enumerate(colours.items()):
        y = bottom + 10 + 18 * number
        out.append('<rect x="%d" y="%d" width="11" height="11" fill="%s"/>' % (left, y, colour))
        out.append('<text x="%d" y="%d">recode to %s (above 1: recode is faster)</text>' % (left + 16, y + 10, name))
    return "\n".join(out + ["</svg>"]) + "\n"


def code():
    """The last commit that changed what is measured, and whether it was changed since."""
    def said(*words):
        return subprocess.run(["git", *words, "--", *SOURCES], cwd=HERE, capture_output=True, text=True).stdout.strip()

    commit = said("log", "-1", "--format=%h") or "no commit"
    return commit + " with changes" if said("status", "--porcelain") else commit


def machine(given):
    """On what, when and how it was measured, in a sentence."""
    with open("/proc/cpuinfo") as info:
        model = next(line.split(":")[1].strip() for line in info if line.startswith("model name"))
    kit = subprocess.run(["rt", "version"], capture_output=True, text=True).stdout.split("\n")[0]
    size = "%d and %d" % SIZES if given.linear else given.megabytes
    return "Measured on %s: code of %s; %s, %d processors, load %.1f at the start; %s; %d rounds of %s MB." % (
        time.strftime("%Y-%m-%d", time.gmtime()), code(), model, os.cpu_count(), os.getloadavg()[0], kit, given.rounds, size)


def versions(*names):
    """The versions of peers, in words."""
    said = []
    for name in names:
        if name == "encoding_rs":
            found = sorted(glob.glob("/usr/share/cargo/registry/encoding_rs-[0-9]*"))
            said += [os.path.basename(path).replace("-", " ") for path in found[:1]]
        elif shutil.which(name):
            lines = subprocess.run([name, "--version"], capture_output=True, text=True).stdout.split("\n")
            said.append(lines[0] if lines[0].startswith(name) else "%s %s" % (name, lines[0]))
    return ", ".join(said)


def record(name, about, head, rows):
    """Writes bench/results/NAME.tsv: a line that says what was measured, where and when, a line with the names of the
    columns, and a line for each row. A ratio with its quartiles has three columns."""
    columns = []
    for title, cells in zip(head, zip(*rows)):
        ratios = [RATIO.fullmatch(cell) for cell in cells]
        if not any(ratios):
            columns.append([title, *cells])
            continue
        for number, part in enumerate((title, title + " low", title + " high"), start=1):
            columns.append([part] + [ratio.group(number) if ratio else "" for ratio in ratios])
    os.makedirs(RESULTS, exist_ok=True)
    with open(os.path.join(RESULTS, name + ".tsv"), "w", encoding="utf-8") as file:
        file.write("# %s\n" % about)
        for line in zip(*columns):
            file.write("\t".join(cell.replace("`", "") for cell in line) + "\n")


def write(path, name, text):
    """Puts a text between the marks with its name in a document."""
    with open(path, encoding="utf-8") as document:
        whole = document.read()
    begin, end = "<!-- %s -->\n" % name, "<!-- end of %s -->\n" % name
    before, _, rest = whole.partition(begin)
    _, _, behind = rest.partition(end)
    with open(path, "w", encoding="utf-8") as document:
        document.write(before + begin + text + "\n" + end + behind)


def chosen(words):
    """The workloads that have one of the words in their names, or all."""
    for workload in WORKLOADS:
        if not words or any(word.lower() in workload[0].lower() for word in words):
            yield workload


def measure_growth(given, work):
    """The head and rows of how the cost of each workload grows with its input."""
    made = dict(texts())
    rows = []
    for title, text, source, target in chosen(given.words):
        block = made[text].encode(PYTHON.get(source, source))
        rows.append([title] + growth(given.program, (source, target), block, work, given.rounds))
        print(" | ".join(rows[-1]), flush=True)
    head = ["Workload", *("ms a MB, of %d MB" % size for size in SIZES), "second to first"]
    return head + ["resident of %d MB, in MB" % size for size in SIZES], rows


def main():
    parser = argparse.ArgumentParser(description=__doc__, formatter_class=argparse.RawDescriptionHelpFormatter)
    parser.add_argument("--rounds", type=int, default=15)
    parser.add_argument("--megabytes", type=int, default=8)
    parser.add_argument("--program", default=RECODE)
    parser.add_argument("--linear", action="store_true")
    parser.add_argument("--damaged", action="store_true")
    parser.add_argument("--write", action="store_true")
    parser.add_argument("words", nargs="*")
    given = parser.parse_args()
    document = os.path.join(HERE, "..", "docs", "PERFORMANCE.md")
    with tempfile.TemporaryDirectory(dir="/dev/shm" if os.path.isdir("/dev/shm") else None) as work:
        if given.linear:
            about, (head, rows) = machine(given), measure_growth(given, work)
            print(about)
            if given.write:
                record("growth", "How the cost of a run of recode grows: %s. %s" % (GROWTH_UNIT, about), head, rows)
            return
        if given.damaged:
            about, (head, rows) = machine(given), measure_damaged(given, work)
            print(about)
            if given.write:
                what = "Inputs with many losses, beside %s: %s." % (versions("encoding_rs", "iconv"), SPEED_UNIT)
                record("damaged", what + " " + about, head, rows)
            return
        tools = peers(work)
        head = ["Workload", "recode", *tools, *("to " + name for name in tools), "pivot of UTF-16 to that of UTF-8", "resident, MB"]
        about = machine(given)
        print(about, flush=True)
        made = dict(texts())
        rows, ratios = [], []
        for title, text, source, target in chosen(given.words):
            path = write_input(work, made[text].encode(PYTHON.get(source, source)), given.megabytes)
            cells, measured = workload(given.program, tools, title, (source, target), path, work, given.rounds)
            rows.append(cells)
            ratios.append((title, measured))
            print(" | ".join(cells), flush=True)
        starts = list(start_rows(given.program, tools, work, given.rounds))
        start_head = ["100 bytes", "recode", *tools]
        print(table(start_head, starts))
    if given.write:
        peer_versions = versions("encoding_rs", "iconv", "uconv")
        record("programs", "Whole runs, beside %s: %s. %s" % (peer_versions, SPEED_UNIT, about), head, rows)
        what = "Whole runs of 100 bytes, beside %s: milliseconds of processor time." % peer_versions
        record("starts", what + " " + about, start_head, starts)
        shown = [[title] + [measured[name].shown_median() if name in measured else "-" for name in tools] for title, measured in ratios]
        start = "; ".join(about.split("; ")[:2])
        write(document, "programs", start + ".\n\n" + table(["Workload", *tools], shown))
        with open(os.path.join(HERE, "..", "docs", "programs.svg"), "w", encoding="utf-8") as picture:
            picture.write(plot(ratios))


if __name__ == "__main__":
    sys.exit(main())
