#!/usr/bin/env python3
"""Writes each list of the encodings and of the indexes from `tools/encodings.toml`: `make generate`.

    python3 tools/generate_encodings.py [--check]

A file of such a list begins with a line that says so; a list that is a part of a file stands between such a line
and a line `end`. What a program must print of a list is a line of its stored output. With `--check` nothing is written:
the files that differ are named, and the status is 1 if there are any (`make lint`). This needs
Python 3.11.
"""

import os
import re
import sys
import tomllib

TOP = os.path.abspath(os.path.join(os.path.dirname(os.path.abspath(__file__)), ".."))
WRITTEN = "Written by tools/generate_encodings.py from tools/encodings.toml; do not edit."
COLUMNS = 100
# The most columns of the elements of a call, a tuple or an array that `rt fmt` leaves on one line.
SHORT = 60


def words_of(name):
    """The parts of a name: letters and numbers."""
    return re.findall(r"[A-Za-z]+|[0-9]+", name)


def variant(name):
    """The name of a variant: Iso8859_8I of ISO-8859-8-I."""
    parts, last = [], ""
    for word in words_of(name):
        parts.append("_" if word.isdigit() and last.isdigit() else "")
        parts.append(word.capitalize())
        last = word
    return "".join(parts)


def constant(name):
    return name.upper().replace("-", "_")


def natural(name):
    """A key by which names stand as in a list of imports: numbers by their value, and _ before all else."""
    parts = re.findall(r"_|[0-9]+|[^_0-9]", name)
    return [(0, 0, "") if part == "_" else (1, int(part), "") if part.isdigit() else (2, 0, part) for part in parts]


with open(os.path.join(TOP, "tools", "encodings.toml"), "rb") as file:
    DATA = tomllib.load(file)
# The encodings in the standard's order, and in that of their numbers; and the indexes.
STANDARD = DATA["encodings"]
ENCODINGS = sorted(STANDARD, key=lambda row: natural(constant(row["name"])))
INDEXES = DATA["indexes"]
SINGLE_BYTE = [row for row in ENCODINGS if row["codec"] == "SingleByte"]
CONSTANTS = [constant(row["name"]) for row in ENCODINGS]
VARIANTS = [variant(row["name"]) for row in ENCODINGS]
KINDS = [variant(row["name"]) for row in INDEXES]
LABELS = [(label, constant(row["name"])) for row in STANDARD for label in row["labels"].split(" ")]


def packed(items, indent, end=","):
    """Items with commas, as many on a line as fit."""
    lines = []
    for item in items:
        if lines and len(lines[-1]) + 1 + len(item) + len(end) < COLUMNS:
            lines[-1] += " " + item + end
        else:
            lines.append(indent + item + end)
    return lines


def imports(path, names, word="use"):
    return ["%s %s::{" % (word, path), *packed(sorted(names, key=natural), "    "), "};"]


def inner(before, items, after, indent=""):
    """A call, a tuple or an array in one line, or with a line for each element."""
    short = ", ".join(items)
    if len(short) <= SHORT and len(indent + before + short + after) <= COLUMNS:
        return [indent + before + short + after]
    return [indent + before, *(indent + "    " + item + "," for item in items), indent + after]


def listed(items):
    """A list of the definitions."""
    return " ∷ ".join([*items, "[]"])


def kinds_of(row):
    return ["IndexKind::" + variant(name) for name in row["indexes"]]


# crates/encoding_labels


def places():
    lines = [
        "//! The number of each encoding in the list of all of them, from 0. The list has the encodings of",
        "//! the Encoding Standard, in the order of the names below.",
        "",
    ]
    for number, name in enumerate(CONSTANTS):
        lines += ["pub const %s: usize = %d;" % (name, number), ""]
    return lines + ["/// How many encodings there are.", "pub const ENCODING_COUNT: usize = %d;" % len(CONSTANTS)]


def table():
    lengths = sorted({len(label) for label, _ in LABELS})
    lines = [
        "//! The labels for the search, by their length: that leaves few to compare with, and the lists need",
        "//! no order and no index. In each list the labels stand in the order of the Encoding Standard, in",
        "//! lower case, each with the number of its encoding.",
        "",
        "ghost use Rattle.std.specs.Prelude.{◌≡◌};",
        "ghost use Rattle.encoding_labels.specs.laws.ByLength.{entries, labels_of_length};",
        "",
        *imports("crate::places", CONSTANTS),
        "",
        "// The labels of this length, in bytes.",
        "#[tactic(auto, using(crate::proofs::LabelLemmas::labels_of_length_other),"
        " unfolding(crate::specs::Labels::labels))]",
        "pub(crate) fn rows_of_length(length: usize) -> &'static [(&'static str, usize)]",
        "    ensures { entries result.now ≡ labels_of_length length }",
        "{",
        "    match length {",
        *("        %d => LABELS_OF_%d," % (length, length) for length in lengths),
        "        _ => &[],",
        "    }",
        "}",
    ]
    for length in lengths:
        rows = ['("%s", %s)' % row for row in LABELS if len(row[0]) == length]
        lines += ["", *inner("const LABELS_OF_%d: &[(&str, usize)] = &[" % length, rows, "];")]
    return lines


def constants_of_places():
    names = ", ".join(["ENCODING_COUNT", *CONSTANTS])
    return ["use Rattle.encoding_labels.specs.declared.places.TheConstants.{%s}" % names]


def places_rise():
    return [
        "pub label_numbers_rise : (%s) ≡ range_with_len 0 ENCODING_COUNT" % listed(CONSTANTS),
        "label_numbers_rise = refl",
    ]


def label_names():
    return array("NAMES", "&str", ['"%s"' % row["name"].lower() for row in ENCODINGS])


# crates/encoding_tables


def kind_variants():
    note = {"gb18030-ranges": "    /// The only one with rows, each of which stands for a range of pointers."}
    lines = []
    for row in INDEXES:
        lines += [note[row["name"]]] if row["name"] in note else []
        lines.append("    %s," % variant(row["name"]))
    return lines


def kind_files():
    return ['            IndexKind::%s => "index-%s.txt",' % (variant(row["name"]), row["name"]) for row in INDEXES]


def kind_slot():
    return [
        "    // The slot of this kind among all.",
        "    pub(crate) fn slot(self) -> usize",
        "        ensures value { result ≡ slot_of self }",
        "        ensures small { result < %d }" % len(KINDS),
        "    {",
        "        self as usize",
        "    }",
    ]


def flats():
    return ["    flats: [Option<PackedIndex>; %d]," % len(KINDS)]


def no_flats():
    return ["            flats: [", *packed(["None"] * len(KINDS), " " * 16), "            ],"]


def variants_of_kinds():
    path = "Rattle.encoding_tables.specs.declared.index_kind.IndexKind.TheVariants"
    return ["use %s.{%s}" % (path, ", ".join(KINDS))]


def kind_slots():
    return ["slot_of %s = %d" % (kind, slot) for slot, kind in enumerate(KINDS)]


def all_kinds():
    return ["unfoldable pub all_kinds : List IndexKind", "all_kinds = %s" % listed(KINDS)]


def kinds_of_examples():
    of_one = {name for row in SINGLE_BYTE for name in row["indexes"]}
    single = [variant(row["name"]) for row in INDEXES if row["name"] in of_one]
    other = [variant(row["name"]) for row in INDEXES if row["name"] not in of_one]
    return [
        "abbrev single_byte_kinds : List IndexKind",
        "single_byte_kinds = %s" % listed(single),
        "",
        "abbrev other_kinds : List IndexKind",
        "other_kinds = %s" % listed(other),
    ]


# crates/encoding_front


def encoding_variants():
    return ["    %s," % name for name in VARIANTS]


def all_encodings_in_code():
    lines = ["/// All encodings, in the order of their numbers (`encoding as usize`)."]
    lines += array("ALL", "Encoding", ["Encoding::" + name for name in VARIANTS], "pub ")
    return ["    " + line for line in lines]


def all_kinds_in_code():
    lines = ["/// All kinds, in the order of the variants of `IndexKind`."]
    lines += array("ALL", "IndexKind", ["IndexKind::" + kind for kind in KINDS], "pub ")
    return ["    " + line for line in lines]


def constants():
    lines = [
        "//! The %s encodings, each with a second name. The sections are those of the Encoding Standard." % count(),
        "",
        "use crate::encoding::Encoding;",
        "",
    ]
    for row in ENCODINGS:
        lines += [
            "/// %s (section %s)." % (row["name"], row["section"]),
            "pub const %s: Encoding = Encoding::%s;" % (constant(row["name"]), variant(row["name"])),
        ]
    lines.append("")
    for name in CONSTANTS:
        lines += ["/// A second name of `%s`." % name, "pub const %s_INIT: Encoding = %s;" % (name, name)]
    return lines


def count():
    return "forty" if len(ENCODINGS) == 40 else str(len(ENCODINGS))


def both_names():
    return [name + end for name in CONSTANTS for end in ("", "_INIT")]


def front_constants():
    return imports("constants", both_names(), "pub use")


def rows():
    lines = []
    for row in ENCODINGS:
        before = "Encoding::%s => " % variant(row["name"])
        kinds = "&[%s]" % ", ".join(kinds_of(row))
        if row["codec"] == "SingleByte":
            lines += inner(before + "Row::single_byte(", ['"%s"' % row["name"], kinds], "),", " " * 8)
        else:
            items = ['"%s"' % row["name"], "CodecKind::" + row["codec"], kinds]
            lines += inner(before + "Row::new(", items, "),", " " * 8)
    return lines


def variants_alone():
    return ["use Rattle.encoding_front.specs.declared.encoding.Encoding.TheVariants.{%s}" % ", ".join(VARIANTS)]


def variants_of_encodings():
    return variants_alone() + constants_of_places()


def all_encodings():
    return [
        "abbrev pub encodings : List Encoding",
        "encodings = %s" % listed(VARIANTS),
    ]


def worked_constants():
    path = "Rattle.encoding_front.specs.declared"
    lines = [
        "-- The constants: each is named after its encoding, in upper case with _ for -, and its second name is the same"
        " value.",
        "use Rattle.std.specs.Prelude.{◌≡◌, refl}",
        "use %s.constants.TheConstants.{%s}" % (path, ", ".join(both_names())),
        "use %s.encoding.Encoding.TheVariants.{%s}" % (path, ", ".join(VARIANTS)),
    ]
    for name, value in zip(CONSTANTS, VARIANTS):
        lines += [
            "",
            "%s : (%s ≡ %s) × (%s_INIT ≡ %s)" % (name.lower(), name, value, name, value),
            "%s = (refl, refl)" % name.lower(),
        ]
    return lines


def own_indexes():
    names = [row["name"] for row in INDEXES]
    pairs = ["(%s, 0x%X)" % (variant(row["name"]), 0x100 + names.index(row["indexes"][0])) for row in SINGLE_BYTE]
    return [
        "unfoldable own_index : List (Encoding × ℕ)",
        "own_index = %s" % listed(pairs),
    ]


def tested_imports():
    return imports("encoding_front", ["Encoding", *both_names()])


def tested_encodings():
    elements = [
        '(%s, %s_INIT, "%s")' % (name, name, row["name"])
        for name, row in zip(CONSTANTS, ENCODINGS)
    ]
    return array("ALL", "(Encoding, Encoding, &str)", elements)


# Other crates


def array(name, element, elements, visible=""):
    head = "%sconst %s: [%s; %d] = [" % (visible, name, element, len(elements))
    return [head, *("    %s," % item for item in elements), "];"]


def lists_of_files():
    lines = [
        "//! The indexes, and what is printed of each.",
        "",
        "use encoding_tables::IndexKind;",
        "",
        "// The pointers that are printed of each kind.",
        "pub(crate) const POINTERS: [(IndexKind, &[u32]); %d] = [" % len(KINDS),
    ]
    for row in INDEXES:
        items = ["IndexKind::" + variant(row["name"]), "&[%s]" % ", ".join(map(str, row["pointers"]))]
        lines += inner("(", items, "),", "    ")
    return lines + ["];"]


def empty_conversions():
    return ["# No bytes, from each encoding to each.", "nothing " + " ".join(row["name"].lower() for row in ENCODINGS)]


def counted_conversions():
    """What `test_recode_cases` prints of them: each is one case, and is converted twelve times."""
    cases = len(ENCODINGS) ** 2
    return "nothing.txt: %d cases, %d conversions, 0 differences" % (cases, 12 * cases)


def kinds_by_name():
    lines = [
        "// Each kind of index by the name that cases have for it.",
        "pub(crate) const KINDS: [(&str, IndexKind); %d] = [" % len(KINDS),
    ]
    for row in INDEXES:
        word = row.get("word", row["name"])
        lines += inner("(", ['"%s"' % word, "IndexKind::" + variant(row["name"])], "),", "    ")
    return lines + ["];"]


def listing():
    return [
        "//! What `--list` prints.",
        "",
        "ghost use Rattle.recode_words.specs.Request.{IsLine};",
        "",
        "// The %s encodings, in the order of `Encoding`, a line each: the name, and after it the labels," % count(),
        '// as the Encoding Standard has them (section 4.2, "Names and labels").',
        'const LISTING: &str = "\\',
        *("%s: %s" % (row["name"], row["labels"]) for row in ENCODINGS),
        '";',
        "",
        "// What `--list` prints.",
        "pub(crate) fn listing() -> &'static str",
        "    ensures { IsLine result.now }",
        "{",
        "    LISTING",
        "}",
    ]


def labels_for_python():
    return [
        '"""The labels of the encodings, each with the name of its encoding (the Encoding Standard, section 4.2)."""',
        "",
        "LABELS = {",
        *('    "%s": "%s",' % (label, row["name"]) for row in STANDARD for label in row["labels"].split(" ")),
        "}",
    ]


# Of each file what is written: the whole, or the parts between lines that say so, in their order. Paths begin in `crates`.
WHOLE = {
    "encoding_labels/src/places.rt": places,
    "encoding_labels/src/table.rt": table,
    "encoding_front/src/constants.rt": constants,
    "encoding_front/specs/examples/Constants.antt": worked_constants,
    "test_index_files/src/lists.rt": lists_of_files,
    "recode/src/listing.rt": listing,
    "test_recode_cases/data/nothing.txt": empty_conversions,
    "../python/jillapun/_labels.py": labels_for_python,
}
PARTS = {
    "encoding_labels/specs/Labels.antt": [constants_of_places, places_rise],
    "encoding_tables/src/index_kind.rt": [kind_variants, all_kinds_in_code, kind_files, kind_slot],
    "encoding_tables/src/tables.rt": [flats, no_flats],
    "encoding_tables/specs/calls/Slots.antt": [variants_of_kinds, kind_slots],
    "encoding_tables/specs/FileNames.antt": [variants_of_kinds],
    "encoding_tables/specs/laws/Kinds.antt": [variants_of_kinds, all_kinds],
    "encoding_tables/specs/examples/Kinds.antt": [variants_of_kinds, kinds_of_examples],
    "encoding_front/src/encoding.rt": [encoding_variants, all_encodings_in_code],
    "encoding_front/src/lib.rt": [front_constants],
    "encoding_front/src/codec_kind.rt": [rows],
    "encoding_front/specs/EncodingTable.antt": [variants_of_encodings, all_encodings],
    "encoding_front/specs/examples/Encodings.antt": [variants_alone, own_indexes],
    "test_case_lines/src/kinds.rt": [kinds_by_name],
    "test_libraries/src/labels.rt": [label_names],
    "test_libraries/src/encoding.rt": [tested_imports, tested_encodings],
}
# Of each file of stored output the one line that begins so.
LINES = {"test_recode_cases/stdout": ("nothing.txt: ", counted_conversions)}


def comment(path):
    return {".rt": "//", ".txt": "#", ".py": "#"}.get(os.path.splitext(path)[1], "--")


def with_parts(path, text, parts):
    """The text of a file with its generated parts as they should be. The lines before and after a part stay."""
    lines, result, left = text.split("\n"), [], list(parts)
    begin, end, is_inside = "%s %s" % (comment(path), WRITTEN), "%s end" % comment(path), False
    for line in lines:
        if line.strip() == begin:
            if is_inside or not left:
                sys.exit("%s: a part too many" % path)
            is_inside = True
            # `rt fmt` sets a note off from the definition above it.
            result += [line, *left.pop(0)(), *([""] if path.endswith(".antt") else [])]
        elif line.strip() == end:
            is_inside = False
        if not is_inside:
            result.append(line)
    if left or is_inside:
        sys.exit("%s: a part too few" % path)
    return "\n".join(result)


def with_line(path, text, begin, line):
    """The text of a file with the one line that begins so as it should be."""
    lines = text.split("\n")
    places = [place for place, old in enumerate(lines) if old.startswith(begin)]
    if len(places) != 1:
        sys.exit("%s: %d lines begin with %s" % (path, len(places), begin))
    lines[places[0]] = line()
    return "\n".join(lines)


def wanted(path):
    if path in WHOLE:
        lines = WHOLE[path]()
        # What says what a module is stands at its head.
        head = 0
        while path.endswith(".rt") and lines[head].startswith("//!"):
            head += 1
        note = ["%s %s" % (comment(path), WRITTEN)]
        return "\n".join(lines[:head] + [""] + note + lines[head:] if head else note + lines) + "\n"
    if path in LINES:
        return with_line(path, read(path), *LINES[path])
    return with_parts(path, read(path), PARTS[path])


def read(path):
    try:
        with open(os.path.join(TOP, "crates", path), encoding="utf-8") as file:
            return file.read()
    except FileNotFoundError:
        return ""


def main(words):
    status = 0
    for path in sorted([*WHOLE, *PARTS, *LINES]):
        text = wanted(path)
        if text == read(path):
            continue
        if words == ["--check"]:
            print("%s is not what `make generate` writes" % os.path.normpath("crates/" + path))
            status = 1
        else:
            with open(os.path.join(TOP, "crates", path), "w", encoding="utf-8") as file:
                file.write(text)
    return status


if __name__ == "__main__":
    sys.exit(main(sys.argv[1:]))
