#!/usr/bin/env python3
"""The reference pages of the libraries, `docs/reference/CRATE.md`, from their sources: `make generate`.

    python3 tools/pages/reference.py

A page has each public item that a public path leads to: its doc comment, its signature and its contract, as they stand
in the source, and links from the words of the contract to the files that define them. An item that is re-exported is named
by its shortest path. At its head a page has a table of calls by what one wants to do (`reference_calls.toml`), and the
programs of `test_examples` that use it; at its end, the lemmas that proofs of callers cite. `make lint` calls `faults`: a public item without a doc comment, and a page that is not what this
script writes. It needs Python 3.11.
"""

import os
import re
import sys
import tomllib

from definitions import TOP, WORD, definitions

PAGES = os.path.join(TOP, "docs", "reference")

# The libraries, lowest first. Other crates are programs and tests.
LIBRARIES = [
    "encoding_mem", "encoding_labels", "encoding_tables", "encoding_codecs", "encoding_index", "encoding_front",
    "recode_log", "recode_places", "recode_parts", "recode_words", "recode", "recode_system", "recode_places_report",
]  # fmt: skip

# The program that makes the examples of the libraries' pages.
EXAMPLES = "test_examples"

# The programs among the examples that a page shows whole, each with what it does, and the item that has a link to it.
PROGRAMS = {
    "encoding_front": [
        ("stream_faults", "Decode a stream, and print where each malformed sequence stands", "Decoder"),
        ("stream_losses", "Encode a stream, and print where each character without bytes stands", "Encoder"),
        ("whole_texts", "Decode and encode whole texts", "Encoding"),
    ],
    "recode": [("whole_runs", "Convert bytes, and print what was lost", "run")],
}

# The lemmas of `specs/laws/` that proofs of callers cite beside contracts.
LEMMAS = {
    "encoding_mem": [
        "sizes-append", "text-append", "scalars-append", "malformed_count-append", "AreWellFormed-append",
        "well_formed_text", "well_formed_count", "lost_count-append", "none_lost", "all_mapped", "open_from-append",
        "last_set-append",
    ],
    "encoding_front": [
        "wrote_text", "wrote_scalars", "wrote_replaced", "wrote_mapped", "one_reported", "none_reported",
    ],
}  # fmt: skip

# Which calls do what, by libraries.
with open(os.path.join(TOP, "tools", "pages", "reference_calls.toml"), "rb") as file:
    CALLS = tomllib.load(file)

# Lists of names, of encodings and of their indexes: each name says what it is, and the list has the doc comment.
NAME_LISTS = {"Encoding", "IndexKind", "encoding_labels::places"}

START = re.compile(r"pub (?:const (?=fn))?(fn|struct|enum|trait|const|type) (\w+)")
HEADINGS = [
    ("trait", "Traits"), ("enum", "Types"), ("struct", "Types"), ("type", "Types"), ("fn", "Functions"),
    ("const", "Constants"),
]  # fmt: skip


class Item:
    """A public item, method, variant, field or ghost, with its doc comment and its source up to its body."""

    def __init__(self, kind, name, doc, code, place):
        self.kind, self.name, self.doc, self.code, self.place = kind, name, doc, code, place
        self.path, self.members, self.implements = None, [], []


def read(path):
    with open(path, encoding="utf-8") as file:
        return file.read()


def dedent(lines):
    some = [line for line in lines if line.strip()]
    least = min((len(line) - len(line.lstrip()) for line in some), default=0)
    return [line[least:] for line in lines]


def head(lines, start):
    """The lines from `start` up to the body of an item or to its semicolon, and the index after them."""
    code, indent = [], re.match(r" *", lines[start])[0]
    for index in range(start, len(lines)):
        line = lines[index].rstrip()
        if line in (indent + "{", indent + "{}"):
            return code, index + 1
        if line.endswith(" {") and line.startswith(indent + ")") or line.endswith(" {") and index == start:
            return code + [line[:-2]], index + 1
        code.append(line)
        if line.endswith(";") or line.endswith(" {}"):
            return code, index + 1
    return code, len(lines)


def block(lines, index):
    """The lines of a block that opened before `index`, up to the brace that closes it, and the index after it."""
    indent = None
    for end in range(index - 1, -1, -1):
        if lines[end].strip():
            indent = re.match(r" *", lines[end])[0]
            break
    for end in range(index, len(lines)):
        if lines[end].rstrip() == indent + "}":
            return lines[index:end], end + 1
    return lines[index:], len(lines)


def comment(lines, index):
    """The doc comment above a line, past its attributes."""
    found = []
    for line in reversed(lines[:index]):
        text = line.strip()
        if text.startswith("///"):
            found.append(text[4:])
        elif not text.startswith("#["):
            break
    return found[::-1]


def parts(lines, place, trait):
    """The public functions and constants of an implementation, or all functions and ghosts of a trait."""
    index = 0
    while index < len(lines):
        text = lines[index].strip()
        ghost = re.match(r"ghost (\w+):", text) if trait else None
        if ghost or re.match(r"(?:pub )?fn \w+" if trait else r"pub (?:const )?fn \w+", text):
            code, behind = head(lines, index)
            if ghost and not code[-1].endswith(";"):
                code = code[:1]
            name = ghost[1] if ghost else re.search(r"fn (\w+)", text)[1]
            yield Item("ghost" if ghost else "fn", name, comment(lines, index), code, place)
            index = behind
            continue
        constant = None if trait else re.match(r"(pub const (\w+): .+?) = ", text)
        if constant:
            yield Item("const", constant[2], comment(lines, index), [constant[1] + ";"], place)
        index += 1


def fields(lines, place, enum):
    """The variants of an enum, or the public fields of a struct."""
    depth = 0
    for index, line in enumerate(lines):
        text = line.strip()
        found = re.match(r"(\w+)\b" if enum else r"pub (\w+):", text)
        if found and depth == 0 and not text.startswith(("//", "#", "ghost ")):
            yield Item("field", found[1], comment(lines, index), [text.rstrip(",")], place)
        depth += text.count("{") - text.count("}") if not text.startswith("//") else 0


def items(path):
    """What a source file has: its page comment, its public items by name, and its implementations."""
    lines = read(path).split("\n")
    page = [line[4:] for line in lines if line.startswith("//!")]
    found, implementations, index, place = {}, [], 0, os.path.relpath(path, TOP)
    while index < len(lines):
        line = lines[index]
        implementation = re.match(r"impl\b(?:<[^{]*?>)? ?(?:(.+?) for )?([\w:]+)(.*)\{$", line)
        start = START.match(line)
        if implementation:
            body, behind = block(lines, index + 1)
            trait = (implementation[1] or "").replace("fmt::", "")
            members = [] if trait else list(parts(body, place, False))
            target = (implementation[2] + implementation[3]).strip()
            implementations.append((implementation[2], target, re.sub("<'.*?>", "", trait), members))
            index = behind
        elif start:
            kind, name = start.groups()
            code, behind = head(lines, index)
            item = Item(kind, name, comment(lines, index), code, "%s:%d" % (place, index + 1))
            derive = [text for text in lines[max(0, index - 3) : index] if text.startswith("#[derive(")]
            item.implements = re.findall(r"\w+", derive[-1][9:]) if derive else []
            found[name] = item
            if kind in ("struct", "enum", "trait") and line.endswith("{"):
                body, behind = block(lines, index + 1)
                item.members = list(parts(body, place, True) if kind == "trait" else fields(body, place, kind == "enum"))
            index = behind
        else:
            index += 1
    return page, found, implementations


def uses(text):
    """The re-exports of a file: pairs of a path and a name."""
    for path, names in re.findall(r"^pub use ([\w:]+?)(?:::\{([^}]*)\})?;", text, re.M | re.S):
        for name in re.findall(r"\w+", names) if names else [path.split("::")[-1]]:
            yield (path if names else path.rsplit("::", 1)[0]).removeprefix("crate::"), name


def library(crate):
    """A library's page comment, its items by path, and its re-exports from other crates."""
    folder = os.path.join(TOP, "crates", crate, "src")
    files = (os.path.join(place, name) for place, _, names in os.walk(folder) for name in names)
    files = {os.path.relpath(path, folder)[:-3].replace(os.sep, "::"): path for path in sorted(files)}
    texts = {name: read(path) for name, path in files.items()}
    private = {trait for text in texts.values() for trait in re.findall(r"^(?:pub\(crate\) )?trait (\w+)", text, re.M)}
    sources = {name: items(path) for name, path in files.items()}
    root, page, foreign = texts["lib"], sources["lib"][0], []
    paths = {("lib", name): name for name in sources["lib"][1]}
    modules = {name: name for name in re.findall(r"^pub mod (\w+);", root, re.M)}
    modules |= {"%s::%s" % use: use[1] for use in uses(root) if "%s::%s" % use in sources}
    for module, path in modules.items():
        reached = [(module, name) for name in sources[module][1]]
        for origin, name in reached + list(uses(texts[module])):
            paths[origin, name] = "%s::%s" % (path, name)
    for origin, name in uses(root):
        if "%s::%s" % (origin, name) in modules:
            continue
        if origin in sources:
            paths[origin, name] = name
        else:
            foreign.append("%s::%s" % (origin, name))
    found = []
    for (origin, name), path in paths.items():
        item = sources[origin][1][name]
        item.path = path
        found.append(item)
    types = {item.name: item for item in found}
    aliases = {item.code[0].split(" = ")[1].rstrip(";"): item.name for item in found if item.kind == "type"}
    for _, _, implementations in sources.values():
        for name, target, trait, members in implementations:
            name = aliases.get(target, name)
            if name in types and trait and trait not in private:
                types[name].implements.append(trait)
            elif name in types and not trait:
                types[name].members += members
    return page, sorted(found, key=lambda item: (item.path.count("::"), item.path.lower())), sorted(foreign)


def public_words():
    """The public definitions of the libraries by their names, of which each has one."""
    found, _ = definitions(LIBRARIES)
    return {d.name: d for d in found.values() if re.match(r"(?:abbrev |unfoldable |irrelevant )*pub ", d.source[0])}


WORDS = public_words()


def brought(place):
    """The definitions that a source file brings in for its contracts."""
    path = os.path.join(TOP, place.split(":")[0])
    if path not in BROUGHT:
        uses = re.findall(r"^ *ghost use Rattle\.[^{]*\.\{([^}]*)\};", read(path), re.M)
        BROUGHT[path] = {name.strip() for names in uses for name in names.split(",")} & set(WORDS)
    return BROUGHT[path]


BROUGHT = {}


def words_of(item):
    """The words of an item's contract, in their order: not the names of its clauses."""
    text = re.sub(r"\b(requires|ensures) \w+ \{", r"\1 {", "\n".join(item.code))
    start = re.search(r"\b(?:requires|ensures)\b", text)
    contract = text[start.start() :] if start else ""
    return list(dict.fromkeys(word for word in WORD.findall(contract) if word in brought(item.place)))


def linked(item):
    """The line that links the words of an item's contract, and a line after it, or nothing."""
    words = words_of(item)
    if words:
        yield "Words: %s." % ", ".join("[`%s`](../../%s)" % (word, WORDS[word].path) for word in words)
        yield ""


def anchor(heading):
    """The name of a heading's anchor."""
    return re.sub(r"[^\w -]", "", heading.lower()).replace(" ", "-")


def link(item, crate):
    return "[`%s`](#%s)" % (item.path, anchor("%s::%s" % (crate, item.path)))


def methods(item):
    return [part for part in item.members if part.kind == "fn"]


def method_link(item, part):
    return "[`%s`](#%s)" % (part.name, anchor("%s::%s" % (item.name, part.name)))


def contents(found, crate):
    """A line for each kind of item, with a link to each of them; and below it one for each that has calls of its own."""
    for heading in dict.fromkeys(heading for _, heading in HEADINGS):
        kinds = [kind for kind, of in HEADINGS if of == heading]
        here = [item for item in found if item.kind in kinds and not item.path.startswith("laws::")]
        plain = [link(item, crate) for item in here if not methods(item)]
        if here and heading == "Constants":
            yield "- [%s](#%s)." % (heading, anchor(heading))
        elif here:
            yield "- %s:%s" % (heading, " " + ", ".join(plain) + "." if plain else "")
        for item in here:
            if methods(item):
                yield "  - %s: %s." % (link(item, crate), ", ".join(method_link(item, part) for part in methods(item)))
    laws = [item for item in found if item.path.startswith("laws::")]
    if laws:
        links = ("[`%s`](#%s)" % (item.name, anchor("%s::%s" % (crate, item.path))) for item in laws)
        yield "- Laws: %s." % ", ".join(links)
    if crate in LEMMAS:
        yield "- [Lemmas](#lemmas)."


def call_links(found, foreign, crate):
    """How each call of a page is written in its table: a link, or the name alone of what stands on another page."""
    links = {item.path: link(item, crate) for item in found}
    for name in ("%s::%s" % (item.name, part.name) for item in found for part in methods(item)):
        links[name] = "[`%s`](#%s)" % (name, anchor(name))
    for path in foreign:
        origin, name = path.split("::")[0], path.split("::")[-1]
        links[name] = "[`%s`](%s.md#%s)" % (name, origin, anchor("%s::%s" % (origin, name)))
    return links


def calls_table(found, foreign, crate):
    """Which call does what."""
    links = call_links(found, foreign, crate)
    yield from ["| To do | Call |", "|---|---|"]
    for row in CALLS[crate]:
        yield "| %s | %s |" % (row["to"], ", ".join(links.get(call, "`%s`" % call) for call in row["calls"]))


def programs(crate):
    """The programs of a page, from their imports to their end."""
    for name, does, _ in PROGRAMS.get(crate, []):
        path = "crates/%s/src/%s.rt" % (EXAMPLES, name)
        lines = read(os.path.join(TOP, path)).rstrip("\n").split("\n")
        start = next(number for number, line in enumerate(lines) if line.startswith("use "))
        yield from ["### " + does, "", "The gate proves and runs it ([%s.rt](../../%s))." % (name, path), ""]
        yield from ["```rust", *lines[start:], "```", ""]


def lemma(crate, name):
    """What a lemma says, by its statement if that is one line, else by the lines above it; and its place."""
    folder = os.path.join(TOP, "crates", crate, "specs", "laws")
    for file in sorted(os.listdir(folder)):
        lines = read(os.path.join(folder, file)).split("\n")
        for number, line in enumerate(lines):
            if line.startswith("pub %s : " % name):
                above = next(start for start in range(number, 0, -1) if not lines[start - 1].startswith("-- "))
                is_short = not lines[number + 1].startswith(" ")
                said = "`%s`" % line.split(" : ", 1)[1] if is_short else " ".join(text[3:] for text in lines[above:number])
                place = "[%s:%d](../../crates/%s/specs/laws/%s#L%d)" % (file, number + 1, crate, file, number + 1)
                return said, place
    raise SystemExit("tools/pages/reference.py: %s has no lemma %s" % (crate, name))


def lemmas(crate):
    """The lemmas that proofs of callers cite."""
    if crate in LEMMAS:
        yield from ["## Lemmas", "", "What proofs of callers cite beside contracts and laws, from `specs/laws/`.", ""]
        yield from ["| Lemma | What it says | Place |", "|---|---|---|"]
        for name in LEMMAS[crate]:
            yield "| `%s` | %s | %s |" % (name, *lemma(crate, name))


def programs_of(item, crate):
    """The line of an item that links its programs, or nothing."""
    found = [does for _, does, name in PROGRAMS.get(crate, []) if name == item.path]
    if found:
        yield "In use: %s." % ", ".join("[%s](#%s)" % (does[0].lower() + does[1:], anchor(does)) for does in found)
        yield ""


def entry(item, crate):
    """The lines of one item on its page: of a constant one line, with its value."""
    if item.kind == "const":
        value = " ".join(line.strip() for line in item.code).split(": ", 1)[1].rstrip(";")
        yield " ".join(["- `%s::%s: %s`." % (crate, item.path, value)] + item.doc)
        return
    yield "### `%s::%s`" % (crate, item.path)
    yield ""
    yield from item.doc + [""]
    yield from programs_of(item, crate)
    code = item.code
    shown = [part for part in item.members if part.kind == "field"]
    if item.kind in ("enum", "struct") and shown:
        code = [code[0] + " {"] + ["    %s," % part.code[0].rstrip("{ ").rstrip() for part in shown] + ["}"]
    yield from ["```rust"] + dedent(code) + ["```", ""]
    yield from linked(item)
    if item.implements:
        yield "Implements %s." % ", ".join("`%s`" % trait for trait in sorted(set(item.implements)))
        yield ""
    for part in shown:
        if part.doc:
            yield "- `%s`: %s" % (part.name, " ".join(part.doc))
    if any(part.doc for part in shown):
        yield ""
    constants = [part for part in item.members if part.kind == "const"]
    for part in constants:
        yield "- `%s`: %s" % (part.code[0].rstrip(";"), " ".join(part.doc))
    if constants:
        yield ""
    for part in item.members:
        if part.kind == "ghost":
            yield "- ghost `%s`: %s" % (part.name, " ".join(part.doc))
    if any(part.kind == "ghost" for part in item.members):
        yield ""
    for part in item.members:
        if part.kind == "fn":
            yield from ["#### `%s::%s`" % (item.name, part.name), ""] + part.doc + [""]
            yield from ["```rust"] + dedent(part.code) + ["```", ""]
            yield from linked(part)


# How a program uses the libraries: on the page that lists them.
HELLO = """
## Hello

The module `mem` of encoding_rs is `encoding_mem`, the lowest crate; `Encoding`, `Decoder`, `Encoder` and the calls for whole texts are `encoding_front`. `encoding_index` reads index texts into the tables of `encoding_tables`. `recode` converts from a reader to a writer and a log, or from bytes to bytes.

To use them, copy the crates that yours names, and those below them, with their lines of `crates.txt`: here into a new folder `hello` beside this one (`jillapun`). The proofs that `make build` has made are copied with them.

    cd .. && mkdir -p hello/crates/hello/src && cd hello
    for crate in encoding_{mem,labels,tables,codecs,index,front}; do
        cp -a ../jillapun/crates/$crate crates/; grep ^$crate: ../jillapun/crates.txt >> crates.txt
    done
    echo 'hello: encoding_front encoding_index encoding_tables anyhow' >> crates.txt
    cp ../jillapun/indexes/index-jis0208.txt crates/hello

The program is `crates/hello/src/main.rt`. `cd crates/hello && rt run` proves it, builds it and prints `Aハ� Shift_JIS true` (`rt try --data index-jis0208.txt=index-jis0208.txt` runs it without a proof):

    #![tactic(auto)]
    use {anyhow::ensure, encoding_front::SHIFT_JIS, encoding_index::load};
    use {encoding_tables::{IndexKind, Tables}, std::fs};

    fn main(rt: HostRuntime) -> anyhow::Result<()> {
        let index = fs::read(&rt, IndexKind::Jis0208.file_name())?;
        let mut tables = Tables::new(rt.alloc());
        load(rt.alloc(), &mut tables, IndexKind::Jis0208, &index)?;
        ensure!(SHIFT_JIS.is_ready(&tables), "an index is missing");
        let (text, found, is_lossy) = SHIFT_JIS.decode(rt.alloc(), &tables, b"A\\x83\\x6e\\xff")?;
        println!(rt; "{text} {} {is_lossy}", found.name())?;
        Ok(())
    }
"""


def pages():
    """The name and the text of each page."""
    index = ["# Reference", "", "What each library offers, from its sources, by `make generate` (`tools/pages/reference.py`)."]
    index += ["A contract says what a call requires and ensures; each word of it links the definition. The [glossary](../GLOSSARY.md) explains the terms.", ""]
    for crate in LIBRARIES:
        page, found, foreign = library(crate)
        lines = ["# %s" % crate, "", "<!-- Written by tools/pages/reference.py from the sources; do not edit. -->", ""]
        use = page.index("# Use") if "# Use" in page else len(page)
        lines += page[:use] + [""]
        if crate in CALLS:
            lines += ["## Which call", "", *calls_table(found, foreign, crate), ""]
        lines += ["## Contents", ""] + list(contents(found, crate)) + [""]
        if foreign:
            lines += ["Re-exported from lower crates: %s." % ", ".join("`%s`" % name for name in foreign), ""]
        lines += ["#" + line if line.startswith("# ") else line for line in page[use:]] + [""]
        lines += list(programs(crate))
        for heading in dict.fromkeys(heading for _, heading in HEADINGS):
            kinds = [kind for kind, of in HEADINGS if of == heading]
            here = [item for item in found if item.kind in kinds and not item.path.startswith("laws::")]
            if here:
                lines += ["## " + heading, ""]
            for item in here:
                lines += list(entry(item, crate))
            lines.append("")
        laws = [item for item in found if item.path.startswith("laws::")]
        if laws:
            body = ", but for `search`" * any(item.path == "laws::search" for item in laws)
            lines += ["## Laws", "", "Functions whose contracts are laws. Each has an empty body%s." % body, ""]
        for item in laws:
            lines += list(entry(item, crate))
        lines += list(lemmas(crate))
        yield crate + ".md", re.sub(r"\n{3,}", "\n\n", "\n".join(lines)).rstrip("\n") + "\n"
        index.append("- [`%s`](%s.md): %s" % (crate, crate, " ".join(page).split(". ")[0].rstrip(".") + "."))
    index.append("- [What you can rely on](../TRUST.md), and [the contract of each promise](../CONTRACTS.md).")
    index += ["", HELLO.strip("\n")]
    yield "README.md", "\n".join(index) + "\n"


def hidden_words():
    """A word that a public contract cites stands where its reader looks: not among theorems."""
    for crate in LIBRARIES:
        for item in library(crate)[1]:
            for part in [item] + item.members:
                for word in words_of(part):
                    if "/laws/" in WORDS[word].path:
                        yield "%s cites %s, which stands among theorems: %s" % (item.path, word, WORDS[word].path)


def undocumented():
    for crate in LIBRARIES:
        page, found, _ = library(crate)
        if not page:
            yield "crates/%s/src/lib.rt has no page comment" % crate
        for item in found:
            listed = item.name in NAME_LISTS or "%s::%s" % (crate, item.path.rsplit("::", 1)[0]) in NAME_LISTS
            for part in [item] + item.members:
                if not part.doc and not (listed and part.kind in ("const", "field")):
                    name = item.name if part is item else "%s::%s" % (item.name, part.name)
                    yield "%s: %s has no doc comment" % (part.place, name)


def example(crate):
    """The lines between `// CRATE` and `// end` in the program that makes the examples."""
    folder = os.path.join(TOP, "crates", EXAMPLES, "src")
    for name in sorted(os.listdir(folder)):
        found = re.search(r"^ *// %s\n(.*?)^ *// end$" % crate, read(os.path.join(folder, name)), re.M | re.S)
        if found:
            return dedent(found[1].rstrip("\n").split("\n"))
    return []


def unknown_calls():
    """What `reference_calls.toml` names must be on its page."""
    for crate in LIBRARIES:
        _, found, foreign = library(crate)
        links = call_links(found, foreign, crate)
        for call in (call for row in CALLS.get(crate, []) for call in row["calls"] if call not in links):
            yield "tools/pages/reference_calls.toml: the page of %s has no %s" % (crate, call)


def unmade_examples():
    for crate in LIBRARIES:
        page = library(crate)[0]
        shown = dedent([line for line in page if line.startswith("    ")])
        if not shown or shown != [line for line in example(crate) if line]:
            yield "crates/%s/src/lib.rt shows no lines of use, or others than %s makes" % (crate, EXAMPLES)


def faults():
    """What `make lint` reports: items without a doc comment, examples that are not made, pages that are not written."""
    yield from undocumented()
    yield from unknown_calls()
    yield from unmade_examples()
    written = dict(pages())
    for name, text in written.items():
        path = os.path.join(PAGES, name)
        if not os.path.isfile(path) or read(path) != text:
            yield "docs/reference/%s is not of these sources: make generate" % name
    for name in sorted(set(os.listdir(PAGES)) - set(written)):
        yield "docs/reference/%s is no page of a library" % name


def main():
    os.makedirs(PAGES, exist_ok=True)
    for name, text in pages():
        with open(os.path.join(PAGES, name), "w", encoding="utf-8") as file:
            file.write(text)
    for fault in undocumented():
        print(fault)
    return 0


if __name__ == "__main__":
    sys.exit(main())
