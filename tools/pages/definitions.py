"""The definitions of `specs/`, each with its place, its source and the comment above it, and what they stand on."""

import os
import re

TOP = os.path.abspath(os.path.join(os.path.dirname(os.path.abspath(__file__)), "..", ".."))
CRATES = os.path.join(TOP, "crates")

DEFINITION = re.compile(r"^(?:abbrev |unfoldable |irrelevant |private )*(?:pub )?(?:(?:record|data|abbrev|unfoldable|irrelevant) )*([^\s:({⟨]+)")
IMPORT = re.compile(r"^use (Rattle\.[^\s{]+)\.\{(.*)\}")
# How a definition begins; what begins otherwise is a theorem or a worked row.
DEFINES = ("abbrev ", "unfoldable ", "irrelevant ", "record ", "data ", "pub record ", "pub data ", "pub abbrev ", "pub unfoldable ")
WORD = re.compile(r"[^\s(){},;.:λ→×]+")


class Definition:
    """A definition: its name, its place, its source and the comment above it."""

    def __init__(self, name, crate, path, line, comment):
        self.name, self.crate, self.path, self.line, self.comment = name, crate, path, line, comment
        self.source = []

    def meaning(self):
        """The comment above it, for a cell of a table."""
        return " ".join(self.comment).strip().replace("|", "\\|")

    def link(self, top):
        """A link to it, from a page from which the repository's root is at `top`."""
        name = os.path.basename(self.path)
        return "[%s:%d](%s%s#L%d)" % (name, self.line, top, self.path, self.line)


def read(path):
    with open(path, encoding="utf-8") as file:
        return file.read()


def definitions(crates):
    """Each definition of some crates, worked rows apart, by its file and name; and what each file imports."""
    found, imports = {}, {}
    for crate in crates:
        for place, _, names in sorted(os.walk(os.path.join(CRATES, crate, "specs"))):
            if os.path.basename(place) == "examples":
                continue
            for name in sorted(names):
                if name.endswith(".antt"):
                    path = os.path.relpath(os.path.join(place, name), TOP)
                    imports[path] = {}
                    for definition in parse(crate, path, imports[path]):
                        found.setdefault((path, definition.name), definition)
    return found, imports


def parse(crate, path, imported):
    """The definitions of a file; its imports, by name, go into a dictionary."""
    current, comment, known = None, [], {}
    for number, line in enumerate(read(os.path.join(TOP, path)).split("\n"), 1):
        brought = IMPORT.match(line)
        if brought:
            for name in brought[2].split(","):
                imported[name.strip().split(" as ")[-1]] = brought[1]
            continue
        if line.startswith("-- Written by tools/"):
            continue
        if line.startswith("--"):
            comment.append(line[2:].strip())
            continue
        if not line.strip():
            current = current if line else None
            comment = []
            continue
        if line[0].isspace() or line[0] in "})]":
            if current and not line.strip().startswith("--"):
                current.source.append(line)
            continue
        if re.match(r"(?:pub )?(?:mod|use)\b", line):
            continue
        name = DEFINITION.match(line)[1]
        if name in known:
            current = known[name]
        else:
            current = known[name] = Definition(name, crate, path, number, comment)
            comment = []
            yield current
        current.source.append(line)


def closure(words, found, imports):
    """The definitions that some words stand on, each with how many steps it is away, in the order in which they come; the
    words of the standard library among them; and the types of the code, each by the module that declares it."""
    by_name = {}
    for (path, name), definition in found.items():
        by_name.setdefault(name, definition)
    makers = {}
    for definition in found.values():
        if re.search(r"\bdata\b", definition.source[0]):
            for line in definition.source[1:]:
                maker = re.match(r"  (\S+) *:", line)
                if maker:
                    makers[maker[1]] = definition
    near, library, types = [(by_name[word], 0) for word in words if word in by_name], set(), set()
    seen = {}
    while near:
        definition, hop = near.pop(0)
        if definition in seen or not definition.source[0].startswith(DEFINES):
            continue
        seen[definition] = hop
        brought = imports[definition.path]
        for word in dict.fromkeys(WORD.findall("\n".join(definition.source))):
            if word == definition.name:
                continue
            if word in brought:
                if brought[word].startswith("Rattle.std."):
                    library.add(word)
                elif ".declared." in brought[word]:
                    types.add(re.sub(r"\.The(?:Variants|Constants)$", "", brought[word]))
                elif ".declared." not in brought[word] and word in by_name:
                    near.append((by_name[word], hop + 1))
            elif (definition.path, word) in found:
                near.append((found[definition.path, word], hop + 1))
            elif word in makers and makers[word].path == definition.path:
                near.append((makers[word], hop + 1))
    return seen, library, types
