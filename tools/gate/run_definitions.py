"""The language of `specs/`, run: the definitions of a page as functions of Python.

`Definitions(words)` reads the definitions that some words stand on, and makes of each a function: a list is a tuple, a pair
a tuple, a natural number an `int`, a Boolean a `bool`, a record a `Record`, and what a `data` or a type of the code makes a
`Made`. A type that says that something holds is a Boolean, too: `≡` is equality, `×` *and*, `→` *if .. then*, `↔` *exactly
if*, `Unit` true and `⊥` false; a record of such types holds if each of its fields does. A field that is data says *there is*,
and `WITNESSES` finds it. *For each list of bytes* is tried with some hundreds of lists (`FOLLOWING`). The words of the standard
library are in `LIBRARY`, each as its page in the kit says it.

The equations of a definition are tried from the first on, as in the language. Each part of an expression becomes one of
Python's, so a definition runs as it stands, and no faster: lists are taken apart element by element. One thing is not: the
first of many entries that equal a number (`position (λ v. v == c)`) is looked up in a directory of them.
"""

import functools
import itertools
import keyword
import re

import definitions

TOKEN = re.compile(
    r"""\s*(?:
    (?P<text>"(?:[^"\\]|\\.)*") |
    (?P<hex>0x[0-9A-Fa-f]+) |
    (?P<number>[0-9]+(?![\w.])) |
    (?P<word>[A-Za-z_⊥ℕ][\w']*(?:\.[A-Za-z0-9_][\w']*)*) |
    (?P<sign>\+\+|∷|&&|\|\||==|≡|≢|≤|<|×|→|↔|⊎|¬|λ|\[\]|[-+*/%(){}=.,;:])
    )""",
    re.VERBOSE,
)

# Of each sign how tightly it binds, which side goes first, and what it is in Python.
SIGNS = {
    "→": (1, "right", "(not (%s) or (%s))"),
    "↔": (1, "right", "((%s) == (%s))"),
    "×": (2, "right", "((%s) and (%s))"),
    "⊎": (2, "right", "((%s) or (%s))"),
    "≡": (3, "none", "((%s) == (%s))"),
    "≢": (3, "none", "((%s) != (%s))"),
    "≤": (3, "none", "((%s) <= (%s))"),
    "<": (3, "none", "((%s) < (%s))"),
    "||": (4, "right", "((%s) or (%s))"),
    "&&": (5, "right", "((%s) and (%s))"),
    "==": (6, "none", "((%s) == (%s))"),
    "∷": (7, "right", "((%s,) + (%s))"),
    "++": (7, "right", "((%s) + (%s))"),
    "+": (8, "left", "((%s) + (%s))"),
    "-": (8, "left", "minus(%s, %s)"),
    "*": (9, "left", "((%s) * (%s))"),
    "/": (9, "left", "((%s) // (%s))"),
    "%": (9, "left", "((%s) %% (%s))"),
}


class Unread(Exception):
    """A text that is not of the part of the language that is read here."""


class Made:
    """What a constructor makes of its parts."""

    __slots__ = ("maker", "parts")

    def __init__(self, maker, *parts):
        self.maker, self.parts = maker, parts

    def __eq__(self, other):
        return self.maker == other.maker and self.parts == other.parts

    def __hash__(self):
        return hash((self.maker, self.parts))

    def __repr__(self):
        return " ".join([self.maker, *map(repr, self.parts)])


class Record:
    """A record, by its fields."""

    def __init__(self, **fields):
        self.__dict__.update(fields)

    def __eq__(self, other):
        return self.__dict__ == other.__dict__

    def __repr__(self):
        return repr(self.__dict__)


def field_name(text):
    """The name of a field, as Python has it."""
    return text + "_" if keyword.iskeyword(text) else text


def curried(function, count):
    """A function of so many arguments as one that takes them one by one."""
    if count <= 1:
        return function
    return lambda one: curried(functools.partial(function, one), count - 1)


class IsEqualTo:
    """The test `λ v. v == number`, which a look-up in a list can use at once."""

    def __init__(self, number):
        self.number = number

    def __call__(self, value):
        return value == self.number


def is_surrogate(unit, first):
    return first <= unit <= first + 0x3FF


class Entries(tuple):
    """A long list, which is told from others by its identity."""

    __hash__ = object.__hash__

    def __eq__(self, other):
        return self is other or tuple.__eq__(self, other)


@functools.lru_cache(maxsize=64)
def part_of(entries, start, end):
    return Entries(tuple(entries)[start:end])


@functools.lru_cache(maxsize=64)
def directory_of(entries):
    """The first position of each element."""
    found = {}
    for place, entry in enumerate(entries):
        found.setdefault(entry, place)
    return found


def slice_range(entries, start, end):
    return part_of(entries, start, end) if isinstance(entries, Entries) else entries[start:end]


def position(test, entries):
    if isinstance(test, IsEqualTo) and isinstance(entries, Entries):
        found = directory_of(entries).get(test.number)
    else:
        found = next((k for k, entry in enumerate(entries) if test(entry)), None)
    return Made("None") if found is None else Made("Some", found)


def option(value):
    return Made("None") if value is None else Made("Some", value)


def utf8(scalar):
    """The bytes of a scalar value in UTF-8 (RFC 3629, section 3)."""
    return tuple(chr(scalar).encode("utf-8"))


# What may follow an input: nothing, each byte, and a byte that opens a sequence with one that goes on.
FOLLOWING = ((), *((byte,) for byte in range(256)), *((one, two) for one in (0x83, 0x8F, 0xC2, 0xE4, 0xF0) for two in (0x30, 0x41, 0x6E, 0x90, 0xA5)))


# The words of the standard library: how many arguments each takes, and what it is.
LIBRARY = {
    "All": (2, lambda test, entries: all(map(test, entries))),
    "IfErr": (2, lambda result, says: result.maker != "Err" or says(result.parts[0])),
    "IfOk": (2, lambda result, says: result.maker != "Ok" or says(result.parts[0])),
    "codes": (1, lambda text: tuple(map(ord, text))),
    "concat": (1, lambda lists: tuple(entry for entries in lists for entry in entries)),
    "cond": (3, lambda test, one, other: one if test else other),
    "decimal": (1, lambda n: tuple(b"%d" % n)),
    "digits": (3, lambda base, capitals, n: tuple((("%X" if capitals else "%x") % n).encode())),
    "drop": (2, lambda count, entries: entries[count:]),
    "encode_utf8": (1, utf8),
    "eqb": (2, lambda a, b: a == b),
    "false": (0, False),
    "filter": (2, lambda test, entries: tuple(entry for entry in entries if test(entry))),
    "find": (2, lambda test, entries: option(next((entry for entry in entries if test(entry)), None))),
    "flat_map": (2, lambda function, entries: tuple(part for entry in entries for part in function(entry))),
    "from_be_bytes": (2, lambda width, data: int.from_bytes(bytes(data), "big")),
    "from_le_bytes": (2, lambda width, data: int.from_bytes(bytes(data), "little")),
    "is_high_surrogate": (1, lambda unit: is_surrogate(unit, 0xD800)),
    "is_in_range": (3, lambda least, most, n: least <= n <= most),
    "is_low_surrogate": (1, lambda unit: is_surrogate(unit, 0xDC00)),
    "is_some": (1, lambda value: value.maker == "Some"),
    "length": (1, len),
    "map": (2, lambda function, entries: tuple(map(function, entries))),
    "min": (2, min),
    "nat_le": (2, lambda a, b: a <= b),
    "nat_lt": (2, lambda a, b: a < b),
    "not": (1, lambda value: not value),
    "option_and_then": (2, lambda function, value: function(value.parts[0]) if value.maker == "Some" else value),
    "option_map": (2, lambda function, value: Made("Some", function(value.parts[0])) if value.maker == "Some" else value),
    "option_or": (2, lambda value, other: value if value.maker == "Some" else other),
    "position": (2, position),
    "scalar": (1, lambda n: n < 0xD800 or 0xDFFF < n < 0x110000),
    "slice_index": (2, lambda entries, k: entries[k] if k < len(entries) else 0),
    "slice_range": (3, slice_range),
    "starts_with": (3, lambda same, entries, front: entries[: len(front)] == front),
    "suc": (1, lambda n: n + 1),
    "take": (2, lambda count, entries: entries[:count]),
    "surrogate_pair_char": (2, lambda high, low: 0x10000 + (high - 0xD800) * 0x400 + (low - 0xDC00)),
    "true": (0, True),
    "tt": (0, ()),
    "unwrap_or": (2, lambda value, other: value.parts[0] if value.maker == "Some" else other),
    "w16": (0, 16),
    "zero": (0, 0),
    "IsTrue": (1, bool),
    "⊥": (0, False),
}


def gave_then(page, before, after, data, last):
    """There are reads, with one more that gave the last, after those before, and these bytes are theirs."""
    reads = after[len(before) :]
    return after[: len(before)] == before and reads[-1:] == (last,) and sum(reads[:-1], ()) == data


def is_prefix(page, front, entries):
    return entries[: len(front)] == front


def is_stop(page, fault, taken, written):
    return fault.maker != "Unmappable" or page.run("StopsAtLoss", *fault.parts, taken, written)


def took_certain(page, job, data, taken):
    """What was taken is the longest list of items with which what is written begins, whatever follows these bytes."""
    traces = [page.run("open_trace", job, data + rest) for rest in FOLLOWING]
    items = itertools.takewhile(lambda column: column.count(column[0]) == len(column), zip(*traces))
    return taken == page.run("tagged", tuple(column[0] for column in items))


def keep_up(page, job, entries):
    parts = (entries[:place] for place, entry in enumerate(entries) if entry.maker == "AtReader")
    return all(took_certain(page, job, page.run("given_by", part), page.run("order_of", part)) for part in parts)


# The definitions that say *there is* or *for each* of more than bytes: how many arguments each takes, and what it says.
FOUND = {
    "GaveThen": (4, gave_then), "IsPrefix": (2, is_prefix), "IsStop": (3, is_stop), "KeepUp": (2, keep_up),
    "TookCertain": (3, took_certain),
}  # fmt: skip


def added(before, after):
    return after[len(before) :]


def parted(entries):
    """All but the last of some calls, and the last; one that is neither a read nor a write in its place if there is none."""
    return entries[:-1], entries[-1] if entries else Made("Flush", False)


def added_calls(page, before, after):
    return added(page.run("history_of", before), page.run("history_of", after))


def reads_of(page, before, after, *others):
    earlier, call = parted(added_calls(page, before.reader, after.reader))
    return Record(earlier=earlier, call=call)


def read_and_taken(page, before, after, job, fault):
    order = added(before.written.order.parts[0], after.written.order.parts[0])
    return Record(reads=added(before.reads, after.reads), taken=order)


def failed_write(page, calls):
    earlier, last = parted(calls)
    return Record(earlier=earlier, last=last)


# The records with fields that are data: of their parameters, the only data of which the other fields can hold.
WITNESSES = {
    "Completes": lambda page, before, after, *others: Record(input=sum(added(before.reads, after.reads)[:-1], ())),
    "CountsWrites": lambda page, before, after: Record(calls=added_calls(page, before, after)),
    "EndsInFailedWrite": failed_write,
    "Fails": read_and_taken,
    "RunCalls": reads_of,
    "RunsInOrder": lambda page, before, after, job: Record(entries=added(before, after)),
    "StopsAtLoss": lambda page, index, scalar, taken, written: Record(items=written[:-1]),
}  # fmt: skip


def minus(a, b):
    """The difference of natural numbers, 0 if there is none."""
    return max(a - b, 0)


def tokens_of(text):
    """The tokens of a text: the kind and the text of each."""
    found, at = [], 0
    text = re.sub(r"(?m)(?:^|(?<= ))--.*$", "", text).rstrip()
    while at < len(text):
        token = TOKEN.match(text, at)
        if not token:
            raise Unread(text[at : at + 40])
        found.append((token.lastgroup, token[token.lastgroup]))
        at = token.end()
    return found


class Reader:
    """Reads the tokens of equations and of types into expressions of Python."""

    def __init__(self, tokens, page, names=()):
        self.tokens, self.at, self.page, self.names = tokens, 0, page, dict(names)

    def next_is(self, *texts):
        return self.at < len(self.tokens) and self.tokens[self.at][1] in texts

    def take(self, *texts):
        if self.at >= len(self.tokens) or (texts and not self.next_is(*texts)):
            raise Unread("%s in place of %s" % (self.tokens[self.at : self.at + 4], texts))
        self.at += 1
        return self.tokens[self.at - 1]

    def name(self):
        """A variable, under a name that Python has."""
        kind, text = self.take()
        if kind != "word" or "." in text:
            raise Unread("%r is no variable" % text)
        self.names[text] = "_unnamed" if text == "_" else "v_" + text.replace("'", "_")
        return self.names[text]

    def expression(self, least=0):
        if self.next_is("λ"):
            return self.function()
        if self.binds():
            return self.scoped(self.each)
        if self.next_is("let"):
            return self.binding()
        if self.next_is("if"):
            return self.choice()
        if self.next_is("¬"):
            self.take()
            left = "(not %s)" % self.expression(3)
        else:
            left = self.application()
        while self.next_is(*SIGNS):
            binds, side, form = SIGNS[self.tokens[self.at][1]]
            if binds < least:
                break
            self.take()
            left = form % (left, self.expression(binds if side == "right" else binds + 1))
        return left

    def scoped(self, make):
        """What `make` reads, after which the names are as they were."""
        names = dict(self.names)
        made = make()
        self.names = names
        return made

    def function(self):
        return self.scoped(self.function_body)

    def function_body(self):
        self.take("λ")
        variables = []
        while not self.next_is("."):
            variables.append(self.name())
        self.take(".")
        start = self.at
        body = self.expression()
        equal = self.tokens[start : self.at]
        if len(variables) == 1 and len(equal) == 3 and equal[1][1] == "==" and "v_" + equal[0][1] == variables[0]:
            return "IsEqualTo(%s)" % self.word(equal[2][1])
        return "(%s(%s))" % ("".join("lambda %s: " % variable for variable in variables), body)

    def binds(self):
        """Whether `(NAME : TYPE) →` begins here."""
        return self.next_is("(") and [text for _, text in self.tokens[self.at + 2 : self.at + 3]] == [":"]

    def each(self):
        """`(r : List ℕ) → ..`: what is said of each list of bytes that may follow."""
        self.take("(")
        variable = self.name()
        for text in (":", "List", "ℕ", ")", "→"):
            self.take(text)
        return "all(map(lambda %s: %s, FOLLOWING))" % (variable, self.expression())

    def binding(self):
        return self.scoped(self.binding_body)

    def binding_body(self):
        self.take("let")
        start = self.at
        while not self.next_is("="):
            self.take()
        self.take("=")
        value = self.expression()
        self.take("in")
        after, self.at = self.at, start
        variable, self.at = self.name(), after
        return "(lambda %s: %s)(%s)" % (variable, self.expression(), value)

    def choice(self):
        self.take("if")
        test = self.expression()
        self.take("then")
        one = self.expression()
        self.take("else")
        return "((%s) if (%s) else (%s))" % (one, test, self.expression())

    def application(self):
        kind, head = self.tokens[self.at] if self.at < len(self.tokens) else ("", "")
        if kind == "word" and head == "record":
            return self.record()
        if kind == "word" and head == "Unit":
            self.take()
            self.braces()
            return "True"
        function, count = self.head()
        arguments = []
        while self.begins_atom():
            if self.next_is("{"):
                self.braces()
            else:
                arguments.append(self.atom())
        if count is None:
            return function + "".join("(%s)" % argument for argument in arguments)
        if len(arguments) < count:
            return "curried(%s, %d)%s" % (function, count, "".join("(%s)" % argument for argument in arguments))
        called = "%s(%s)" % (function, ", ".join(arguments[:count])) if count else function
        return called + "".join("(%s)" % argument for argument in arguments[count:])

    def begins_atom(self):
        if self.at >= len(self.tokens):
            return False
        kind, text = self.tokens[self.at]
        if kind == "word":
            return text not in ("then", "else", "in", "record", "let", "if")
        return kind in ("text", "hex", "number") or text in ("(", "[]", "{")

    def braces(self):
        """What stands in braces says nothing when it runs."""
        self.take("{")
        while not self.next_is("}"):
            if self.next_is("{"):
                self.braces()
            else:
                self.take()
        self.take("}")

    def head(self):
        """The first part of an application, and how many arguments it takes at once, if that is known."""
        if self.tokens[self.at][0] != "word":
            return self.atom(), None
        text = self.take()[1]
        if text in self.names:
            return self.names[text], None
        if text in self.page.counts:
            count = self.page.counts[text]
            return self.page.python_name(text) + ("" if count else "()"), count
        if text in LIBRARY:
            return "LIBRARY[%r][1]" % text, LIBRARY[text][0]
        made = self.page.maker(text)
        if made:
            return "functools.partial(Made, %r)" % made[0] if made[1] else "Made(%r)" % made[0], made[1]
        return self.word(text), None

    def word(self, text):
        """A word that stands by itself."""
        if text in self.names:
            return self.names[text]
        first, *path = text.split(".")
        if path and first in self.names:
            return "".join([self.names[first]] + ["[%s]" % step if step.isdigit() else "." + field_name(step) for step in path])
        if re.fullmatch("0x[0-9A-Fa-f]+|[0-9]+", text):
            return text
        if text in self.page.counts:
            count = self.page.counts[text]
            if count <= 1:
                return self.page.python_name(text) + ("" if count else "()")
            return "curried(%s, %d)" % (self.page.python_name(text), count)
        if text in LIBRARY:
            return "curried(LIBRARY[%r][1], %d)" % (text, LIBRARY[text][0])
        made = self.page.maker(text)
        if made:
            return "Made(%r)" % made[0] if not made[1] else "curried(functools.partial(Made, %r), %d)" % made
        if text in self.page.constants:
            return "%r" % self.page.constants[text]
        raise Unread("%s is no word that is known" % text)

    def atom(self):
        kind, text = self.take()
        if kind == "word":
            return self.word(text)
        if kind in ("hex", "number"):
            return text
        if kind == "text":
            return text
        if text == "[]":
            return "()"
        if text == "(":
            parts = [self.expression()]
            while self.next_is(","):
                self.take()
                parts.append(self.expression())
            self.take(")")
            made = "(%s)" % ", ".join(parts)
            while self.next_is("."):
                self.take()
                kind, step = self.take()
                made += "[%s]" % step if kind == "number" else "." + field_name(step)
            return made
        raise Unread("%r begins no expression" % text)

    def record(self):
        self.take("record")
        self.take("{")
        fields = []
        while not self.next_is("}"):
            field = field_name(self.take()[1])
            self.take("=")
            fields.append("%s=%s" % (field, self.expression()))
            if self.next_is(";"):
                self.take()
        self.take("}")
        return "Record(%s)" % ", ".join(fields)

    def pattern(self):
        """A pattern, as a tree: its kind and its parts."""
        front = self.made_pattern(True)
        if not self.next_is("∷"):
            return front
        self.take()
        return "∷", front, self.pattern()

    def made_pattern(self, takes_parts):
        """A pattern of one constructor, with its parts if they may follow without brackets."""
        if self.next_is("("):
            self.take()
            found = self.pattern()
            self.take(")")
            return found
        kind, text = self.take()
        made = self.page.maker(text)
        if text in ("[]", "zero", "true", "false", "_"):
            return (text,)
        if text == "suc":
            return "suc", self.made_pattern(False)
        if kind in ("hex", "number"):
            return "number", text
        if made:
            return "made", made[0], [self.made_pattern(False) for _ in range(made[1] if takes_parts else 0)]
        if kind != "word" or "." in text:
            raise Unread("%r begins no pattern" % text)
        return "name", text

    def tests(self, pattern, value):
        """The tests of a pattern on a value, as expressions; its variables become names of the value's parts."""
        kind, *parts = pattern
        if kind == "∷":
            return ["len(%s) > 0" % value] + self.tests(parts[0], value + "[0]") + self.tests(parts[1], value + "[1:]")
        if kind == "suc":
            return ["%s > 0" % value] + self.tests(parts[0], "(%s - 1)" % value)
        if kind == "made":
            tests = ["%s.maker == %r" % (value, parts[0])]
            return tests + [test for k, part in enumerate(parts[1]) for test in self.tests(part, "%s.parts[%d]" % (value, k))]
        if kind == "name":
            self.names[parts[0]] = value
            return []
        plain = {"[]": "len(%s) == 0", "zero": "%s == 0", "true": "%s", "false": "not %s", "number": "%%s == %s" % "".join(parts)}
        return [plain[kind] % value] if kind in plain else []


class Definitions:
    """The definitions that some words stand on, as functions of Python: `run[name]`, and of a record whether it holds."""

    def __init__(self, words, crates, constants):
        found, imports = definitions.definitions(crates)
        seen, self.library, self.types = definitions.closure(words, found, imports)
        self.found = {definition.name: definition for definition in seen}
        self.constants, self.counts, self.records, self.imports = constants, {}, {}, imports
        # The makers of each type, and how many parts each has; those of the types of `specs/` stand under no type.
        self.makers = {"": {"None": 0, "Some": 1, "Ok": 1, "Err": 1}}
        self.space = {"LIBRARY": LIBRARY, "Made": Made, "Record": Record, "IsEqualTo": IsEqualTo}
        self.space |= {"curried": curried, "functools": functools, "minus": minus, "FOLLOWING": FOLLOWING}
        for module in self.types:
            self.read_type(module)
        for name in self.found.keys() & FOUND.keys():
            self.counts[name], said = FOUND[name]
            self.space[self.python_name(name)] = functools.partial(said, self)
            del self.found[name]
        for definition in self.found.values():
            self.read_head(definition)
        for definition in self.found.values():
            self.read_body(definition)

    def python_name(self, name):
        return "f_" + name.replace("'", "_").replace("-", "_")

    def maker(self, text):
        """A constructor and how many parts it has, if the text is one in the file that is read."""
        *kind, name = text.split(".")
        module = self.imported.get(text, "")
        kind = kind[0] if kind else module.split(".")[-2] if module.endswith(".TheVariants") else ""
        return (name, self.makers[kind][name]) if name in self.makers.get(kind, ()) else None

    def run(self, name, *arguments):
        """The value of a definition."""
        count = self.counts[name]
        value = self.space[self.python_name(name)](*arguments[:count])
        for argument in arguments[count:]:
            value = value(argument)
        return value

    def read_type(self, module):
        """The constructors of a type of the code, from its source."""
        _, crate, _, _, *place, name = module.split(".")
        path = "crates/%s/src/%s.rt" % (crate, "/".join(place))
        try:
            text = definitions.read(definitions.TOP + "/" + path)
        except FileNotFoundError:
            return
        makers = self.makers[name] = {}
        body = re.search(r"pub(?:\(crate\))? enum %s(?:<[^>]*>)? \{(.*?)^\}" % name, text, re.M | re.S)
        for line in body[1].split("\n") if body else ():
            made = re.match(r"    (\w+)(?:\(([^)]*)\)| \{([^}]*)\}?)?", line)
            if made and not line.strip().startswith("//"):
                parts = made[2] or made[3] or ""
                makers[made[1]] = len([part for part in parts.split(",") if part.strip()])
        for made in re.finditer(r"^    (\w+) \{\n((?:        .*\n)+)    \},", body[1] if body else "", re.M):
            makers[made[1]] = len(re.findall(r"^        \w+:", made[2], re.M))

    def read_head(self, definition):
        """What a definition is: a `data`, a record, or equations with so many arguments."""
        first = definition.source[0]
        if re.match(r"(?:pub )?data\b", first):
            for line in definition.source[1:]:
                maker = re.match(r"  (\S+) *: (.*)", line)
                groups = re.findall(r"\(([^:()]*):[^()]*\)", maker[2])
                plain = re.sub(r"\([^:()]*:[^()]*\)", "", maker[2])
                self.makers[""][maker[1]] = sum(len(group.split()) for group in groups) + plain.count("→") - (1 if groups and plain.strip().startswith("→") else 0)
        elif re.match(r"(?:pub )?record\b", first):
            self.records[definition.name] = definition
            names = re.findall(r"\(([^:()]*):", head_of(definition))
            self.counts[definition.name] = sum(len(group.split()) for group in names)
        else:
            equation = next(line for line in definition.source[1:] if line.startswith(definition.name + " "))
            front = equation[len(definition.name) :].split(" = ")[0] if " = " in equation else equation[len(definition.name) :].rstrip(" =")
            self.counts[definition.name] = len(patterns_in(front))

    def read_body(self, definition):
        first, self.imported = definition.source[0], self.imports[definition.path]
        if re.match(r"(?:pub )?data\b", first):
            return
        try:
            if definition.name in self.records:
                self.read_record(definition)
            else:
                self.read_equations(definition)
        except (Unread, SyntaxError, IndexError) as fault:
            raise Unread("%s:%d: %s: %s" % (definition.path, definition.line, definition.name, fault)) from fault

    def read_equations(self, definition):
        """A function that tries the equations one by one."""
        name, count = definition.name, self.counts[definition.name]
        equations, current = [], None
        for line in definition.source[1:]:
            if line.startswith(name + " "):
                current = [line]
                equations.append(current)
            elif current:
                current.append(line)
        values = ["a%d" % k for k in range(count)]
        lines = ["def %s(%s):" % (self.python_name(name), ", ".join(values))]
        for equation in equations:
            reader = Reader(tokens_of("\n".join(equation)[len(name) :]), self)
            tests = []
            for value in values:
                tests += reader.tests(reader.made_pattern(False), value)
            reader.take("=")
            body = reader.expression()
            if reader.at != len(reader.tokens):
                raise Unread("%s is left" % reader.tokens[reader.at : reader.at + 5])
            lines.append("    if %s:" % (" and ".join(tests) or "True"))
            lines.append("        return %s" % body)
        lines.append("    raise ValueError(%r)" % ("no equation of %s fits" % name))
        exec("\n".join(lines), self.space)
        if not count:
            self.space[self.python_name(name)] = functools.lru_cache(None)(self.space[self.python_name(name)])

    def read_record(self, definition):
        """Whether each field of a record holds: a function of its parameters and of a record with the fields that are data."""
        head = head_of(definition)
        parameters = [word for group in re.findall(r"\(([^:()]*):", head) for word in group.split()]
        reader_names = {word: "v_" + word.replace("'", "_") for word in parameters}
        fields, data = [], []
        for line in "\n".join(definition.source[1:]).replace("\n    ", " ").split("\n"):
            field = re.match(r"  pub (\S+) : (.*)", line)
            if not field:
                continue
            if re.match(r"(?:List|ℕ|Bool|Option|Call)\b", field[2]) or field[2] in self.records and not self.holds(field[2]):
                data.append(field[1])
                reader_names[field[1]] = "given.%s" % field[1]
                continue
            fields.append((field[1], field[2]))
        if not parameters:
            return
        values = ", ".join(reader_names[word] for word in parameters)
        lines = ["def %s(%s):" % (self.python_name(definition.name), values)]
        if definition.name in WITNESSES:
            self.space["given_" + definition.name] = functools.partial(WITNESSES[definition.name], self)
            lines.append("    given = given_%s(%s)" % (definition.name, values))
        for name, text in fields:
            reader = Reader(tokens_of(text), self, reader_names)
            body = reader.expression()
            if reader.at != len(reader.tokens):
                raise Unread("%s is left" % reader.tokens[reader.at : reader.at + 5])
            lines.append("    if not (%s):" % body)
            lines.append("        return False")
        lines.append("    return True")
        exec("\n".join(lines), self.space)

    def holds(self, name):
        """Whether a record says something of parameters, and is no data itself."""
        return "(" in head_of(self.records[name])


def head_of(record):
    """The name and the parameters of a record, but for those in braces."""
    return re.sub(r"\{[^}]*\}", "", record.source[0]).split(" : Type")[0]


def patterns_in(text):
    """The patterns of an equation, each as its text."""
    found, depth, current = [], 0, ""
    for letter in text + " ":
        if letter == "(":
            depth += 1
        if letter == ")":
            depth -= 1
        if letter == " " and depth == 0:
            if current:
                found.append(current)
            current = ""
        else:
            current += letter
    return found
