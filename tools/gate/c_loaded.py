"""The shared library as Python calls it, by ctypes: each export with the types that its source has."""

import ctypes
import re

import c_header

NUMBERS = {
    "u8": ctypes.c_uint8, "u16": ctypes.c_uint16, "u32": ctypes.c_uint32, "u64": ctypes.c_uint64, "usize": ctypes.c_size_t,
    "i8": ctypes.c_int8, "i16": ctypes.c_int16, "i32": ctypes.c_int32, "i64": ctypes.c_int64, "isize": ctypes.c_ssize_t,
    "bool": ctypes.c_bool, "Status": ctypes.c_uint8, "*mut u8": ctypes.c_void_p, "*const u8": ctypes.c_void_p,
}  # fmt: skip


def units(numbers):
    """Units of UTF-16, as a call takes them and may write to them. There is one more after them, so that they have an address."""
    return (ctypes.c_uint16 * (len(numbers) + 1))(*numbers)


class Slice(ctypes.Structure):
    """A slice in a struct: an address and a length."""

    _fields_ = [("at", ctypes.c_void_p), ("len", ctypes.c_size_t)]


class Loaded:
    """A shared library. An export is a method: of `&[u8]` it takes bytes, of `&mut [u8]` a bytearray, which it may write to,
    of `&[u16]` and `&mut [u16]` a pair of `units` and how many of them are handed in, of other references what
    `ctypes` has for it, and numbers as they are. Structs are in `structs`, by their names in the source."""

    def __init__(self, path):
        self.library, self.exports, self.structs = ctypes.CDLL(path), {}, {}
        header = c_header.Header()
        self.sources = header.structs
        for module in header.modules:
            for _, name, parameters, result in module.exports:
                function = getattr(self.library, name)
                function.restype = self.kind(result) if result else None
                self.exports[name] = function, [it for _, it in c_header.parts(parameters) if it != "Global"]

    def kind(self, it):
        """The ctypes type of a number, a struct, a list of numbers or a slice."""
        it = re.sub(r"<'\w+>", "", it)
        if it in NUMBERS:
            return NUMBERS[it]
        if it.startswith("&"):
            return Slice
        if found := re.fullmatch(r"\[(\w+); (\d+)\]", it):
            return self.kind(found[1]) * int(found[2])
        if it not in self.structs:
            fields = [(name, self.kind(re.sub(r"&'\w+ ", "&", field))) for _, name, field in self.sources[it].fields]
            self.structs[it] = type(it, (ctypes.Structure,), {"_fields_": fields})
        return self.structs[it]

    def struct(self, name):
        """A struct, by its name in the source."""
        return self.kind(name)

    @staticmethod
    def fill(field, data):
        """Puts bytes into a slice of a struct. They must live as long as it is used."""
        field.at, field.len = ctypes.cast(ctypes.c_char_p(data), ctypes.c_void_p), len(data)

    def __getattr__(self, name):
        function, kinds = self.exports[name]

        def call(*given):
            if len(given) != len(kinds):
                raise TypeError("%s takes %d" % (name, len(kinds)))
            handed = [it for kind, value in zip(kinds, given) for it in self.handed(kind, value)]
            return function(*handed)

        return call

    def handed(self, kind, value):
        """A value as C takes it."""
        if kind == "&[u8]":
            return ctypes.c_char_p(value), ctypes.c_size_t(len(value))
        if kind == "&mut [u8]":
            return (ctypes.c_uint8 * len(value)).from_buffer(value), ctypes.c_size_t(len(value))
        if kind in ("&[u16]", "&mut [u16]"):
            return value[0], ctypes.c_size_t(value[1])
        if found := re.fullmatch(r"&(?:mut )?\[(.+)\]", kind):
            room = value if len(value) else (self.kind(found[1]) * 1)()
            return room, ctypes.c_size_t(len(value))
        if kind.startswith("&"):
            return (ctypes.byref(value),)
        return (self.kind(kind)(value) if kind in NUMBERS else value,)
