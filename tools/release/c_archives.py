"""Two archives for those who want them beside `libjillapun.a`: the index texts, and the names of encoding_c_mem.

`tools/release/c_library.py` makes them, by the assembler of the kit. What is assembled is written here, and not kept.
"""

import glob
import os
import re

TOP = os.path.abspath(os.path.join(os.path.dirname(os.path.abspath(__file__)), "..", ".."))
INDEXES = os.path.join(TOP, "indexes")
MEM = os.path.join(TOP, "crates", "jillapun_c", "src", "mem")
# Of what encoding_c_mem and encoding_c export under these names, the exports of this file have other parameters.
OTHERS = "partial.rt"
EXPORT = re.compile(r'^pub extern "C" fn jillapun_(\w+)', re.M)

NO_EXECUTABLE_STACK = '.section .note.GNU-stack,"",@progbits\n'

# A file of the list that `jillapun_tables_new` takes: where the name is and its length, and the same of the text.
ENTRY = "    .quad {at}_name, {name_len}, {at}_text, {text_len}\n"
TEXT = '{at}_name: .ascii "{name}"\n{at}_text: .incbin "{path}"\n'
LIST = """.section .data.rel.ro,"aw"
.globl jillapun_index_files, jillapun_index_files_len
.type jillapun_index_files, @object
.type jillapun_index_files_len, @object
.p2align 3
jillapun_index_files:
{entries}.size jillapun_index_files, . - jillapun_index_files
jillapun_index_files_len: .quad {count}
.size jillapun_index_files_len, 8
.section .rodata
{texts}"""
# A function that goes on with another.
NAME = ".globl {old}\n.type {old}, @function\n{old}: jmp {new}@PLT\n.size {old}, . - {old}\n"


def index_texts():
    """The texts of all index files, with the list of them."""
    entries, texts = [], []
    for number, path in enumerate(sorted(glob.glob(os.path.join(INDEXES, "index-*.txt")))):
        at, name = ".Lindex%d" % number, os.path.basename(path)
        entries.append(ENTRY.format(at=at, name_len=len(name), text_len=os.path.getsize(path)))
        texts.append(TEXT.format(at=at, name=name, path=path))
    return LIST.format(entries="".join(entries), count=len(entries), texts="".join(texts)) + NO_EXECUTABLE_STACK


def mem_names():
    """The functions that encoding_c_mem and encoding_c have with the same parameters, without what their names begin with."""
    for path in sorted(glob.glob(os.path.join(MEM, "*.rt"))):
        if os.path.basename(path) not in (OTHERS, "tests.rt"):
            with open(path, encoding="utf-8") as file:
                yield from EXPORT.findall(file.read())


def old_names():
    """The names of encoding_c_mem and encoding_c, each of which goes on with the export."""
    jumps = [NAME.format(old="encoding_" + name, new="jillapun_" + name) for name in mem_names()]
    return ".text\n" + "".join(jumps) + NO_EXECUTABLE_STACK


# What is assembled for each archive.
ARCHIVES = {"libjillapun_indexes.a": index_texts, "libjillapun_encoding_c.a": old_names}
