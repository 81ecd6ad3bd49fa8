"""The command lines of the program: their words, and what `--help` says. None of it needs the library."""

import argparse
from typing import Optional

from ._terminal import Parser
from ._version import __version__

_USAGE = """\
jillapun [convert] --from LABEL --to LABEL [OPTION ...] FILE ...
       jillapun places --from LABEL --to LABEL [OPTION ...] FILE ...
       jillapun which [OPTION ...] FILE ...
       jillapun labels
       jillapun --version
"""

_CONVERT = """\
Other commands: places shows by line and column what a conversion would lose, which names the
encoding of each file as far as its bytes show it, labels lists the encodings. Each has its own
--help. To convert a file that has the name of a command, write ./NAME.

Without --into and --in-place, one file is converted to standard output; several are refused.

With --into, each output gets the name of its file in FOLDER, which is made if its parent exists. An
existing file of that name is replaced, as by cp, whatever is lost. If an output would replace
another output or an input, nothing is written.

With --in-place, a file is replaced if nothing is lost. Otherwise it stays as it was, and the status
is 1: --lossy replaces it all the same, and so does --backup, which keeps the original. A file that
is UTF-8 already is not converted to UTF-8 again from another encoding, so you can restart an
interrupted conversion to UTF-8; --force converts it. One that is all ASCII is converted, except
from UTF-16. This is checked only in place. Owner (if it can be set), permissions and extended
attributes are kept; the time of change is new, and other hard links keep the old content. A
symbolic link is refused, also as an output of --into.

Each loss is a line, NAME: bad OFFSET LENGTH or NAME: lost INDEX SCALAR, as in the log of recode, on
standard output, or on standard error if the conversion goes to standard output. Control characters
and invisible characters in a name are printed by number, as <U+001B>.

Status 0 has two limits. It does not mean that --from was right: in windows-1252 and others any bytes
are text; ask jillapun which FILE first. And the output is read back with byte order marks kept: text
that begins with U+00EF U+00BB U+00BF converts to windows-1252 with status 0, although a reader that
looks for marks takes its first bytes for the mark of UTF-8.

Exit status, the greatest of all files:
  0  all files were converted, and nothing was lost
  1  something was lost, or with --in-place a file stays as it was, since something would be lost or
     since it is UTF-8 already
  2  the command line was refused
  3  an index is missing or invalid
  4  reading or writing failed, or --unmappable stop met an unmappable character; a file that was to
     be replaced is as it was
"""

_WHICH = """\
Prints one line for each file: its byte order mark if it has one, or that it is all ASCII, or that it
is well-formed UTF-8, which text in another encoding hardly ever is. Otherwise it names the multibyte
encodings in which the file has no malformed sequence, which is rare by chance, or else windows-1252,
and how many other encodings have none. It does not guess: compare what --all prints.

With --all, it prints how many malformed sequences the file has in each of the 40 encodings, those
that read it alike on one line. The first lines that are not all printable ASCII follow, or the first
lines, as the first of these encodings read them. Control characters and invisible characters are
printed by number, as <U+001B>. A count of 0 proves nothing: in windows-1252 and others any bytes are
text. Replacement has at most one malformed sequence, and comes last.

Exit status, the greatest of all files: 0; 2 if the command line was refused; 3 if an index is
missing or invalid; 4 if reading or printing failed.
"""

_PLACES = """\
Prints NAME:LINE:COLUMN and what a conversion would lose there, for each malformed sequence and each
unmappable character. Columns count characters; a malformed sequence counts as one. No file is
written.

Exit status, the greatest of all files:
  0  nothing is malformed or unmappable
  1  something would be lost
  2  the command line was refused
  3  an index is missing or invalid
  4  reading or printing failed
"""

_MARKS, _POLICIES = ("sniff", "remove", "keep"), ("decimal", "hexadecimal", "stop")


def _number(word: str) -> int:
    if not (word.isascii() and word.isdigit()):
        raise argparse.ArgumentTypeError("%r is not a number" % word)
    return int(word)


def _count(word: str) -> int:
    if _number(word) < 1:
        raise argparse.ArgumentTypeError("%r is not a positive number" % word)
    return int(word)


def _parser(name: str, description: str, epilog: str = "", usage: Optional[str] = None) -> Parser:
    form = argparse.RawDescriptionHelpFormatter
    return Parser(prog=name, usage=usage, description=description, epilog=epilog, formatter_class=form)


def _add_labels(parser: Parser) -> None:
    parser.add_argument("--from", dest="source", metavar="LABEL", required=True, help="the encoding of the files")
    parser.add_argument("--to", dest="target", metavar="LABEL", required=True, help="the encoding of the output")


def _add_mark(parser: Parser) -> None:
    text = "let a byte order mark decide the encoding, remove that of --from, or keep it as text"
    parser.add_argument("--mark", choices=_MARKS, default="sniff", help=text)


def _add_files(parser: Parser) -> None:
    parser.add_argument("--indexes", metavar="FOLDER", help="the folder of the index files")
    parser.add_argument("files", metavar="FILE", nargs="+")


def convert_parser() -> Parser:
    parser = _parser("jillapun", "Converts files from one encoding to another.", _CONVERT, _USAGE)
    _add_labels(parser)
    parser.add_argument("--into", metavar="FOLDER", help="write the outputs into this folder")
    parser.add_argument("--in-place", action="store_true", help="replace each file with its conversion")
    parser.add_argument(
        "--backup",
        metavar="SUFFIX",
        help="keep each replaced file as NAME with SUFFIX; without --into this means --in-place",
    )
    parser.add_argument(
        "--lossy", action="store_true", help="with --in-place, replace a file even if something is lost"
    )
    parser.add_argument(
        "--force", action="store_true", help="with --in-place, convert a file to UTF-8 even if it is UTF-8 already"
    )
    _add_mark(parser)
    parser.add_argument(
        "--unmappable", choices=_POLICIES, default="decimal", help="write unmappable characters as references, or stop"
    )
    parser.add_argument("--threads", metavar="N", type=_count, default=1, help="convert a file with N threads, 1 by default")
    _add_files(parser)
    parser.add_argument("--version", action="version", version="jillapun " + __version__, help="print the version")
    return parser


def places_parser() -> Parser:
    parser = _parser("jillapun places", "Shows where a conversion would lose something.", _PLACES)
    _add_labels(parser)
    _add_mark(parser)
    _add_files(parser)
    return parser


def which_parser() -> Parser:
    parser = _parser("jillapun which", "Names the encoding of each file, as far as its bytes show it.", _WHICH)
    parser.add_argument("--all", action="store_true", help="print how each encoding reads a file")
    parser.add_argument("--lines", metavar="N", type=_number, help="with --all, show N lines, 3 by default")
    parser.add_argument(
        "--most", metavar="N", type=_number, help="with --all, show them in at most N encodings, 24 by default"
    )
    _add_files(parser)
    return parser


def labels_parser() -> Parser:
    return _parser("jillapun labels", "Lists the encodings and their labels.")
