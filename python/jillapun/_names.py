"""How names of files, and other words, are shown, so that none can write to a terminal what a terminal obeys."""

import re

# Controls, what cannot be seen or turns the direction of a text, and lone surrogates, which stand for bytes of a name
# that is not UTF-8. The same as `recode-places` shows by number (crates/recode_places_report, src/cell.rt).
_BY_NUMBER = re.compile(
    "[\0-\x1f\x7f-\x9f\xad\u034f\u061c\u115f\u1160\u17b4\u17b5\u180b-\u180f\u200b-\u200f\u2028-\u202e\u2060-\u206f"
    "\u3164\ud800-\udfff\ufe00-\ufe0f\ufeff\uffa0\ufff0-\ufffb"
    "\U0001bca0-\U0001bca3\U0001d173-\U0001d17a\U000e0000-\U000e0fff]"
)


def is_shown_by_number(character: str) -> bool:
    return _BY_NUMBER.match(character) is not None


def _number(found: "re.Match[str]") -> str:
    point = ord(found[0])
    if found[0] == "\t":
        return " "
    return "<%02X>" % (point - 0xDC00) if 0xDC80 <= point <= 0xDCFF else "<U+%04X>" % point


def shown(words: str) -> str:
    """The words as `recode-places` shows a name: a tab as a space, a control or what cannot be seen by its number, as
    `<U+202E>`, and a byte that is no UTF-8 as `<FF>`."""
    return _BY_NUMBER.sub(_number, words)
