"""Python's names of encodings, as far as they are the Encoding Standard's."""

import re
from encodings.aliases import aliases
from typing import Dict, Optional

from ._labels import LABELS


# The labels as Python compares names, in which `_` and `-` are the same: `euc_jp` is the label `euc-jp`.
_SPELLINGS: Dict[str, str] = {re.sub("[^a-z0-9.]", "_", label): label for label in LABELS}

# Python's codecs that have the same index, with a label of the encoding: what both read is the same text, and the standard
# reads nothing more than bytes of C1 controls, and U+05BA of windows-1255. Python's cp932 reads the bytes A0, FD, FE and FF,
# too, which are malformed in the standard.
_SAME = {
    "cp866": "ibm866",
    "cp874": "windows-874",
    "cp932": "shift_jis",
    "cp949": "euc-kr",
    "koi8_r": "koi8-r",
    "mac_cyrillic": "x-mac-cyrillic",
    "mac_roman": "macintosh",
    "utf_16_be": "utf-16be",
    "utf_16_le": "utf-16le",
    "utf_8": "utf-8",
    **{"cp%d" % page: "windows-%d" % page for page in range(1250, 1259)},
    **{"iso8859_%d" % part: "iso-8859-%d" % part for part in (2, 3, 4, 5, 6, 7, 8, 10, 13, 14, 15, 16)},
}

# Python's codecs that have another index, with the label of the nearest encoding: some bytes are other characters in it, or
# are none in one of both.
_NEAREST = {
    "ascii": "ascii",
    "big5": "big5",
    "big5hkscs": "big5-hkscs",
    "cp950": "big5",
    "euc_jp": "euc-jp",
    "euc_kr": "euc-kr",
    "gb18030": "gb18030",
    "gb2312": "gb2312",
    "gbk": "gbk",
    "iso2022_jp": "iso-2022-jp",
    "iso8859_9": "iso-8859-9",
    "iso8859_11": "iso-8859-11",
    "koi8_u": "koi8-u",
    "latin_1": "latin1",
    "shift_jis": "shift_jis",
    "tis_620": "tis-620",
    "utf_16": "utf-16",
    "utf_8_sig": "utf-8",
}


def label_of(name: str) -> Optional[str]:
    """The label of the encoding that a name of Python's stands for, in small letters and with `_` for `-`."""
    return _SPELLINGS.get(name) or _SAME.get(aliases.get(name, name))


def nearest_to(name: str) -> Optional[str]:
    """The label of the encoding that is nearest to another one of Python's, by such a name."""
    return _NEAREST.get(aliases.get(name, name))
