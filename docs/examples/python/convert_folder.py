"""Converts each file below a folder into another folder, on all processors. Folders in it are kept.

    python3 convert_folder.py shift_jis utf-8 FOLDER INTO

The threads work at once: a call of the library releases Python's lock. Of each file the first ten losses are printed. The
status is 0 if nothing was lost, 1 if something was, and 4 if a file could not be converted, or if there is none. INTO can
be a folder in FOLDER: no file in it is converted.
"""

import os
import sys
from concurrent.futures import ThreadPoolExecutor
from pathlib import Path
from typing import Union

import jillapun


def main(source: str, target: str, folder: str, into: str) -> int:
    outputs = Path(into).resolve()
    found = [path for path in Path(folder).rglob("*") if path.is_file() and outputs not in path.resolve().parents]
    paths = sorted(path.relative_to(folder) for path in found)
    if not paths:
        print("%s: there is no file to convert" % folder, file=sys.stderr)
        return 4
    for path in paths:
        (Path(into) / path.parent).mkdir(parents=True, exist_ok=True)

    def converted(path: Path) -> Union[jillapun.ConvertedFile, Exception]:
        try:
            return jillapun.convert_file(Path(folder) / path, Path(into) / path, source, target, keep_losses=10)
        except (OSError, jillapun.JillapunError) as fault:
            return fault

    status = 0
    with ThreadPoolExecutor(os.cpu_count()) as pool:
        for path, result in zip(paths, pool.map(converted, paths)):
            if isinstance(result, Exception):
                print("%s: %s" % (path, result), file=sys.stderr)
                status = 4
                continue
            print("%s: %s" % (path, result.summary))
            for loss in result.kept_losses:
                print("  %s" % (loss,))
            status = max(status, int(not result.faithful))
    return status


if __name__ == "__main__":
    sys.exit(main(*sys.argv[1:]))
