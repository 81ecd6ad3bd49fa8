"""The lines of docs/PYTHON.md that use other packages, each as it stands there, if its package is there."""

import http.server
import os
import re
import subprocess
import sys
import tempfile
import threading
import unittest
from pathlib import Path
from typing import Dict, List

import cases
import installed

# What follows the lines, and what it prints.
AFTER = {
    "csv": ("print([dict(row) for row in rows])", "[{'name': 'Größe', 'price': '3 €'}]\n"),
    "pandas": ("print(frame.to_dict('list'))", "{'name': ['Größe'], 'price': ['3 €']}\n"),
    "requests": ("print(repr(text), losses)", "'<title>日本</title>\ufffd\\n' [Bad(offset=19, length=1)]\n"),
    "html5lib": (
        "print(tree.findtext('.//{http://www.w3.org/1999/xhtml}title'))",
        "日本\n",
    ),
}
PRICES, PAGE = "name;price\nGröße;3 €\n".encode("cp1252"), "<title>日本</title>".encode("cp932") + b"\xff\n"

# Where Debian's packages are looked for, after this Python's own.
FIRST = "import sys; sys.path.append(%r)\n" % installed.DEBIAN


def blocks() -> Dict[str, List[str]]:
    """The lines, by the package that the first or second of them imports."""
    text = Path(cases.TOP, "docs/PYTHON.md").read_text(encoding="utf-8")
    found: Dict[str, List[str]] = {}
    for block in re.findall(r"(?m)(?:^    .*\n)+", text):
        names = set(re.findall(r"\bimport (\w+)", block)) & set(AFTER)
        if len(names) == 1 and ">>>" not in block:
            found.setdefault(names.pop(), []).append(re.sub("(?m)^    ", "", block))
    return found


class Page(http.server.BaseHTTPRequestHandler):
    def do_GET(self) -> None:
        self.send_response(200)
        self.send_header("Content-Type", "text/html; charset=sjis")
        self.end_headers()
        self.wfile.write(PAGE)

    def log_message(self, *words: object) -> None:
        pass


class Documents(unittest.TestCase):
    def ran(self, name: str) -> None:
        """Runs each example with the package."""
        if name != "csv":
            installed.package(name)
        for lines in blocks()[name]:
            self.example(name, lines)

    def example(self, name: str, lines: str) -> None:
        """Runs the lines in a folder with the files that they read."""
        self.assertEqual(len(lines.splitlines()), 3)
        with http.server.ThreadingHTTPServer(("127.0.0.1", 0), Page) as server, tempfile.TemporaryDirectory() as folder:
            threading.Thread(target=server.serve_forever, daemon=True).start()
            lines = lines.replace("localhost:8000", "127.0.0.1:%d" % server.server_port)
            Path(folder, "prices.csv").write_bytes(PRICES)
            Path(folder, "page.html").write_bytes(PAGE)
            after, wanted = AFTER[name]
            paths = [os.path.join(cases.TOP, "python"), *filter(None, [os.environ.get("PYTHONPATH")])]
            environment = {**os.environ, "PYTHONPATH": os.pathsep.join(paths), "PYTHONIOENCODING": "utf-8"}
            environment["no_proxy"] = "127.0.0.1"
            command = [sys.executable, "-c", FIRST + lines + after]
            streams = {"capture_output": True, "encoding": "utf-8", "timeout": 60}
            ran = subprocess.run(command, env=environment, cwd=folder, check=False, **streams)
            server.shutdown()
            self.assertEqual((ran.returncode, ran.stdout), (0, wanted), ran.stderr)
            if "new.csv" in lines:
                made = Path(folder, "new.csv").read_bytes()
                self.assertEqual(made, ",name,price\n0,Gr&#246;&#223;e,3 &#8364;\n".encode("ascii"))

    def test_csv(self) -> None:
        self.ran("csv")

    def test_pandas(self) -> None:
        self.ran("pandas")

    def test_requests(self) -> None:
        self.ran("requests")

    def test_html5lib(self) -> None:
        self.ran("html5lib")


if __name__ == "__main__":
    unittest.main()
