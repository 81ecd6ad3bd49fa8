"""Packages that tests use if they are there: in this Python, or as Debian has them."""

import importlib
import sys
import unittest
from types import ModuleType

DEBIAN = "/usr/lib/python3/dist-packages"


def package(name: str) -> ModuleType:
    """The package; without it the test is skipped."""
    try:
        return importlib.import_module(name)
    except ImportError:
        sys.path.append(DEBIAN)
    try:
        return importlib.import_module(name)
    except ImportError as missing:
        raise unittest.SkipTest(str(missing)) from None
    finally:
        sys.path.remove(DEBIAN)
