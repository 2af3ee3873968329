"""The reader of TOML: that of Python 3.11 and later, or the package tomli where it is installed."""

from __future__ import annotations

import importlib
from typing import Any

from tool.trouble import UNAVAILABLE, Trouble

READERS = ("tomllib", "tomli")
MISSING = (
    "to read a case this takes Python 3.11 or later, or the package tomli "
    "(Debian and Ubuntu: python3-tomli)"
)


def reader() -> Any:
    """The module that reads TOML, or None."""
    for name in READERS:
        try:
            return importlib.import_module(name)
        except ImportError:
            continue
    return None


def is_here() -> bool:
    """Whether TOML can be read."""
    return reader() is not None


def loads(text: str) -> dict[str, Any]:
    """The document that a text is; a ValueError where it is none."""
    module = reader()
    if module is None:
        raise Trouble(UNAVAILABLE, MISSING)
    document: dict[str, Any] = module.loads(text)
    return document
