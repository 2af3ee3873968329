"""The versions that pages state, each with the file that asks for it."""

from __future__ import annotations

import re

from tool.kit import TOP


def of_script() -> str:
    """The least Python by which the script runs."""
    text = (TOP / "zehimbado").read_text(encoding="utf-8")
    (found,) = re.findall(r"version_info < \((\d+), (\d+)\)", text)
    return ".".join(found)


def of_bindings() -> str:
    """The least Python by which the bindings run."""
    text = (TOP / "bindings" / "python" / "pyproject.toml").read_text(encoding="utf-8")
    (found,) = re.findall('python = ">=(.*)"', text)
    return str(found)
