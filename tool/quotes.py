"""Puts the contracts that a page CALLING.md quotes into it, as the code has them now."""

from __future__ import annotations

import re
from pathlib import Path

BLOCK = re.compile(r"^```text\n(.*?)^```$", re.MULTILINE | re.DOTALL)
# Where a function begins, or what it belongs to begins or ends.
PART = re.compile(r"^(?= *pub fn |impl|\})", re.MULTILINE)
FUNCTION = re.compile(r"^ *pub fn (\w+)", re.MULTILINE)
COMMENT = re.compile(r"^ *//.*\n", re.MULTILINE)
BLANK = re.compile(r"\n\n+")


def contract_of(sources: list[str], name: str, head: str) -> str:
    """The head and the clauses of a public function, without comments and its body. `head` is the
    first line of its `impl`, or empty."""
    indent = "    " if head else ""
    found = re.compile(rf"^{indent}pub fn {name}\b.*?(?=^{indent}\{{)", re.MULTILINE | re.DOTALL)
    owner = re.compile(rf"^{re.escape(head)}.*?^}}" if head else r".*", re.MULTILINE | re.DOTALL)
    for source in sources:
        for part in owner.findall(source):
            match = found.search(part)
            if match:
                return BLANK.sub("\n", COMMENT.sub("", match[0]))
    raise AssertionError(f"no function {name} is public there")


def quoted(block: str, sources: list[str]) -> str:
    """A block of contracts with each function as the code has it. One that differs from it in its
    lines alone stays."""
    out, head = list[str](), ""
    for part in PART.split(block):
        found = FUNCTION.match(part)
        if part.startswith("impl"):
            head = part
        elif part.startswith("}"):
            head = ""
        if found:
            contract = contract_of(sources, found[1], head)
            part = part if part.split() == contract.split() else contract
        out.append(part)
    return "".join(out)


def requote(page: Path) -> str:
    """A page with the contracts of its crate as they are now."""
    files = sorted((page.parent / "src").rglob("*.rt"))
    sources = [path.read_text(encoding="utf-8") for path in files]
    text = page.read_text(encoding="utf-8")
    found = BLOCK.search(text)
    if not found:
        return text
    return text[: found.start(1)] + quoted(found[1], sources) + text[found.end(1) :]
