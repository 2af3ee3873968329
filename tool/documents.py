"""Writes cases as TOML."""

from __future__ import annotations

from collections.abc import Iterable

from tool.case import Document

NUMBERS = ("vault_bits", "bank_bits", "rows", "queue", "block")
SIZES = ("line", "tokens", "retry", "output", "profile")


def text_of(document: Document) -> str:
    """The case as people write one. Its script and schedule are of whole lines."""
    parts = [f"profile = {document['profile']}\n"]
    for key in ("script", "schedule"):
        parts.append(f"{key} = '''\n{document[key]}'''\n")
    parts += [_table("cubes", cube, NUMBERS) for cube in document["cubes"]]
    parts += [_table("links", link, ("a", "b", *SIZES)) for link in document["links"]]
    return "".join(parts)


def _table(name: str, table: Document, keys: Iterable[str]) -> str:
    rows = [f"{key} = {_value(table[key])}\n" for key in keys if key in table]
    return f"\n[[{name}]]\n{''.join(rows)}"


def _value(value: object) -> str:
    return f'"{value}"' if isinstance(value, str) else str(value)
