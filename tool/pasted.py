"""Finds the flits in what people paste: digits as they have them, or lines of a report."""

from __future__ import annotations

import re

from tool.packets import FLIT_BYTES
from tool.report import not_a_line
from tool.trouble import USAGE, Trouble, quoted

DIGITS = 2 * FLIT_BYTES
# A line of a report with a flit, perhaps with its number in front as `diff` writes it.
LINE = re.compile(
    r"\s*(?:[0-9]+:? +)?(?:sent [0-9]+ [a-z]+|landed [0-9]+|passed [0-9]+) ([0-9a-f]{32})\b.*"
)
# A line that begins as one with a flit does.
BEGUN = re.compile(r"\s*(?:[0-9]+:? +)?((?:sent|landed|passed) .*)")
# Other lines of a report.
OTHER = re.compile(
    r"\s*(?:[0-9]+:? +)?(?:gave|shifted|dropped|spread|executed|lifted|took|discarded|through"
    r"|unlocked|retired|idle|memory|register|tokens|counters|host|cube|state)\b.*"
)
# What stands in front of digits: 0x, or a width as in Verilog.
FRONT = re.compile(r"\b(?:0[xX]|[0-9]+'[hH])")
BETWEEN = re.compile(r"[\s_,]+")


def flits_in(text: str, is_reversed: bool = False) -> list[bytes]:
    """The flits that a text has, one after another.

    Their digits may have `0x` in front, underscores, commas and blanks. With `is_reversed` the
    last byte of each flit is written first, as a bus of 128 bits is printed.
    """
    digits, other = "", ""
    for line in text.splitlines():
        found, begun = LINE.fullmatch(line), BEGUN.fullmatch(line)
        if found:
            digits += found[1]
        elif begun:
            shown = quoted(begun[1])
            raise Trouble(USAGE, f"{shown} is not a line of a report: {not_a_line(begun[1])}")
        elif OTHER.fullmatch(line):
            other = other or line.strip()
        else:
            digits += BETWEEN.sub("", FRONT.sub("", line))
    wrong = re.search("[^0-9a-fA-F]", digits)
    if wrong:
        raise Trouble(USAGE, f"`{wrong[0]}` is not a hexadecimal digit: a flit is {DIGITS} digits")
    if other and not digits:
        shown = quoted(other)
        raise Trouble(USAGE, f"{shown} has no flit: docs/report.md explains each kind of line")
    if not digits or len(digits) % DIGITS:
        raise Trouble(USAGE, f"a flit is {DIGITS} hexadecimal digits, and here are {len(digits)}")
    flits = [digits[at : at + DIGITS] for at in range(0, len(digits), DIGITS)]
    step = -1 if is_reversed else 1
    return [bytes.fromhex(flit)[::step] for flit in flits]
