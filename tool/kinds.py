"""Quantities of a kind, each by its name: `code.rd16`, `status.Memory`, `most.tokens`."""

from __future__ import annotations

import re
from collections.abc import Callable
from functools import partial

from tool import case, packets, trouble
from tool.commands import BY_WORD
from tool.kit import TOP
from tool.numbers import named, text_of
from tool.sources import constant, int_of

HEADER = "bindings/c/hmc.h"
CHAIN = "crates/hmc_make/src/chain.rt"
ENTRY = "crates/hmc_c/src/entry.rt"
ERRORS = "crates/hmc_serial/specs/Errors.antt"
OPERATIONS = "crates/hmc_atomics/specs/Operations.antt"
# What the definitions of errors say before the number of each.
TESTS = {
    "misaligned": "is_misaligned halves address then Some ",
    "past_block": r"offset_of shape address \+ size\) then Some ",
    "no_row": r"row_of shape address\) then Some ",
    "no_register": "nat_le 16 address then Some ",
    "read_only": "nat_lt address 4 then Some ",
    "no_unit": "else Some ",
}
# The least and the greatest value of each key of a case.
RANGES = {**case.CUBE_RANGES, **case.LINK_RANGES, "retry_of_two": case.RETRY_OF_TWO}
# The fields of headers, and of the tails of each profile.
WORDS = {
    "request": packets.REQUEST_HEADER,
    "response": packets.RESPONSE_HEADER,
    "one": packets.REQUEST_TAIL[1],
    "one_response": packets.RESPONSE_TAIL[1],
    "two": packets.REQUEST_TAIL[2],
    "two_response": packets.RESPONSE_TAIL[2],
}


def ends_of(name: str) -> list[str]:
    """The ends of links of an example."""
    return re.findall(r'^[ab] = "(.*)"$', text_of(f"examples/{name}.toml"), re.MULTILINE)


def script_of(name: str) -> str:
    """The script of an example."""
    return text_of(f"examples/{name}.toml").split("script = '''")[1].split("'''")[0]


def setting(name: str, key: str) -> int:
    """A number that an example has, the same in each of its tables."""
    return int_of(named(f"examples/{name}.toml", rf"(?m)^{key} = ")())


def requests(name: str) -> int:
    """The requests of an example: the lines of its script that are no fences."""
    return len(re.findall(r"^[0-7] (?!fence)", script_of(name), re.MULTILINE))


def status(name: str) -> int:
    """A status of the program, by what ends a run."""
    if name in ("Ok", "Usage"):
        return {"Ok": 0, "Usage": constant("crates/hmc_main/src/lib.rt", "USAGE")}[name]
    return int_of(named("crates/hmc_replay/src/top.rt", rf"RunError::{name}\) => ")())


def ended(name: str) -> int:
    """The status of a run of the program that is stored: that of its crate, or of a test."""
    folder = "crates/hmc_prog" if name == "prog" else f"tool/tests/data/runs/{name}"
    path = TOP / folder / "status"
    return int(path.read_text(encoding="utf-8")) if path.exists() else 0


def end_of(fields: tuple[packets.Field, ...], end: str, name: str) -> int:
    """The highest or the lowest bit of a field."""
    return next(int(getattr(it, end)) for it in fields if it.name == name)


def reply_flits(word: str) -> int:
    """The flits of the answer to a read."""
    return 1 + int(word.removeprefix("rd")) // packets.FLIT_BYTES


def operand(word: str) -> int:
    """The bytes that an atomic command acts on: a half of them, or all."""
    variant = ("Two" if word.startswith("2") else "") + word.lstrip("2").capitalize()
    (atomic,) = re.findall(rf"commands\.{variant} = Some atomics\.(\w+)", text_of(OPERATIONS))
    halves = f"by_halves atomics.{atomic} = true" in text_of(OPERATIONS)
    return packets.FLIT_BYTES // 2 if halves else packets.FLIT_BYTES


def error(name: str) -> int:
    """The number of an error, by its test."""
    return int_of(named(ERRORS, TESTS[name])())


def register(name: str) -> int:
    """The number of a register that does not begin at zero, by what it begins with."""
    text = text_of("crates/hmc_registers/specs/Registers.antt")
    (first,) = re.findall(r"^    (cube ∷ .*) ∷ replicate [0-9]+ 0$", text, re.MULTILINE)
    return [it.rpartition(".")[2] for it in first.split(" ∷ ")].index(name)


def power(place: str) -> int:
    """A power of the divisor's polynomial, counted from 0 for its highest."""
    coefficients = packets.DIVISOR | 1 << 32
    powers = [at for at in range(32, -1, -1) if coefficients >> at & 1]
    return powers[int(place)]


def unit(number: int, name: str) -> int:
    """Of a unit of the program: its slot, its cube or its code."""
    text = text_of("crates/hmc_main/src/lib.rt")
    found = re.findall(r"units\.push\(Box::new\(alloc, (\w+)::new\(([0-9]), ([0-9])\)", text)
    rows = {it[0]: (slot, int(it[1]), int(it[2])) for slot, it in enumerate(found)}
    return rows[name][number]


def answer(name: str) -> int:
    """The number by which the library for C shows an answer."""
    return int(re.findall(rf"Answer::{name}\b.*?out\.answer = ([0-9])", text_of(ENTRY), re.S)[0])


def outcome(name: str) -> int:
    """The number by which the library for C shows what a landing was."""
    return int_of(named(ENTRY, rf"Outcome::{re.escape(name)} => ")())


def ran(place: str) -> int:
    """The round of a line `ran` of docs/link.md, counted from 0."""
    return int(re.findall(r"^([0-9]+) \w+ ran$", text_of("docs/link.md"), re.MULTILINE)[int(place)])


def landed(words: str) -> int:
    """The round of the line of docs/link.md that ends with these words, the last one of them."""
    end = words.replace("_", " ")
    return int(re.findall(rf"^([0-9]+) .*{end}$", text_of("docs/link.md"), re.MULTILINE)[-1])


def measured(name: str) -> int:
    """A number that bench/rounds found: the rounds until an answer."""
    return int_of(named("bench/measured/rounds.txt", rf"(?m)^{name}: ")())


KINDS: dict[str, Callable[[str], int]] = {
    "status": status,
    "ended": ended,
    "script": lambda it: int(vars(trouble)[it]),
    "made": lambda it: int_of(named(CHAIN, rf"\b{it}: ")()),
    "link": lambda it: int_of(named("bench/link-example", rf"\b{it}: ")()),
    "hosts": lambda it: sum(end[0] == "h" for end in ends_of(it)),
    "cubes": lambda it: text_of(f"examples/{it}.toml").count("[[cubes]]"),
    "links": lambda it: text_of(f"examples/{it}.toml").count("[[links]]"),
    "requests": requests,
    "vaults": lambda it: 1 << setting(it, "vault_bits"),
    "banks": lambda it: 1 << setting(it, "bank_bits"),
    "code": lambda it: BY_WORD[it].code,
    "flits": lambda it: BY_WORD[it].lengths[0],
    "payload": lambda it: BY_WORD[it].payload_bytes,
    "reply": reply_flits,
    "irtry": lambda it: {kind: frp for frp, kind in packets.IRTRY_KINDS.items()}[it],
    "operand": operand,
    "error": error,
    "register": register,
    "least": lambda it: RANGES[it][0],
    "most": lambda it: RANGES[it][1],
    "power": power,
    "slot": partial(unit, 0),
    "unit_cube": partial(unit, 1),
    "unit_code": partial(unit, 2),
    "answer": answer,
    "outcome": outcome,
    "ran": ran,
    "landed": landed,
    "rounds": measured,
    **{f"high.{word}": partial(end_of, fields, "high") for word, fields in WORDS.items()},
    **{f"low.{word}": partial(end_of, fields, "low") for word, fields in WORDS.items()},
}
