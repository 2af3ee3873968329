"""What C, Python and Rust read of an entry says what the entry's line says, for each step of each
stored example; the counts at the end are those of the final lines; the packets of fields.c have
their numbers at the bits where docs/packets.md has them, and are read as they were spelled; its
texts have their faults; and Python and Rust lay out what they read as hmc.h does.
Usage: fields.py C RUST FOLDER: the programs of fields.c and fields.rs (- for none), and the folder
of the examples; the package hmc is to be found."""

from __future__ import annotations

import ctypes
import subprocess
import sys
from collections.abc import Callable, Iterable, Iterator
from dataclasses import fields
from pathlib import Path

TOP = Path(__file__).resolve().parent.parent.parent
sys.path[:0] = [str(TOP / "bindings" / "python")]

# pylint: disable=wrong-import-position,import-error
import hmc  # noqa: E402
from hmc.calls import RawEntry, RawUnit  # noqa: E402

Fields = dict[str, str]

# What a line says of a number, by the name that Python has for it.
WHATS = {str(int(it)): it.name.lower() for it in hmc.What}
CAUSES = {str(int(it)): it.name.lower().replace("_", "") for it in hmc.Cause}
OUTCOMES = {str(int(it)): it.name.lower().replace("_", " ") for it in hmc.Outcome}
OUTCOMES |= {str(int(it)): f"ran {it.name.lower()}" for it in (hmc.Outcome.START, hmc.Outcome.CLEAR)}
WORDS = {command.code: word for word, command in hmc.COMMANDS.items()}
NO_TAG, REGISTERS, PASSED = "65535", "255", "14"
# Which of a, b and c are the numbers of a step.
NAMES = {hmc.Step.BANK: "abc"}
NAMES |= {getattr(hmc.Step, it): "ab" for it in ("SHIFT", "SPREAD", "LIFT", "THROUGH")}


class Differs(Exception):
    """What is read says something else than the line."""


def tag_of(entry: Fields) -> str:
    """The tag, or that there is none."""
    return "-" if entry["tag"] == NO_TAG else entry["tag"]


def request_of(entry: Fields) -> str:
    """The request, as a script has it without its host."""
    word, payload = WORDS[int(entry["command"])], bytes.fromhex(entry["payload"])
    parts = [word, entry["cube"], hex(int(entry["address"]))]
    if word == "mdwr":
        parts.append(str(int.from_bytes(payload[:4], "little")))
    elif payload:
        parts.append(payload.hex())
    return " ".join((["poison"] if entry["poisoned"] == "1" else []) + parts)


def answer_of(entry: Fields) -> str:
    """The answer, as a line has it."""
    flag, value = entry["flag"], int(entry["value"])
    return (
        "silent",
        f"done {flag}",
        f"read {flag} {entry['returned']}",
        f"register {value:08x}",
        "stored",
        f"error {value}",
    )[int(entry["answer"])]


def goal_of(entry: Fields) -> str:
    """Where a packet moved to."""
    if entry["flag"] == "1":
        return f"p{entry['c']}"
    return "r" if entry["c"] == REGISTERS else f"v{entry['c']}"


def vault_of(entry: Fields) -> str:
    """A vault, or the registers."""
    return "r" if entry["b"] == REGISTERS else entry["b"]


def unit_of(entry: Fields) -> str:
    """What executed: a vault and a bank, or the registers."""
    return "r" if entry["b"] == REGISTERS else f"{entry['b']} {entry['c']}"


def idle_of(entry: Fields) -> str:
    """The words of the step that did nothing, and why."""
    step = hmc.Step(int(entry["step"]))
    numbers = [entry[name] for name in NAMES.get(step, "a")]
    if step == hmc.Step.LIFT and numbers[1] == REGISTERS:
        numbers[1] = "r"
    return " ".join([step.name.lower(), *numbers, CAUSES[entry["cause"]]])


def executed_of(entry: Fields) -> str:
    """The line of what a bank or the registers executed."""
    asked = f"{entry['host']} {tag_of(entry)} {request_of(entry)}"
    return f"executed {entry['a']} {unit_of(entry)} {asked} {answer_of(entry)}"


# The line of each kind of entry.
LINES: dict[hmc.EntryKind, Callable[[Fields], str]] = {
    hmc.EntryKind.GAVE: lambda it: f"gave {it['a']} {tag_of(it)} {request_of(it)}",
    hmc.EntryKind.SENT: lambda it: f"sent {it['a']} {WHATS[it['what']]} {it['flit']}",
    hmc.EntryKind.LANDED: lambda it: f"landed {it['a']} {it['flit']} {OUTCOMES[it['outcome']]}",
    hmc.EntryKind.SHIFTED: lambda it: f"shifted {it['a']} {it['b']} {goal_of(it)}",
    hmc.EntryKind.SPREAD_TO: lambda it: f"spread {it['a']} {it['b']} {it['c']}",
    hmc.EntryKind.EXECUTED: executed_of,
    hmc.EntryKind.LIFTED: lambda it: f"lifted {it['a']} {vault_of(it)} p{it['c']}",
    hmc.EntryKind.TOOK: lambda it: f"took {it['a']} {tag_of(it)} {answer_of(it)}",
    hmc.EntryKind.WENT_THROUGH: lambda it: f"through {it['a']} {it['b']} {it['c']}",
    hmc.EntryKind.LANDING_PASSED: lambda it: f"passed {it['a']} {it['flit']}",
    hmc.EntryKind.IDLE: lambda it: f"idle {idle_of(it)}",
    hmc.EntryKind.DROPPED: lambda it: f"dropped {it['a']} {it['b']}",
    hmc.EntryKind.DISCARDED: lambda it: f"discarded {it['a']}",
    hmc.EntryKind.UNLOCKED: lambda it: f"unlocked {it['a']}",
    hmc.EntryKind.RETIRED: lambda it: f"retired {it['a']}",
}


def line_of(entry: Fields) -> str:
    """The line that the fields of an entry say."""
    return LINES[hmc.EntryKind(int(entry["kind"]))](entry)


def ends_of(word: str, end: Fields) -> str:
    """The final line that these counts say. The tokens have their sum at the end."""
    numbers = list(end.values())
    if word == "tokens":
        numbers.append(str(sum(int(number) for number in numbers[1:])))
    return " ".join([word, *numbers])


def fields_of(words: str) -> Fields:
    """Names and what they are."""
    pairs = (pair.split("=") for pair in words.split())
    return {name: value for name, value in pairs}


def compare(lines: Iterable[str]) -> tuple[int, int]:
    """Compares entries with the lines after them, and counts with the final lines. Returns how many
    of both there are."""
    wanted: list[str] = []
    entries = ends = 0
    for line in lines:
        word, _, rest = line.partition(" ")
        if word == "entry":
            wanted.append(line_of(fields_of(rest)))
            entries += 1
        elif word in ("tokens", "counters", "host", "cube"):
            wanted.append(ends_of(word, fields_of(rest)))
            ends += 1
        elif word == "line" and rest.split()[0] not in ("memory", "register", "state"):
            if not wanted or wanted.pop(0) != rest:
                raise Differs(f"the fields don't say {rest}")
        elif word == "case" and wanted:
            raise Differs(f"no line says {wanted[0]}")
    if wanted:
        raise Differs(f"no line says {wanted[0]}")
    return entries, ends


def entry_of(session: hmc.Session) -> Fields:
    """The latest entry, as Python reads it, by the names of hmc.h."""
    entry = session.entry
    assert entry is not None
    mine = {field.name: getattr(entry, field.name) for field in fields(entry)}
    answer = mine.pop("answer")
    mine |= {"answer": int(answer.kind), "value": answer.value, "returned": answer.data.hex()}
    mine["tag"] = NO_TAG if entry.tag is None else entry.tag
    mine["payload"], mine["flit"] = entry.payload.hex(), entry.flit.hex()
    for name in ("kind", "cause", "what", "outcome", "step", "flag", "poisoned"):
        mine[name] = int(mine[name] or 0)
    if answer.flag != entry.flag:
        raise Differs("the flag of an answer isn't that of its entry")
    return {name: str(value) for name, value in mine.items()}


def python_lines(paths: list[Path]) -> Iterator[str]:
    """The entries of a session of each case, and their lines."""
    for path in paths:
        try:
            session = hmc.Session(path.read_text(encoding="utf-8"), hmc.PROGRAM_UNITS)
        except hmc.Error:
            continue
        with session:
            for host in range(8):
                try:
                    session.finish(host)
                except hmc.Error:
                    break
            while session.run(1):
                entry = entry_of(session)
                yield "entry " + " ".join(f"{name}={value}" for name, value in entry.items())
                yield f"line {(session.line or '').rstrip()}"
                if entry["kind"] == PASSED:
                    break


def written(program: str, paths: list[Path]) -> list[str]:
    """The lines that a program writes for these cases."""
    words = [program, *map(str, paths)]
    return subprocess.run(words, capture_output=True, text=True, check=True).stdout.splitlines()


def bits(number: int, low: int, high: int) -> str:
    """The bits of a word from the lowest one to the highest."""
    return str(number >> low & (1 << high - low + 1) - 1)


def spelled(packet: Fields, flits: bytes) -> Fields:
    """The numbers of a packet of profile one, at the places that docs/packets.md gives them."""
    head, tail = (int.from_bytes(it, "little") for it in (flits[:8], flits[-8:]))
    is_request = int(packet["command"]) < 56
    parts = {"tag": bits(head, 12, 22), "command": bits(head, 0, 6), "cube": bits(head, 61, 63)}
    parts |= {"rrp": bits(tail, 0, 8), "frp": bits(tail, 9, 17), "seq": bits(tail, 18, 20)}
    parts |= {"rtc": bits(tail, 29, 31), "payload": flits[8:-8].hex()}
    parts["length"] = str(len(flits) - 16)
    if is_request:
        return parts | {"address": bits(head, 24, 57), "slid": bits(tail, 26, 28)}
    parts |= {"flag": bits(head, 33, 33), "slid": bits(head, 39, 41)}
    return parts | {"errstat": bits(tail, 22, 28)}


def compare_packets(lines: list[str]) -> int:
    """Each packet is at its bits, and read as it was spelled. Returns how many there are."""
    rows = [line.partition(" ") for line in lines]
    packets = [fields_of(rest) for word, _, rest in rows if word == "spelled"]
    read = [fields_of(rest) for word, _, rest in rows if word == "read"]
    flits = [fields_of(rest)["bytes"] for word, _, rest in rows if word == "flits"]
    if packets != read:
        raise Differs("a packet isn't read as it was spelled")
    for packet, its_flits in zip(packets, flits, strict=True):
        for name, value in spelled(packet, bytes.fromhex(its_flits)).items():
            if packet[name] != value:
                raise Differs(f"the bits of {name} are {value} and not {packet[name]}")
    return len(packets)


# The faults of the texts of fields.c, as docs/case.md has them: the second cube lacks a key, the
# third line of the script has no command, and there is no host of the second step.
FAULTS = ["line=1 section=2 word=missing", "line=3 section=5 word=command"]
FAULTS += ["line=2 section=6 word=range"]


def compare_faults(lines: list[str]) -> None:
    """The faults are those of the texts."""
    found = [line.partition(" ")[2] for line in lines if line.startswith("fault ")]
    if found != FAULTS:
        raise Differs(f"the faults are {found}")


def python_layout() -> Iterator[str]:
    """The place and the size of each field that Python reads."""
    for word, structure in (("unit", RawUnit), ("entry", RawEntry)):
        for name, *_ in structure._fields_:  # pylint: disable=protected-access
            field = getattr(structure, name)
            yield f"{word} {name} {field.offset} {field.size}"
    for word, structure in (("unit", RawUnit), ("entry", RawEntry)):
        yield f"{word} - {ctypes.sizeof(structure)}"


def python_constants() -> set[str]:
    """The numbers that Python has for the names of hmc.h."""
    enums = (hmc.Status, hmc.Step, hmc.EntryKind)
    named = {f"constant {it.name} {int(it)}" for enum in enums for it in enum}
    return named | {f"constant NO_TAG {NO_TAG}", f"constant REGISTERS_OF {REGISTERS}"}


def compare_layouts(wanted: list[str], rust: str) -> None:
    """Python and Rust lay out what they read as hmc.h does, and have its numbers."""
    layout = [line for line in wanted if line.split()[0] in ("unit", "entry")]
    constants = {line for line in wanted if line.startswith("constant ")}
    if layout != list(python_layout()):
        raise Differs("Python lays out what it reads otherwise than hmc.h")
    if constants != python_constants():
        raise Differs(f"Python has other numbers: {sorted(constants ^ python_constants())}")
    if rust == "-":
        return
    places = {" ".join(line.split()[:3]) for line in layout}
    known = set(written(rust, []))
    if places != {line for line in known if not line.startswith("constant ")}:
        raise Differs("Rust lays out what it reads otherwise than hmc.h")
    if not {line for line in known if line.startswith("constant ")} <= constants:
        raise Differs("Rust has other numbers than hmc.h")


def main(c: str, rust: str, folder: str) -> None:
    """Compares all, and says how much it was."""
    paths = sorted(Path(folder).glob("*.toml"))
    alone = written(c, [])
    compare_layouts(alone, rust)
    packets = compare_packets(alone)
    compare_faults(alone)
    entries, ends = compare(written(c, paths))
    if compare(python_lines(paths))[0] != entries:
        raise Differs("Python has other entries")
    if rust != "-" and compare(written(rust, paths))[0] != entries:
        raise Differs("Rust has other entries")
    print(f"{entries} entries, {ends} counts and {packets} packets say what their lines say")


if __name__ == "__main__":
    main(*sys.argv[1:4])
