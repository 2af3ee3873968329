"""Explains a line `bad SECTION LINE KIND`, and shows where the fault is in a case."""

from __future__ import annotations

import re
from dataclasses import dataclass

from tool import case, schedule, texts, traces
from tool.case import Document, Fault, net_advice
from tool.commands import BY_WORD, REQUEST
from tool.nearest import nearest
from tool.places import Places, Span
from tool.trouble import quoted

LINE = re.compile(r"bad (toml|top|cube|net|link|script|schedule|trace) ([0-9]+) ([a-z]+)")
CASE_PAGE = "docs/case.md#faults"
TEXT_PAGE = {"script": "docs/script.md#faults", "schedule": "docs/schedule.md#faults"}
# The fault that a case has for `bound` alone.
SINGLE = "bad net 0 single"
TRACE, TRACE_PAGE = "trace", "docs/trace.md#faults"
# So many characters of a line of a trace are shown at most, and of a line of a case; of those that
# many are before the place that is shown, if there are more after it.
MOST_SHOWN = 90
MOST_OF_LINE = 600
MOST_BEFORE = 60


@dataclass(frozen=True)
class Part:
    """A part of a line of the script or the schedule: its line, from 1, its column and width."""

    section: str
    line: int
    column: int
    width: int


# What each kind says, by its section.
MEANINGS = {
    "toml": {"syntax": "the bytes are not UTF-8, or not a TOML document"},
    "top": {
        "unknown": "a key is not one of profile, cubes, links, script and schedule",
        "missing": "one of the keys profile, cubes, links, script and schedule is missing",
        "kind": "a key's value has another type: profile is an integer, cubes and links are "
        "arrays of tables, script and schedule are strings",
        "range": "`profile` is neither 1 nor 2, or there are too few or too many cubes or links",
    },
    "cube": {
        "kind": "the cube is not a table, or a key's value is not an integer",
        "unknown": "a key is not one of vault_bits, bank_bits, rows and queue, nor block "
        "with `profile = 2`",
        "missing": "one of the keys vault_bits, bank_bits, rows and queue is missing, or block "
        "with `profile = 2`",
        "range": "a number is not within its limits",
    },
    "net": {
        "capacity": f"all cubes together have more than {texts.MOST_BYTES:,} bytes",
        "hosts": "there is no host, or hosts are not numbered from 0 without a gap",
        "parted": "from some cube no path over links leads to some other cube",
        "single": "there is more than one cube or link, and `bound` needs one of each",
    },
    "link": {
        "kind": "the link is not a table, or a key's value has another type",
        "unknown": "a key is not one of a, b, line, tokens, retry and output, nor profile "
        "with `profile = 2`",
        "missing": "one of the keys a, b, line, tokens, retry and output is missing, or profile "
        "with `profile = 2`",
        "range": "a number is not within its limits",
        "endpoint": "an end is neither a host, h0 to h7, nor a port, c0.0 to c7.3",
        "nocube": "an end is at a cube that the case does not have",
        "hosts": "both ends are hosts",
        "self": "both ends are ports of one cube",
        "taken": "an earlier link ends at the same host or port",
    },
    "script": {
        "host": "the first word is not the number of a host of the case",
        "words": "a word is missing, or words are left over",
        "command": "the word is not the word of a request, or it is fence after poison",
        "cube": "the word is not the number of a cube of the case",
        "address": "the word is not a number less than 2^34",
        "payload": "the bytes are not as many as the command carries, or the value of mdwr is "
        "not a number less than 2^32",
        "toomany": f"there are more than {texts.MOST_REQUESTS:,} requests",
    },
    "schedule": {
        "step": "the first word is not a step; " + ", ".join(schedule.STEPS) + " are",
        "words": "a word is missing, or words are left over",
        "number": "a word is not a number where one is required",
        "range": "the network of the case has no such host, direction, cube, joined port, vault "
        "or bank, or there is no such slot, or the number of rounds or landings is out of range",
        "mask": "the word is not 32 hexadecimal digits",
        "steps": f"with this line there are more than {texts.MOST_STEPS:,} steps",
    },
    "trace": {
        "text": "the bytes are not UTF-8",
        "word": "the word is none that a trace has there, or it is `cube` after a load or a store",
        "words": "a word is missing, or words are left over",
        "number": "a word is not a number where one is required",
        "cube": "the word is not the number of a cube of the trace",
        "hex": "the word is not whole pairs of hexadecimal digits",
        "length": f"there is no byte, or there are more than {traces.MOST_LENGTH:,}",
        "range": "a number is not within its limits, or there are bytes past the end of the cube",
        "cubes": f"there are more than {traces.MOST_CUBES} cubes, or none before a load or a store "
        "or before the end",
        "capacity": f"all cubes together have more than {texts.MOST_BYTES:,} bytes",
        "toomany": f"there are more than {texts.MOST_REQUESTS:,} requests",
    },
}
# The words that a word at fault may have been meant to be.
KNOWN_WORDS = {
    ("script", "command"): [it.word for it in BY_WORD.values() if it.family == REQUEST],
    ("schedule", "step"): list(schedule.STEPS),
}
# What the number of the line counts, by the section.
COUNTED = {
    "cube": "cube {}",
    "link": "link {}",
    "script": "line {} of the script",
    "schedule": "line {} of the schedule",
    "trace": "line {}",
}


def meaning_of(line: str) -> list[str] | None:
    """What the line says, or None where it is no line that the program writes."""
    found = LINE.fullmatch(line)
    if not found:
        return None
    section, number, kind = found.groups()
    meaning = MEANINGS[section].get(kind)
    if meaning is None:
        return None
    where = COUNTED.get(section, "").format(number)
    page = TRACE_PAGE if section == TRACE else TEXT_PAGE.get(section, CASE_PAGE)
    return [f"{line}: {where + ': ' if where else ''}{meaning}", f"see {page}"]


def explain_in_case(line: str, data: bytes, name: str) -> list[str]:
    """Where the fault of the line is in the case that these bytes were to be."""
    document, fault = case.read(data)
    if fault is None and line == SINGLE and not is_single(document):
        return [f"{name}: {counted(document, 'cube')} and {counted(document, 'link')}"]
    if fault is None:
        return [f"{name}: no such fault was found here"]
    lines = []
    if str(fault) != line:
        lines.append(f"{name}: the first fault here is another one: {fault}")
    return lines + shown(fault, document, data, name)


def is_single(document: Document) -> bool:
    """Whether a case has one cube and one link."""
    return len(document["cubes"]) == len(document["links"]) == 1


def counted(document: Document, part: str) -> str:
    """How many cubes or links a case has."""
    count = len(document[f"{part}s"])
    return f"1 {part}" if count == 1 else f"{count} {part}s"


def explain_in_trace(line: str, data: bytes, name: str) -> list[str]:
    """Where the fault of the line is in the trace that these bytes were to be."""
    fault = traces.first_fault(data)
    if fault is None:
        return [f"{name}: no such fault was found here"]
    lines = []
    if str(fault) != line:
        lines.append(f"{name}: the first fault here is another one: {fault}")
    rows = texts.lines_of(data.decode("utf-8", errors="replace"))
    if 1 <= fault.line <= len(rows):
        return [*lines, f"{name}:{fault.line}", f"    {rows[fault.line - 1][:MOST_SHOWN]}"]
    return [*lines, f"{name}: the trace as a whole"]


def lint(data: bytes, name: str) -> list[str]:
    """Each fault of the case that these bytes were to be, at its place; none where it is valid."""
    document, fault = case.document_of(data)
    found = [fault] if fault else list(case.faults(document))
    lines: list[str] = []
    for number, fault in enumerate(found):
        lines += [""] * (number > 0) + [str(fault), *shown(fault, document, data, name)]
    return lines


def shown(fault: Fault, document: Document, data: bytes, name: str) -> list[str]:
    """The line of the file with a caret under the fault, and what it is."""
    text = data.decode("utf-8", errors="replace")
    if fault.section == "toml":
        return syntax_lines(fault, text, name)
    places = Places(text)
    if fault.section in TEXT_PAGE:
        return text_lines(fault, document[fault.section], places, name)
    of_key = fault.section == "net" or fault.kind in ("unknown", "missing")
    span = places.key(fault.path) if of_key else places.value(fault.path)
    return [*caret_lines(places, span, name), advice(fault, document)]


def caret_lines(places: Places, span: Span | None, name: str) -> list[str]:
    """A line of the document with carets under the span; the name alone where there is none."""
    if span is None:
        return [f"{name}: the document as a whole"]
    return caret_at(places.lines()[span.line], span, f"{name}:{span.line + 1}:{span.column + 1}")


def caret_at(line: str, span: Span, title: str) -> list[str]:
    """The title, the line, and carets under the span. Tabs are kept, so that the carets fit. Of a
    long line only what is beside the span is shown."""
    start = span.column - MOST_BEFORE if len(line) > MOST_OF_LINE else 0
    shown_part = line[max(start, 0) :][:MOST_OF_LINE]
    column = span.column - max(start, 0)
    front = re.sub(r"[^\t]", " ", shown_part[:column].ljust(column))
    width = max(min(span.width, MOST_OF_LINE - column), 1)
    return [title, f"    {shown_part}", f"    {front}{'^' * width}"]


def syntax_lines(fault: Fault, text: str, name: str) -> list[str]:
    """Where the reader of TOML stopped, and what it said."""
    places, said = text.replace("\r\n", "\n").split("\n"), fault.said
    found = re.search(r" \(at (?:line (\d+), column (\d+)|end of document)\)", said)
    lines = [f"{name}"]
    if found:
        line = int(found.group(1) or len(places)) - 1
        column = int(found.group(2) or len(places[-1]) + 1) - 1
        lines = caret_at(places[line], Span(line, column, 1), f"{name}:{line + 1}:{column + 1}")
        said = said.replace(found.group(), "")
    return [*lines, f"Python's reader of TOML states: {said}"]


def text_lines(fault: Fault, text: str, places: Places, name: str) -> list[str]:
    """The word at fault in a line of a script or schedule."""
    line = texts.lines_of(text)[fault.line - 1]
    words = texts.words_of(line)
    if fault.word < len(words):
        word = words[fault.word]
        column, width = word.start, len(word.text)
    else:
        column, width = len(line.rstrip(" \t\r")) + 1, 1
    part = Part(fault.section, fault.line, column, width)
    return [*part_lines(part, line, places, name), text_advice(fault, words)]


def part_lines(part: Part, line: str, places: Places, name: str) -> list[str]:
    """A part of a line of the script or schedule with carets, and its place in the document."""
    path = (part.section,)
    span = places.in_string(path, part.line, part.column, part.width)
    if span:
        return caret_lines(places, span, name)
    key = places.key(path)
    title = f"{name}:{key.line + 1 if key else 1}: line {part.line} of the {part.section}"
    return caret_at(line, Span(0, part.column, part.width), title)


def text_advice(fault: Fault, words: list[texts.Word]) -> str:
    """What is wrong with the word, as far as its line shows it."""
    if fault.word >= len(words):
        return "a word is missing here"
    word = words[fault.word].text
    if fault.kind == "words":
        return f"{quoted(word)} is left over"
    if fault.section == "schedule" and fault.kind == "range":
        return range_advice(words[0].text, word, fault.word)
    if fault.kind == "payload" and words[fault.word - 3].text != "mdwr":
        return payload_advice(words[fault.word - 3].text, word)
    known = KNOWN_WORDS.get((fault.section, fault.kind))
    near = nearest(word, known) if known else ""
    suggested = f"; the nearest word is `{near}`" if near else ""
    return f"{quoted(word)}: {MEANINGS[fault.section][fault.kind]}{suggested}"


def payload_advice(command: str, word: str) -> str:
    """How many digits a command carries, and what the word is."""
    digits = 2 * BY_WORD[command].payload_bytes
    wrong = re.search("[^0-9a-fA-F]", word)
    found = f"`{wrong[0]}` is not one" if wrong else f"this word has {len(word)}"
    return f"{command} carries {digits} hexadecimal digits, and {found}"


def range_advice(step: str, word: str, place: int) -> str:
    """Which part of the network the word of a schedule does not name."""
    operand = schedule.STEPS[step][place - 1]
    if operand in ("rounds", "landings"):
        return f"{quoted(word)}: the number of {operand} is 1 to {texts.MOST_ROUNDS:,}"
    if operand == "slot":
        return f"{quoted(word)}: the slots of logic units are 0 to {texts.SLOTS - 1}"
    if operand == "port":
        return f"{quoted(word)}: no link ends at such a port of this cube"
    part = "vault" if operand == "place" else operand
    return f"{quoted(word)}: the network of the case has no such {part}"


def advice(fault: Fault, document: Document) -> str:
    """What is wrong with the key, and what is allowed."""
    key = fault.path[-1] if fault.path else ""
    if fault.kind == "missing":
        return f"`{key}` is missing"
    if fault.kind == "unknown":
        near = nearest(str(key), case.keys_at(fault.path[:-1], document))
        suggested = f"; the nearest one is `{near}`" if near else ""
        return f"{quoted(str(key))} is not a key of a case here{suggested}"
    if fault.section == "net":
        return f"{MEANINGS['net'][fault.kind]}: {net_advice(fault.kind, document)}"
    if fault.kind == "range":
        return range_of_key(fault, document)
    if fault.kind == "kind":
        return kind_advice(fault)
    return MEANINGS[fault.section][fault.kind]


def range_of_key(fault: Fault, document: Document) -> str:
    """What is allowed as the value of the key at fault."""
    key = fault.path[-1]
    if key == "block":
        return f"`block` is {', '.join(map(str, case.BLOCKS[:-1]))} or {case.BLOCKS[-1]}"
    if key in ("cubes", "links"):
        least, most = case.CUBES if key == "cubes" else case.LINKS
        return f"there are {len(document[key])} {key}, and there may be {least} to {most}"
    if key == "profile":
        return f"`profile` is {case.PROFILES[0]} or {case.PROFILES[1]}"
    ranges = {**case.CUBE_RANGES, **case.link_ranges(document)}
    least, most = ranges[key]
    if key == "retry" and least <= document["links"][fault.line]["retry"] <= most:
        least, most = case.LINK_RANGES["retry"]
        return f"`retry` is {least:,} to {most:,} on a link of profile One"
    return f"`{key}` is {least:,} to {most:,}"


def kind_advice(fault: Fault) -> str:
    """Which type the value should have."""
    key = fault.path[-1]
    if isinstance(key, int):
        return f"{fault.path[0].removesuffix('s')} {key} is not a table"
    numbers = [*case.CUBE_RANGES, "block", *case.LINK_RANGES]
    kinds: dict[str, type] = {"a": str, "b": str, **dict.fromkeys(numbers, int), **case.TOP_KEYS}
    names = {int: "an integer", str: "a string", list: "an array of tables"}
    return f"`{key}` is {names[kinds[key]]}"
