"""The first fault of a script, and its requests, by the rules of docs/script.md."""

from __future__ import annotations

import re
from collections.abc import Iterator

from tool import texts
from tool.commands import BY_WORD, REQUEST, Command
from tool.lines import Request
from tool.texts import Plan, TextFault

# What is wrong with a line: the kind, and the number of the word.
LineFault = tuple[str, int]
DIGITS = re.compile("[0-9a-fA-F]+")


def first_fault(text: str, plan: Plan) -> TextFault | None:
    """The first fault of the script, read for the hosts and cubes of the plan."""
    return next(faults(text, plan), None)


def faults(text: str, plan: Plan) -> Iterator[TextFault]:
    """Yields the first fault of each line. There are too many requests only from one line on."""
    requests = 0
    for number, line in enumerate(texts.lines_of(text), start=1):
        words = texts.plain_words_of(line)
        fault = line_fault(words, plan) if words else None
        if fault:
            yield TextFault(number, *fault)
        elif words and words[1] != "fence":
            requests += 1
            if requests == texts.MOST_REQUESTS + 1:
                yield TextFault(number, "toomany", 0)


def line_fault(words: list[str], plan: Plan) -> LineFault | None:
    """The first fault of a line that has words, from left to right."""
    if not texts.is_below(words[0], plan.hosts):
        return "host", 0
    if len(words) == 1:
        return "words", 1
    if words[1] == "fence":
        return left_over(words, 2)
    at = 2 if words[1] == "poison" else 1
    if len(words) == at:
        return "words", at
    command = BY_WORD.get(words[at])
    if command is None or command.family != REQUEST:
        return "command", at
    return operand_fault(words, at + 1, command, plan)


def operand_fault(words: list[str], at: int, command: Command, plan: Plan) -> LineFault | None:
    """The first fault in the words after the command, which begin at this number."""
    for kind, bound in (("cube", len(plan.cubes)), ("address", texts.ADDRESSES)):
        if at == len(words):
            return "words", at
        if not texts.is_below(words[at], bound):
            return kind, at
        at += 1
    if not command.payload_bytes:
        return left_over(words, at)
    if at == len(words):
        return "words", at
    return left_over(words, at + 1) if is_payload(words[at], command) else ("payload", at)


def is_payload(word: str, command: Command) -> bool:
    """Whether the word is what the command carries: bytes, or for mdwr a value."""
    if command.word == "mdwr":
        return texts.is_below(word, texts.REGISTER_VALUES)
    return len(word) == 2 * command.payload_bytes and DIGITS.fullmatch(word) is not None


def left_over(words: list[str], at: int) -> LineFault | None:
    """The fault of words from this number on, which the line should not have."""
    return ("words", at) if at < len(words) else None


def requests_in(text: str, hosts: int) -> list[list[Request]]:
    """The requests of each host, in order, of a script without faults."""
    requests: list[list[Request]] = [[] for _ in range(hosts)]
    for line in texts.lines_of(text):
        words = texts.plain_words_of(line)
        if words and words[1] != "fence":
            requests[texts.value_of(words[0])].append(request_of(words[1:]))
    return requests


def request_of(words: list[str]) -> Request:
    """The request of a line, without its host."""
    is_poisoned = words[0] == "poison"
    word, cube, address, *carried = words[is_poisoned:]
    front = (is_poisoned, word, texts.value_of(cube), texts.value_of(address))
    if word == "mdwr":
        return Request(*front, value=texts.value_of(carried[0]))
    return Request(*front, bytes=carried[0].lower() if carried else None)
