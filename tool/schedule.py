"""The first fault of a schedule, and its steps, by the rules of docs/schedule.md."""

from __future__ import annotations

import re
from collections.abc import Iterator, Sequence
from itertools import chain, repeat

from tool import texts
from tool.texts import Plan, TextFault

LineFault = tuple[str, int]
# A step, its words without a mask, and the mask; it is empty where no bit is inverted.
Step = tuple[str, str]
MASK = re.compile(r"[0-9a-fA-F]{32}")

# The words after each first word. `place` is the number of a vault, or `r`.
STEPS = {
    "give": ("host",),
    "send": ("direction",),
    "land": ("direction",),
    "shift": ("cube", "port"),
    "spread": ("cube", "vault"),
    "bank": ("cube", "vault", "bank"),
    "registers": ("cube",),
    "lift": ("cube", "place"),
    "take": ("host",),
    "through": ("cube", "port"),
    "unlock": ("direction",),
    "retire": ("slot",),
    "round": ("rounds",),
    "noise": ("landings",),
}


def first_fault(text: str, plan: Plan) -> TextFault | None:
    """The first fault of the schedule, read for the network of the plan."""
    return next(faults(text, plan), None)


def faults(text: str, plan: Plan) -> Iterator[TextFault]:
    """Yields the first fault of each line. There are too many steps only from one line on."""
    steps = 0
    for number, line in enumerate(texts.lines_of(text), start=1):
        words = texts.plain_words_of(line)
        fault = line_fault(words, plan) if words else None
        if fault:
            yield TextFault(number, *fault)
        elif words:
            before, steps = steps, steps + steps_of(words, plan)
            if before <= texts.MOST_STEPS < steps:
                yield TextFault(number, "steps", 0)


def steps_of(words: list[str], plan: Plan) -> int:
    """The steps of a line without faults."""
    if words[0] == "noise":
        return 0
    return texts.value_of(words[1]) * plan.round_steps if words[0] == "round" else 1


def line_of(number: int, text: str, plan: Plan) -> tuple[int, int]:
    """The line of the step with this number, which is there, and the steps of the line before it.
    """
    for line, row in enumerate(texts.lines_of(text), start=1):
        words = texts.plain_words_of(row)
        steps = steps_of(words, plan) if words else 0
        if number <= steps:
            return line, number - 1
        number -= steps
    raise AssertionError("the schedule has so many steps")


def line_fault(words: list[str], plan: Plan) -> LineFault | None:
    """The first fault of a line that has words, from left to right."""
    operands = STEPS.get(words[0])
    if operands is None:
        return "step", 0
    if words[0] == "noise" and words[1:2] == ["off"]:
        return rest_fault(words, 2)
    numbers: list[int] = []
    for at, operand in enumerate(operands, start=1):
        kind = operand_fault(words, at, operand, numbers, plan)
        if kind:
            return kind, at
    return rest_fault(words, 1 + len(operands))


def operand_fault(
    words: list[str], at: int, operand: str, numbers: list[int], plan: Plan
) -> str | None:
    """The fault of one word, if it has one; else its number is added to those before it."""
    if at == len(words):
        return "words"
    if operand == "place" and words[at] == "r":
        return None
    number = texts.number_of(words[at])
    if number is None:
        return "number"
    if not is_in_range(operand, number, numbers, plan):
        return "range"
    numbers.append(number)
    return None


def is_in_range(operand: str, number: int, before: list[int], plan: Plan) -> bool:
    """Whether the plan has such a part; `before` has the numbers of the line before this one."""
    if operand in ("rounds", "landings"):
        return 1 <= number <= texts.MOST_ROUNDS
    counts = {"host": plan.hosts, "direction": plan.directions, "cube": len(plan.cubes)}
    counts["slot"] = texts.SLOTS
    if operand in counts:
        return number < counts[operand]
    cube = plan.cubes[before[0]]
    if operand == "port":
        return number in cube.joined
    return number < (cube.banks if operand == "bank" else cube.vaults)


def rest_fault(words: list[str], at: int) -> LineFault | None:
    """The fault of the words after the operands: the mask, and left-over words."""
    if words[0] == "noise" and words[1] != "off" and at == len(words):
        return "words", at
    if words[0] in ("land", "noise") and words[1] != "off" and at < len(words):
        if not MASK.fullmatch(words[at]):
            return "mask", at
        at += 1
    return ("words", at) if at < len(words) else None


def round_of(plan: Plan) -> list[str]:
    """The steps of a round."""
    cubes = list(enumerate(plan.cubes))
    hosts, directions = range(plan.hosts), range(plan.directions)
    steps = [f"give {host}" for host in hosts]
    steps += [f"send {direction}" for direction in directions]
    steps += [f"land {direction}" for direction in directions]
    steps += [f"shift {number} {port}" for number, cube in cubes for port in cube.joined]
    steps += [f"spread {number} {vault}" for number, cube in cubes for vault in range(cube.vaults)]
    for number, cube in cubes:
        places = ((vault, bank) for vault in range(cube.vaults) for bank in range(cube.banks))
        steps += [f"bank {number} {vault} {bank}" for vault, bank in places]
    steps += [f"registers {number}" for number, _ in cubes]
    for number, cube in cubes:
        steps += [f"lift {number} {vault}" for vault in (*range(cube.vaults), "r")]
    return steps + [f"take {host}" for host in hosts]


def steps_in(text: str, plan: Plan) -> Iterator[Step]:
    """Yields each step of a schedule without faults, those of rounds one by one."""
    return chain.from_iterable(_pieces(text, plan))


def _pieces(text: str, plan: Plan) -> Iterator[Sequence[Step] | Iterator[Step]]:
    """Yields the steps of each line."""
    one_round = [(step, "") for step in round_of(plan)]
    noise = noise_of(["noise", "off"], one_round)
    for line in texts.lines_of(text):
        words = texts.plain_words_of(line)
        if not words:
            continue
        if words[0] == "noise":
            noise = noise_of(words, one_round)
        elif words[0] != "round":
            yield [_single(words)]
        elif noise.every:
            yield chain.from_iterable(map(noise.over, repeat(one_round, texts.value_of(words[1]))))
        else:
            yield chain.from_iterable(repeat(one_round, texts.value_of(words[1])))


class Noise:
    """The masks of landings that rounds make: each so many a one has the mask."""

    def __init__(self, landings: list[int], every: int, mask: str):
        # The places of the steps `land` in a round.
        self._landings = landings
        self.every = every
        self._mask = mask
        self._count = 0

    def over(self, steps: Sequence[Step]) -> Sequence[Step]:
        """The steps of a round with their masks."""
        before, self._count = self._count, self._count + len(self._landings)
        first = self.every - before % self.every
        if first > len(self._landings):
            return steps
        masked = list(steps)
        for place in self._landings[first - 1 :: self.every]:
            masked[place] = (steps[place][0], self._mask)
        return masked


def noise_of(words: list[str], one_round: Sequence[Step]) -> Noise:
    """The masks of the landings of rounds from a line `noise` on."""
    landings = [place for place, (step, _) in enumerate(one_round) if step.startswith("land ")]
    if words[1] == "off":
        return Noise(landings, 0, "")
    return Noise(landings, texts.value_of(words[1]), words[2].lower())


def _single(words: list[str]) -> Step:
    """The step of a line that is no round."""
    operands = len(STEPS[words[0]])
    named = words[1 : 1 + operands]
    numbers = [word if word == "r" else str(texts.value_of(word)) for word in named]
    return " ".join([words[0], *numbers]), "".join(words[1 + operands :]).lower()
