"""Random cases, to try many runs. The same seed and the same wishes give the same case.

A campaign of your own has a generator of its own; docs/many-cases.md uses this one.
"""

from __future__ import annotations

import random
from collections.abc import Iterator
from dataclasses import dataclass, field

from tool import documents, wanted
from tool.case import BLOCKS, Document, plan_of
from tool.commands import BY_WORD, REQUEST
from tool.schedule import round_of

SHAPES = ("chain", "ring", "star")
# What a case may have beside reads and writes.
FEATURES = {
    "atomics": "atomic commands",
    "early": "an end while requests are under way",
    "errors": "requests that are answered with an error",
    "far": "lines with many flits on the way, so that packets come again",
    "fence": "fences",
    "held": "rounds without one kind of step, so that queues are full",
    "long": "more requests, of 256 bytes",
    "noise": "masks on landings, so that links retry",
    "passes": "a landing that passes, which ends the report",
    "poison": "poisoned requests",
    "posted": "requests without an answer",
    "registers": "reads and writes of registers",
    "through": "packets that go on while they are gathered",
    "units": "logic units, one of which is retired",
    "unlock": "receivers that lose their framing",
    "two": "`profile = 2`: other blocks, and links of both profiles",
}
# Of so many cases one has such a feature, where none are named. Of others every second one has it.
SELDOM = {"early": 8, "far": 4, "long": 12, "passes": 8}
OFTEN = 2
WORDS = [word for word, it in BY_WORD.items() if it.family == REQUEST]
LONG_WORDS = ("wr256", "rd256")
# Commands of these features are drawn so many times as often as others.
WEIGHTS = {"registers": 6, "units": 2}
MOST_REQUESTS = 40
LONG_REQUESTS = 150
# Small networks are drawn more often.
CUBES = (1, 1, 1, 2, 2, 2, 3, 3, 4, 5, 6, 7, 8)
MOST_CUBES = max(CUBES)
MOST_LONG_CUBES = 2
STAR_CUBES = 4
# Training takes 73 rounds, and the way back after an error about as many.
ROUNDS_FOR_EACH = 8
LONG_ROUNDS = 20
OTHER_ROUNDS = 180
LANDINGS = (30, 600)
# While a link trains, each landing of so many has a mask, in so many rounds.
TRAINING_LANDINGS, TRAINING_ROUNDS = 5, 4
# So many single flits have a mask too, so many rounds after one another.
FLITS_CHANGED, ROUNDS_BETWEEN = 4, (60, 160)
STAMP, NO_SLOT = 1, 5
# So many flits are on a long line at first, and so many rounds more does it take until it trained.
FAR_LINE, FAR_FLITS, FAR_ROUNDS = 64, 48, 250
KINDS = ("send", "land", "shift", "spread", "bank", "registers", "lift", "take")
# A phase without one kind of step has so many steps, and so many rounds at least.
HELD_STEPS, HELD_ROUNDS, HELD_KINDS = 600, 12, 3
THROUGH_ROUNDS = 120
# A receiver loses its framing so many times, while so many flits more are on each line.
UNLOCKS, FLITS = 6, 4
# It makes an IRTRY of a NULL.
PASSING = "83000000000000000002000032da95a5"


@dataclass(frozen=True)
class Wish:
    """Sizes of a case, 0 for random ones; the shape of the network, empty for a random one, and
    what the case has, where that is named. `ends` are commands and how their requests are to end,
    where it is named."""

    cubes: int = 0
    hosts: int = 0
    requests: int = 0
    shape: str = ""
    features: tuple[str, ...] | None = None
    block: int = 0
    ends: tuple[tuple[str, str], ...] = field(default=())


def sample(seed: int, wish: Wish = Wish()) -> str:
    """The case of a seed."""
    return documents.text_of(document_of(random.Random(seed), wish))


def document_of(chance: random.Random, wish: Wish) -> Document:
    """A case with these wishes."""
    features = features_of(chance, wish)
    shape = wish.shape or chance.choice(SHAPES)
    count = wish.cubes or cubes_of(chance, shape, features)
    hosts = wish.hosts or 1 + chance.randrange(2)
    most = LONG_REQUESTS if "long" in features else 1 + chance.randrange(MOST_REQUESTS)
    is_two = "two" in features
    cubes = [cube_of(chance, is_two, wish.block) for _ in range(count)]
    pairs = ends_of_shape(chance, shape, count, hosts)
    line = FAR_LINE if "far" in features else 0
    links = [{"a": a, "b": b, **link_of(chance, is_two, line)} for a, b in pairs]
    script = script_of(chance, wish.requests or most, hosts, cubes, features, wish.ends)
    if "fence" in features:
        script.insert(chance.randrange(len(script) + 1), f"{chance.randrange(hosts)} fence")
    document = {"profile": 2 if is_two else 1, "script": "", "cubes": cubes, "links": links}
    document["script"] = "".join(f"{line}\n" for line in script)
    lines = schedule_of(chance, len(script), document, features)
    document["schedule"] = "".join(f"{line}\n" for line in lines)
    return document


def features_of(chance: random.Random, wish: Wish) -> tuple[str, ...]:
    """What a case has: what is named, or by chance each of all features."""
    if wish.features is not None:
        return wish.features
    return tuple(it for it in FEATURES if chance.randrange(SELDOM.get(it, OFTEN)) == 0)


def cubes_of(chance: random.Random, shape: str, features: tuple[str, ...]) -> int:
    """How many cubes a case has."""
    count = chance.choice(CUBES)
    most = STAR_CUBES if shape == "star" else MOST_CUBES
    return min(count, MOST_LONG_CUBES if "long" in features else most)


def script_of(
    chance: random.Random,
    requests: int,
    hosts: int,
    cubes: list[Document],
    features: tuple[str, ...],
    ends: tuple[tuple[str, str], ...],
) -> list[str]:
    """The lines of a script with so many requests."""
    words = (chance.choice(LONG_WORDS),) if "long" in features else words_of(features)
    lines: list[str] = []
    while len(lines) < requests:
        word, end = chance.choice(ends) if ends else end_of(chance, words, features)
        made = wanted.request(chance, chance.randrange(hosts), cubes, word, end)
        if "poison" in features and chance.randrange(8) == 0:
            made[-1] = made[-1].replace(" ", " poison ", 1)
        lines += made[-(requests - len(lines)) :] if not ends else made
    return lines


def words_of(features: tuple[str, ...]) -> tuple[str, ...]:
    """The commands of requests with these features."""
    found = [(it, feature_of(it)) for it in WORDS]
    wanted_words = [(it, name) for it, name in found if name in ("", *features)]
    return tuple(it for it, name in wanted_words for _ in range(WEIGHTS.get(name, 1)))


def feature_of(word: str) -> str:
    """The feature that a command belongs to; empty for reads and writes."""
    if word.startswith("unit"):
        return "units"
    if word.startswith("md"):
        return "registers"
    if not BY_WORD[word].reply:
        return "posted"
    return "" if word.startswith(("wr", "rd")) else "atomics"


def end_of(
    chance: random.Random, words: tuple[str, ...], features: tuple[str, ...]
) -> tuple[str, str]:
    """A command, and how its request is to end."""
    word = chance.choice(words)
    ends = [it for it in wanted.ENDS[word] if "errors" in features or not it.startswith("error")]
    return word, chance.choice(ends or wanted.ENDS[word])


def ends_of_shape(
    chance: random.Random, shape: str, cubes: int, hosts: int
) -> list[tuple[str, str]]:
    """The ends of the links of a network. Which port a link has is chance."""
    ports = {cube: chance.sample(range(4), 4) for cube in range(cubes)}

    def port_of(cube: int) -> str:
        return f"c{cube}.{ports[cube].pop()}"

    def join(first: int, second: int) -> tuple[str, str]:
        return port_of(first), port_of(second)

    pairs = [join(0 if shape == "star" else cube - 1, cube) for cube in range(1, cubes)]
    if shape == "ring" and cubes > 2:
        pairs.append(join(cubes - 1, 0))
    for host in range(hosts):
        free = [cube for cube in ports if ports[cube]]
        pairs.append((f"h{host}", port_of(free[0] if host == 0 else chance.choice(free))))
    return pairs


def cube_of(chance: random.Random, is_two: bool, size: int) -> Document:
    """The numbers of a cube, with blocks of this size; 0 for a random one."""
    bits = {"vault_bits": chance.randrange(2), "bank_bits": chance.randrange(2)}
    block = {"block": size or chance.choice(BLOCKS)} if is_two else {}
    return {**bits, "rows": 4, "queue": 1 + chance.randrange(4), **block}


def link_of(chance: random.Random, is_two: bool, line: int) -> Document:
    """The numbers of a link, with a line for so many flits; 0 for random ones."""
    link = {"line": line or 1 + chance.randrange(8), "tokens": 17 + chance.randrange(48)}
    link["retry"] = 64
    link["output"] = 1 + chance.randrange(4)
    return {**link, "profile": chance.choice((1, 2))} if is_two else link


def schedule_of(
    chance: random.Random, requests: int, document: Document, features: tuple[str, ...]
) -> Iterator[str]:
    """Rounds, and between them what the features ask for."""
    each = LONG_ROUNDS if "long" in features else ROUNDS_FOR_EACH
    rounds, directions = each * requests + OTHER_ROUNDS, 2 * len(document["links"])
    if "unlock" in features:
        yield f"unlock {chance.randrange(directions)}"
    if "far" in features:
        yield from far_lines(directions)
    if "noise" in features:
        yield from noise_lines(chance, directions)
    yield f"round {OTHER_ROUNDS // 2 + chance.randrange(2 * ROUNDS_FOR_EACH)}"
    if "noise" in features:
        yield from masked_lines(chance, directions)
    if "held" in features:
        yield from held_lines(chance, document)
    if "through" in features:
        yield from through_lines(document)
    if "units" in features:
        yield from (f"retire {slot}" for slot in (STAMP, NO_SLOT))
    if "unlock" in features:
        yield from unlock_lines(chance, directions)
    if "early" in features:
        return
    yield f"round {rounds}"
    if "noise" in features:
        yield from ("noise off", f"round {rounds}")
    if "passes" in features:
        yield from ("send 0", f"land 0 {PASSING}")


def held_lines(chance: random.Random, document: Document) -> Iterator[str]:
    """Yields rounds, each some times without one kind of step, which is drawn."""
    whole = round_of(plan_of(document))
    rounds = max(HELD_ROUNDS, HELD_STEPS // len(whole))
    for kind in chance.sample(KINDS, HELD_KINDS):
        for _ in range(rounds):
            yield from (step for step in whole if not step.startswith(kind))


def through_lines(document: Document) -> Iterator[str]:
    """Yields rounds, after each of which all packets go on that can; then all is sent that can."""
    steps = round_of(plan_of(document))
    ends = [step.split(" ", 1)[1] for step in steps if step.startswith("shift")]
    sends = [step for step in steps if step.startswith("send")]
    for at in range(THROUGH_ROUNDS):
        yield "round 1"
        yield from (f"through {end}" for end in ends)
        if at % 4 == 0:
            yield from sends


def unlock_lines(chance: random.Random, directions: int) -> Iterator[str]:
    """Yields receivers that lose their framing, some of them twice, on lines with many flits."""
    yield from (f"send {direction}" for _ in range(FLITS) for direction in range(directions))
    for _ in range(UNLOCKS):
        yield from [f"unlock {chance.randrange(directions)}"] * (1 + chance.randrange(2))
        yield f"round {1 + chance.randrange(2 * OTHER_ROUNDS)}"


def far_lines(directions: int) -> Iterator[str]:
    """Yields steps after which many flits are on each line, and the rounds that these take."""
    yield from (f"send {direction}" for _ in range(FAR_FLITS) for direction in range(directions))
    yield f"round {FAR_ROUNDS}"


def mask_of(chance: random.Random) -> str:
    """A mask of one bit."""
    return (1 << chance.randrange(128)).to_bytes(16, "big").hex()


def noise_lines(chance: random.Random, directions: int) -> Iterator[str]:
    """Yields masks on landings while links train, and on fewer ones after that."""
    yield f"noise {TRAINING_LANDINGS * directions + 1} {mask_of(chance)}"
    yield f"round {TRAINING_ROUNDS * TRAINING_LANDINGS}"
    yield f"noise {chance.randrange(*LANDINGS)} {mask_of(chance)}"


def masked_lines(chance: random.Random, directions: int) -> Iterator[str]:
    """Yields rounds, after each of which a flit has a mask in each direction."""
    for _ in range(FLITS_CHANGED):
        yield f"round {chance.randrange(*ROUNDS_BETWEEN)}"
        for direction in range(directions):
            yield f"send {direction}"
            yield f"land {direction} {mask_of(chance)}"
