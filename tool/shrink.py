"""Finds a small case for which a command still fails: lines are left out, requests are of host 0
and to cube 0 where they may be, hosts and cubes that nothing needs go, and rounds are fewer.

What `noise` changes depends on how many landings came before, so lines that are left out would move
each of its masks. So rounds with noise are first written as their steps; then masks go one by one,
and steps that are a round again are written as one.
"""

from __future__ import annotations

from collections.abc import Callable, Iterator, Sequence
from itertools import islice
from typing import Optional

from tool import case, documents, rewrites, texts
from tool.case import Document

# The place of the first of these cases for which the command still fails, or None. The number says
# how many of them it takes at once.
FirstFailing = Callable[[list[bytes]], Optional[int]]


class Shrinker:
    """The smallest case so far, and how many cases were tried.

    `at_once` cases are tried together; which one is taken doesn't depend on it. `improved` is
    called with each case that is taken.
    """

    def __init__(
        self,
        document: Document,
        first_failing: FirstFailing,
        at_once: int = 1,
        improved: Callable[[], None] = lambda: None,
    ):
        self.document = document
        self.tried = 0
        self._first_failing = first_failing
        self._at_once = at_once
        self._improved = improved

    @property
    def lines(self) -> int:
        """How many lines the script and the schedule have."""
        return sum(len(_lines_with_words(self.document[key])) for key in ("script", "schedule"))

    def shrink(self) -> Document:
        """Makes the case smaller until no change of one part does."""
        self._drop_noise()
        before = None
        while before != self.document:
            before = self.document
            for key in ("schedule", "script"):
                self._shrink_lines(key)
            self._lower_numbers()
            self._shrink_network()
            # Last: with rounds to spare the network may change more.
            self._shrink_rounds()
        return self.document

    def _take_first(self, candidates: Iterator[Document]) -> int | None:
        """Goes on with the first case that is valid and for which the command fails, and returns
        its place."""
        place = 0
        while batch := list(islice(candidates, self._at_once)):
            written = [documents.text_of(it).encode() for it in batch]
            valid = [at for at, text in enumerate(written) if is_valid(text)]
            self.tried += len(valid)
            found = self._first_failing([written[at] for at in valid]) if valid else None
            if found is not None:
                self.document = batch[valid[found]]
                self._improved()
                return place + valid[found]
            place += len(batch)
        return None

    def _take(self, candidate: Document) -> bool:
        """Goes on with a case, if it is valid and the command fails for it."""
        return self._take_first(iter([candidate])) is not None

    def _drop_noise(self) -> None:
        """Writes rounds with noise as their steps, drops masks, and folds what is a round again."""
        plan = case.plan_of(self.document)
        unfolded = rewrites.unfolded(self.document["schedule"], plan)
        if unfolded == self.document["schedule"] or not self._take(self._with(unfolded)):
            return
        self._change_parts(rewrites.masked_places, rewrites.without_masks)
        folded = rewrites.folded(self.document["schedule"], plan)
        if folded != self.document["schedule"]:
            self._take(self._with(folded))

    def _with(self, schedule: str) -> Document:
        """The case with another schedule."""
        return {**self.document, "schedule": schedule}

    def _change_parts(
        self,
        places_in: Callable[[str], list[int]],
        changed: Callable[[str, Sequence[int]], str],
    ) -> None:
        """Changes parts of the schedule: halves, quarters, and so on down to single ones."""
        size = len(places_in(self.document["schedule"]))
        while size >= 1:
            at = 0
            while at < len(places := places_in(text := self.document["schedule"])):
                starts = range(at, len(places), size)
                candidates = (self._with(changed(text, places[it : it + size])) for it in starts)
                found = self._take_first(candidates)
                if found is None:
                    break
                at = starts[found]
            size = size // 2

    def _shrink_lines(self, key: str) -> None:
        """Leaves out lines of a text: halves, quarters, and so on down to single ones."""
        lines = _lines_with_words(self.document[key])
        size = len(lines)
        while size >= 1:
            at = 0
            while at < len(lines):
                starts = range(at, len(lines), size)
                rests = (lines[:it] + lines[it + size :] for it in starts)
                found = self._take_first({**self.document, key: _text(it)} for it in rests)
                if found is None:
                    break
                at = starts[found]
                lines = lines[:at] + lines[at + size :]
            size = size // 2

    def _shrink_network(self) -> None:
        """Leaves out what the network can do without. What was refused isn't tried again here."""
        start = 0
        found: int | None = 0
        while found is not None:
            found = self._take_first(islice(_smaller_networks(self.document), start, None))
            start += found or 0

    def _shrink_rounds(self) -> None:
        """Has fewer rounds in each line `round`: the least number, by halves."""
        lines = texts.lines_of(self.document["schedule"])
        for place, line in enumerate(lines):
            words = texts.plain_words_of(line)
            if words[:1] != ["round"]:
                continue
            least, most = 0, texts.value_of(words[1])
            while most - least > 1:
                middle = (least + most) // 2
                changed = [*lines[:place], f"round {middle}", *lines[place + 1 :]]
                if self._take(self._with("\n".join(changed))):
                    most, lines = middle, changed
                else:
                    least = middle

    def _lower_numbers(self) -> None:
        """Gives requests to host 0 and to cube 0 where they may be, so that others can go."""
        lines = _lines_with_words(self.document["script"])
        for place, line in enumerate(lines):
            lower = list(_lower_lines(line))
            changed = ([*lines[:place], it, *lines[place + 1 :]] for it in lower)
            found = self._take_first({**self.document, "script": _text(it)} for it in changed)
            if found is not None:
                lines[place] = lower[found]


def is_valid(text: bytes) -> bool:
    """Whether a text is a case that the program takes."""
    return len(text) <= texts.INPUT_BYTES and case.read(text)[1] is None


def _lower_lines(line: str) -> Iterator[str]:
    """Yields the line of a request as one of host 0 to cube 0, and with each of both changes."""
    words = texts.plain_words_of(line)
    cube = 3 if "poison" in words else 2
    if len(words) > cube:
        both = ["0", *words[1:cube], "0", *words[cube + 1 :]]
        lower = (both, ["0", *words[1:]], [words[0], *both[1:]])
        yield from (" ".join(it) for it in lower if it != words)


def _lines_with_words(text: str) -> list[str]:
    return [line for line in texts.lines_of(text) if texts.words_of(line)]


def _text(lines: list[str]) -> str:
    return "".join(f"{line}\n" for line in lines)


def _smaller_networks(document: Document) -> Iterator[Document]:
    """Yields the case without each of its links, without its last cube, and with smaller cubes."""
    for place in range(len(document["links"])):
        links = document["links"][:place] + document["links"][place + 1 :]
        yield {**document, "links": links}
    last = f"c{len(document['cubes']) - 1}."
    kept = [it for it in document["links"] if not (it["a"] + it["b"]).count(last)]
    yield {**document, "cubes": document["cubes"][:-1], "links": kept}
    for place, cube in enumerate(document["cubes"]):
        for key in ("vault_bits", "bank_bits"):
            smaller = {**cube, key: 0}
            cubes = [*document["cubes"][:place], smaller, *document["cubes"][place + 1 :]]
            if smaller != cube:
                yield {**document, "cubes": cubes}
