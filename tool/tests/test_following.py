"""Tests of what follows packets, on the stored reports of examples/."""

import unittest
from collections.abc import Iterator
from pathlib import Path

from tool import case, files
from tool.fit import checked
from tool.following import Following
from tool.lines import Executed, Gave, Landed, Line, Sent, Took
from tool.queues import sizes_of
from tool.tests.shared import CASES, EXAMPLES

# The first bytes of a flit by which its packet is known: its header.
HEADER = 16


def followed(path: Path) -> Iterator[tuple[Following, Line]]:
    """Yields each line of the report of a case, after it was followed."""
    document = case.read(path.read_bytes())[0]
    following = Following(document)
    for block in checked(files.lines_of(str(path.with_suffix(".report"))), document):
        for line in block.made:
            following.apply(line)
            yield following, line


class Packets(unittest.TestCase):
    def test_a_request_keeps_its_number(self) -> None:
        """What is executed and what is taken has the host, tag and request of that number."""
        compared = 0
        for path in CASES:
            given: list[Gave] = []
            for following, line in followed(path):
                if isinstance(line, Gave):
                    given.append(line)
                elif isinstance(line, Executed):
                    mine = given[following.packet]
                    found = (line.host, line.tag, line.request)
                    self.assertEqual(found, (mine.host, mine.tag, mine.request), path.name)
                elif isinstance(line, Took):
                    mine = given[following.packet]
                    self.assertEqual((line.host, line.tag), (mine.host, mine.tag), path.name)
                    compared += 1
        self.assertGreater(compared, 300)

    def test_a_packet_that_is_sent_again_is_known(self) -> None:
        """Its first flit has the header that it had at first, and lands as the same packet."""
        again = 0
        for path in CASES:
            headers: dict[tuple[int, int], set[str]] = {}
            lines: dict[int, list[tuple[int, str]]] = {}
            for following, line in followed(path):
                if isinstance(line, Sent):
                    packet = following.packet
                    lines.setdefault(line.direction, []).append((packet, line.flit))
                    seen = headers.setdefault((line.direction, packet), set())
                    if line.what == "new":
                        seen.add(line.flit[:HEADER])
                    elif line.what == "again" and packet >= 0:
                        self.assertIn(line.flit[:HEADER], seen, (path.name, line))
                        again += 1
                elif isinstance(line, Landed):
                    packet, _ = lines[line.direction].pop(0)
                    if line.outcome not in ("accepted", "poisoned"):
                        self.assertEqual(following.packet, packet, path.name)
        self.assertGreater(again, 150)

    def test_a_queue_that_is_full(self) -> None:
        """Its size is that of the case, and the queue gets there."""
        path = EXAMPLES / "full-queue.toml"
        sizes = sizes_of(case.read(path.read_bytes())[0])
        full = set()
        for following, _ in followed(path):
            most = zip(following.held, sizes)
            full |= {number for number, (held, size) in enumerate(most) if len(held) == size}
        self.assertTrue(full)


if __name__ == "__main__":
    unittest.main()
