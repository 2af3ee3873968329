"""Tests that the logs of docs/answers.md are those of the rows that the checker computes."""

import unittest

from tool.tests import pages
from tool.tests.shared import TOP

BLOCKS = {"0x10": "x", "0x30": "y"}
MESSAGE = ("crates/hmc_ordered/proofs/Worked.antt", "message y =", "write {}")
FENCED = ("crates/hmc_search/proofs/WorkedLogs.antt", "message_fenced =", "write {} 1")


def entry_of(line: str, write: str) -> str:
    """The entry of a log's line, as the rows write it."""
    kind, host, tag, word, *rest = line.split()
    if kind == "gave":
        block = BLOCKS[rest[1]]
        request = write.format(block) if word == "wr16" else f"read {block}"
        return f"asks {host} {tag} ({request})"
    answer = "done" if word == "done" else f"(value {int(rest[1][:2], 16)})"
    return f"Took {host} {tag} {answer}"


class Logs(unittest.TestCase):
    def test_logs_are_those_of_rows(self) -> None:
        """The rows have the newest entry first."""
        logs = pages.blocks(pages.text_of("docs/answers.md"))
        for log, (path, name, write) in zip(logs, (MESSAGE, FENCED)):
            entries = [entry_of(line, write) for line in reversed(log.splitlines())]
            row = (TOP / path).read_text(encoding="utf-8").partition(f"\n{name}")[2]
            self.assertIn(" ∷ ".join([*entries, "[]"]), pages.flat(row.partition("\n\n")[0]))
        self.assertEqual(len(logs), 2)


if __name__ == "__main__":
    unittest.main()
