"""Tests of `convert`: from the log of a bench to a case. What a log should have comes from reports:
the log that a bench would have written of a stored report is turned back."""

import re
import unittest

from tool import case, convert, documents, observed
from tool.case import Document
from tool.convert import preamble, returns_of
from tool.observed import events_of
from tool.queues import ends_by_direction
from tool.tests.shared import EXAMPLES, TOP, require_program, tool
from tool.trouble import Trouble

PAGE = TOP / "docs" / "observations.md"


def document_of(name: str) -> Document:
    """The case of an example."""
    return case.read((EXAMPLES / f"{name}.toml").read_bytes())[0]


def run(document: Document) -> list[str]:
    """The report of a case by the program."""
    ran = tool("run", given=documents.text_of(document).encode())
    return ran.stdout.decode().splitlines()


def log_of(report: list[str], document: Document, has_flow: bool) -> list[str]:
    """What a bench sees of a report: requests, flits at ends, and answers, by the step's number."""
    ends = ends_by_direction(document)
    log = []
    for number, line in enumerate(report, start=1):
        words = line.split(" ")
        if words[0] == "gave":
            log.append(f"{number} request {words[1]} {' '.join(words[3:])}")
        elif words[0] in ("sent", "landed"):
            direction = int(words[1])
            end = ends[direction][0 if words[0] == "sent" else 1]
            kind = kind_of(words)
            word = "out" if words[0] == "sent" else "in"
            if kind == "packet" or has_flow and kind == "tret":
                log.append(f"{number} {word} {end}{'' if kind == 'packet' else ' flow'}")
        elif words[0] == "took":
            log.append(f"{number} answer {words[1]}")
    return log


def kind_of(words: list[str]) -> str:
    """Whether a flit is of a packet, a TRET, or neither."""
    if words[0] == "sent":
        return {"new": "packet", "tret": "tret"}.get(words[2], "")
    if words[3] == "accepted" and words[2][:4] == "8200":
        return "tret"
    return "packet" if words[3] in ("gathered", "accepted", "poisoned") else ""


class Preamble(unittest.TestCase):
    def test_how_many_trets_return_all_tokens(self) -> None:
        for tokens, wanted in ((17, 2), (34, 2), (64, 1), (100, 3), (1023, 21), (1024, 16)):
            self.assertEqual(returns_of(tokens), wanted)

    def test_every_sender_then_holds_all_its_tokens(self) -> None:
        require_program()
        for name in ("fence", "star", "two-profiles"):
            for tokens in (17, 63, 1024):
                document = document_of(name)
                for link in document["links"]:
                    link["tokens"] = tokens
                lines = preamble(document)
                shorter = lines[: -4 * len(document["links"])]
                for text, is_enough in ((lines, True), (shorter, False)):
                    document |= {"script": "", "schedule": "".join(f"{it}\n" for it in text)}
                    rows = [it.split() for it in run(document) if it.startswith("tokens ")]
                    held = {row[2] == row[7] == str(tokens) for row in rows}
                    self.assertEqual(held == {True}, is_enough, (name, tokens))


class Convert(unittest.TestCase):
    def test_logs_of_reports(self) -> None:
        """The hosts get the same answers as in the report that the log is of, and the memory is
        the same; no step of the new case is idle."""
        require_program()
        names = ("write-then-read", "chain-of-three", "two-hosts-two-cubes", "row-of-eight")
        for name in (*names, "posted-increments", "six-errors", "registers-and-banks"):
            document = document_of(name)
            stored = (EXAMPLES / f"{name}.report").read_text("utf-8").splitlines()
            for has_flow in (False, True):
                log = log_of(stored, document, has_flow)
                if has_flow:
                    # The TRETs of training are those that the preamble has.
                    rows = list(enumerate(log))
                    first = next(n for n, it in rows if " out " in it and "flow" not in it)
                    log = [it for n, it in rows if n >= first or "flow" not in it]
                found = convert.converted(events_of(log, document, False), document, True)
                report = run(found)
                idle = [line for line in report if line.startswith("idle ")]
                self.assertEqual(idle, [], (name, has_flow))
                self.assertEqual(of_hosts(report), of_hosts(stored), (name, has_flow))
                if not has_flow:
                    self.assertEqual(report[-1], "state drained")

    def test_thirty_posted_writes(self) -> None:
        """They need the tokens of one another, and no effect of them is seen."""
        require_program()
        document = document_of("fence")
        document["links"][0] |= {"tokens": 17, "retry": 64}
        log = []
        for number in range(30):
            log.append(f"{number} request 0 pwr64 0 0x{64 * number % 1024:x} {'5c' * 64}")
            log += [f"{number} out h0"] * 5 + [f"{number} in c0.0"] * 5
        report = run(convert.converted(events_of(log, document, False), document, True))
        self.assertEqual([line for line in report if line.startswith("idle ")], [])
        self.assertIn("cube 0 30 0", report)
        self.assertEqual(report[-1], "state drained")
        tokens = [line.split() for line in report if line.startswith("tokens ")]
        self.assertTrue(all(row[2] == row[7] for row in tokens), tokens)

    def test_events_of_one_cycle(self) -> None:
        """Each part acts on what was there before: an answer comes first, a request last."""
        lines = ["5 request 0 rd16 0 0", "5 out h0", "5 in c0.0", "5 answer 0"]
        events = events_of(lines, document_of("fence"), by_cycle=True)
        self.assertEqual([it.word for it in events], ["answer", "in", "out", "request"])

    def test_logs_that_cannot_be(self) -> None:
        """Each is refused at its line."""
        rows = (
            (["x out h0"], "line 1 of the log: `x` is not a time"),
            (["1 jump h0"], "line 1 of the log: `jump` is not an event"),
            (["1 out"], "line 1 of the log: after `out` comes END"),
            (["1 out h3"], "line 1 of the log: no link of the case ends at h3"),
            (["1 out h0 fast"], "line 1 of the log: after `out` comes END"),
            (["2 fence 0", "1 fence 0"], "line 2 of the log: time 1 is before that of line 1"),
            (["1 request 0 rd17 0 0"], "line 1 of the log: the request is not a line of a script"),
            (["1 out h0"], "line 1 of the log: no packet that has arrived could leave h0"),
            (["1 in c0.0"], "line 1 of the log: no flit is on its way to c0.0"),
            (["1 answer 0"], "line 1 of the log: no whole answer has arrived at h0"),
            (["1 request 0 rd16 0 0", "2 out h0", "3 in c0.0 flow"], "line 3 of the log: what arr"),
        )
        document = document_of("fence")
        for log, said in rows:
            with self.assertRaises(Trouble) as caught:
                convert.converted(events_of(log, document, False), document, True)
            self.assertTrue(str(caught.exception).startswith(said), str(caught.exception))

    def test_an_answer_of_another_length(self) -> None:
        """The message names the answer that the model has there."""
        begun = ["2 out h0", "3 in c0.0", "4 out c0.0"]
        rows = (
            (
                "1 request 0 rd16 0 0x44",
                ["5 out c0.0"],
                "line 5 of the log: no packet that has arrived could leave c0.0 now; "
                "the last one was the error that answers line 1, flits: 1",
            ),
            (
                "1 request 0 rd64 0 0x40",
                ["5 in h0", "6 answer 0"],
                "line 6 of the log: no whole answer has arrived at h0: "
                "1 of 5 flits of the answer to line 1",
            ),
        )
        document = document_of("fence")
        for request, rest, said in rows:
            with self.assertRaises(Trouble) as caught:
                events = events_of([request, *begun, *rest], document, False)
                convert.converted(events, document, True)
            self.assertEqual(str(caught.exception), said)

    def test_every_event_has_a_row_in_the_page(self) -> None:
        page = PAGE.read_text("utf-8")
        rows = set(re.findall(r"^\| `TIME ([a-z]+) ", page, re.MULTILINE))
        self.assertEqual(rows, set(observed.EVENTS))

    def test_the_example_of_the_page(self) -> None:
        """Its log gives its lines of a report."""
        require_program()
        blocks = re.findall(r"(?:^ {4}.*\n)+", PAGE.read_text("utf-8"), re.MULTILINE)
        texts = [re.sub("^ {4}", "", block, flags=re.MULTILINE) for block in blocks]
        log = next(it for it in texts if " request " in it)
        wanted = next(it for it in texts if it.startswith("gave "))
        ran = tool("convert", "-", str(EXAMPLES / "fence.toml"), given=log.encode())
        report = tool("run", given=ran.stdout).stdout.decode()
        self.assertTrue(report.endswith(wanted), report[-3000:])


def of_hosts(report: list[str]) -> list[list[str]]:
    """What each host gave and took, in its order, and the final memory and registers."""
    kept = [line for line in report if line.startswith(("memory ", "register "))]
    kept_of = [[it for it in report if it.startswith((f"took {host} ",))] for host in range(8)]
    answers = [sorted(" ".join(it.split()[3:]) for it in lines) for lines in kept_of]
    return [kept, *answers]


if __name__ == "__main__":
    unittest.main()
