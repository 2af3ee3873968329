"""Tests that the words and lines which docs/report.md and docs/grammar-report.md list are those of
the stored reports, each of which the gate compares with what the program writes."""

import re
import unittest
from collections.abc import Iterator
from dataclasses import fields
from functools import cache

from tool import explain_fault, report
from tool.crates import libraries
from tool.jsonl import RENAMED
from tool.lines import Answer, Request
from tool.tests import pages
from tool.tests.pages import flat, quoted, text_of
from tool.tests.shared import CASES, TOP, require_program
from tool.tests.test_quoted_texts import BASE

REPORT = text_of("docs/report.md")
GRAMMAR = text_of("docs/grammar-report.md")
NUMBER = "(?:0|[1-9][0-9]*)"
REQUEST = rf"(?:poison )?[a-z0-9]+ {NUMBER} 0x(?:0|[1-9a-f][0-9a-f]*)(?: [0-9a-f]+)?"
# The words in capitals of the page that are not numbers, and are no lists of words.
CAPITALS = {
    "TAG": f"(?:{NUMBER}|-)",
    "REQ": REQUEST,
    "FLIT": "[0-9a-f]{32}",
    "TO": f"(?:v{NUMBER}|r|p[0-3])",
    "ADDRESS": "0x(?:0|[1-9a-f][0-9a-f]*)",
    "BYTES": "(?:[0-9a-f]{2})+",
    "VALUE": "[0-9a-f]{8}",
}


def listed(head: str) -> list[str]:
    """The words of the first column of a table of docs/report.md."""
    return [word for row in pages.rows(REPORT, head) for word in quoted(row[0])]


def causes() -> list[str]:
    """The words that docs/grammar-report.md has for a cause."""
    (cell,) = [row[1] for row in pages.rows(GRAMMAR, "Field") if row[0] == "cause"]
    return quoted(cell)


def answers() -> list[str]:
    """The patterns of the forms of an answer that docs/report.md lists."""
    item = flat(REPORT[REPORT.index("- ANS is ") :].split("\n\n", maxsplit=1)[0])
    item = item.split(". F is", maxsplit=1)[0]
    kinds = [it for it in quoted(item) if it != "N"]
    words = {"F": "[01]", "N": NUMBER, "BYTES": CAPITALS["BYTES"]}
    spelled = [" ".join(words.get(it, it) for it in kind.split()) for kind in kinds]
    assert "`register` and eight hexadecimal digits" in item
    return [f"{it} [0-9a-f]{{8}}" if it == "register" else it for it in spelled]


def pattern_of(form: str) -> str:
    """The pattern of a line or a step that docs/report.md spells with words in capitals."""
    of_lists = {"WHAT": listed("WHAT"), "OUTCOME": listed("OUTCOME")}
    known = CAPITALS | {key: f"(?:{'|'.join(it)})" for key, it in of_lists.items()}
    known |= {"ANS": f"(?:{'|'.join(answers())})", "pP": "p[0-3]"}
    words = [known.get(it, NUMBER if it.isupper() else it) for it in form.split()]
    return " ".join(words)


def idle_forms() -> Iterator[str]:
    """Yields a pattern for each step and each cause for which it does nothing."""
    for steps, reasons in pages.rows(REPORT, "Step"):
        for step in quoted(steps):
            for cause in quoted(reasons):
                if cause in causes():
                    yield f"idle {pattern_of(step)} {cause}"


def forms() -> list[str]:
    """The patterns of all lines of docs/report.md."""
    spelled = [it for it in listed("Line") if not it.startswith("idle ")]
    section = pages.section(REPORT, "Final lines")
    spelled += [it for row in pages.rows(section, "Line") for it in quoted(row[0])]
    return [*map(pattern_of, spelled), *idle_forms()]


@cache
def stored() -> frozenset[str]:
    """Each line of the stored reports, once."""
    texts = [path.with_suffix(".report").read_text(encoding="utf-8") for path in CASES]
    return frozenset("".join(texts).splitlines())


class Lines(unittest.TestCase):
    """docs/report.md."""

    def test_each_line_has_a_form(self) -> None:
        """Of the stored reports each line has one of the forms of the page. Each form but one has
        a line: no example gives all tags."""
        patterns = {it: re.compile(it) for it in forms()}
        by_word: dict[str, list[str]] = {}
        for form in patterns:
            by_word.setdefault(form.split()[0], []).append(form)
        seen = set()
        for line in stored():
            found = [it for it in by_word[line.split()[0]] if patterns[it].fullmatch(line)]
            self.assertTrue(found, line)
            seen |= set(found)
        self.assertEqual(set(patterns) - seen, {f"idle give {NUMBER} tags"})

    def test_all_tags_are_out(self) -> None:
        """Where no answer is taken a give has no tag in the end."""
        require_program()
        kinds = ("give 0", "send 0", "send 1", "land 0", "land 1", "shift 0 0", "spread 0 0")
        steps = "".join(f"{it}\n" for it in (*kinds, "bank 0 0 0", "lift 0 0"))
        case = BASE.replace("queue = 4", "queue = 64").replace("line = 8", "line = 64")
        case = case.replace("output = 4", "output = 64").replace("tokens = 34", "tokens = 1024")
        case = pages.with_text(case, "script", "0 inc8 0 0\n" * 2100)
        lines = pages.scheduled(case, steps * 3000)
        self.assertIn("idle give 0 tags", lines)
        self.assertIn("gave 0 2047 inc8 0 0x0", lines)

    def test_words_of_flits_and_landings(self) -> None:
        """The tables have the words that come, and no other."""
        what = {it.split()[2] for it in stored() if it.startswith("sent ")}
        self.assertEqual(what, set(listed("WHAT")))
        outcome = {it.split(" ", 3)[3] for it in stored() if it.startswith("landed ")}
        # On a link the last of these never comes.
        self.assertEqual(set(listed("OUTCOME")) - outcome, {"aborted order"})
        self.assertEqual(outcome - set(listed("OUTCOME")), set())

    def test_each_answer(self) -> None:
        """Each form of an answer comes."""
        for form in answers():
            found = re.compile(rf"took {NUMBER} {NUMBER} {form}|executed .* {form}")
            self.assertTrue(any(map(found.fullmatch, stored())), form)


def fields_of(line: str) -> list[str]:
    """The names of the fields of a line, as JSON has them; a bank that isn't there is left out."""
    record = report.read_line(line)
    names = [it.name for it in fields(record)]
    is_of_registers = getattr(record, "vault", None) == "r"
    return [RENAMED.get(it, it) for it in names if not (is_of_registers and it == "bank")]


def in_sentences() -> Iterator[tuple[str, str]]:
    """Yields what each page has in backquotes, outside of blocks."""
    for path in (*TOP.glob("*.md"), *TOP.glob("docs/*.md"), *TOP.glob("crates/*/CALLING.md")):
        text = pages.BLOCK.sub("\n", f"\n\n{path.read_text(encoding='utf-8')}")
        for code in quoted(text):
            yield path.name, flat(code)


def pattern_in_sentence(word: str) -> str:
    """The pattern of a word that a sentence quotes."""
    if word == "..":
        return ".*"
    return re.escape(word) if word == word.lower() else r"\S+"


class Sentences(unittest.TestCase):
    """Lines that pages quote in their sentences."""

    def test_lines_of_reports(self) -> None:
        """Each is the front of a stored line; `..` and words in capitals represent other words. The
        page of the judge has lines of logs."""
        count = 0
        for page, code in in_sentences():
            words = code.split()
            is_of_log = page == "judge.md"
            if words[0] in set(report.LINES) - {"bad"} and words[1:2] != ["="] and not is_of_log:
                pattern = re.compile(" ".join(map(pattern_in_sentence, words)))
                with self.subTest(page=page, code=code):
                    self.assertTrue(any(map(pattern.match, stored())))
                count += 1
        self.assertGreater(count, 60)

    def test_faults(self) -> None:
        """Each has a section and a kind that the script explains. It reads no logs."""
        count = 0
        for page, code in in_sentences():
            found = re.fullmatch("bad ([a-z]+) (?:[0-9]+|LINE) ([a-z]+)", code)
            if found and found[1] not in ("check", "log"):
                with self.subTest(page=page, code=code):
                    self.assertIn(found[2], explain_fault.MEANINGS[found[1]])
                count += 1
        self.assertGreater(count, 30)


    def test_other_answers(self) -> None:
        """The lines of `check` and of `bound`, and what `values` says of a load without a value."""
        form = re.compile("(?:un)?lawful [NK0-9]+|(?:underway|bound) [NK0-9]+")
        first = ("lawful", "unlawful", "underway")
        found = [it for _, it in in_sentences() if it.split()[0] in first and " " in it]
        self.assertGreater(len(found), 10)
        for code in found:
            self.assertRegex(code, form)
        self.assertIn("A value is `unknown` where", flat(text_of("docs/trace.md")))

    def test_names_of_the_library(self) -> None:
        """Each name that begins with `hmc_` is of a crate, a file, a call or a variable of its own.
        One call was tried, and isn't there."""
        folders = ("bindings/**/*", "crates/*/src/**/*.rt", "tool/**/*.py")
        files = [it for part in folders for it in TOP.glob(part) if it.is_file()]
        texts = [it.read_text(encoding="utf-8", errors="replace") for it in files]
        known = set(re.findall(r"\b(?:hmc|HMC)_\w+", "\n".join([*texts, *map(str, files)])))
        known |= set(libraries()) | {"hmc_taken"}
        for page, code in in_sentences():
            names = set(re.findall(r"\b(?:hmc|HMC)_\w+", code))
            self.assertLessEqual(names, known, page)


def parts_of(record: Answer | Request, but: str) -> list[str]:
    """The names of the fields that a request or an answer has, but one."""
    names = [it.name for it in fields(record)]
    return [it for it in names if it != but and getattr(record, it) is not None]


class Grammar(unittest.TestCase):
    """docs/grammar-report.md."""

    def check_row(self, row: str, lines: list[str]) -> None:
        """A line that begins as the row has its fields, in their order."""
        first, *names = row.split()
        place = f"{NUMBER} r " if "'r'" in names else f"(?!{NUMBER} r )"
        line = next(filter(re.compile(f"{first[1:-1]} {place}").match, lines))
        self.assertEqual(fields_of(line), ["vault" if it == "'r'" else it for it in names])

    def test_each_row(self) -> None:
        """A row is a line's first word and its fields, each of which is in the table of fields."""
        fault = "In place of a report, for a case with a fault"
        titles = ("Entries: a line for each step", "Final lines", fault)
        blocks = [pages.blocks(pages.section(GRAMMAR, it))[0] for it in titles]
        rows = "".join(blocks).splitlines()
        self.assertEqual({row.split("'")[1] for row in rows}, set(report.LINES))
        named = {name for row in pages.rows(GRAMMAR, "Field") for name in row[0].split(", ")}
        for row in rows:
            self.check_row(row, [*stored(), "bad link 0 range"])
            self.assertLessEqual(set(row.split()[1:]), named | {"request", "answer", "'r'"})

    def test_the_words_of_fields(self) -> None:
        """They are those of docs/report.md."""
        cells = {row[0]: quoted(row[1]) for row in pages.rows(GRAMMAR, "Field")}
        self.assertEqual(set(cells["what"]), set(listed("WHAT")))
        at = cells["outcome"].index("aborted")
        outcomes = cells["outcome"][:at] + [f"aborted {it}" for it in cells["outcome"][at + 1 :]]
        self.assertEqual(set(outcomes), set(listed("OUTCOME")))
        self.assertEqual(cells["state"], ["drained", "busy"])
        of_steps = {it.split()[-1] for it in idle_forms()}
        self.assertEqual(set(cells["cause"]), of_steps)

    def test_requests_and_answers(self) -> None:
        """Each form has the fields of such a request, or such an answer, in a stored line."""
        block = flat(pages.blocks(pages.section(GRAMMAR, "Fields"))[0])
        of_requests, _, of_answers = block.removeprefix("request = ").partition(" answer = ")
        kinds = [it.split() for it in of_answers.split(" | ")]
        self.assertEqual([it[0][1:-1] for it in kinds], [it.split()[0] for it in answers()])
        for form, (_, *names) in zip(answers(), kinds):
            pattern = re.compile(f"executed .* ({form})")
            found = next(filter(None, map(pattern.fullmatch, stored())))
            self.assertEqual(names, parts_of(report.answer_of(found[1]), "kind"))
        requests = [it.split() for it in of_requests.split(" | ")]
        for text, words in zip(("rd16 0 0x0", "mdwr 0 0x0 5"), requests, strict=True):
            names = parts_of(report.request_of(f"poison {text}"), "poisoned")
            spelled = ["['poison']", *("'mdwr'" if it == "command" else it for it in names)]
            if text.startswith("rd16"):
                spelled = ["['poison']", *names, "[bytes]"]
            self.assertEqual(words, spelled)


if __name__ == "__main__":
    unittest.main()
