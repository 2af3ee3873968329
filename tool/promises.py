"""The promises of docs/TRUST.md, each with the definitions that state it."""

from __future__ import annotations

import re

from tool.definitions import Name, count_of, length_of, lines_of, rests_on, text_of

JOURNAL, REPLAY = "crates/hmc_journal/specs", "crates/hmc_replay/specs"
CODE, LAWS = "crates/hmc_replay/src", "crates/hmc_laws/src/laws.rt"
DELIVERED = f"{JOURNAL}/Delivered.antt"
CASE = "crates/hmc_case/specs"
# Definitions of a file, or fields of its records.
Roots = dict[str, tuple[str, ...]]

ANSWERS: Roots = {
    f"{JOURNAL}/Serial.antt": ("IsSerial",),
    f"{JOURNAL}/StepView.antt": ("opening_of", "state_of"),
    "crates/hmc_report/specs/Lines.antt": ("memory_lines", "register_lines"),
}
TAGS = tuple(f"DeliveredInOrder.{it}" for it in ("answered", "replied", "out"))
ORDER = ("requests", "requests_kept", "lifted", "taken", "answers", "answers_kept")
# Those of the words of the page.
FIELDS = (
    *("requests", "requests_kept", "lifted", "answers", "answers_kept", "answered", "replied"),
    "out",
)
LINKS = ("wires", "accepted", "begun", "marks", "in_order")

HEADLINE: Roots = {**ANSWERS, DELIVERED: ("IsScripted", *TAGS)}
PROMISES: dict[str, Roots] = {
    "answers and memory": ANSWERS,
    "requests as the script has them": {DELIVERED: ("IsScripted",)},
    "tags": {DELIVERED: TAGS},
    "order by host and bank": {DELIVERED: tuple(f"DeliveredInOrder.{it}" for it in ORDER)},
    "links": {DELIVERED: tuple(f"LinksInOrder.{it}" for it in LINKS)},
    "tokens": {DELIVERED: ("LinksInOrder.tokens",)},
    "`state drained`": {f"{JOURNAL}/Drained.antt": ("is_drained",), DELIVERED: ("AllServed",)},
    "the drain bound": {"crates/hmc_bound/specs/Ends.antt": ("EndsDrained",)},
    "the one report of a case": {f"{REPLAY}/Report.antt": ("report_of",)},
    "cases and their faults": {
        f"{CASE}/Case.antt": ("case_of",),
        f"{CASE}/Line.antt": ("bad_line",),
    },
    "`check`": {f"{REPLAY}/CheckAnswer.antt": ("IsCheckAnswer",)},
    "`trace`": {f"{REPLAY}/TraceAnswer.antt": ("IsTraceAnswer",)},
    "all that `replay` promises": {
        f"{REPLAY}/Top.antt": ("Replayed",),
        f"{REPLAY}/Complete.antt": ("IsComplete",),
    },
}
HEADLINE_NAME = "the headline below"


def definitions_of(roots: Roots) -> dict[str, set[str]]:
    """The definitions that a promise rests on, by their files, those that state it first."""
    known: dict[str, set[str]] = {}
    for path, names in roots.items():
        for file, found in rests_on(path, names).items():
            known.setdefault(file, set()).update(found)
    return known


def promise_table() -> list[str]:
    """How much each promise rests on, as the rows of a table."""
    rows = ["| Promise | Stated by | Files | Definitions | Lines |", "|---|---|---|---|---|"]
    for title, roots in {HEADLINE_NAME: HEADLINE, **PROMISES}.items():
        known = definitions_of(roots)
        stated = ", ".join(_link(path) for path in roots)
        count = sum(map(len, known.values()))
        rows.append(f"| {title} | {stated} | {len(known)} | {count:,} | {count_of(known):,} |")
    return rows


def reading_table() -> list[str]:
    """What to read of each file for the headline, in reading order, as the rows of a table."""
    rows = ["| File | Lines, of all | What of it |", "|---|---|---|"]
    for path, names in definitions_of(HEADLINE).items():
        lines = count_of({path: names})
        # As the file has them.
        order = sorted((_place((path, name)), name) for name in names)
        shown = ", ".join(f"`{name}`" for _, name in order)
        rows.append(f"| {_link(path)} | {lines} of {length_of(path)} | {shown} |")
    return rows


def _place(name: Name) -> int:
    """Where a definition begins in its file."""
    return text_of(name[0]).find(lines_of(name)[0])


def _link(path: str) -> str:
    """A link from docs/ to a file, shown by its crate and its name."""
    _, crate, _, name = path.split("/")
    return f"[{crate}: {name.removesuffix('.antt')}](../{path})"


# The words of docs/TRUST.md, by the files that define them. `DeliveredInOrder.out` is a field.
WORDS = {
    f"{JOURNAL}/Lawful.antt": ("Lawful", "Follows", "has_passed", "IsWhole", "journal_of"),
    LAWS: ("one_journal", "lawful_goes_on", "lawful_keeps_queues"),
    f"{JOURNAL}/Next.antt": ("next", "choice"),
    "crates/hmc_schedule/src/step.rt": ("Step",),
    f"{JOURNAL}/Setup.antt": ("Setup", "setup_of", "unit_in"),
    f"{JOURNAL}/Network.antt": ("IsNetwork",),
    f"{JOURNAL}/Guarantees.antt": (
        "Guarantees",
        *(f"Guarantees.{it}" for it in ("scripted", "serial", "delivered", "served")),
    ),
    f"{JOURNAL}/Serial.antt": ("IsSerial",),
    f"{JOURNAL}/StepView.antt": ("state_of",),
    f"{JOURNAL}/LinkSteps.antt": ("landed_entry", "landed_flit", "land_entry"),
    f"{JOURNAL}/CubeSteps.antt": ("shifted_entry",),
    "crates/hmc_crossbar/specs/To.antt": ("where_to",),
    f"{JOURNAL}/Queues.antt": ("QueueId", "contents"),
    f"{JOURNAL}/QueueInvariant.antt": ("QueueInvariant", "QueueInvariant.links"),
    f"{JOURNAL}/Piped.antt": ("is_accepted_outcome",),
    f"{JOURNAL}/Counts.antt": ("token_counts",),
    f"{JOURNAL}/Directions.antt": ("receiver_of",),
    "crates/hmc_codes/src/counts.rt": ("TokenRow.transit",),
    "crates/hmc_send/specs/LinkSenders.antt": ("tokens",),
    "crates/hmc_send/specs/LinkTokens.antt": ("token_row",),
    "crates/hmc_send/specs/Places.antt": ("is_token", "takes_tokens"),
    f"{JOURNAL}/Drained.antt": ("IsDrained", "directions_of", "queues_of", "is_drained"),
    "crates/hmc_promises/src/laws.rt": ("drained_is_tested",),
    "crates/hmc_ordered/specs/Ordered.antt": ("AsksNoUnits",),
    "crates/hmc_ordered/src/laws.rt": ("runs_are_ordered",),
    "crates/hmc_cases/src/laws.rt": ("read_is_case",),
    "crates/hmc_packet/specs/Packet.antt": ("flits_of",),
    "crates/hmc_send/specs/LinkCalls.antt": ("names_flits",),
    f"{JOURNAL}/UnderWay.antt": ("under_way",),
    f"{JOURNAL}/Settled.antt": ("AreSettled",),
    "crates/hmc_script/specs/Script.antt": ("after_meaning",),
    "crates/hmc_script/src/item.rt": ("Item.fenced",),
    "crates/hmc_host/specs/Give.antt": ("wants_tag", "item_says"),
    "crates/hmc_host/specs/Settle.antt": ("settle_says",),
    "crates/hmc_host/specs/Tags.antt": ("is_some_out",),
    f"{JOURNAL}/Hosts.antt": ("tags_out",),
    f"{JOURNAL}/Filters.antt": (
        *("given_to", "executed_by", "asked_under", "replies_under", "answers_under"),
        "answered_into",
    ),
    f"{JOURNAL}/Carried.antt": (
        *("tagged_answers_gone", "answers_lifted", "answers_taken", "requests_waiting"),
    ),
    f"{JOURNAL}/Report.antt": ("report_lines", "report_text"),
    f"{JOURNAL}/Final.antt": ("values_of", "final_lines_of"),
    "crates/hmc_report/specs/Final.antt": ("FinalValues", "FinalValues.drained", "final_lines"),
    "crates/hmc_report/specs/Lines.antt": (
        *("memory_lines", "register_lines", "token_line", "host_line", "state_line"),
    ),
    "crates/hmc_entries/specs/Lines.antt": ("line_of",),
    DELIVERED: (
        *("IsScripted", "LinksInOrder", "LinksInOrder.tokens", "DeliveredInOrder"),
        *(f"DeliveredInOrder.{it}" for it in FIELDS),
        "AllServed",
    ),
    "crates/hmc_hops/specs/Delivered.antt": ("IsPrefix",),
    "crates/hmc_wire/specs/LinkLaws.antt": (
        *("DirectionLaws", "DirectionLaws.accepted", "TokenLaws", "IsKept"),
    ),
    "crates/hmc_wire/src/laws.rt": ("link_is_a_list",),
    "crates/hmc_send/specs/LinkLines.antt": ("is_pending_changed", "passes"),
    "crates/hmc_send/specs/Copies.antt": ("copy_of",),
    "crates/hmc_packet/specs/Copy.antt": ("copied_packet",),
    "crates/hmc_packet/specs/Masks.antt": ("under_mask", "changes"),
    "crates/hmc_packet/specs/Landings.antt": ("mode", "pending", "is_training"),
    "crates/hmc_packet/specs/Reading.antt": ("is_null", "poison_in", "read_of"),
    "crates/hmc_packet/specs/Irtry.antt": ("irtry_in",),
    "crates/hmc_packet/specs/Receptions.antt": (
        *("train_reception", "abort_reception", "good_reception", "mode_reception"),
        "reception_of",
    ),
    "crates/hmc_packet/src/reception.rt": ("Reception.checked",),
    "crates/hmc_serial/specs/Machine.antt": ("State",),
    "crates/hmc_serial/specs/Cube.antt": ("CubeState", "opening"),
    "crates/hmc_serial/specs/Perform.antt": ("perform_on", "unless_error"),
    "crates/hmc_serial/specs/Unit.antt": ("unit_of",),
    "crates/hmc_codes/specs/Shape.antt": ("is_block", "vault_of", "bank_of"),
    "crates/hmc_codes/specs/Limits.antt": ("most_check_input",),
    "crates/hmc_serial/specs/Errors.antt": ("memory_error",),
    "crates/hmc_rounds/specs/Single.antt": ("IsSingle",),
    "crates/hmc_schedule/specs/Round.antt": ("rounds_of",),
    "crates/hmc_bound/specs/Ends.antt": (
        *("before_rounds", "EndsWithRounds", "AreEnough", "EndsDrained"),
    ),
    "crates/hmc_bound/specs/Appended.antt": ("bound_of", "BoundDrains"),
    "crates/hmc_bound/specs/Bound.antt": ("drain_bound",),
    "crates/hmc_check/specs/Fronts.antt": ("front_lines", "lines_in"),
    "crates/hmc_check/specs/Verdict.antt": ("IsLawfulReport", "Fits", "IsLeastUnfit", "capped"),
    "crates/hmc_outside/specs/Views.antt": ("SourceView", "SinkView"),
    f"{CASE}/Case.antt": ("case_of",),
    f"{REPLAY}/Report.antt": ("report_of", "end_lines", "report_status"),
    f"{REPLAY}/Answer.antt": ("limit_of", "IsAnswer"),
    f"{REPLAY}/RunAnswer.antt": ("IsRefused", "IsRunAnswer"),
    f"{REPLAY}/MakeAnswer.antt": ("IsMakeAnswer",),
    f"{REPLAY}/BoundAnswer.antt": ("IsBounded",),
    f"{REPLAY}/BoundLines.antt": ("bound_lines",),
    f"{REPLAY}/Reported.antt": (
        *("IsReport", "IsReport.lines_are", "IsReport.guarantees", "IsReport.drained"),
    ),
    f"{REPLAY}/CheckInput.antt": ("check_input",),
    f"{REPLAY}/CheckAnswer.antt": (
        *("IsLawful", "IsUnlawful", "IsOfParts", "IsHeadless", "IsCheckAnswer"),
    ),
    f"{REPLAY}/TraceAnswer.antt": ("IsTraceAnswer",),
    f"{REPLAY}/Top.antt": (
        *("IsRead", "Writes", "Writes.cut_off", "Writes.unwritten"),
        *("Replayed", "Replayed.usage", "Replayed.untouched"),
    ),
    f"{REPLAY}/Complete.antt": ("IsComplete",),
    f"{CODE}/top.rt": ("replay",),
    "crates/hmc_main/src/lib.rt": ("run_program",),
    "crates/hmc_main/specs/Ends.antt": ("Ends", "Completes"),
    "crates/hmc_main/specs/Shipped.antt": ("shipped_slots",),
}


def line_of(path: str, word: str) -> int:
    """The line with which a word begins: a definition, a field of a record, or what is of the code.
    """
    record, _, name = word.rpartition(".")
    head = re.compile(rf" *pub (?:fn |enum |struct |){name}\b")
    if path.endswith(".antt"):
        lines = lines_of((path, word))
        head = re.compile(re.escape(next(it for it in lines if not it.lstrip().startswith("--"))))
    within = not record or path.endswith(".antt")
    for at, line in enumerate(text_of(path).splitlines(), start=1):
        within = within or line.startswith(f"pub struct {record} ")
        if within and head.match(line):
            return at
    raise AssertionError(f"{path}: {word}")


def word_table() -> list[str]:
    """The file and the line of each word, as the rows of a table."""
    rows = ["| Word | File and line |", "|---|---|"]
    for path, words in WORDS.items():
        name = path.removeprefix("crates/")
        rows += (f"| {in_row(it)} | [{name}:{line_of(path, it)}](../{path}) |" for it in words)
    return rows


def in_row(word: str) -> str:
    """A word as its row has it."""
    record, _, name = word.rpartition(".")
    return f"`{name}` of `{record}`" if record else f"`{name}`"
