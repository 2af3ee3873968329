"""How the numbers are found that pages state about this repository.

What a script of `bench/` printed is in `bench/measured/`, as it was.
"""

from __future__ import annotations

import re
from collections.abc import Callable

from tool import case, packets
from tool.kit import TOP
from tool.texts import CubeParts, Plan

Value = Callable[[], str]
# Numbers that a page may spell, each at its own place.
SPELLED = (
    "zero one two three four five six seven eight nine ten eleven twelve thirteen fourteen "
    "fifteen sixteen seventeen eighteen nineteen twenty"
).split()


def spaced(words: str) -> str:
    """A pattern of these words, between which a line may end."""
    return re.escape(words).replace(r"\ ", r"\s+(?:>\s+)?")


def shown(number: int) -> str:
    """A number as pages show it."""
    return f"{number:,}"


def hexadecimal(number: int) -> str:
    """A number of 32 bits as pages show it."""
    return f"0x{number:08X}"


def check_of_example(last: int) -> int:
    """The check of the worked example of docs/crc.md, with this last byte."""
    return packets.crc(bytes([*bytes(BYTES_OF_EXAMPLE - 1), last]))


def text_of(path: str) -> str:
    """The content of a file of this repository."""
    return (TOP / path).read_text(encoding="utf-8")


def named(path: str, pattern: str) -> Value:
    """The number that a file has behind these words, as a whole one."""

    def value() -> str:
        found = set(re.findall(rf"{pattern}([0-9_,]+)", text_of(path)))
        numbers = {int(re.sub("[_,]", "", it)) for it in found}
        assert len(numbers) == 1, f"{path}: {pattern}: {sorted(numbers)}"
        return shown(numbers.pop())

    return value


def spelled(value: Value, less: int = 0, each: int = 1) -> Value:
    """A small number in letters: what is left of it without so many, by so many."""
    return lambda: SPELLED[(int(value()) - less) // each]


def capital(value: Value) -> Value:
    """A number in letters at the beginning of a sentence."""
    return lambda: value().capitalize()


def limit(name: str) -> Value:
    """A limit of the one file of limits."""
    return named("crates/hmc_codes/src/limits.rt", rf"\b{name}: u\w+ = ")


def lines(path: str, pattern: str = "") -> Value:
    """How many lines of a file begin with this pattern."""
    return lambda: shown(sum(bool(re.match(pattern, it)) for it in text_of(path).splitlines()))


def files(*patterns: str) -> Value:
    """How many files have a path of one of these forms."""
    return lambda: shown(sum(len(list(TOP.glob(it))) for it in patterns))


def place(path: str, pattern: str) -> Value:
    """The number of the first line of a file that has this pattern."""

    def value() -> str:
        rows = text_of(path).splitlines()
        return shown(next(at for at, row in enumerate(rows, start=1) if re.search(pattern, row)))

    return value


def steps_of(case_path: str, rounds: int) -> Value:
    """The steps of so many rounds in the network of a case."""

    def value() -> str:
        document = case.document_of((TOP / case_path).read_bytes())[0]
        return shown(rounds * case.plan_of(document).round_steps)

    return value


def most_links() -> int:
    """The links of a network with most cubes and hosts, where each host and each port has one."""
    ends = case.CUBES[1] * len(case.EVERY_PORT)
    return case.HOSTS + (ends - case.HOSTS) // 2


def largest_round() -> str:
    """The steps of a round where there are most cubes, vaults, banks, hosts and links."""
    vaults, banks = (1 << case.CUBE_RANGES[key][1] for key in ("vault_bits", "bank_bits"))
    cubes = [CubeParts(vaults, banks, case.EVERY_PORT)] * case.CUBES[1]
    return shown(Plan(case.HOSTS, 2 * most_links(), cubes).round_steps)


# The worked example of docs/crc.md has three times the bytes of a check.
BYTES_OF_EXAMPLE = 12
LIMITS = "crates/hmc_codes/src/limits.rt"
DATA = "tool/tests/data/faults"
STAGES = "crates/hmc_drain/specs/Stages.antt"
CHANGED = "examples/changed-flit.report"
FIRST = "examples/write-then-read"
ROW = ".* = "


def measured(name: str, row: str) -> Value:
    """The last word of a row that a script of `bench/` printed when it was run last."""

    def value() -> str:
        rows = text_of(f"bench/measured/{name}.txt").splitlines()
        return next(it for it in rows if it.startswith(row)).split()[-1]

    return value


def instructions_a_step() -> str:
    """Of the first workload of `bench/plain`, which has 18,000 rounds between its two sizes."""
    counted = next(it for it in text_of("bench/measured/plain.txt").splitlines() if "a write" in it)
    steps = int(steps_of(f"{FIRST}.toml", 18000)().replace(",", ""))
    return shown(round(int(counted.split("|")[2].replace(",", "")) / steps))


def slowest(column: int, places: int) -> Value:
    """The greatest number of a column of what bench/slow printed, with so many decimal places."""

    def value() -> str:
        rows = text_of("bench/measured/slow.txt").splitlines()[2:]
        return f"{max(float(it.split('|')[column + 1]) for it in rows):.{places}f}"

    return value


def stage(name: str) -> Value:
    """The rounds of a stage of the drain bound."""
    return named(STAGES, rf"{name} p c = Leads p c ")


def schedule_faults() -> str:
    """The rows of the two tables of schedules."""
    tables = ("schedule-faults", "schedule-faults-small")
    return shown(sum(int(lines(f"{DATA}/{it}.txt", ROW)()) for it in tables))


def bound_lines() -> str:
    """The lines of steps where the drain bound's rounds follow two gives of the first example."""
    rounds = int(text_of("examples/bound-two-requests.bound").split()[-1])
    return shown(2 + int(steps_of(f"{FIRST}.toml", rounds)().replace(",", "")))


def trained() -> str:
    """How often direction 0 sends before a request is given, in the example of docs/through.md."""
    before = text_of("examples/through-two-cubes.report").split("\ngave ")[0]
    return shown(len(re.findall(r"^sent 0 ", before, re.MULTILINE)))


def largest_shape() -> str:
    """The bytes of a cube with most vaults, banks and rows, and the largest block."""
    vaults, banks, rows = (case.CUBE_RANGES[it][1] for it in ("vault_bits", "bank_bits", "rows"))
    return shown((rows * case.BLOCKS[-1]) << (vaults + banks))


SETTLED = named("crates/hmc_bound/specs/Bound.antt", r"= [0-9]+ \+ ")
TO_SETTLE = named("crates/hmc_bound/specs/Bound.antt", "drain_bound topology past = ")
WEIGHT = named(STAGES, "weight s ≤ ")
BEGIN = named("crates/hmc_link_state/specs/State.antt", "each begin ")
def functions(crate: str) -> Value:
    """How many functions a crate has, in letters."""
    pattern = re.compile(r"^ *pub fn ", re.MULTILINE)
    files_of = f"crates/{crate}/src/**/*.rt"
    return spelled(lambda: shown(sum(len(pattern.findall(text)) for text in texts_of(files_of))))


def texts_of(pattern: str) -> list[str]:
    """The content of each file with such a path."""
    return [path.read_text(encoding="utf-8") for path in TOP.glob(pattern)]


def lines_of_laws() -> str:
    """The lines of the two crates that have the laws of a link."""
    found = 0
    for crate in ("hmc_numbers", "hmc_wire"):
        for part in ("src", "specs", "proofs"):
            found += sum(it.count("\n") for it in texts_of(f"crates/{crate}/{part}/**/*.*t"))
    return shown(found)


def most_mutants() -> str:
    """How many mutants the crate has that has most."""
    folders = TOP.glob("crates/*/must-fail")
    return shown(max(len(list(it.glob("*.edit"))) for it in folders))


def usual_mutants() -> str:
    """How many mutants a crate that has any has on average."""
    counts = [len(list(it.glob("*.edit"))) for it in TOP.glob("crates/*/must-fail")]
    return shown(round(sum(counts) / sum(it > 0 for it in counts)))


def crates_of_tests() -> str:
    """How many crates have tests in their code."""
    paths = TOP.glob("crates/*/src/**/*.rt")
    with_tests = [it for it in paths if "#[test]" in it.read_text(encoding="utf-8")]
    return shown(len({it.relative_to(TOP / "crates").parts[0] for it in with_tests}))


def rounds_of_training() -> str:
    """The rounds before the one in which the host's end first returns tokens: it has trained."""
    return shown(round_of(f"{FIRST}.report", "^sent 0 tret ") - 1)


def kibibytes(value: Value) -> Value:
    """A number of bytes in KiB."""
    return lambda: shown(int(value().replace(",", "")) >> 10)


def round_of(path: str, pattern: str) -> int:
    """The round, from 1, of the first line that has this pattern: twelve lines are a round."""
    return (int(place(path, pattern)().replace(",", "")) + 11) // 12


DRAWN = named("crates/hmc_make/src/items.rt", "const REQUESTS: u32 = ")
NOISY = named("crates/hmc_make/src/steps.rt", r"rounds\(&plan, (?=[0-9]+, Some)")
QUIET = named("crates/hmc_make/src/steps.rt", r"rounds\(&plan, (?=[0-9]+, None)")
TEXT = "crates/hmc_codes/src/text.rt"
PIECES = "crates/hmc_codes/src/pieces.rt"
TEXT_BYTES = kibibytes(named(PIECES, "Gathered = ArrayString<"))
LINE_BYTES = named("crates/hmc_schedule/src/written.rt", r"size_of::<Segment>\(\) == ")
SINK = "crates/hmc_outside/src/std_sink.rt"
CHANGES = lines("tool/tests/test_answers.py", r'        "[a-z ]+": ')
# That of the crate, and those that a test of the script makes.
RUNS = spelled(files("crates/hmc_prog/args", "tool/tests/data/runs/*/args"))
UNITS = spelled(lines("crates/hmc_units/src/shipped.rt", r"    [A-Z][a-z]+\([A-Z][a-z]+\),$"))
SEND_ROWS = "crates/hmc_send/specs/SendRows.antt"
ROWS_OF_SENDS = spelled(lines(SEND_ROWS, r"abbrev pub [a-z]+ : .*SendView → (Option )?Sent$"))
MEANING = "crates/hmc_trace/src/meaning.rt"
BENCH = "bindings/verilator/test.sv"
BAD_CASES = lines(f"{DATA}/bad-cases.txt", "= ")
LONG_RUNS = lines("tool/tests/test_long.py", "    def test_")
