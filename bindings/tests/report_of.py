"""Prints the report of a case, with the units of the program. Usage: report_of.py CASE."""

from __future__ import annotations

import sys
from pathlib import Path

HERE = Path(__file__).resolve().parent
sys.path.insert(0, str(HERE.parent / "python"))

# pylint: disable=wrong-import-position,import-error
import hmc  # noqa: E402


def main(case: str) -> None:
    """Prints the report."""
    print(hmc.run_case(Path(case).read_text(encoding="utf-8"), hmc.PROGRAM_UNITS).text, end="")


if __name__ == "__main__":
    main(sys.argv[1])
