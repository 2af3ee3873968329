"""A proved model of a network of Hybrid Memory Cubes, for benches in Python.

`Session` is a network that is asked and stepped call by call, as bindings/c/hmc.h has it. `Memory`
is one that is stepped in rounds and calls a function with each answer, and `Driver` one whose
answers are awaited, under asyncio or cocotb. `run_case` has the report of a whole case, and `check`
says whether a report is that of a case. docs/python.md has first benches.

Addresses are below 2^34; numbers of hosts, cubes and directions begin with 0. What can't be done
raises `Error`, which has the status and the first fault of a text, and changes nothing, except that
`Session.run` may have taken steps before.
"""

from hmc.calls import Error, Fault, Status, crc
from hmc.commands import COMMANDS, Command
from hmc.driver import Driver
from hmc.entry import Answer, AnswerKind, Cause, Entry, EntryKind, Outcome, Step, What
from hmc.memory import Memory
from hmc.report import PROGRAM_UNITS, Report, Unit, Verdict, check, run_case
from hmc.session import Session

__all__ = [
    "COMMANDS",
    "PROGRAM_UNITS",
    "Answer",
    "AnswerKind",
    "Cause",
    "Command",
    "Driver",
    "Entry",
    "EntryKind",
    "Error",
    "Fault",
    "Memory",
    "Outcome",
    "Report",
    "Session",
    "Status",
    "Step",
    "Unit",
    "Verdict",
    "What",
    "check",
    "crc",
    "run_case",
]
