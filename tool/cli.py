"""The command line: finds the command that is called, and ends with its status."""

from __future__ import annotations

import gc
import sys

from tool import build, files, kit, processes, release, trial
from tool.kit import CALLED
from tool.trouble import (
    BAD_DATA,
    CLOSED_PIPE,
    INTERRUPTED,
    NO_INPUT,
    USAGE,
    ClosedPipe,
    NotALine,
    Trouble,
    note,
    say,
)
from tool.verbs import COMMANDS

HELP = "help [COMMAND]"
HELP_WORDS = ("help", "--help", "-h")
END = """\
A case is a TOML document, as examples/write-then-read.toml. docs/README.md leads to the formats,
docs/tool.md has an example of each command, and the exit status of each.
"""


def overview() -> str:
    """What `./zehimbado help` writes."""
    rows = [(command.usage, command.summary) for command in COMMANDS.values()]
    rows.append((HELP, "this text, or that of a command"))
    lines = [f"  {usage:<20}{summary}\n" for usage, summary in rows]
    return f"usage: {CALLED} COMMAND ..\n\n{''.join(lines)}\n{END}"


def help_command(words: list[str]) -> int:
    """Prints the overview, or the help of a command."""
    if words and words[0] not in COMMANDS:
        raise Trouble(USAGE, f"there is no command {words[0]}")
    text = COMMANDS[words[0]].parser().format_help() if words else overview()
    files.write_lines(text.splitlines())
    return 0


def version_command() -> int:
    """Prints what identifies these sources, the kit, the release, and which programs are built."""
    if kit.INSTALLED.is_file():
        files.write_lines([f"zehimbado {kit.project_version()}, installed", *release.lines()])
        return 0
    proved = "is built" if build.is_current() else "is not built: ./zehimbado build"
    unproved = "is built" if trial.is_built() else "is not built"
    lines = [
        f"zehimbado {kit.project_version()}, sources {build.digest()[:16]}",
        f"kit: {kit_line()}",
        f"the proved program of these sources {proved}",
        f"the unproved program of these sources {unproved}",
        *release.lines(),
    ]
    files.write_lines(lines)
    return 0


def kit_line() -> str:
    """The kit that is here, and whether it is the one that README.md names."""
    try:
        found = kit.version(kit.command())
    except Trouble as trouble:
        return f"{trouble}; README.md names `{kit.named()}`"
    difference = kit.difference(found)
    return difference or f"{found}, which README.md names"


def dispatch(words: list[str]) -> int:
    """Does what the words say, and returns the exit status."""
    if not words:
        say(overview().rstrip())
        return USAGE
    if words[0] in HELP_WORDS:
        return help_command(words[1:])
    if words[0] == "--version":
        return version_command()
    command = COMMANDS.get(words[0])
    if command is None:
        raise Trouble(USAGE, f"there is no command {words[0]}; {CALLED} help lists them")
    if any(word in HELP_WORDS[1:] for word in before_dashes(words[1:])):
        return help_command(words[:1])
    given = command.parser().parse_args(words[1:])
    build.Choice.is_released = vars(given).pop("released", False)
    return command.load().run(given)


def before_dashes(words: list[str]) -> list[str]:
    """The words before `--`."""
    return words[: words.index("--")] if "--" in words else words


def main(words: list[str]) -> int:
    """Does what the words say. States what went wrong on standard error."""
    # Millions of records come and go, and none of them is in a cycle.
    gc.disable()
    files.keep_streams()
    try:
        processes.end_at_signals()
        return dispatch(words)
    except Trouble as trouble:
        note(str(trouble))
        return trouble.status
    except NotALine as error:
        note(str(error))
        return BAD_DATA
    except ClosedPipe:
        return CLOSED_PIPE
    except OSError as error:
        note(f"cannot use {error.filename}: {error.strerror}" if error.filename else str(error))
        return NO_INPUT
    except KeyboardInterrupt:
        return INTERRUPTED
    finally:
        if sys.stderr is not None:
            leave_quietly()


def leave_quietly() -> None:
    """Flushes standard error here, where a failure is quiet."""
    try:
        sys.stderr.flush()
    except OSError:
        sys.stderr = None  # type: ignore[assignment]
