"""Manual pages and completions, from the commands themselves: they say what `--help` says.

`python3 -m tool.manual FOLDER` writes them.
"""

from __future__ import annotations

import argparse
import re
import sys
from collections.abc import Iterator
from pathlib import Path

from tool import kit
from tool.kit import TOP
from tool.run import MEANINGS
from tool.verbs import COMMANDS, Command

CALLED = "zehimbado"
BASH = """\
_zehimbado() {{
  local now=${{COMP_WORDS[COMP_CWORD]}} verb=${{COMP_WORDS[1]}} words=
  if [ "$COMP_CWORD" = 1 ]; then
    COMPREPLY=($(compgen -W '{verbs} help --version' -- "$now"))
    return
  fi
  case "$verb:${{COMP_WORDS[COMP_CWORD-1]}}" in
{choices}
  esac
  case $verb in
{options}
    help) words='{verbs}' ;;
  esac
  if [[ $now == -* || $verb == help ]]; then
    COMPREPLY=($(compgen -W "$words" -- "$now"))
  else
    COMPREPLY=()
    compopt -o default
  fi
}}
complete -F _zehimbado zehimbado ./zehimbado
"""
ZSH = """\
#compdef zehimbado
local -a verbs
verbs=(
{verbs}
)
if (( CURRENT == 2 )); then
  _describe command verbs
else
  shift words
  (( CURRENT-- ))
  case $words[1] in
{options}
  esac
fi
"""


def roff(text: str) -> str:
    """Text as roff has it."""
    text = text.replace("./zehimbado", CALLED).replace("\\", "\\e").replace("-", "\\-")
    return re.sub(r"^([.'])", r"\\&\1", text, flags=re.MULTILINE)


def words_of(command: Command) -> Iterator[argparse.Action]:
    """Yields the words that a command takes, `--help` excepted."""
    for action in command.parser()._actions:  # pylint: disable=protected-access
        if not isinstance(action, argparse._HelpAction):  # pylint: disable=protected-access
            yield action


def shown(text: str | None) -> str:
    """The help of a word, as it is printed."""
    return (text or "").replace("%%", "%")


def taken_by(word: argparse.Action) -> str:
    """What a word is followed by, or is replaced by where it has no dashes."""
    if word.nargs == 0:
        return ""
    name = word.metavar or word.dest
    return " ".join(name) if isinstance(name, tuple) else str(name)


def entry(word: argparse.Action) -> list[str]:
    """The lines of a manual page for a word."""
    taken = taken_by(word)
    names = ", ".join(word.option_strings)
    head = f"{names} {taken}".strip() if names else taken
    return [".TP", f".B {roff(head)}", roff(shown(word.help))]


def page(command: Command) -> str:
    """The manual page of a command."""
    parser = command.parser()
    usage = parser.format_usage()[len("usage: ") :].strip()
    name = f"{CALLED}-{command.name}"
    lines = [f'.TH {name.upper()} 1 "" "{CALLED} {kit.project_version()}"', ".SH NAME"]
    lines += [f"{name} \\- {roff(command.summary)}", ".SH SYNOPSIS", ".nf", roff(usage), ".fi"]
    lines += [".SH DESCRIPTION", roff(parser.description or "")]
    words = [line for word in words_of(command) for line in entry(word)]
    lines += [".SH OPTIONS", *words] if words else []
    return "\n".join([*lines, ".SH SEE ALSO", f".BR {CALLED} (1)"]) + "\n"


def statuses() -> dict[int, str]:
    """What each exit status means: those of the program, and those of the script."""
    table = (TOP / "docs" / "tool.md").read_text(encoding="utf-8")
    rows = re.findall(r"^\| ([0-9]+) \| (.*) \|$", table, re.MULTILINE)
    plain = {int(status): re.sub(r"\[(.*?)\]\(.*?\)|`", r"\1", said) for status, said in rows}
    return {**MEANINGS, **{status: said for status, said in plain.items() if status not in (1,)}}


def overview() -> str:
    """The manual page of the script."""
    lines = [f'.TH {CALLED.upper()} 1 "" "{CALLED} {kit.project_version()}"', ".SH NAME"]
    lines += [f"{CALLED} \\- a proved model of a network of Hybrid Memory Cubes", ".SH SYNOPSIS"]
    lines += [f".B {CALLED}", "COMMAND ..", ".SH COMMANDS"]
    for command in COMMANDS.values():
        more = f"See {roff(f'{CALLED}-{command.name}')}(1)."
        lines += [".TP", f".B {roff(command.usage)}", f"{roff(command.summary)}.", more]
    lines.append(".SH EXIT STATUS")
    for status, said in sorted(statuses().items()):
        lines += [".TP", f".B {status}", roff(said)]
    return "\n".join(lines) + "\n"


def bash() -> str:
    """The completion for bash: the commands, the options of each, and then files."""
    choices, options = [], []
    for command in COMMANDS.values():
        words = list(words_of(command))
        names = " ".join(name for word in words for name in word.option_strings)
        options.append(f"    {command.name}) words='{names} --help' ;;")
        for word in words:
            values = " ".join(map(str, word.choices or ()))
            for name in word.option_strings if values else ():
                reply = f"COMPREPLY=($(compgen -W '{values}' -- \"$now\"))"
                choices.append(f"    {command.name}:{name}) {reply}; return ;;")
    verbs = " ".join(COMMANDS)
    return BASH.format(verbs=verbs, choices="\n".join(choices), options="\n".join(options))


def in_zsh(text: str) -> str:
    """Text within the quotes and brackets of zsh."""
    for mark in "[]:":
        text = text.replace(mark, f"\\{mark}")
    return text.replace("'", "'\\''")


def zsh_words(command: Command) -> Iterator[str]:
    """Yields the words of a command as `_arguments` of zsh takes them."""
    for word in words_of(command):
        taken = taken_by(word)
        values = f"({' '.join(map(str, word.choices))})" if word.choices else "_files"
        after = f":{in_zsh(taken)}:{values}" if taken else ""
        for name in word.option_strings:
            yield f"'{name}[{in_zsh(shown(word.help))}]{after}'"
    yield "'*:file:_files'"


def zsh() -> str:
    """The completion for zsh, with the help of each option."""
    commands = COMMANDS.values()
    verbs = "\n".join(f"  '{it.name}:{in_zsh(it.summary)}'" for it in commands)
    options = [f"    {it.name}) _arguments {' '.join(zsh_words(it))} ;;" for it in commands]
    return ZSH.format(verbs=verbs, options="\n".join(options))


def in_fish(text: str) -> str:
    """Text within the quotes of fish."""
    return "'" + text.replace("\\", "\\\\").replace("'", "\\'") + "'"


def fish() -> str:
    """The completion for fish."""
    rows = []
    for command in COMMANDS.values():
        said = in_fish(command.summary)
        rows.append(f"complete -c {CALLED} -n __fish_use_subcommand -a {command.name} -d {said}")
        when = f"complete -c {CALLED} -n '__fish_seen_subcommand_from {command.name}'"
        for word in words_of(command):
            values = " ".join(map(str, word.choices or ()))
            more = f" -x -a {in_fish(values)}" if values else " -r" if taken_by(word) else ""
            for name in word.option_strings:
                flag = f"-l {name[2:]}" if name.startswith("--") else f"-s {name[1:]}"
                rows.append(f"{when} {flag}{more} -d {in_fish(shown(word.help))}")
    return "\n".join(rows) + "\n"


def texts() -> dict[str, str]:
    """All of them, by their paths below `share`."""
    made = {f"man/man1/{CALLED}-{it.name}.1": page(it) for it in COMMANDS.values()}
    made[f"man/man1/{CALLED}.1"] = overview()
    made[f"bash-completion/completions/{CALLED}"] = bash()
    made[f"zsh/site-functions/_{CALLED}"] = zsh()
    made[f"fish/vendor_completions.d/{CALLED}.fish"] = fish()
    return made


def main(words: list[str]) -> int:
    """Writes all to a folder."""
    for name, text in texts().items():
        path = Path(words[0], name)
        path.parent.mkdir(parents=True, exist_ok=True)
        path.write_text(text, encoding="utf-8")
    return 0


if __name__ == "__main__":
    sys.exit(main(sys.argv[1:]))
