#!/usr/bin/env python3
"""Prints the man page and the shell completion, which are made of the tables of commands:

    workbench/pages.py man >dcvalid.1
    workbench/pages.py bash >dcvalid.bash
"""
import sys
from typing import Iterable, List, Set

from commands import ASK, PROGRAM, Command, Option, options_of

STATUSES = (
    ("0", "The formula holds of every behaviour; the automaton is shown to be minimal; the first formula implies the second, or follows from the others; nothing gets stuck; there is a controller; "
          "the text was converted; the trace was read to its end; the drawn formulas are counted."),
    ("1", "Some behaviour breaks the formula; the automaton is not shown to be minimal; the first formula does not imply the second, or does not follow from the others; some behaviour gets stuck, or none satisfies all formulas; there is no controller."),
    ("2", "The words are no command, or ask for help."),
    ("3", "A file holds no formula, or the files have more than 32 names together. The line on standard error names the first fault and its offset in bytes."),
    ("4", "A step of a formula, or the product of two automata, is over the limits; or there are more tuples of states than the limit."),
    ("5", "A file could not be opened, or not be read to its end."),
    ("6", "The report could not be written."),
    ("7", "Memory ran out."),
    ("8", "A line of the trace is no instant, or the trace is empty or too long."),
    ("9", "The file holds no text of an observer."),
    ("10", "The file holds no text of an automaton."),
)

EXAMPLES = ("echo 'var lamp; infer [[lamp]];' > lamp.dc", "dcvalid check lamp.dc", "dcvalid automaton lamp.dc > lamp.auto", "dcvalid certify lamp.auto",
            "dcvalid c lamp.dc > observer.c")

COMPLETION = """# Completion of the words of dcvalid, ask and explain for bash; made by workbench/pages.py.
_dcvalid_options() {{
  case $1 in
{options}
  esac
}}

_dcvalid() {{
  local word=${{COMP_WORDS[COMP_CWORD]}} before=${{COMP_WORDS[COMP_CWORD-1]}} tool=${{COMP_WORDS[0]##*/}} place=1 commands='{program}' command
  [ "$tool" != ask ] || commands='{ask}'
  if [ "$tool" = ask ] && [ "${{COMP_WORDS[1]-}}" = explain ] && [ "$COMP_CWORD" -gt 1 ]; then tool=explain place=2 commands='{program}'; fi
  command=${{COMP_WORDS[place]-}}
  case $before in {values}) COMPREPLY=(); return ;; esac
  if [ "$COMP_CWORD" -eq "$place" ]; then
    mapfile -t COMPREPLY < <(compgen -W "$commands --help" -- "$word")
  elif [ "${{word#-}}" != "$word" ]; then
    mapfile -t COMPREPLY < <(compgen -W "$(_dcvalid_options "$tool $command") --help" -- "$word")
  else
    mapfile -t COMPREPLY < <(compgen -f -- "$word")
  fi
}}
complete -o filenames -F _dcvalid dcvalid ask explain
"""


def completion() -> str:
    lines: List[str] = []
    values: Set[str] = set()
    more = {"explain": options_of(ASK[0]), "dcvalid": ()}
    for tool, commands in (("dcvalid", PROGRAM), ("explain", PROGRAM), ("ask", ASK)):
        for command in commands:
            options = options_of(command) if tool == "ask" else command.options + more[tool]
            if options:
                lines.append(f"    '{tool} {command.name}') echo '{' '.join(option.name for option in options)}' ;;")
            values |= {option.name for option in options if option.value not in ("", "OUT", "FILE", "NAMES", "FOLDER", "LIST")}
    names = {table: " ".join(command.name for command in commands) for table, commands in (("program", PROGRAM), ("ask", ASK))}
    return COMPLETION.format(options="\n".join(lines), values=" | ".join(sorted(values)), **names)


def roff(text: str) -> str:
    """A text as troff reads it: hyphens and backslashes as they are, and no full stop that begins a line."""
    text = text.replace("\\", "\\e").replace("-", "\\-")
    return "\\&" + text if text.startswith((".", "'")) else text


def described(command: Command, before: str, options: Iterable[Option]) -> List[str]:
    """A command with its options, as a part of the man page."""
    words = " ".join([before, command.operands]) if command.operands else before
    lines = [".TP", f".B {roff(words)}", roff(command.summary[0].upper() + command.summary[1:] + ".")]
    for option in options:
        words = f"{option.name} {option.value}".strip()
        lines += [".RS", ".TP", f".B {roff(words)}", roff(option.summary[0].upper() + option.summary[1:] + "."), ".RE"]
    return lines


def man_page() -> str:
    lines = ['.TH DCVALID 1 "" "dcvalid" "User commands"', ".SH NAME", "dcvalid \\- decides formulas of Quantified Discrete\\-time Duration Calculus",
             ".SH SYNOPSIS", ".B dcvalid", ".I COMMAND FILE", "[options]", ".SH DESCRIPTION",
             roff("Decides whether a requirement about stretches of time always holds, and shows a shortest behaviour that breaks it. The report is on "
                  "standard output, and the line of a fault on standard error. /dev/stdin is a file too."), ".SH COMMANDS"]
    for command in PROGRAM:
        lines += described(command, command.name, command.options)
    lines += [".SH EXIT STATUS"]
    for status, meaning in STATUSES:
        lines += [".TP", f".B {status}", roff(meaning)]
    lines += [".SH EXAMPLES", ".nf", *map(roff, EXAMPLES), ".fi", ".SH THE WORKBENCH",
              roff("The repository of dcvalid has the script ./ask, which asks questions around a requirement of the program. Nothing of it is proved.")]
    for command in ASK:
        lines += described(command, f"ask {command.name}", options_of(command))
    return "\n".join(lines) + "\n"


if __name__ == "__main__":
    made = {"man": man_page, "bash": completion}.get(" ".join(sys.argv[1:]))
    if made is None:
        sys.exit("pages: say man or bash")
    print(made(), end="")
