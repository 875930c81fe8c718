#!/usr/bin/env python3
"""Generates the manual pages and the completions for bash from the programs' help and docs/RUNNING.md.

    manual.py                        writes packaging/tabd-cli.bash, after a change of tabd-cli's options
"""

import argparse
import os
import re
import subprocess
import sys
from typing import Dict, Iterator, List, Tuple

HERE = os.path.dirname(os.path.abspath(__file__))

ROW = re.compile(r"\| `(--[a-z-]+)(?: ([A-Z]+))?` \| (.*) \|\s*$")
STATUS = re.compile(r"\| (\d+) \| (.*) \| (.*) \|\s*$")
OPTION = re.compile(r"\s+(?:-\w, )?(--[a-z-]+)(?: <([A-Z]+)>)?\s{2,}(.*)$")
COMMAND = re.compile(r"  ([a-z]+)\s{2,}(.*)$")


def plain(text: str) -> str:
    """Converts text of a Markdown page to roff: code spans are bold, and links are their text."""
    text = re.sub(r"\[([^]]*)\]\([^)]*\)", r"\1", text).replace("\\", "\\e").replace("-", "\\-")
    text = re.sub(r"`([^`]*)`", r"\\fB\1\\fR", text)
    return "\n".join("\\&" + line if line.startswith((".", "'")) else line for line in text.splitlines())


def section(page: str, heading: str) -> str:
    """The text under a heading of a page."""
    found = re.search(rf"^## {re.escape(heading)}\n(.*?)(?=^## |\Z)", page, re.M | re.S)
    return found.group(1) if found else ""


def paragraphs(text: str) -> Iterator[str]:
    """The paragraphs of running text: no tables, examples and lists."""
    for block in re.split(r"\n\s*\n", text):
        if block.strip() and not re.match(r"\s*[|\-#]|\s{4}", block):
            yield " ".join(block.split())


def help_of(program: str, *words: str) -> str:
    return subprocess.run([program, *words, "--help"], check=True, stdout=subprocess.PIPE, text=True).stdout


def options_of(program: str, command: str) -> List[Tuple[str, str, str]]:
    """A command's options, by its help: each with what it takes and what it does."""
    found = (OPTION.match(line) for line in help_of(program, command).splitlines())
    return [(match.group(1), match.group(2) or "", match.group(3)) for match in found if match is not None]


def commands_of(program: str) -> List[Tuple[str, str]]:
    found = (COMMAND.match(line) for line in help_of(program).splitlines())
    return [(match.group(1), match.group(2)) for match in found if match is not None]


def _options(program: str, command: str, page: str) -> List[str]:
    """Each option with its text on the page, or its text in the help if the page has none."""
    rows = {match.group(1): match.group(3) for match in map(ROW.match, page.splitlines()) if match is not None} if command == "serve" else {}
    lines: List[str] = []
    for option, takes, text in options_of(program, command):
        name = f"\\fB{plain(option)}\\fR" + (f" \\fI{takes}\\fR" if takes else "")
        lines += [".TP", name, plain(rows.get(option, text))]
    return lines


def of_server(program: str, running: str) -> str:
    """tabd(1)."""
    with open(running, encoding="utf-8") as file:
        page = file.read()
    version = subprocess.run([program, "--version"], check=True, stdout=subprocess.PIPE, text=True).stdout.split()[1]
    about = help_of(program).splitlines()[0]
    lines = [f'.TH TABD 1 "" "tabd {version}" "tabd"', ".SH NAME", f"tabd \\- {plain(about[0].lower() + about[1:])}"]
    lines += [".SH SYNOPSIS", ".B tabd serve", "(\\fB\\-\\-port\\fR \\fIPORT\\fR | \\fB\\-\\-socket\\fR \\fIPATH\\fR)"]
    lines += ["\\fB\\-\\-connections\\fR \\fICOUNT\\fR [\\fIoptions\\fR]", ".br", ".B tabd replay", "[\\fB\\-\\-outbox\\fR \\fIITEMS\\fR]"]
    lines += [".SH DESCRIPTION", *_joined(paragraphs(page.split("\n## ")[0].split("\n", 1)[1]))]
    for command, text in commands_of(program):
        if command == "help":
            continue
        lines += [f".SH {command.upper()}", plain(text) + ".", *_options(program, command, section(page, "Start"))]
    lines += [".SH ACCESS", *_joined(paragraphs(section(page, "Access")))]
    lines += [".SH EXIT STATUS"]
    for line in section(page, "The end").splitlines():
        match = STATUS.match(line)
        if match is not None:
            told = "" if match.group(3) == "none" else f" (standard error: {match.group(3)})"
            lines += [".TP", f"\\fB{match.group(1)}\\fR", plain(match.group(2) + told)]
    lines += [".SH SEE ALSO", ".BR tabd\\-cli (1),", "/usr/share/doc/tabd/RUNNING.md, /usr/share/doc/tabd/PROTOCOL.md"]
    return "\n".join(lines) + "\n"


def _joined(texts: Iterator[str]) -> List[str]:
    return [line for text in texts for line in (".PP", plain(text))]


def completion_of_server(program: str) -> str:
    """The completion of `tabd` for bash."""
    commands = {command: [option for option, _, _ in options_of(program, command)] for command, _ in commands_of(program) if command != "help"}
    return _completion("tabd", commands, ["--help", "--version"], {"--socket": []})


# The client's program, by its parser.


def _parsers() -> Tuple[argparse.ArgumentParser, Dict[str, argparse.ArgumentParser]]:
    from tabd.cli import parser

    whole = parser()
    [commands] = [action for action in whole._actions if isinstance(action, argparse._SubParsersAction)]
    return whole, dict(commands.choices)


def _words_of(parser: argparse.ArgumentParser) -> List[str]:
    return [option for action in parser._actions for option in action.option_strings if option.startswith("--")]


def completion_of_client() -> str:
    """The completion of `tabd-cli` for bash."""
    whole, commands = _parsers()
    choices = {action.option_strings[-1]: list(action.choices) for parser in commands.values() for action in parser._actions if action.choices}
    options = {name: _words_of(parser) for name, parser in commands.items()}
    return _completion("tabd-cli", options, _words_of(whole), {"--server": [], **choices})


def _completion(name: str, commands: Dict[str, List[str]], before: List[str], values: Dict[str, List[str]]) -> str:
    """A function for bash. It completes the command, then its options; an argument that is no option is a file. What follows an option of
    `values` is one of its words, or a file if it has none."""
    given = "\n".join(
        f"        {option}) COMPREPLY=($(compgen {'-W ' + chr(34) + ' '.join(words) + chr(34) if words else '-f'} -- \"$word\")); return ;;"
        for option, words in sorted(values.items())
    )
    function = "_" + name.replace("-", "_")
    cases = "\n".join(f"        {command}) words=\"{' '.join(options)}\" ;;" for command, options in commands.items())
    return f"""# Completion of {name} for bash, generated by packaging/manual.py from the program's options.
{function}() {{
    local word="${{COMP_WORDS[COMP_CWORD]}}" before="${{COMP_WORDS[COMP_CWORD - 1]}}" command="" words="" at
    for ((at = 1; at < COMP_CWORD; at++)); do
        case "${{COMP_WORDS[at]}}" in
            {'|'.join(commands)}) command="${{COMP_WORDS[at]}}"; break ;;
        esac
    done
    COMPREPLY=()
    case "$before" in
{given}
    esac
    case "$command" in
        "") words="{' '.join([*commands, *before])}" ;;
{cases}
    esac
    if [[ -n "$command" && "$word" != -* ]]; then
        COMPREPLY=($(compgen -f -- "$word"))
    else
        COMPREPLY=($(compgen -W "$words" -- "$word"))
    fi
}}
complete -F {function} {name}
"""


def of_client(version: str) -> str:
    """tabd-cli(1)."""
    whole, commands = _parsers()
    about = plain((whole.description or "").rstrip(".").lower())
    lines = [f'.TH TABD\\-CLI 1 "" "tabd {version}" "tabd"', ".SH NAME", f"tabd\\-cli \\- {about}"]
    lines += [".SH SYNOPSIS", ".B tabd\\-cli", "[\\fB\\-\\-server\\fR \\fISERVER\\fR] \\fICOMMAND\\fR ..."]
    lines += [".SH DESCRIPTION", "The server is that of \\fB\\-\\-server\\fR, or of the variable \\fBTABD_SERVER\\fR:"]
    lines += ["a port, HOST:PORT, or the path of a socket file."]
    lines += ["Values are terms of Erlang. With \\fB\\-\\-json\\fR each command writes JSON."]
    for name, parser in commands.items():
        words = " ".join(str(action.metavar) for action in parser._actions if not action.option_strings)
        lines += [f".SS {plain(name)} {plain(words)}", plain((parser.description or "").capitalize()) + "."]
        for action in parser._actions:
            if action.help and action.dest not in ("help", "json", "server"):
                given = action.metavar or "|".join(action.choices or ()) or (action.dest.upper() if action.nargs != 0 else "")
                takes = f" \\fI{given}\\fR" if action.option_strings else ""
                title = plain(action.option_strings[-1]) if action.option_strings else str(action.metavar)
                lines += [".TP", f"\\fB{title}\\fR{takes}", plain(action.help)]
    lines += [".SH EXIT STATUS", ".TP", ".B 0", "It is done."]
    lines += [".TP", ".B 1", "The server refused it or could not be reached, or a file could not be written; standard error has one line."]
    lines += [".TP", ".B 2", "The arguments on the command line are wrong.", ".TP", ".B 130", "Ctrl\\-C ended it."]
    lines += [".SH SEE ALSO", ".BR tabd (1),", "/usr/share/doc/python3\\-tabd/OPERATING.md"]
    return "\n".join(lines) + "\n"


def main() -> None:
    sys.path.insert(0, os.path.join(os.path.dirname(HERE), "clients", "python"))
    with open(os.path.join(HERE, "tabd-cli.bash"), "w", encoding="utf-8") as file:
        file.write(completion_of_client())


if __name__ == "__main__":
    main()
