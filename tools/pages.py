#!/usr/bin/env python3
"""Writes the manual pages and the completions to dist/, from what the program prints by `help`, from the comments in capi/include/wasmloop.h, and
from the help of the tools in capi/python/wasmloop.

usage: pages.py PROGRAM [--check]

With --check nothing is written; a file that is not what these sources give is named, and the status is 1.
"""

from __future__ import annotations

import argparse
import importlib
import re
import subprocess
import sys
from pathlib import Path
from typing import Iterable, Iterator
from unittest import mock

from sources import TOP, first

BLANK = ""


def said(program: Path, *words: str) -> str:
    return subprocess.run([program, *words], stdout=subprocess.PIPE, check=True, text=True).stdout


def roff(text: str) -> str:
    """A text as roff, in which no word is a request and quoted words are bold."""
    lines = text.replace("\\", "\\e").replace("-", "\\-").split("\n")
    lines = [re.sub(r"`([^`]*)`", r"\\fB\1\\fR", it) for it in lines]
    return "\n".join(f"\\&{it}" if it.startswith((".", "'")) else it for it in lines)


def plain(text: str) -> list[str]:
    """Lines that are kept as they are."""
    return [".nf", roff(text), ".fi"]


class Help:
    """What `help` says of the program or of a command."""

    def __init__(self, text: str) -> None:
        self.text = text
        self.about, _, rest = text.partition("\n\nUsage: ")
        self.usage, _, rest = rest.partition("\n\n")
        self.tables: dict[str, list[tuple[str, str]]] = {}
        self.prose: list[str] = []
        self.example = BLANK
        for part in rest.rstrip().split("\n\n"):
            head, _, body = part.partition(":\n")
            if head in ("Commands", "Arguments", "Options"):
                self.tables[head] = re.findall(r"(?m)^ {2,6}(\S.*?)(?: {2,}(.*))?$", body)
            elif head == "Example":
                self.example = body
            else:
                self.prose.append(part)

    def options(self) -> Iterator[tuple[str, bool, str]]:
        """The long options, each with whether it takes a value and what it does."""
        for words, about in self.tables.get("Options", []):
            yield first(r"--[a-z-]+", words)[0], "<" in words, about


def table(rows: Iterable[tuple[str, str]]) -> Iterator[str]:
    for words, about in rows:
        yield from (".TP", f"\\fB{roff(words)}\\fR", roff(about))


def program_page(version: str, whole: Help, commands: dict[str, Help]) -> list[str]:
    page = [f'.TH WASMLOOP 1 "" "wasmloop {version}" "User Commands"', ".SH NAME", f"wasmloop \\- {whole.about[0].lower()}{roff(whole.about[1:])}"]
    page += [".SH SYNOPSIS", ".nf", *(f"\\fB{roff(it.usage)}\\fR" for it in commands.values()), ".fi", ".SH COMMANDS"]
    for name, it in commands.items():
        page += [f".SS {name}", roff(it.about) + "."]
        for rows in it.tables.values():
            page += table(row for row in rows if not row[0].startswith("-h"))
        for part in it.prose:
            page += [".PP", roff(part)]
        page += [".PP", "Example:", ".RS", *plain(it.example.strip()), ".RE"]
    page += [".SH OPTIONS", *table(whole.tables["Options"]), ".SH EXIT STATUS", roff(whole.prose[-1].removeprefix("Status: "))]
    return page + [".SH SEE ALSO", "\\fBwasmloop\\-tools\\fR(1), \\fBwasmloop.h\\fR(3)"]


def header_page(version: str, text: str) -> list[str]:
    """The header's first comment, and its declarations, each behind what is said of it."""
    def words(comment: str) -> str:
        return re.sub(r"(?m)^ ?\*? ?", "", comment.strip()).strip()

    about, _, rest = words(first(r"/\*(.*?)\*/", text, re.S)[1]).partition("\n\n")
    body = first(r'extern "C" \{\n#endif\n(.*)\n#ifdef __cplusplus', text, re.S)[1]
    page = [f'.TH WASMLOOP.H 3 "" "wasmloop {version}" "Library Functions Manual"', ".SH NAME", "wasmloop.h \\- " + roff(about.partition(": ")[2].rstrip("."))]
    page += [".SH SYNOPSIS", *plain("#include <wasmloop.h>\n\ncc .. $(pkg-config --cflags --libs wasmloop)"), ".SH DESCRIPTION"]
    for part in rest.split("\n\n"):
        page += [".PP", *(plain(part) if part.startswith(" ") else [roff(part)])]
    page.append(".SH DECLARATIONS")
    for part in re.split(r"\n\n+", body.strip()):
        comment = re.match(r"/\*(.*?)\*/\n(?=\S)", part + "\n", re.S)
        if comment:
            page += [".PP", roff(words(comment[1])), ".PP", ".RS", *plain(part[comment.end():].rstrip()), ".RE"]
        else:
            page += [".PP", ".RS", *plain(part), ".RE"]
    return page + [".SH SEE ALSO", "\\fBwasmloop\\fR(1)"]


class Found(Exception):
    """A parser, where a tool is about to use it."""

    def __init__(self, parser: argparse.ArgumentParser) -> None:
        super().__init__()
        self.parser = parser


def raise_it(parser: argparse.ArgumentParser, *_: object) -> None:
    raise Found(parser)


def parser_of(tool: str) -> argparse.ArgumentParser:
    """The parser of a tool's command line, which its main makes."""
    with mock.patch.object(argparse.ArgumentParser, "parse_args", raise_it):
        try:
            importlib.import_module(f"wasmloop.{tool}").main()
        except Found as it:
            return it.parser
    raise LookupError(f"{tool} parses no command line")


def word_of(action: argparse.Action) -> str:
    """An argument or an option, with its value, as a usage line has it."""
    value = str(action.metavar or action.dest)
    if not action.option_strings:
        return {"?": f"[{value}]", "*": f"[{value}]...", "+": f"{value}..."}.get(str(action.nargs), value)
    return ", ".join(action.option_strings) + ("" if action.nargs == 0 else f" {value}")


def tools_page(version: str) -> list[str]:
    """The tools of the package for Python."""
    sys.path.insert(0, str(TOP / "capi/python"))
    tools = importlib.import_module("wasmloop.__main__").TOOLS
    page = [f'.TH WASMLOOP-TOOLS 1 "" "wasmloop {version}" "User Commands"', ".SH NAME",
            "wasmloop\\-tools \\- debug, profile, fuzz, build and freeze guests of wasmloop", ".SH SYNOPSIS", ".nf"]
    page += [f"\\fBpython3 \\-m wasmloop.{it}\\fR" for it in tools]
    page += [".fi", ".SH TOOLS"]
    for name in tools:
        parser = parser_of(name)
        page.append(f".SS {name}")
        for part in (parser.description or "").split("\n\n"):
            page += plain(part) if part.startswith(" ") else [".PP", roff(part)]
        told = ((word_of(it), it.help or "", it.default) for it in parser._actions if it.dest != "help")
        page += table((word, about % {"default": default} if "%(" in about else about) for word, about, default in told)
    statuses = importlib.import_module("wasmloop._tool").STATUSES
    return page + [".SH EXIT STATUS", roff(statuses.partition(": ")[2]), ".SH SEE ALSO", "\\fBwasmloop\\fR(1), \\fBwasmloop.h\\fR(3)"]


def bash(commands: dict[str, Help]) -> list[str]:
    cases = "\n".join(f"    {name}) options='{' '.join(it[0] for it in help.options())}' ;;" for name, help in commands.items())
    return f"""# bash completion of wasmloop
_wasmloop() {{
    local word=${{COMP_WORDS[COMP_CWORD]}} options
    if [ "$COMP_CWORD" = 1 ]; then
        mapfile -t COMPREPLY < <(compgen -W '{" ".join(commands)} help --help --version' -- "$word")
        return
    fi
    case ${{COMP_WORDS[1]}} in
{cases}
    help) mapfile -t COMPREPLY < <(compgen -W '{" ".join(commands)}' -- "$word"); return ;;
    esac
    case $word in
    -*) mapfile -t COMPREPLY < <(compgen -W "$options" -- "$word") ;;
    *) mapfile -t COMPREPLY < <(compgen -f -- "$word") ;;
    esac
}}
complete -o filenames -F _wasmloop wasmloop""".split("\n")


def zsh(commands: dict[str, Help]) -> list[str]:
    def quoted(text: str) -> str:
        return text.replace("'", "").replace("[", "(").replace("]", ")").replace(":", ",")

    lines = ["#compdef wasmloop", "", "local -a commands", "commands=("]
    lines += [f"    '{name}:{quoted(it.about)}'" for name, it in commands.items()]
    lines += [")", "if (( CURRENT == 2 )); then", "    _describe command commands -- '(--help --version)'", "    return", "fi"]
    lines.append("case $words[2] in")
    for name, it in commands.items():
        options = " ".join(f"'{long}[{quoted(about)}]{':number' if takes else BLANK}'" for long, takes, about in it.options())
        lines.append(f"{name}) _arguments {options} '*:file:_files' ;;")
    return [*lines, "help) _describe command commands ;;", "esac"]


def main() -> int:
    words = argparse.ArgumentParser(description=__doc__, formatter_class=argparse.RawDescriptionHelpFormatter)
    words.add_argument("program", type=Path, metavar="PROGRAM")
    words.add_argument("--check", action="store_true")
    given = words.parse_args()
    program = given.program.resolve()
    version = said(program, "--version").split()[1]
    whole = Help(said(program, "help"))
    commands = {name: Help(said(program, "help", name)) for name, _ in whole.tables["Commands"] if name != "help"}
    header = TOP / "capi/include/wasmloop.h"
    told = {header: f'#define WASMLOOP_VERSION "{version}"', TOP / "capi/rust/Cargo.toml": f'version = "{version}"'}
    for path, line in told.items():
        if line not in path.read_text().split("\n"):
            sys.exit(f"the program says {version}, and {path.relative_to(TOP)} does not")
    made = {
        "wasmloop.1": program_page(version, whole, commands),
        "wasmloop-tools.1": tools_page(version),
        "wasmloop.h.3": header_page(version, header.read_text()),
        "wasmloop.bash": bash(commands),
        "_wasmloop": zsh(commands),
    }
    wrong = 0
    for name, lines in made.items():
        path, text = TOP / "dist" / name, "\n".join(lines) + "\n"
        if not given.check:
            path.write_text(text)
        elif not path.is_file() or path.read_text() != text:
            print(f"dist/{name} is not what its sources say: tools/pages.py writes it")
            wrong = 1
    return wrong


if __name__ == "__main__":
    sys.exit(main())
