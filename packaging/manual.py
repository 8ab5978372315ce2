#!/usr/bin/python3
"""Writes the manual pages of commands of the Python package, made of their help, into a folder, as NAME.1:
manual.py FOLDER VERSION DATE NAME..

All in one run, since each run would load the same libraries.
"""

from __future__ import annotations

import importlib
import re
import sys
from collections.abc import Iterator
from pathlib import Path

TOP = Path(__file__).resolve().parents[1]
sys.path.insert(0, str(TOP / "python"))

import click  # noqa: E402

from catchup.commands._run import with_version  # noqa: E402

SEE_ALSO = """.SH "SEE ALSO"
.BR catchup (1);
.I /usr/share/doc/catchup
has the documents and the examples."""


def find_command(name: str) -> click.Command:
    """The click command that a script of bin/ calls."""
    found = re.search(r"from catchup\.commands import (\w+)", (TOP / "bin" / name).read_text())
    assert found, f"bin/{name} calls no command of the package"
    command = importlib.import_module(f"catchup.commands.{found[1]}").command
    assert isinstance(command, click.Command), name
    return with_version(command, name)


def escape(text: str) -> str:
    """A line of text as roff takes it: hyphens as typed, and no line that would be a request."""
    text = text.replace("\\", "\\e").replace("-", "\\-")
    return "\\&" + text if text.startswith((".", "'")) else text


def paragraphs(help: str) -> Iterator[str]:
    """The lines of a help text. A paragraph behind click's mark, a line of one backspace, keeps its lines."""
    for number, part in enumerate(re.split(r"\n\s*\n", help.partition("\f")[0].strip("\n"))):
        if number:
            yield ".PP"
        lines = [line.strip() for line in part.splitlines()]
        if lines and lines[0] == "\b":
            yield ".nf"
            yield from map(escape, part.splitlines()[1:])
            yield ".fi"
        else:
            yield from map(escape, lines)


def options(context: click.Context) -> Iterator[str]:
    for parameter in context.command.get_params(context):
        record = parameter.get_help_record(context)
        if record:
            yield ".TP"
            yield f".B {escape(record[0])}"
            yield escape(" ".join(record[1].split()) or "See above.")


def usage(context: click.Context) -> str:
    pieces = " ".join(context.command.collect_usage_pieces(context))
    return f".B {escape(context.command_path)}\n{escape(pieces)}"


def commands(context: click.Context) -> Iterator[str]:
    """The commands of a group, each with its own arguments and options."""
    assert isinstance(context.command, click.MultiCommand)
    for name in context.command.list_commands(context):
        command = context.command.get_command(context, name)
        assert command is not None
        inner = click.Context(command, info_name=name, parent=context)
        yield f'.SS "{escape(context.command_path)} {escape(name)}"'
        yield usage(inner)
        yield ".PP"
        yield from paragraphs(command.help or "")
        yield from options(inner)


def page(name: str, version: str, date: str) -> Iterator[str]:
    command = find_command(name)
    context = click.Context(command, info_name=name, **command.context_settings)
    yield f'.TH {name.upper()} 1 {date} "catchup {version}" "User Commands"'
    yield ".ad l"
    yield ".SH NAME"
    short = command.get_short_help_str(limit=200).rstrip(".")
    yield f"{escape(name)} \\- {escape(short[:1].lower() + short[1:])}"
    yield ".SH SYNOPSIS"
    yield usage(context)
    yield ".SH DESCRIPTION"
    yield from paragraphs(command.help or "")
    yield ".SH OPTIONS"
    yield from options(context)
    if isinstance(command, click.MultiCommand):
        yield ".SH COMMANDS"
        yield from commands(context)
    if command.epilog:
        yield ".SH EXAMPLES"
        yield from paragraphs(command.epilog.removeprefix("Example: "))
    yield '.SH "EXIT STATUS"'
    yield "0 where all is done, 2 where a word is wrong, 1 at any other failure, with one line that says what to do."
    yield SEE_ALSO


if __name__ == "__main__":
    folder, version, date, *names = sys.argv[1:]
    for name in names:
        Path(folder, f"{name}.1").write_text("".join(f"{line}\n" for line in page(name, version, date)), encoding="utf-8")
