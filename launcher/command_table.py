"""Reads launcher/commands.txt: the commands, options, ranges and defaults of the command line."""
from __future__ import annotations

import os
from typing import NamedTuple

FOLDER = os.path.dirname(os.path.abspath(__file__))
TOP = os.path.dirname(FOLDER)
PATH = os.path.join(FOLDER, "commands.txt")


class Command(NamedTuple):
    """A command: its name, the names of its operands, its groups of options, and what it does."""

    name: str
    operands: list[str]
    groups: list[str]
    what: str


class Range(NamedTuple):
    """The least and the greatest value of a number."""

    least: int
    greatest: int


class Option(NamedTuple):
    """An option: its group and name without dashes, N or NAME, its default, its range if it has one, what it does."""

    group: str
    name: str
    value: str
    default: str
    range: Range | None
    what: str


class Table(NamedTuple):
    """All that the file says; ranges of operands by command, values of options by option, words of the script."""

    version: str
    commands: list[Command]
    operands: dict[str, Range]
    options: list[Option]
    values: dict[str, dict[str, str]]
    tools: dict[str, str]
    script: list[tuple[list[str], str]]

    def options_of(self, command: Command) -> list[Option]:
        """The options of a command."""
        return [option for option in self.options if option.group in command.groups]


def names_in(column: str) -> list[str]:
    """The names of a list."""
    return [] if column == "-" else column.split(",")


def read_table(path: str = PATH) -> Table:
    """Reads the file; ValueError if a line is not as its head says."""
    table = Table("", [], {}, [], {}, {}, [])
    for line in open(path, encoding="utf-8"):
        kind, _, rest = line.strip().partition(" ")
        if not kind or kind == "#" or kind.startswith("#"):
            continue
        if kind == "version":
            table = table._replace(version=rest.strip())
        elif kind == "command":
            name, operands, groups, what = rest.split(None, 3)
            table.commands.append(Command(name, names_in(operands), names_in(groups), what))
        elif kind == "tool":
            name, what = rest.split(None, 1)
            table.tools[name] = what
        elif kind == "operand":
            command, _name, least, greatest = rest.split()
            table.operands[command] = Range(int(least), int(greatest))
        elif kind == "option":
            group, name, value, default, least, greatest, what = rest.split(None, 6)
            limits = None if least == "-" else Range(int(least), int(greatest))
            table.options.append(Option(group, name, value, default, limits, what))
        elif kind == "name":
            option, name, what = rest.split(None, 2)
            table.values.setdefault(option, {})[name] = what
        elif kind == "script":
            words, what = rest.split(None, 1)
            table.script.append((words.split(","), what))
        else:
            raise ValueError("no such line: " + line)
    return table
