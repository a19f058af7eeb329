#!/usr/bin/env python3
"""Checks that the manual page has each command of the program, and each option in the section of its command."""
import pathlib
import re
import sys

HERE = pathlib.Path(__file__).resolve().parent
SOURCE = HERE.parent / "crates/scim_command/src/command_line.rt"
MANUAL = HERE / "scimd.8"


def commands_of(source):
    """The commands in the source, each with the set of its options."""
    words = dict(re.findall(r'CommandName::(\w+) => "([a-z]+)"', source))
    shared = dict(re.findall(r'const (\w+): OptionText = OptionText \{\s*name: "([a-z-]+)"', source))
    table = source[source.index("const COMMANDS") : source.index("pub fn command<")]
    commands = {}
    for entry in table.split("CommandText {")[1:]:
        options = entry[entry.index("options:") :]
        named = set(re.findall(r'name: "([a-z-]+)"', options))
        constants = re.findall(r"\b[A-Z]+\b", re.sub('"[^"]*"', "", options))
        named.update(shared[constant] for constant in constants if constant in shared)
        commands[words[re.search(r"CommandName::(\w+)", entry).group(1)]] = named
    return commands


def sections_of(manual):
    """The sections of the manual's commands, each with the set of the options that it describes."""
    sections = re.findall(r"^\.Ss ([a-z]+)\n(.*?)(?=^\.S[hs] )", manual, re.M | re.S)
    return {name: set(re.findall(r"^\.It Fl Fl ([a-z-]+)", text, re.M)) for name, text in sections}


def main():
    described = sections_of(MANUAL.read_text(encoding="utf-8"))
    faults = []
    for command, options in commands_of(SOURCE.read_text(encoding="utf-8")).items():
        if command not in described:
            faults.append(f"no section {command}")
        faults += [f"{command}: no --{option}" for option in sorted(options - described.get(command, set()))]
    for fault in faults:
        print(f"{MANUAL.name}: {fault}", file=sys.stderr)
    return 1 if faults else 0


if __name__ == "__main__":
    sys.exit(main())
