"""The help of the program and of each command, as docs/COMMANDS.md has it, with the notes of the program's source.

A text is built from the first table of the page, the options of the command's section, and the notes. Blanks and ends of lines are
single spaces.
"""
import re

import option_rows

HELP = "-h, --help Print help"


def plain(cell):
    """A cell without its links and marks."""
    return re.sub(r"\[([^\]]*)\]\([^)]*\)", r"\1", cell).replace("\\|", "|").strip()


def rows(text, head):
    """The cells of the rows of the table that begins so."""
    found = re.search(rf"^\| {re.escape(head)} \|.*\n\|[-|]+\|\n((?:\|.*\n)+)", text, re.M)
    if not found:
        raise ValueError(f"docs/COMMANDS.md has no table that begins with {head}")
    return [[cell.strip() for cell in line.strip("|").split(" | ")] for line in found.group(1).splitlines()]


def section(page, name):
    """A command's section."""
    found = re.search(rf"^## {name}\n(.*?)(?=^## |\Z)", page, re.S | re.M)
    if not found:
        raise ValueError(f"docs/COMMANDS.md has no section {name}")
    return found.group(1)


def capital(text):
    return text[0].upper() + text[1:]


class Option:
    """An option of a table: its name, its argument where it has one, and its cell."""

    def __init__(self, word, cell):
        self.name, self.argument = re.fullmatch(r"`--([a-z-]+)(?: ([A-Z]+))?`", word).groups()
        self.cell = plain(cell)
        other = re.search(r"Required, unless `--([a-z-]+)` is there", self.cell)
        self.other = other.group(1) if other else None
        self.required = not other and bool(re.search(r"\bRequired\b", self.cell))

    def usage(self):
        return f"--{self.name} <{self.argument}>" if self.argument else f"--{self.name}"

    def line(self):
        """What help says of it: the first sentence of its cell, its default and its values."""
        text = re.split(r"\. (?=[A-Z`])", self.cell)[0]
        # other options have no marks in help
        text = re.sub(r"`(--[a-z-]+)`", r"\1", text)
        default = re.search(r"Default: `(\w+)`", self.cell)
        values = re.search(r"Values: ((?:`[^`]*`(?:, )?)+)", self.cell)
        text += f" [default: {default.group(1)}]" if default else ""
        text += f" [possible values: {values.group(1).replace('`', '')}]" if values else ""
        return f"{self.usage()} {capital(text)}"


def options_of(page, command):
    """The options of a command, in the order of its table."""
    found = []
    for words, cell in rows(section(page, command), "Option"):
        as_for = re.fullmatch(r"as for `(\w+)`", cell)
        if as_for:
            known = {it.name: it for it in options_of(page, as_for.group(1))}
            found += [known[name] for name in re.findall(r"`--([a-z-]+)`", words)]
        else:
            found.append(Option(words, cell))
    return found


def usage_of(command, options):
    named = {it.name: it for it in options}
    either = [it for it in options if it.other]
    required = [it for it in options if it.required]
    wanted = {it.name for it in required + either} | {it.other for it in either}
    words = ["[OPTIONS]"] if named.keys() - wanted else []
    words += [it.usage() for it in required]
    words += [f"<{it.usage()}|{named[it.other].usage()}>" for it in either]
    return f"Usage: cosecmd {command} {' '.join(words)}"


def helps(page):
    """The help of the program, under the name cosecmd, and of each command."""
    about = {re.search(r"`(\w+)`", name).group(1): capital(plain(cell)) for name, cell in rows(page, "Command")}
    notes = {"cosecmd": option_rows.program_notes(), **{it.name: it.notes for it in option_rows.commands()}}
    first = capital(re.search(r"^`cosecmd` (verifies .*)\.$", page, re.M).group(1))
    listed = " ".join(f"{name} {text}" for name, text in about.items())
    found = {
        "cosecmd": f"{first} Usage: cosecmd <COMMAND> Commands: {listed} "
        f"help Print this message or the help of the given subcommand(s) Options: {HELP} -V, --version Print version"
    }
    for command, text in about.items():
        options = options_of(page, command)
        lines = " ".join(it.line() for it in options)
        found[command] = f"{text} {usage_of(command, options)} Options: {lines} {HELP}"
    return {name: " ".join([text, *notes[name].split()]) for name, text in found.items()}
