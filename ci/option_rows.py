"""Reads the rows of the program: its commands and their options, as crates/cose_commands/src/commands.rt has them, with the ranges of
their numbers, which commands/building.rt has."""
import json
import pathlib
import re
import sys
from typing import Dict, List, NamedTuple, Tuple

TOP = pathlib.Path(__file__).resolve().parent.parent
ROWS = TOP / "crates" / "cose_commands" / "src" / "commands.rt"
RANGES = ROWS.with_suffix("") / "building.rt"
# how the range of a kind of numbers is said to clap
RANGE = r"Number::(\w+) => arg\.value_parser\(value_parser!\((\w+)\)(?:\.range\((\d+)\.\.(=?)(\w*)\))?\)"
# what the types of numbers hold: the least, and the one after the greatest
TYPES = {"i64": (-(2**63), 2**63), "u8": (0, 2**8), "u32": (0, 2**32), "u64": (0, 2**64)}


class Option(NamedTuple):
    """An option of a command."""
    name: str
    argument: str  # HEX, or nothing
    values: Tuple[str, ...]  # the names that its argument is one of, where it is
    is_repeated: bool
    range: Tuple[int, ...]  # of a number the least, and the one after the greatest
    default: str
    needs: Tuple[str, ...]  # the options that have to be there with it
    excludes: Tuple[str, ...]  # those that must not
    is_required: bool
    other: str  # the option that may be there in its place, where one has to be
    help: str


class Command(NamedTuple):
    """A command, and its options in the order of help."""
    name: str
    about: str
    notes: str
    options: Tuple[Option, ...]

    def option(self, name):
        return next((it for it in self.options if it.name == name), None)


def fail(text):
    sys.exit(f"{ROWS.relative_to(TOP)}: {text}")


def texts_in(source):
    """The texts of a piece of source, in which a backslash at the end of a line continues it."""
    literals = re.findall(r'"((?:[^"\\]|\\.)*)"', source, re.S)
    whole = [re.sub(r"\\\n *", "", it) for it in literals]
    return tuple(json.loads(f'"{it}"', strict=False) for it in whole)


def bodies(source, pattern):
    """The bodies of items by name."""
    return dict(re.findall(pattern, source, re.M | re.S))


def field(body, name):
    """The source of a field, up to the next one."""
    found = re.search(rf"^ +{name}:\s+(.*?),\n(?= +\w+:|\s*\Z)", body, re.M | re.S)
    return found[1] if found else fail(f"a row has no field {name}")


def bound(words, constants):
    """A bound of a range: a number, or a constant."""
    return int(words) if words.isdigit() else constants[words]


def ranges():
    """The ranges of the kinds of numbers."""
    source = RANGES.read_text()
    constants = {name: 1 << int(bits) for name, bits in re.findall(r"^const (\w+): i64 = 1 << (\d+);", source, re.M)}
    found = {}
    for name, kind, least, mark, last in re.findall(RANGE, source):
        end = bound(last, constants) + bool(mark) if last else TYPES[kind][1]
        found[name] = (int(least or TYPES[kind][0]), end)
    return found


class Reader:
    """What the source has of options, by the names of its constants."""

    def __init__(self, source):
        self.source, self.ranges = source, ranges()
        self.names = {name: texts_in(it) for name, it in bodies(source, r"^const (\w+): &\[&str\] =(.*?);$").items()}
        self.notes = {name: texts_in(it)[0] for name, it in bodies(source, r"^const (\w*NOTES): &str =(.*?);$").items()}
        self.rows = bodies(source, r"^const (\w+): CommandOption = CommandOption \{\n(.*?)^\};$")
        self.lists = {name: re.findall(r"\w+", it) for name, it in bodies(source, r"^const (\w+): &\[CommandOption\] =(.*?);$").items()}
        self.pairs = {name: texts_in(it)[1:] for name, it in bodies(source, r"^const (\w+): Option<OneOf> =(.*?);$").items()}
        listed = {name for names in self.lists.values() for name in names}
        if not self.rows or listed != set(self.rows):
            fail(f"these rows are in no list, or are none: {', '.join(sorted(listed ^ set(self.rows)))}")

    def value(self, words):
        """What a row says of its argument: the names that it may be, whether there may be several, and the range of a number."""
        kind, inner = re.fullmatch(r"Value::(\w+)(?:\((?:Number::)?(\w+)\))?", words).groups()
        if kind not in ("Text", "Label", "Named", "NamedOften", "Number", "Flag"):
            fail(f"the value {kind} isn't known here")
        values = self.names[inner] if kind in ("Named", "NamedOften") else ()
        return {"values": values, "is_repeated": kind in ("Label", "NamedOften"), "range": self.ranges[inner] if kind == "Number" else ()}

    def presence(self, words):
        """What a row says of where it may stand."""
        kind, named = re.match(r"Presence::(\w+)", words)[1], texts_in(words)
        if kind not in ("Optional", "Required", "Default", "Without", "WithAndWithout"):
            fail(f"the presence {kind} isn't known here")
        needs, excludes = (named[:1], named[1:]) if kind == "WithAndWithout" else ((), named if kind == "Without" else ())
        return {"default": named[0] if kind == "Default" else "", "needs": needs, "excludes": excludes, "is_required": kind == "Required"}

    def option(self, row, pair):
        """An option of a command, of which one of a pair may have to be there."""
        body = self.rows[row]
        (name,), (argument,), (text,) = (texts_in(field(body, it)) for it in ("name", "argument", "help"))
        other = next((it for it in pair if it != name), "") if name in pair[:1] else ""
        if re.search(r"\. [A-Z]|\.$", text):
            fail(f"the help of {row} is more than a sentence, or ends with a full stop")
        said = {**self.value(field(body, "value")), **self.presence(field(body, "presence"))}
        return Option(name=name, argument=argument, other=other, help=text, **said)

    def command(self, name):
        body = re.search(rf"^fn {name}\(\) -> Subcommand \{{\n    Subcommand \{{\n(.*?)^    \}}", self.source, re.M | re.S)[1]
        about, notes, one_of, *lists = (field(body, it) for it in ("about", "notes", "one_of", "checks", "options"))
        rows = [row for it in lists if it != "&[]" for row in self.lists[it]]
        pair = self.pairs[one_of] if one_of != "None" else ()
        return Command(name, texts_in(about)[0], self.notes[notes], tuple(self.option(row, pair) for row in rows))


def commands() -> List[Command]:
    """The commands, in the order of help."""
    reader = Reader(ROWS.read_text())
    names = re.search(r"let subcommands = \[(.*?)\];", reader.source, re.S)[1]
    return [reader.command(name) for name in re.findall(r"\w+", names)]


def program_notes() -> str:
    """What the help of the program says after its commands."""
    return Reader(ROWS.read_text()).notes["NOTES"]


def by_name() -> Dict[str, List[Option]]:
    """The rows of the options of each name."""
    found: Dict[str, List[Option]] = {}
    for command in commands():
        for option in command.options:
            found.setdefault(option.name, []).append(option)
    return found


def names_with(argument):
    """The names of the options whose argument help calls so, which is none for those without one."""
    return tuple(name for name, rows in by_name().items() if all(it.argument == argument for it in rows))


def repeated_names():
    """The names of the options that may be there several times."""
    return tuple(name for name, rows in by_name().items() if all(it.is_repeated for it in rows))
