"""Compares what the program says on standard error, and what that is for, with the rows of its options (option_rows.py).

The sources of hints stand by themselves. So each option, command and value that one of them names has to be there, with the value as one
of its option's, and three of their lists have to be complete: the options whose arguments are hexadecimal, and the commands that take
a key set and that read standard input.
"""
import re

import option_rows
from option_rows import TOP

# the sources that name options, by their crates
HINTS = {
    "cose_hints": ("advice", "argument_advice", "cause", "hints", "key_hints", "noted_files", "streams", "text_advice"),
    "cosecmd": ("input_form", "main"),
}
# how a source names what: in a text, in a call, or as a value of its own with a dash in it
NAMED = {
    "option": r'--([a-z][a-z-]*)|(?:argument_of|has_printed)\((?:"fault line ", )?"([^" ]+)"|option == "([^"]+)"|"([a-z]+-[a-z-]+)"',
    "command": r'is_of\("(\w+)"|Some\(&"(\w+)"\)|`(\w+)`|`(?:cosecmd )?(\w+) --',
    "value": r'has_argument\("(\w+)"',
}


def known():
    """The names of options, those of examples/cose_key too, and of commands, and the values of options."""
    rows, commands = option_rows.by_name(), {it.name for it in option_rows.commands()}
    of_keys = set(re.findall(r'add_argument\("--([a-z0-9-]+)"', (TOP / "examples" / "cose_key").read_text()))
    values = {value for several in rows.values() for it in several for value in it.values}
    return {"option": {*rows, *of_keys, "help"}, "command": commands, "value": values}


def code_of(crate, name):
    """A source without its comments."""
    return re.sub(r"^ *//.*$", "", (TOP / "crates" / crate / "src" / f"{name}.rt").read_text(), flags=re.M)


def unknown_names(code):
    """What a source names that isn't there: what it is, and its name."""
    names = known()
    for kind, pattern in NAMED.items():
        found = {name for groups in re.findall(pattern, code) for name in ([groups] if isinstance(groups, str) else groups) if name}
        yield from ((kind, name) for name in sorted(found - names[kind]))
    rows = option_rows.by_name()
    for option, value in sorted(set(re.findall(r"`--([a-z-]+) (\w+)`", code))):
        if all(value not in it.values for it in rows.get(option, [])):
            yield f"value of --{option}", value


def whole_lists():
    """The lists that have to be complete: the crate and the source, how it has the list, and what has to be in it."""
    having = [it.name for it in option_rows.commands() if it.option("keys")]
    yield "cose_hints", "advice", r"fn takes_key_set(.*?)None => false", having
    yield "cose_hints", "argument_advice", r"const HEXADECIMAL: &\[&str\] =(.*?);", option_rows.names_with("HEX")
    yield "cose_hints", "streams", r"match words\.get\(1\) \{(.*?)=> false", [*(it.name for it in option_rows.commands()), "--for-message"]


def faults():
    """What the hints say otherwise than the rows."""
    for crate, name in ((crate, name) for crate, names in HINTS.items() for name in names):
        unknown = unknown_names(code_of(crate, name))
        yield from (f"{name}.rt of {crate} names the {kind} {it}, and there is none" for kind, it in unknown)
    for crate, name, pattern, wanted in whole_lists():
        listed = set(re.findall(r'"([a-z0-9-]+)"', re.search(pattern, code_of(crate, name), re.S)[1]))
        if listed != set(wanted):
            yield f"{name}.rt of {crate} lists {', '.join(sorted(listed))}, and the rows have {', '.join(sorted(wanted))}"
