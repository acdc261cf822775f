"""Command lines that the rows of options refuse (option_rows.py): each with the parts of the text that says so.

Of each option they try an argument next to what it takes, none, two of one that may be there once, the options that it excludes and
needs, and the commands that don't have it.
"""
import option_rows

MISSING = "error: the following required arguments were not provided:\n"
NO_OPTION = "error: unexpected argument found\n"
BOTH = " cannot be used with "


def shown(option):
    """An option as a text names it."""
    return f"--{option.name} <{option.argument}>" if option.argument else f"--{option.name}"


def words_of(option):
    """An option with an argument that it takes."""
    taken = option.values[0] if option.values else str(option.range[0]) if option.range else "00"
    return [f"--{option.name}={taken}"] if option.argument else [f"--{option.name}"]


def wrong_arguments(option):
    """Arguments of an option that it doesn't take."""
    if option.range:
        yield from (str(option.range[0] - 1), str(option.range[1]), f"{option.range[0]}.5", "1a")
    if option.values:
        yield from (option.values[0].upper(), f"{option.values[0]},{option.values[-1]}", f"{option.values[-1]}x")


def lines_of(command, option):
    """The lines that are refused for one of a command's options."""
    head, named = [command.name], shown(option)
    for wrong in wrong_arguments(option):
        yield [*head, f"--{option.name}={wrong}"], [f"error: invalid value for '{named}'\n"]
    if option.argument:
        yield [*head, f"--{option.name}"], ["error: ", named]
    else:
        yield [*head, f"--{option.name}=true"], ["error: "]
    if not option.is_repeated:
        yield [*head, *words_of(option), *words_of(option)], ["error: ", named]
    for other in filter(None, map(command.option, option.excludes)):
        yield [*head, *words_of(option), *words_of(other)], ["error: ", BOTH]
    others = [word for it in command.options if it.is_required and it != option for word in words_of(it)]
    pair = next((words_of(it) for it in command.options if it.other), []) if not option.other else []
    for name in option.needs:
        yield [*head, *others, *pair, *words_of(option)], [MISSING, shown(command.option(name))]
    if option.is_required or option.other:
        yield [*head, *others, *pair], [MISSING, named]


def refused_lines():
    """All of them: the arguments, and the parts of the text."""
    commands = option_rows.commands()
    for command in commands:
        for option in command.options:
            yield from lines_of(command, option)
        lacking = {it.name: it for other in commands for it in other.options if not command.option(it.name)}
        yield from (([command.name, *words_of(it)], [NO_OPTION]) for it in lacking.values())
