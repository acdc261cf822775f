"""Looks for a function that calls itself, by whatever path: the stack of such a one can't be computed. The reader of items alone may,
since it does so at most as often as items nest.
"""
from . import forms

NESTING = "cose_head::item::"


def calls_of(text):
    """The functions of a module, each with those that it calls."""
    calls, name = {}, None
    for line in text.splitlines():
        if line.startswith("define"):
            found = forms.DEFINITION.fullmatch(line)
            if not found:
                raise forms.Refused("a definition of a form that isn't known", line)
            name = found["name"]
            calls[name] = set()
        elif line == "}":
            name = None
        elif name and " call " in line:
            calls[name].add(forms.read_instruction(line)[1]["callee"])
    return calls


def check_calls(text):
    """Refused is raised where a function that isn't of the reader of items calls itself."""
    calls = calls_of(text)
    calls = {name: its for name, its in calls.items() if not name.startswith(f'@"{NESTING}')}
    waiting = {name: {it for it in its if it in calls} for name, its in calls.items()}
    while True:
        ready = [name for name, its in waiting.items() if not its]
        if not ready:
            break
        for name in ready:
            del waiting[name]
        for its in waiting.values():
            its.difference_update(ready)
    if waiting:
        raise forms.Refused("functions that call themselves, or that call such", ", ".join(sorted(waiting)))
