"""The ends of the rules, and which of them has no row: for `ci/rows --ends`.

A rule is turned in a copy of the second reading (ci/second_reading.py, ci/second_program.py): its end has a row if some row then
gets another result than it says (ci/row_reading.py). The rules have the names of docs/MESSAGE.md, docs/COMMANDS.md and
docs/REASONS.md. The ends are those that a wrong program would most easily miss:

- bytes that are compared: alike in the first 8, 32, 64 or 255, and one of them a prefix of the other;
- a list: the greatest number that is taken, with the wanted one last;
- a number: equal to another one in the low 8, 16 or 32 bits, or but for the sign;
- a table: each of its rows, and each cell;
- a limit: one more and one less;
- an order of two refusals: both at once.
"""
import functools
import json
import multiprocessing
import os
import pathlib
import sys
import types
from typing import NamedTuple

import row_reading

CI = pathlib.Path(__file__).resolve().parent
ROWS = CI.parent / "rows"
ROWS_AND_ENDS = ()
READING, PROGRAM = "second_reading", "second_program"
SOURCES = {name: (CI / f"{name}.py").read_text() for name in (READING, PROGRAM)}


class End(NamedTuple):
    """A rule that is turned at one end: by edits of a source, which may call `turned`, in the rows of some subjects."""

    rule: str
    end: str
    edits: tuple
    subjects: tuple
    turned: object = None
    source: str = READING


# ---- the kinds of ends


def text_bytes(value):
    return value.encode() if isinstance(value, str) else value


def alike(test):
    """Whether two values are taken for the same: of two texts or two byte strings by a test on their bytes."""

    def turned(one, other):
        if type(one) is not type(other) or not isinstance(one, (str, bytes)):
            return one == other
        return test(text_bytes(one), text_bytes(other))

    return turned


def first_bytes(count):
    return f"alike in the first {count} bytes", alike(lambda one, other: one[:count] == other[:count])


BYTES = (
    *map(first_bytes, (8, 32, 64, 255)),
    ("one is a prefix of the other", alike(lambda one, other: one.startswith(other))),
    ("the other is a prefix of the one", alike(lambda one, other: other.startswith(one))),
    ("alike but for a last 00", alike(lambda one, other: one.rstrip(b"\0") == other.rstrip(b"\0"))),
)


def low_bits(count):
    return f"equal in the low {count} bits", lambda it: it % 2**count if type(it) is int else it


SIZES = tuple(map(low_bits, (8, 16, 32)))
NUMBERS = (
    *SIZES,
    ("x and -1-x", lambda it: max(it, -1 - it) if type(it) is int else it),
    ("x and -x", lambda it: abs(it) if type(it) is int else it),
)


def first_items(*counts):
    return [(f"the first {count} of the list alone", lambda it, count=count: it[:count]) for count in counts]


def compared(rule, old, new, subjects, kinds, source=READING):
    """The ends of a comparison: a line of the second reading, and the same line with `turned`."""
    return [End(rule, end, ((old, new),), subjects, turned, source) for end, turned in kinds]


def left_out(rule, after, words, names, subjects):
    """A table of the second reading without each of some rows, which are taken away before a line that stands behind it."""
    return [End(rule, f"without {name}", ((after, f"{words.format(name)}\n{after}"),), subjects) for name in names]


# ---- copies of the second reading


@functools.lru_cache(maxsize=None)
def compiled(name, edits=()):
    """A source with edits, each of a text that it has once."""
    text = SOURCES[name]
    for old, new in edits:
        if text.count(old) != 1:
            raise ValueError(f"ci/{name}.py has it {text.count(old)} times: {old}")
        text = text.replace(old, new)
    return compile(text, name, "exec")


@functools.lru_cache(maxsize=2)
def copies(source=None, edits=()):
    """The two modules of the second reading, with a rule turned."""
    made = []
    for name in SOURCES:
        module = sys.modules[name] = types.ModuleType(name)
        exec(compiled(name, edits if name == source else ()), vars(module))
        made.append(module)
    for name in SOURCES:
        del sys.modules[name]
    return made


def all_rows():
    """The groups of each subject."""
    return {path.stem: json.loads(path.read_text())["testGroups"] for path in sorted(ROWS.glob("*.json"))}


def differing(rows, modules, subjects):
    """The first row of some subjects to which the second reading gives another result, or nothing."""
    for subject in subjects:
        # the rows of the ends come last
        for group in reversed(rows[subject]):
            for test in group["tests"]:
                try:
                    it = row_reading.differs(*modules, subject, group, test)
                except (ArithmeticError, AttributeError, LookupError, TypeError, ValueError):
                    # a copy that can't go on shows nothing
                    continue
                if it is not None:
                    return f"{subject} {test['tcId']}: {it}"
    return None


def begin(*given):
    """What each process that looks at ends begins with: all rows and all ends."""
    global ROWS_AND_ENDS
    ROWS_AND_ENDS = given


def has_row(number):
    """Whether a row has the end of this number."""
    rows, ends = ROWS_AND_ENDS
    end = ends[number]
    modules = copies(end.source, end.edits)
    for module in modules:
        module.turned = end.turned
    # what it kept is of the rule before
    modules[0].read_key_set.cache_clear()
    return differing(rows, modules, end.subjects) is not None


def without_rows(ends):
    """The ends that no row has; first of all each row has to be as the second reading says. The processors share the ends."""
    rows = all_rows()
    fault = differing(rows, copies(), sorted(rows))
    if fault:
        sys.exit(f"rows: the second reading says otherwise: {fault}")
    # (a process that is forked has the ends, whose functions couldn't be sent to it)
    with multiprocessing.get_context("fork").Pool(len(os.sched_getaffinity(0)), begin, (rows, ends)) as processes:
        found = processes.map(has_row, range(len(ends)), chunksize=4)
    return [end for end, is_there in zip(ends, found) if not is_there]
