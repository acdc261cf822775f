#!/usr/bin/env python3
"""Prints the public functions of a crate as its source has them: what each is for, and its contract, without the body.

usage: ci/contracts.py CRATE [WORD]      WORD: only those whose file, type or name has it, as `ci/contracts.py cose_msg feed`

This is docs/PROVED.md in full, made of the source. ci/documents reads the functions here too: each has a comment.
"""
import pathlib
import re
import sys
import typing

TOP = pathlib.Path(__file__).resolve().parent.parent


class Function(typing.NamedTuple):
    """A public function."""

    path: pathlib.Path
    owner: str  # the type or the trait that it belongs to, if any
    name: str
    comment: list  # its lines, and so below
    contract: list

    def full_name(self):
        return f"{self.owner}::{self.name}" if self.owner else self.name


def is_last(line, indent):
    """Whether a line is the last of a contract: the body begins here, or there is none."""
    if line.endswith(";") or line in (f"{indent}{{", f"{indent}{{}}"):
        return True
    # without a contract the body begins in the line of the result
    return bool(re.match(rf"{indent}(?:pub |fn |\))", line)) and line.endswith("{")


def functions_in(path):
    """The public functions of a file, in its order."""
    lines, found, comment, owner, is_trait = path.read_text().splitlines(), [], [], "", False
    for index, line in enumerate(lines):
        of = re.match(r"(?:impl|pub (?P<trait>trait))(?:<.*?>)? (?:\w+(?:<.*>)? for )?(?P<name>\w+)", line)
        if of:
            owner, is_trait = of["name"], bool(of["trait"])
        elif line.startswith("}"):
            owner, is_trait = "", False
        function = re.match(r'( *)(pub )?(?:unsafe )?(?:extern "C" )?fn (\w+)', line)
        if function and (function[2] or is_trait and function[1]):
            end = next(at for at in range(index, len(lines)) if is_last(lines[at], function[1]))
            contract = lines[index : end + 1]
            # the brace that begins the body is no part of it
            contract[-1] = re.sub(r" *\{\}?$", "", contract[-1])
            found.append(Function(path, owner, function[3], comment, [it for it in contract if it.strip()]))
        if line.strip().startswith("///"):
            comment = [*comment, line]
        elif line.strip() and not line.strip().startswith("#["):
            comment = []
    return found


def functions_of(crate):
    """The public functions of a crate, without those of its tests."""
    paths = sorted((TOP / "crates" / crate / "src").rglob("*.rt"))
    return [it for path in paths if "tests" not in path.with_suffix("").parts for it in functions_in(path)]


def main():
    if not 1 <= len(sys.argv) - 1 <= 2 or not (TOP / "crates" / sys.argv[1] / "src").is_dir():
        sys.exit(__doc__.split("\n\n")[1])
    for it in functions_of(sys.argv[1]):
        where = it.path.relative_to(TOP)
        if all(word in f"{where} {it.full_name()}" for word in sys.argv[2:]):
            print(f"{where}: {it.full_name()}", *it.comment, *it.contract, "", sep="\n")


if __name__ == "__main__":
    main()
