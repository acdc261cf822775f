"""Looks for memory that is both a pointer and a number, before a module is rewritten: with 32-bit pointers the upper half of a
pointer's slot has no meaning, so a number that is read there would have none.

A place is a base (an alloca, a parameter, or a pointer that was loaded) and an offset that doesn't vary. Copies of memory aren't
followed, and neither is what another function does with an address.
"""
import collections

from . import forms


class Slots:
    """The places of one function, and what is read and written there."""

    def __init__(self):
        self.places = {}
        self.kinds = collections.defaultdict(set)

    def take(self, line):
        """Takes note of a line of the function."""
        if not line.strip() or forms.LABEL.fullmatch(line):
            return
        operation, found = forms.read_instruction(line)
        if operation == "getelementptr" and found["offset"].lstrip("-").isdigit():
            base, offset = self.place(found["at"])
            self.places[found["name"]] = base, offset + int(found["offset"])
        elif operation in ("load", "store"):
            base, offset = self.place(found["at"])
            for kind, more in forms.parts_of(found["type"]):
                self.kinds[base, offset + more].add(kind)

    def place(self, pointer):
        return self.places.get(pointer, (pointer, 0))

    def pointers(self):
        """The places that have a pointer."""
        return [place for place, kinds in self.kinds.items() if "ptr" in kinds]

    def mixed(self):
        """The places of pointers of which a number, or another pointer, has a byte too."""
        found = []
        for base, offset in self.pointers():
            for (other, start), kinds in self.kinds.items():
                for kind in kinds if other == base else ():
                    same = kind == "ptr" and start == offset
                    if not same and start < offset + 8 and offset < start + forms.size_of(kind):
                        found.append((base, offset, kind))
        return found


def check_slots(text):
    """How many places of pointers a module has. Refused is raised where one is a number too."""
    count, slots, name = 0, None, None
    for line in text.splitlines():
        if line.startswith("define"):
            slots, name = Slots(), line
        elif line == "}" and slots:
            count += len(slots.pointers())
            for base, offset, kind in slots.mixed():
                raise forms.Refused(f"{base} + {offset} is a pointer and a {kind}", name)
            slots = None
        elif slots:
            slots.take(line)
    return count
