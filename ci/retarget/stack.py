"""The most bytes of stack that a call of each exported function of an object file takes: the sum of the frames along its deepest
path.

The object file is one of ELF with 32 bits, little-endian, compiled with -ffunction-sections and -fstack-size-section. A function
calls those that its section refers to: what is called by a register has its address from there, since the rewriting refuses a module
in which the address of a function is stored or passed on, and one in which a function calls itself. The functions of the reader of
items may: what each of them takes is counted as often as items may nest, and once more.
"""
import struct
import sys
from typing import NamedTuple

from .calls import NESTING

# what a call of a function of the compiler's library or of the C library may take
OUTSIDE = 128
KIB = 1024
# how deep items nest: in calls of the large size, and in others
LARGE_DEPTH, DEPTH = 16, 8
# what docs/DEVICES.md promises: calls over memory of the large size, other calls of that size, calls over memory, those under terms
# and of EdDSA, those of a verifier that is fed and that read a table, those of the verifier for devices, and all others
PROMISED = {
    "speed": (160 * KIB, 6 * KIB, 8 * KIB, 8 * KIB, 5 * KIB, 4 * KIB, 7 * KIB),
    "size": (160 * KIB, 8 * KIB, 11 * KIB, 12 * KIB, 8 * KIB, 7 * KIB, 9 * KIB),
}
LARGE_OVER_MEMORY = {
    *("cose_edge_large_verify", "cose_edge_large_verify_detached", "cose_edge_large_verify_cwt", "cose_edge_large_claims"),
    *("cose_edge_large_parameter", "cose_edge_large_parameter_named"),
    *("cose_edge_large_key_of", "cose_edge_large_mismatch"),
    *("cose_edge_large_authenticate", "cose_edge_large_authenticate_detached", "cose_edge_large_admit", "cose_edge_large_admit_claims"),
}
OVER_MEMORY = {
    *("cose_edge_verify", "cose_edge_verify_detached", "cose_edge_verify_cwt", "cose_edge_shape"),
    *("cose_edge_parameter", "cose_edge_parameter_named"),
    *("cose_edge_table_verify", "cose_edge_table_verify_cwt"),
}
OF_FED = {
    *("cose_edge_open", "cose_edge_open_detached", "cose_edge_open_under", "cose_edge_open_under_detached"),
    *("cose_edge_open_table", "cose_edge_open_table_detached"),
    *("cose_edge_feed", "cose_edge_feed_payload"),
    *("cose_end", "cose_verdict", "cose_verdict_for", "cose_sign_input", "cose_reset"),
    *("cose_edge_table_read", "cose_edge_table_read_under"),
}
UNDER_TERMS = {
    *("cose_edge_authenticate", "cose_edge_authenticate_detached", "cose_edge_admit"),
    *("cose_edge_table_authenticate", "cose_edge_table_admit"),
    *("cose_edge_key_of", "cose_edge_mismatch"),
    *("cose_edge_verify_eddsa", "cose_edge_verify_eddsa_detached"),
}
ALL_SYMBOLS, FUNCTION, GLOBAL, UNDEFINED = 2, 2, 1, 0
RELOCATIONS = {4: "<IIi", 9: "<II"}  # with an addend, without


class Symbol(NamedTuple):
    """A symbol of an object file."""

    name: str
    value: int
    kind: int
    binding: int
    section: int


class Section(NamedTuple):
    """A section of an object file."""

    name: str
    kind: int
    content: bytes
    info: int


class StackError(Exception):
    """An object file whose stack can't be computed."""


def text_at(strings, at):
    return strings[at : strings.index(b"\0", at)].decode()


def read_sections(data):
    """The sections of an object file."""
    if data[:6] != b"\x7fELF\x01\x01":
        raise StackError("not an object file with 32 bits, little-endian")
    (at,) = struct.unpack_from("<I", data, 32)
    size, count, names = struct.unpack_from("<HHH", data, 46)
    heads = [struct.unpack_from("<10I", data, at + size * index) for index in range(count)]
    # a section without content in the file (.bss) has the kind 8
    content = [b"" if head[1] == 8 else data[head[4] : head[4] + head[5]] for head in heads]
    return [Section(text_at(content[names], head[0]), head[1], part, head[7]) for head, part in zip(heads, content)]


def read_symbols(sections):
    """The symbols of an object file."""
    table = next(index for index, section in enumerate(sections) if section.kind == ALL_SYMBOLS)
    strings = next(section.content for section in sections if section.name == ".strtab")
    entries = struct.iter_unpack("<IIIBBH", sections[table].content)
    return [Symbol(text_at(strings, name), value, info & 15, info >> 4, section) for name, value, _, info, _, section in entries]


def read_relocations(sections):
    """The relocations of each section: pairs of a place and a symbol's index."""
    found = {}
    for section in sections:
        if section.kind in RELOCATIONS:
            entries = struct.iter_unpack(RELOCATIONS[section.kind], section.content)
            found.setdefault(section.info, []).extend((entry[0], entry[1] >> 8) for entry in entries)
    return found


def number_at(data, at):
    """A number in LEB128, and the place after it."""
    value = shift = 0
    while True:
        value |= (data[at] & 127) << shift
        shift += 7
        at += 1
        if data[at - 1] < 128:
            return value, at


class Graph:
    """The functions of an object file: the frame of each, and what it calls."""

    def __init__(self, data):
        sections = read_sections(data)
        symbols = read_symbols(sections)
        relocations = read_relocations(sections)
        functions = {symbol.section: symbol.name for symbol in symbols if symbol.kind == FUNCTION and symbol.section}
        if len(functions) != sum(symbol.kind == FUNCTION and symbol.section != UNDEFINED for symbol in symbols):
            raise StackError("two functions in one section")
        self.exported = {it.name for it in symbols if it.kind == FUNCTION and it.section and it.binding == GLOBAL}
        self.calls, self.frames, self.outside = {}, {}, set()
        for section, name in functions.items():
            self.calls[name] = set()
            for _, index in relocations.get(section, []):
                symbol = symbols[index]
                if symbol.section == UNDEFINED and symbol.name:
                    self.outside.add(symbol.name)
                    self.calls[name].add(symbol.name)
                elif symbol.section in functions and symbol.section != section:
                    self.calls[name].add(functions[symbol.section])
                elif symbol.kind == FUNCTION and symbol.section == section and not name.startswith(NESTING):
                    raise StackError(f"{name} calls itself")
        for index, section in enumerate(sections):
            if section.name == ".stack_sizes":
                self.read_frames(section.content, [symbols[entry[1]] for entry in sorted(relocations[index])], functions)
        if set(self.frames) != set(functions.values()):
            raise StackError("a function whose frame isn't known")

    def read_frames(self, content, named, functions):
        """The frames: for each an address, which a relocation gives, and a number."""
        at = 0
        for symbol in named:
            self.frames[functions[symbol.section]], at = number_at(content, at + 4)
        if at != len(content):
            raise StackError("sizes of frames that can't be read")

    def reader(self, depth):
        """What the reader of items takes itself, and what it calls."""
        its = {name for name in self.frames if name.startswith(NESTING)}
        called = set().union(*(self.calls[name] for name in its)) - its
        return its, (depth + 1) * sum(self.frames[name] for name in its), called

    def deepest(self, depth=DEPTH):
        """The most that each function takes, with what it calls, and the path on which it does."""
        done, doing = {}, []
        nesting, taken, called = self.reader(depth)

        def visit(name):
            if name in doing:
                raise StackError("a function that calls itself: " + " > ".join([*doing[doing.index(name) :], name]))
            if name not in done:
                if name in self.outside:
                    done[name] = OUTSIDE, (name,)
                else:
                    frame, below = (taken, called) if name in nesting else (self.frames[name], self.calls[name])
                    doing.append(name)
                    most, path = max((visit(it) for it in below), default=(0, ()))
                    doing.pop()
                    done[name] = frame + most, (name, *path)
            return done[name]

        for name in self.frames:
            visit(name)
        return done


def promised(name, way):
    """What docs/DEVICES.md promises of a call."""
    large_over_memory, large, over_memory, under_terms, of_fed, of_device, others = PROMISED[way]
    if name in LARGE_OVER_MEMORY:
        return large_over_memory
    if "_large_" in name:
        return large
    if "_device_" in name:
        return of_device
    if name in OVER_MEMORY:
        return over_memory
    if name in UNDER_TERMS:
        return under_terms
    return of_fed if name in OF_FED else others


def report(path, way):
    """Prints what each exported function takes. It returns 1 where one takes more than is promised, or it can't be known."""
    sys.setrecursionlimit(10_000)
    try:
        with open(path, "rb") as file:
            graph = Graph(file.read())
        most = graph.deepest()
        large = graph.deepest(LARGE_DEPTH)
        most.update({name: large[name] for name in graph.exported if "_large_" in name})
    except StackError as error:
        print(f"retarget: {path}: {error}", file=sys.stderr)
        return 1
    status = 0
    for name in sorted(graph.exported, key=lambda it: (-most[it][0], it)):
        print(f"{most[name][0]:7} {name}")
        if most[name][0] > promised(name, way):
            print(f"retarget: {path}: {name} takes {most[name][0]} bytes of stack, and {promised(name, way)} are promised:", file=sys.stderr)
            print("\n".join(f"  {graph.frames.get(it, OUTSIDE):7} {it}" for it in most[name][1]), file=sys.stderr)
            status = 1
    return status
