"""A device in an emulator in the place of the shared library: the program for the device, and what stands for ctypes.CDLL.

The calls are those of the table of the package for Python. A request is a length (u32), the call's number (u16) and its arguments: a
number as u64; bytes as a length (u32) and the bytes; the length of a room (u32); a block as the number of its slot (u32); a struct that
the call only reads as its fields, one after the other, a number in its own size, and a pointer with its length as bytes. An answer is
a length (u32), what the call returned (u64), and then each room and each struct that it filled, at multiples of 8.
"""
import collections
import ctypes
import pathlib
import re
import struct
from typing import NamedTuple

KEEPING = (
    *("open", "open_detached", "open_elsewhere", "open_elsewhere_detached", "open_under", "open_under_detached"),
    *("open_table", "open_table_detached"),
    *("table_read", "table_read_under"),
)
HEADER = pathlib.Path(__file__).resolve().parent.parent / "include" / "cose.h"
# the version of the library that the header is for
VERSION = sum(int(re.search(rf"COSE_VERSION_{part} (\d+)", HEADER.read_text())[1]) << at for part, at in (("MAJOR", 16), ("MINOR", 8), ("PATCH", 0)))
DECLARED = {ctypes.c_uint8: "(uint8_t)", ctypes.c_int32: "(int32_t)", ctypes.c_uint32: "(uint32_t)", ctypes.c_int64: "(int64_t)"}


class Rooms(NamedTuple):
    """What boards/rows.c has of each: the slots for blocks of the small and of the large size, the bytes of such a block, the bytes that
    stay until the next opening, and those of a request and of an answer."""

    slots: int = 8
    block: int = 16384
    large_slots: int = 2
    large_block: int = 140032
    kept: int = 140000
    request: int = 1500000
    answer: int = 80000

    def defined(self):
        """The options of the compiler."""
        return [f"-D{name.upper()}={value}" for name, value in self._asdict().items()]


class LeftOut(Exception):
    """A call that the board has no room for. rows.py has one of its own, which takes the place of this."""


def calls_of(library):
    """The calls of the package's table: each name with the types of its arguments and of its result."""
    return {f"cose_{name}": it for name, it in library._PROTOTYPES.items()}


def kinds_of(library, arguments):
    """What each argument is: a pair of a word and a type. Bytes and rooms are two arguments of C."""
    left, found = list(arguments), []
    while left:
        kind = left.pop(0)
        if kind is ctypes.c_char_p or kind is ctypes.c_void_p and left[:1] == [ctypes.c_size_t]:
            left.pop(0)
            word = "bytes" if kind is ctypes.c_char_p else "room"
        elif kind is ctypes.c_void_p:
            word = "memory"
        elif kind is ctypes.POINTER(library.HandleStruct):
            word = "block"
        elif kind in (ctypes.POINTER(it) for it in stated_structs(library)):
            word = "stated"
        else:
            word = "filled" if hasattr(kind, "contents") else "number"
        found.append((word, kind))
    return found


def stated_structs(library):
    """The structs that calls only read, with their names in C."""
    return {
        library.PolicyStruct: "struct cose_policy",
        library.TermsStruct: "struct cose_terms",
        library.RequirementsStruct: "struct cose_requirements",
    }


def stated_fields(struct):
    """The fields of such a struct: each name with its type, and how many numbers it is; bytes have none, and their length comes with them."""
    left = list(struct._fields_)
    while left:
        name, kind = left.pop(0)
        if kind is ctypes.c_char_p:
            left.pop(0)
            yield name, kind, 0
        else:
            yield (name, kind._type_, kind._length_) if hasattr(kind, "_length_") else (name, kind, 1)


def c_name(kind):
    """A type of numbers in C."""
    return f"{'int' if kind(-1).value < 0 else 'uint'}{8 * ctypes.sizeof(kind)}_t"


def read_fields(it, struct, is_kept):
    """The lines of C that read the fields of such a struct, and copy its bytes where the block keeps them."""
    for name, kind, count in stated_fields(struct):
        if not count:
            yield f"{it}.{name} = bytes(&{it}.{name}_length);"
            if is_kept:
                yield f"{it}.{name} = keep(a0_slot, {it}.{name}, {it}.{name}_length, &used);"
        for at in range(count):
            yield f"{it}.{name}{f'[{at}]' if count > 1 else ''} = ({c_name(kind)})number({ctypes.sizeof(kind)});"


def is_under(name, at):
    """Whether an argument of a call is the table under which its verifier is opened."""
    return "_open_table" in name and at == 1


def struct_of(name, at):
    """The struct of C that has a block of a call."""
    if is_under(name, at):
        return "struct cose_table"
    kinds = {"cose_table_": "table", "edge_table_": "table", "_make_sign1": "signer", "_make": "maker"}
    kind = next((kind for part, kind in kinds.items() if part in name), "verifier")
    size = next((size for size in ("large_", "device_") if f"_{size}" in name), "")
    return f"struct cose_{size}{kind}"


def argument(library, name, at, word, kind):
    """The lines of C that read an argument, and what is passed."""
    it = f"a{at}"
    if word == "number":
        return [f"uint64_t {it} = number(8);"], DECLARED.get(kind, "") + it
    if word == "bytes":
        kept = [f"{it} = keep(a0_slot, {it}, {it}_length, &used);"] if name.endswith(KEEPING) else []
        return [f"uint64_t {it}_length;", f"const uint8_t *{it} = bytes(&{it}_length);", *kept], f"{it}, {it}_length"
    if word == "room":
        return [f"uint64_t {it}_length = number(4);", f"uint8_t *{it} = filled({it}_length);"], f"{it}, {it}_length"
    if word == "memory":
        return [f"uint8_t *{it} = block_at(number(4));"], it
    if word == "block":
        return [f"uint64_t {it}_slot = number(4);", f"{struct_of(name, at)} {it} = {{.at = block_at({it}_slot)}};"], f"&{it}"
    if word == "filled":
        return [f"void *{it} = filled({ctypes.sizeof(kind._type_)});"], it
    return [f"{stated_structs(library)[kind._type_]} {it} = {{0}};", *read_fields(it, kind._type_, name.endswith(KEEPING))], f"&{it}"


def cases(library):
    """The text of the cases of a switch, one for each call."""
    lines = []
    for number, (name, (arguments, result)) in enumerate(calls_of(library).items()):
        lines.append(f"case {number}: {{")
        if name.endswith(KEEPING):
            lines.append("size_t used = 0;")
        passed = []
        for at, (word, kind) in enumerate(kinds_of(library, arguments)):
            before, text = argument(library, name, at, word, kind)
            lines += before
            passed.append(text)
        call = f"{name}({', '.join(passed)});"
        lines += [f"return {call}" if result else f"{call}\nreturn 0;", "}"]
    return "\n".join(lines) + "\n"


class Device:
    """The library, as ctypes.CDLL would give it."""

    def __init__(self, rooms):
        self.requests, self.answers, self.rooms, self.left_out = None, None, rooms, LeftOut
        self.library, self.numbers, self.calls = None, {}, 0
        self.slots = {False: collections.OrderedDict(), True: collections.OrderedDict()}

    def __getattr__(self, name):
        if not name.startswith("cose_"):
            raise AttributeError(name)
        if name == "cose_version" and not self.numbers:
            return lambda: VERSION  # what the package asks for before the program runs
        return Call(self, name)

    def use(self, library):
        """Takes the package's table, once it is imported."""
        self.library = library
        self.numbers = {name: number for number, name in enumerate(calls_of(library))}

    def version(self):
        """The version of the library, which the program answers."""
        call = Call(self, "cose_version")
        call.restype = ctypes.c_uint32
        return call()

    def ask(self, number, body):
        """Sends a request, and returns what the call returned and what it filled."""
        data = struct.pack("<IH", len(body) + 2, number) + body
        if len(data) > self.rooms.request:
            raise self.left_out("longer than the board has room for")
        self.requests.write(data)
        self.requests.flush()
        (size,) = struct.unpack("<I", self.read(4))
        answer = self.read(size)
        return struct.unpack_from("<Q", answer)[0], answer[8:]

    def read(self, size):
        data = self.answers.read(size)
        if len(data) < size:
            raise SystemExit("device_rows: the device ended")
        return data

    def slot(self, address, large, begins):
        """The slot of a block. The one that was used longest ago is given to a new one."""
        table, count = self.slots[large], self.rooms.large_slots if large else self.rooms.slots
        if address not in table:
            if not begins:
                raise SystemExit("device_rows: a block that wasn't begun, or too many at once")
            free = set(range(count)) - set(table.values())
            table[address] = min(free) if free else table.popitem(last=False)[1]
        table.move_to_end(address)
        return table[address] + (self.rooms.slots if large else 0)


class Call:
    """A call of the library."""

    def __init__(self, device, name):
        self.device, self.name = device, name
        self.argtypes, self.restype = (), None

    def __call__(self, *given):
        device, left, body, filled, end = self.device, list(given), b"", [], 0
        large = "_large_" in self.name
        if self.name.endswith("asked_key"):
            raise device.left_out("it gives pointers of the device")
        if self.name == "cose_edge_wipe_bytes" and given[1] > device.rooms.answer - 16:
            ctypes.memset(given[0], 0, given[1])  # the package's own memory, for as much of which the board has no room
            return None
        for place, (word, kind) in enumerate(kinds_of(device.library, self.argtypes)):
            value = left.pop(0)
            if word in ("room", "filled"):
                size = left.pop(0) if word == "room" else ctypes.sizeof(kind._type_)
                body += struct.pack("<I", size) if word == "room" else b""
                end = -(-end // 8) * 8
                filled.append((end, size, value if word == "room" else ctypes.addressof(value._obj)))
                end += size
            elif word == "bytes":
                body += struct.pack("<I", left.pop(0)) + (value or b"")
            elif word == "memory":
                body += struct.pack("<I", device.slot(value, large, True))
            elif word == "block":
                body += struct.pack("<I", device.slot(value._obj.at, large and not is_under(self.name, place), False))
            elif word == "stated":
                body += packed(value._obj)
            else:
                body += struct.pack("<Q", int(value) % 2**64)
        device.calls += 1
        result, answer = device.ask(device.numbers[self.name], body)
        for at, size, to in filled:
            ctypes.memmove(to, answer[at : at + size], size)
        return None if self.restype is None else self.restype(result).value


def packed(stated):
    """A struct that is only read, as a request has it."""
    body = b""
    for name, kind, count in stated_fields(type(stated)):
        value = getattr(stated, name)
        if not count:
            length = getattr(stated, f"{name}_length")
            # (a field of bytes ends at their first zero)
            content = ctypes.string_at(bytes_at(stated, name), length) if length else b""
            body += struct.pack("<I", length) + content
        else:
            numbers = value if count > 1 else [value]
            body += b"".join(int(it).to_bytes(ctypes.sizeof(kind), "little", signed=it < 0) for it in numbers)
    return body


def bytes_at(stated, name):
    """Where the bytes of a field are."""
    return ctypes.c_void_p.from_buffer(stated, getattr(type(stated), name).offset).value
