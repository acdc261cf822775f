"""Reads what the crates say of the C interface: reasons, algorithms, statuses, structs and exported functions, each once."""
import functools
import pathlib
import re
from typing import NamedTuple

TOP = pathlib.Path(__file__).resolve().parent.parent
CRATES = TOP / "crates"
SOURCES = CRATES / "cose_c" / "src"
# structs that would have the name of a function, which hides them in C++
RENAMED = {
    "CoseVerdict": "cose_message_verdict",
    "CoseSignInput": "cose_signature_input",
    "CoseShape": "cose_message_shape",
    "CoseClaims": "cose_claims_set",
    "CoseFrontPieces": "cose_pieces",
    "CoseAskedKey": "cose_chosen_key",
    "CoseAskedSignature": "cose_received_signature",
}
# handles of a block that is only read: those of C are the ones that the block has anyway
ONLY_READ = {"&mut CoseSharedTable": "&CoseTable"}


class Reason(NamedTuple):
    """A reason: what its variant says, and its row of docs/REASONS.md without links."""
    number: int
    name: str
    text: str
    meaning: str
    place: str
    section: str


class Named(NamedTuple):
    """A number with a name, and what is said of it."""
    number: int
    name: str
    text: str


class Struct(NamedTuple):
    """A struct that crosses to C, with its fields: pairs of a name and a type."""
    name: str
    text: str
    fields: list

    @property
    def in_c(self):
        """Its name in the header."""
        return RENAMED.get(self.name, underscored(self.name))


class Export(NamedTuple):
    """An exported function: pairs of a name and a type, the result, or None, and what is said of it."""
    name: str
    parameters: list
    result: str
    text: str

    @property
    def short(self):
        """Its name without what all names have."""
        return re.sub("^cose_", "", self.name)

    @property
    def small(self):
        """The name of the call that it is the large size of, or None."""
        found = re.sub("^cose_(edge_)?large_", r"cose_\1", self.name)
        return found if found != self.name else None


def underscored(name):
    """cose_key_set of CoseKeySet."""
    return re.sub(r"(?<=[a-z0-9])(?=[A-Z])", "_", name).lower()


def words(comment):
    """The text of a `///` comment's first paragraph."""
    lines = [line.strip()[3:].strip() for line in comment.strip().splitlines()]
    return " ".join(lines[:lines.index("")] if "" in lines else lines)


def plain(cell):
    """A cell of a table, without links and marks of code."""
    return re.sub(r"\[([^\]]*)\]\([^)]*\)", r"\1", cell).replace("`", "").strip()


@functools.cache
def reasons():
    """The reasons, by their numbers: the enum's, which ci/documents compares with the page."""
    source = (CRATES / "cose_head" / "src" / "reason.rt").read_text()
    body = re.search(r"pub enum Reason \{\n(.*?)^\}", source, re.S | re.M)[1]
    rows = {}
    for line in (TOP / "docs" / "REASONS.md").read_text().splitlines():
        if re.match(r"\| \d+ \|", line):
            number, _, *cells = map(plain, line.strip("|").split("|"))
            rows[int(number)] = cells
    found = re.findall(r"((?:^ *///.*\n)+) *(\w+) = (\d+),$", body, re.M)
    return [Reason(int(number), name, words(text), *rows[int(number)]) for text, name, number in found]


@functools.cache
def algorithms():
    """The algorithms, in the order of their table."""
    source = (CRATES / "cose_head" / "src" / "algorithm.rt").read_text()
    body = re.search(r"pub enum Alg \{\n(.*?)^\}", source, re.S | re.M)[1]
    numbers = dict(re.findall(r"Alg::(\w+) => \((-?\d+), Kind", source))
    return [Named(int(numbers[name]), name, words(text)) for text, name in re.findall(r"((?:^ *///.*\n)+) *(\w+),$", body, re.M)]


@functools.cache
def statuses():
    """The statuses, by their numbers."""
    source = (SOURCES / "numbers.rt").read_text()
    found = re.findall(r"((?:^///.*\n)+)pub\(crate\) const (\w+): u8 = (\d+);", source, re.M)
    return [Named(int(number), name, words(text)) for text, name, number in found]


@functools.cache
def sources():
    """The text of each file of cose_c, in the order of their paths."""
    return [path.read_text() for path in sorted(SOURCES.rglob("*.rt"))]


def fields_of(body):
    """The fields of a struct, without those that are there for proofs alone."""
    body = re.sub(r"//.*", "", body)
    found = re.findall(r"^\s*(?:pub(?:\(crate\))? )?(\w+): ([^\n{}]+),$", body, re.M)
    return [(name, re.sub(r"&'\w+ ", "&", kind.strip())) for name, kind in found]


@functools.cache
def structs():
    """The structs that cross to C, each after those that it has."""
    pattern = r"((?:^///[^\n]*\n)+)#\[repr\(C\)\]\n(?:#\[[^\]]*\]\n)*pub struct (Cose\w+)(?:<[^>]*>)? \{([^{}]*(?:\{[^{}]*\}[^{}]*)*)\n\}"
    found = [Struct(name, words(text), fields_of(body)) for source in sources() for text, name, body in re.findall(pattern, source, re.M)]
    found = [it for it in found if f"&mut {it.name}" not in ONLY_READ]
    known = {it.name: it for it in found}
    ordered = {}

    def add(it):
        for _, kind in it.fields:
            if kind in known:
                add(known[kind])
        ordered.setdefault(it.name, it)

    for it in found:
        add(it)
    return list(ordered.values())


SIZES = {"u8": 1, "bool": 1, "u32": 4, "i32": 4, "u64": 8, "i64": 8, "usize": 8, "*mut u8": 8}


@functools.cache
def layouts():
    """By the rules of C for 64 bits: the size and the alignment of each struct, and its last field with where that is."""
    found = {}

    def layout(kind):
        array = re.fullmatch(r"\[(\w+); (\d+)\]", kind)
        if array:
            size, align = layout(array[1])[:2]
            return size * int(array[2]), align
        if kind == "&[u8]":
            return 16, 8
        return found[kind] if kind in found else (SIZES[kind], SIZES[kind])

    for struct in structs():
        end, most = 0, 1
        for name, kind in struct.fields:
            size, align, *_ = layout(kind)
            start = -(-end // align) * align
            last = (f"{name}_length", start + 8) if kind == "&[u8]" else (name, start)
            end, most = start + size, max(most, align)
        found[struct.name] = -(-end // most) * most, most, *last
    return found


@functools.cache
def exports():
    """The exported functions, in the order of their files; those of the large size have their struct's kind, `CoseLargeVerifier`."""
    pattern = r"((?:^///[^\n]*\n)+)#\[unsafe\(no_mangle\)\]\npub (?:unsafe )?extern \"C\" fn (\w+)(?:<[^>]*>)?\(([^)]*)\)(?: -> (\w+))?"
    found = []
    for text in sources():
        for comment, name, listed, result in re.findall(pattern, text, re.M):
            pairs = [tuple(map(str.strip, each.split(":", 1))) for each in listed.split(",") if each.strip()]
            parameters = [(its, re.sub(r"<[^>]*>", "", re.sub(r"&'\w+ ", "&", kind))) for its, kind in pairs]
            parameters = [(its, ONLY_READ.get(kind, kind)) for its, kind in parameters]
            found.append(Export(name, parameters, result or None, words(comment)))
    return found
