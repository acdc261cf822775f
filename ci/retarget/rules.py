"""The rules, each of them for one line:

- the data layout and the triple are the target's, and what names a processor is dropped
- an alloca of a pointer has the 8 bytes of its slot
- a load or a store of a pair is two, at the offsets that 64-bit pointers give
- the length of memset, memcpy and memmove has 32 bits
- ptrtoaddr is ptrtoint, which puts zeros above the address
- a function that is exported returns a number of less than 32 bits with zeros above it
- an alignment of more than 8 is one of 8, since a Cortex-M's stack has no other

For a processor the module also gets a constant with the address of a symbol that the header for all targets defines, and no other; and
a function that not every program needs gets a name and is weak, so that a program may define its own, which isn't that large. Built for
size, inlining.py says of each function how it is inlined, and for speed of some.
"""
import collections
import re

from . import forms
from .forms import Refused
from .inlining import Inlining

# attributes in quotes that are about the processor or the operating system
DROPPED = re.compile(r' ?"(?:probe-stack|stack-probe-size|target-cpu|target-features|tune-cpu|frame-pointer)"="[^"]*"')
MOST_ALIGN = 8
# what is written into the half of a slot that has no meaning, where a test wants that
POISON = 0xDEADBEEF
# a constant that no linker leaves out: its address is that of the symbol
WANTED = "@cose_lengths_have_64_bits"
WANTING = f"""\
{WANTED} = external constant i8
@cose_layout = internal constant ptr {WANTED}, align 4
@llvm.used = appending global [1 x ptr] [ptr @cose_layout], section "llvm.metadata"
"""
# functions that a program may replace, and their names there
WEAK = {'@"sha2::block512::compress"': "@cose_sha512_compress"}


def lowered(align):
    """An alignment that a stack has."""
    return min(int(align), MOST_ALIGN)


class Rewriter:
    """Rewrites the lines of one module, and counts what its rules did."""

    def __init__(self, target, way, poison=False):
        self.target = target
        self.way = way
        self.poison = poison
        self.counts = collections.Counter()
        self.constants = set()
        self.inlining = None
        self.fresh = 0
        self.seen = set()

    def name(self):
        """A name that the module doesn't have."""
        self.fresh += 1
        return f"%retarget.{self.fresh}"

    def rewrite(self, text):
        """The text of the module for the target. Refused is raised where a line has no rule."""
        for name in "%retarget.", WANTED, "@cose_layout ", *WEAK.values():
            if name in text:
                raise Refused("a name of the rewriting", name)
        if self.target.is_processor:
            for name, its in WEAK.items():
                text = text.replace(f"{name}(", f"{its}(")
        lines = text.splitlines()
        self.constants = {found["name"] for found in map(forms.CONSTANT.fullmatch, lines) if found}
        self.inlining = Inlining(text, self.way) if self.way == "size" or self.target.is_processor else None
        written = []
        inside = False
        for line in lines:
            if inside and line != "}":
                written += self.line_of_function(line)
            else:
                inside = line.startswith("define")
                written.append(self.line_of_module(line))
        if inside:
            raise Refused("a function without an end", lines[-1])
        if self.seen != {"layout", "triple"}:
            raise Refused("a module without a data layout or a triple", "")
        if self.inlining:
            written += self.inlining.lines(lambda words: DROPPED.sub("", " ".join(words)).strip())
        return "\n".join(written) + "\n" + (WANTING if self.target.is_processor else "")

    def line_of_module(self, line):
        """A line outside functions, or the first or the last of one."""
        if line == "}" or forms.PLAIN.fullmatch(line):
            return line
        rules = {
            "target datalayout": self.layout,
            "target triple": self.triple,
            "@": self.constant,
            "define": self.definition,
            "declare": self.declaration,
            "attributes": self.attributes,
        }
        for start, rule in rules.items():
            if line.startswith(start):
                return rule(line)
        raise Refused("a line of a module that isn't known", line)

    def layout(self, line):
        found = forms.LAYOUT.fullmatch(line)
        parts = found["layout"].split("-") if found else [""]
        if parts[0] != "e":
            raise Refused("a layout that isn't little-endian", line)
        if any(re.match(r"p(?:0)?:", part) and part.split(":")[1] != "64" for part in parts):
            raise Refused("pointers that don't have 64 bits", line)
        self.seen.add("layout")
        return f'target datalayout = "{self.target.layout}"'

    def triple(self, line):
        if forms.TRIPLE.fullmatch(line)["triple"] != "x86_64-unknown-linux-gnu":
            raise Refused("a module of another target", line)
        self.seen.add("triple")
        return f'target triple = "{self.target.triple}"'

    def constant(self, line):
        if not forms.CONSTANT.fullmatch(line):
            raise Refused("a global that isn't a constant of bytes", line)
        return line

    def definition(self, line):
        found = forms.DEFINITION.fullmatch(line)
        if not found:
            raise Refused("a definition of a form that isn't known", line)
        if self.inlining:
            line = f"{line[: found.start('group')]}{self.inlining.group(found['name'], found['group'])} {{"
        if found["name"] in WEAK.values():
            self.counts["functions that a program may replace"] += 1
            return line.replace("define internal ", "define weak hidden ", 1)
        if found["linkage"]:
            return line
        if found["result"].startswith("{") or "{" in found["parameters"] or "<" in found["parameters"]:
            raise Refused("an exported function that isn't of pointers and numbers", line)
        if re.fullmatch(r"i(?:1|8|16)", found["result"]) and "zeroext" not in found["attributes"]:
            self.counts["results with zeros above them"] += 1
            return line.replace(f"{found['result']} {found['name']}", f"zeroext {found['result']} {found['name']}", 1)
        return line

    def declaration(self, line):
        found = forms.DECLARATION.fullmatch(line)
        if not found:
            raise Refused("a declaration of a form that isn't known", line)
        if not forms.INTRINSIC.fullmatch(found["name"]):
            raise Refused("a function that isn't defined here", line)
        if forms.MEMORY.match(found["name"]):
            return line.replace(".i64(", ".i32(").replace(" i64,", " i32,")
        return line

    def attributes(self, line):
        found = forms.ATTRIBUTES.fullmatch(line)
        kept = DROPPED.sub("", found["list"]).strip() if found else '"'
        if '"' in kept:
            raise Refused("an attribute that isn't known", line)
        return f"attributes #{found['group']} = {{ {kept} }}"

    def line_of_function(self, line):
        """The lines for one line of a function."""
        if not line.strip() or forms.LABEL.fullmatch(line):
            return [line]
        operation, found = forms.read_instruction(line)
        self.check_addresses(operation, found, line)
        rule = getattr(self, f"rewrite_{operation}", None)
        return [f"  {it}" for it in rule(found)] if rule else [line]

    def check_addresses(self, operation, found, line):
        """Each address of the module that an instruction uses is that of a constant, or what it calls."""
        body = re.sub(r'^call|(?<= )call', "", found.string)
        if operation == "call":
            body = found["arguments"]
        for name in re.findall(r'@("[^"]*"|[\w.$-]+)', body):
            if name not in self.constants:
                raise Refused("the address of a function", line)

    def rewrite_alloca(self, found):
        kind = found["type"]
        if kind == "ptr":
            self.counts["slots on the stack"] += 1
            kind = "[8 x i8]"
        return [f"{found['name']} = alloca {kind}, align {lowered(found['align'])}"]

    def rewrite_ptrtoaddr(self, found):
        self.counts["addresses as numbers"] += 1
        return [f"{found['name']} = ptrtoint ptr {found['value']} to i64"]

    def rewrite_load(self, found):
        kind, name, at, align = found["type"], found["name"], found["at"], lowered(found["align"])
        if not kind.startswith("{"):
            return [f"{name} = load {kind}, ptr {at}, align {align}{found['metadata']}"]
        self.counts["loads of pairs"] += 1
        (first, _), (second, offset) = forms.parts_of(kind)
        one, two, place, half = (self.name() for _ in range(4))
        return [
            f"{one} = load {first}, ptr {at}, align {align}",
            f"{place} = getelementptr i8, ptr {at}, i64 {offset}",
            f"{two} = load {second}, ptr {place}, align {min(align, forms.size_of(second))}",
            f"{half} = insertvalue {kind} poison, {first} {one}, 0",
            f"{name} = insertvalue {kind} {half}, {second} {two}, 1",
        ]

    def rewrite_store(self, found):
        kind, value, at, align = found["type"], found["value"], found["at"], lowered(found["align"])
        if not kind.startswith("{"):
            return self.store(kind, value, at, align)
        self.counts["stores of pairs"] += 1
        (first, _), (second, offset) = forms.parts_of(kind)
        one, two, place = (self.name() for _ in range(3))
        return [
            f"{one} = extractvalue {kind} {value}, 0",
            f"{two} = extractvalue {kind} {value}, 1",
            *self.store(first, one, at, align),
            f"{place} = getelementptr i8, ptr {at}, i64 {offset}",
            *self.store(second, two, place, min(align, forms.size_of(second))),
        ]

    def store(self, kind, value, at, align):
        """A store of no pair. Where a test wants it, what lies above a pointer in its slot is overwritten."""
        lines = [f"store {kind} {value}, ptr {at}, align {align}"]
        if self.poison and kind == "ptr":
            above = self.name()
            lines += [f"{above} = getelementptr i8, ptr {at}, i64 4", f"store i32 {POISON}, ptr {above}, align 1"]
        return lines

    def rewrite_call(self, found):
        callee, line = found["callee"], found.string
        if not callee.startswith("@llvm."):
            return [line]
        if not forms.INTRINSIC.fullmatch(callee):
            raise Refused("an intrinsic that isn't known", line)
        if not forms.MEMORY.match(callee):
            return [line]
        arguments = re.fullmatch(rf"(?P<before>.*), i64 (?P<length>{forms.NAME}|\d+), i1 false", found["arguments"])
        if not arguments:
            raise Refused("a call of an intrinsic for memory of a form that isn't known", line)
        self.counts["lengths of memory"] += 1
        length, before = arguments["length"], []
        if not length.startswith("%"):
            if int(length) >= 1 << 31:
                raise Refused("a length that 32 bits don't hold", line)
        else:
            short = self.name()
            before = [f"{short} = trunc i64 {length} to i32"]
            length = short
        start = line[: found.start("callee")]
        return [*before, f"{start}{callee.removesuffix('.i64')}.i32({arguments['before']}, i32 {length}, i1 false)"]
