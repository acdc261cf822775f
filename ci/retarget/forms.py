"""The forms of lines of LLVM IR that have a meaning for the rewriting. What matches none of them is refused."""
import re

NAME = r"%[\w.$-]+"
GLOBAL = r'@(?:"[^"]*"|[\w.$-]+)'
NUMBER = r"i\d+"
VECTOR = r"<\d+ x i\d+>"
PAIR = r"\{ (?:ptr|i\d+), (?:ptr|i\d+) \}"
TYPE = rf"(?:ptr|{NUMBER}|{VECTOR})"
ANY_TYPE = rf"(?:{TYPE}|{PAIR})"
VALUE = rf"(?:{NAME}|-?\d+|true|false|null|poison|undef|zeroinitializer|splat \({NUMBER} -?\d+\)|<[^<>]*>|@[\w.$-]+)"
METADATA = r"(?:, !(?:noundef|range) !\d+)*"
# attributes of parameters and results that say nothing about a layout
ATTRIBUTE = r"(?:noundef|zeroext|signext|nonnull|noalias|readonly|writeonly|readnone|captures\(none\)|immarg)"
ARGUMENT = rf"(?:{ANY_TYPE}(?: {ATTRIBUTE})* {VALUE})"
FLAG = r"(?:nuw|nsw|nusw|exact|nneg|disjoint|inbounds|samesign)"
BINARY = r"(?:add|sub|mul|udiv|urem|sdiv|srem|and|or|xor|shl|lshr|ashr)"

# how each operation is written; the groups are for the rules
FORMS = {
    "alloca": rf"(?P<name>{NAME}) = alloca (?P<type>{TYPE}|\[\d+ x i8\]), align (?P<align>\d+)",
    "load": rf"(?P<name>{NAME}) = load (?P<type>{ANY_TYPE}), ptr (?P<at>{VALUE}), align (?P<align>\d+)(?P<metadata>{METADATA})",
    "store": rf"store (?P<type>{ANY_TYPE}) (?P<value>{VALUE}), ptr (?P<at>{VALUE}), align (?P<align>\d+)",
    "getelementptr": rf"(?P<name>{NAME}) = getelementptr (?:{FLAG} )*i8, ptr (?P<at>{VALUE}), i64 (?P<offset>{VALUE})",
    "icmp": rf"{NAME} = icmp (?:{FLAG} )?\w+ {TYPE} {VALUE}, {VALUE}",
    "cast": rf"{NAME} = (?:zext|sext|trunc|bitcast) (?:{FLAG} )*(?:{NUMBER}|{VECTOR}) {VALUE} to (?:{NUMBER}|{VECTOR})",
    "binary": rf"{NAME} = {BINARY} (?:{FLAG} )*(?:{NUMBER}|{VECTOR}) {VALUE}, {VALUE}",
    "ptrtoaddr": rf"(?P<name>{NAME}) = ptrtoaddr ptr (?P<value>{VALUE}) to i64",
    "freeze": rf"{NAME} = freeze {TYPE} {VALUE}",
    "select": rf"{NAME} = select i1 {VALUE}, {TYPE} {VALUE}, {TYPE} {VALUE}",
    "phi": rf"{NAME} = phi {TYPE} \[ {VALUE}, {NAME} \](?:, \[ {VALUE}, {NAME} \])*",
    "extractvalue": rf"{NAME} = extractvalue (?:{PAIR}|\{{ i\d+, i1 \}}) {VALUE}, [01]",
    "insertvalue": rf"{NAME} = insertvalue {PAIR} {VALUE}, (?:ptr|{NUMBER}) {VALUE}, [01]",
    "extractelement": rf"{NAME} = extractelement {VECTOR} {VALUE}, {NUMBER} {VALUE}",
    "insertelement": rf"{NAME} = insertelement {VECTOR} {VALUE}, {NUMBER} {VALUE}, {NUMBER} {VALUE}",
    "shufflevector": rf"{NAME} = shufflevector {VECTOR} {VALUE}, {VECTOR} {VALUE}, {VECTOR} {VALUE}",
    "call": rf"(?:{NAME} = )?call (?:{ATTRIBUTE} )*(?:void|{ANY_TYPE}) (?P<callee>{GLOBAL})"
    rf"\((?P<arguments>(?:{ARGUMENT}(?:, {ARGUMENT})*)?)\)(?: #\d+)?",
    "ret": rf"ret (?:void|{ANY_TYPE} {VALUE})",
    "br": rf"br (?:label {NAME}|i1 {VALUE}, label {NAME}, label {NAME})(?:, !\w+ !\d+)?",
    "switch": rf"switch {NUMBER} {VALUE}, label {NAME} \[",
    "case": rf"{NUMBER} -?\d+, label {NAME}",
    "cases end": r"\]",
    "unreachable": "unreachable",
}
WORDS = {word: "cast" for word in ("zext", "sext", "trunc", "bitcast")}
WORDS.update({word: "binary" for word in BINARY[3:-1].split("|")})
COMPILED = {operation: re.compile(form) for operation, form in FORMS.items()}

CONSTANT = re.compile(r'@(?P<name>[\w.]+) = private unnamed_addr constant \[\d+ x i8\] (?:c"[^"]*"|zeroinitializer), align \d+')
PARAMETER = rf"{ANY_TYPE}(?: {ATTRIBUTE})*(?: {NAME})?"
SIGNATURE = (
    rf"(?P<linkage>internal |private )?(?P<attributes>(?:{ATTRIBUTE} )*)(?P<result>void|{ANY_TYPE}) (?P<name>{GLOBAL})"
    rf"\((?P<parameters>(?:{PARAMETER}(?:, {PARAMETER})*)?)\)"
)
DEFINITION = re.compile(rf"define {SIGNATURE} #(?P<group>\d+) \{{")
DECLARATION = re.compile(rf"declare {SIGNATURE}(?: #\d+)?")
ATTRIBUTES = re.compile(r"attributes #(?P<group>\d+) = \{ (?P<list>.*) \}")
LABEL = re.compile(r'(?:[\w.$-]+|"[^"]*"):(?:\s*;.*)?')
LAYOUT = re.compile(r'target datalayout = "(?P<layout>[^"]*)"')
TRIPLE = re.compile(r'target triple = "(?P<triple>[^"]*)"')
PLAIN = re.compile(r"|;.*|source_filename = .*|![\w.]+ = .*")
INTRINSIC = re.compile(
    r"@llvm\.(?:mem(?:set|cpy|move)\.p0(?:\.p0)?\.i64|trap|(?:cttz|ctlz|ctpop|fshl|fshr|bswap|bitreverse|abs)\.i\d+"
    r"|[us](?:min|max)\.i\d+|u(?:add|sub)\.sat\.i\d+|[us](?:add|sub|mul)\.with\.overflow\.i\d+)"
)
MEMORY = re.compile(r"@llvm\.mem(?:set|cpy|move)\.")


class Refused(Exception):
    """A line that no rule is there for."""

    def __init__(self, why, line):
        super().__init__(f"{why}: {line.strip()}")


def read_instruction(line):
    """The operation of a line of a function, and the match of its form."""
    body = re.sub(r"\s+;.*$", "", line.strip())
    words = body.split()
    word = words[2] if len(words) > 2 and words[1] == "=" else words[0]
    if word.startswith("i") and word[1:].isdigit():
        operation = "case"
    else:
        operation = "cases end" if word == "]" else WORDS.get(word, word)
    form = COMPILED.get(operation)
    if form is None:
        raise Refused("an operation that isn't known", line)
    found = form.fullmatch(body)
    if found is None:
        raise Refused(f"a form of {word} that isn't known", line)
    return operation, found


def size_of(kind):
    """How many bytes a number, a pointer or a vector has in memory, with 64-bit pointers."""
    if kind == "ptr":
        return 8
    vector = re.fullmatch(r"<(\d+) x i(\d+)>", kind)
    bits = int(vector.group(1)) * int(vector.group(2)) if vector else int(kind[1:])
    return -(-bits // 8)


def parts_of(kind):
    """The parts of a type in memory: pairs of a type and an offset."""
    if not kind.startswith("{"):
        return [(kind, 0)]
    first, second = kind.strip("{ }").split(", ")
    align = size_of(second)
    return [(first, 0), (second, -(-size_of(first) // align) * align)]
