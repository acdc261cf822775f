"""Makes the declarations of include/cose.h, and the functions that take NULL, of the exports of cose_c.

Comments, and whatever else the header has, stay as they are: each declaration and each function is put in the place of the one
that has its name. An export that the header hasn't comes last, under the comment of the source.
"""
import re
import textwrap

import edge_source as source

NUMBERS = {"u8": "uint8_t", "u32": "uint32_t", "u64": "uint64_t", "i32": "int32_t", "i64": "int64_t", "usize": "uint64_t"}
# calls that open, read or make something: with NULL they are made with nothing, so that the block has nothing then
CLOSING = re.compile("^cose_edge_(large_|device_)?open|^cose_edge_table_read(_under)?$|^cose_edge_make(_sign1)?$")
WIDTH = 138
LAST = "#ifdef __cplusplus\n}\n#endif\n\n/* ---- One set of calls"
# a function of the header that is there in each size, and stands for no export
WIPE = source.Export("cose_wipe", [("verifier", "&mut CoseVerifier")], None, "")


class Parameter:
    """A parameter: its name in the header, its declarations, and what the functions for NULL do with it."""

    def __init__(self, name, kind):
        self.name, self.kind = {"wanted": "kind", "at": "block"}.get(name, name), kind
        self.is_slice, self.is_room = kind == "&[u8]", kind == "&mut [u8]"
        self.is_kind = name == "wanted"
        # a struct that is only read, with slices among its fields
        self.is_stated = kind.startswith("&Cose") and "&[u8]" in self.fields().values()
        # the handle of a block that is only read: each call has a handle of its own, so that calls of several threads share none
        self.is_shared = kind in source.ONLY_READ.values()
        self.is_out = kind.startswith("&mut Cose") and self.fields().get("at") != "*mut u8"

    def fields(self):
        """The types of the fields of its struct, by their names."""
        found = re.search(r"Cose\w+", self.kind)
        return dict(next(it.fields for it in source.structs() if it.name == found[0])) if found else {}

    def slices(self):
        """The names of its struct's slices."""
        return [name for name, kind in self.fields().items() if kind == "&[u8]"]

    def unsized(self):
        """The lines by which the copy of its struct has no size, and no bytes."""
        lines = [f"        cose_{self.name}_.size = 0;"]
        for field in self.slices():
            lines += [f"        cose_{self.name}_.{field} = cose_slice_(NULL);", f"        cose_{self.name}_.{field}_length = 0;"]
        return lines

    def declared(self, in_wrapper):
        """Its declarations, of a slice two."""
        if self.is_slice or self.is_room:
            # on each target the library's lengths have 64 bits
            length = "size_t" if in_wrapper else "uint64_t"
            return [f"{'const ' if self.is_slice else ''}uint8_t *{self.name}", f"{length} {self.length}"]
        if self.is_kind and in_wrapper:
            return ["enum cose_kind_number kind"]
        struct = re.search(r"Cose\w+", self.kind)
        if struct:
            name = next(it.in_c for it in source.structs() if it.name == struct[0])
            return [f"{'' if 'mut' in self.kind else 'const '}struct {name} *{self.name}"]
        return [f"uint8_t *{self.name}" if self.kind == "*mut u8" else f"{NUMBERS[self.kind]} {self.name}"]

    @property
    def length(self):
        return f"{self.name}_room" if self.is_room else f"{self.name}_length"

    def tests(self):
        """What is true where it is NULL with a length."""
        if self.is_stated:
            return [f"cose_is_null_({self.name}->{field}, {self.name}->{field}_length)" for field in self.slices()]
        return [f"cose_is_null_({self.name}, {self.length})"] if self.is_slice or self.is_room else []

    def passed(self):
        """What the library gets."""
        if self.is_slice or self.is_room:
            return [f"cose_{'room' if self.is_room else 'slice'}_({self.name})", self.length]
        return ["cose_kind_(kind)"] if self.is_kind else [f"&cose_{self.name}_"] if self.is_stated or self.is_shared else [self.name]

    def nothing(self):
        """What it gets in a call with nothing."""
        if self.is_slice or self.is_room:
            return [f"cose_{'room' if self.is_room else 'slice'}_(NULL)", "0"]
        if self.is_kind or self.name == "alg":
            return ["COSE_NO_KIND_" if self.is_kind else "COSE_NO_ALG_"]
        return ["0"] if self.kind in NUMBERS else self.passed()


def wrapped(text, indent):
    lines = textwrap.wrap(text, WIDTH, initial_indent=indent, subsequent_indent=indent + "    ", break_long_words=False, break_on_hyphens=False)
    return "\n".join(lines)


def declaration(export, name, parameters, in_wrapper):
    listed = [it for each in parameters for it in each.declared(in_wrapper)] or ["void"]
    result = NUMBERS[export.result] if export.result else "void"
    # no parameter is cut
    text = ", ".join(it.replace(" ", "\0") for it in listed)
    return wrapped(f"{'static inline ' if in_wrapper else ''}{result} {name}({text})", "").replace("\0", " ")


def bad_argument(parameters):
    """The lines by which an answer, if there is one, says that an argument is NULL."""
    out = next((it for it in parameters if it.is_out), None)
    if out is None:
        return []
    status = {"u8": "status", "CoseStatus": "status.status"}.get(out.fields().get("status"))
    lines = [f"        memset({out.name}, 0, sizeof *{out.name});"]
    return lines + [f"        {out.name}->{status} = COSE_BAD_ARGUMENT;"] if status else lines


def answer_to_null(export, parameters):
    """The lines that a function for NULL has where one is NULL."""
    if CLOSING.match(export.name):
        # a struct of no size is of no version: the library refuses it
        unsized = [line for it in parameters if it.is_stated for line in it.unsized()]
        nothing = ", ".join(it for each in parameters for it in each.nothing())
        call = wrapped(f"{export.name}({nothing});", "        ")
        names = {it.name for it in parameters}
        if unsized or names & {"kind", "alg"}:
            return [*unsized, call, "        return;"]
        return [f"{call} /* the block has nothing then */", *bad_argument(parameters), "        return;"]
    if export.result:
        return ["        return 0;"]
    return [*bad_argument(parameters), "        return;"]


def wrapper(export):
    """The function that takes NULL, of an export with a slice."""
    parameters = [Parameter(*it) for it in export.parameters]
    lines = [declaration(export, export.name.replace("_edge", "", 1), parameters, True), "{"]
    stated = [it for it in parameters if it.is_stated]
    copied = [it for it in parameters if it.is_stated or it.is_shared]
    lines += [f"    {it.declared(True)[0].split(' *')[0].replace('const ', '')} cose_{it.name}_ = *{it.name};" for it in copied]
    tests = [it for each in parameters for it in each.tests()]
    if tests:
        condition = f"    if ({' || '.join(tests)}) {{"
        lines.append(condition if len(condition) <= WIDTH and len(tests) < 4 else "    if (" + " ||\n        ".join(tests) + ") {")
        lines += [*answer_to_null(export, parameters), "    }"]
    lines += [f"    cose_{it.name}_.{field} = cose_slice_({it.name}->{field});" for it in stated for field in it.slices()]
    # a slice that an answer has is one before it is written too
    for it in parameters:
        if it.is_out:
            lines += [line for field in it.slices() for line in (f"    {it.name}->{field} = cose_slice_(NULL);", f"    {it.name}->{field}_length = 0;")]
    passed = ", ".join(it for each in parameters for it in each.passed())
    return "\n".join([*lines, wrapped(f"{'return ' if export.result else ''}{export.name}({passed});", "    "), "}"])


def of_sizes():
    """The calls of a verifier that are there in several sizes, each with those sizes."""
    exports = source.exports()
    names = {it.name.replace("_edge", "", 1) for it in exports} | {"cose_large_wipe", "cose_device_wipe"}
    for it in [*exports, WIPE]:
        name = it.name.replace("_edge", "", 1)
        sizes = [size for size in ("large", "device") if name.replace("cose_", f"cose_{size}_", 1) in names]
        if sizes and it.parameters and it.parameters[0][1] == "&mut CoseVerifier":
            yield it, name.removeprefix("cose_"), sizes


def overloads():
    """For C++: a function of the small size's name for each other size."""
    for it, short, sizes in of_sizes():
        for size in sizes:
            handle = ("verifier", f"&mut Cose{size.title()}Verifier")
            parameters = [Parameter(*pair) for pair in (handle, *it.parameters[1:])]
            passed = ", ".join(word.split()[-1].lstrip("*") for each in parameters for word in each.declared(True))
            if it.result:
                yield "COSE_MUST_USE_"
            yield declaration(it, f"cose_{short}", parameters, True).removeprefix("static ")
            yield "{"
            yield f"    {'return ' if it.result else ''}cose_{size}_{short}({passed});"
            yield "}"


def by_size():
    """One set of calls for all sizes: the type of the handle says which is called."""
    yield "#ifdef __cplusplus"
    yield from overloads()
    yield "#elif defined(__STDC_VERSION__) && __STDC_VERSION__ >= 201112L"
    yield "#define COSE_OF_TWO_(verifier, call) _Generic((verifier), struct cose_large_verifier *: cose_large_##call, default: cose_##call)"
    yield "#define COSE_OF_(verifier, call) \\"
    yield "    _Generic((verifier), struct cose_large_verifier *: cose_large_##call, \\"
    yield "        struct cose_device_verifier *: cose_device_##call, default: cose_##call)"
    for it, short, sizes in of_sizes():
        chosen = f"{'COSE_OF_' if 'device' in sizes else 'COSE_OF_TWO_'}(verifier, {short})"
        others = len(it.parameters) > 1
        yield f"#define cose_{short}(verifier{', ...' if others else ''}) {chosen}(verifier{', __VA_ARGS__' if others else ''})"
    yield "#endif"


def in_header(text):
    """The header with what is made in it."""
    for export in source.exports():
        parameters = [Parameter(*it) for it in export.parameters]
        declared = declaration(export, export.name, parameters, False) + ";"
        name = export.name.replace("_edge", "", 1)
        made = wrapper(export) if name != export.name else None
        text, count = re.subn(rf"^\w+ {export.name}\([^)]*\);", lambda _: declared, text, flags=re.M)
        if not count:
            comment = wrapped(f"/** {export.text} */", "").replace("\n    ", "\n * ")
            used = "COSE_MUST_USE_\n" if export.result else ""
            added = f"{used}{declared}\n\n{comment}\n{used}{made}\n" if made else f"{comment}\n{used}{declared}\n"
            text = text.replace(LAST, f"{added}\n{LAST}")
        elif made:
            text = re.sub(rf"^static inline \w+ {name}\([^)]*\)\n\{{\n.*?^\}}", lambda _: made, text, flags=re.M | re.S)
    return text
