"""Tests of each rule: what the rewriting makes of a line."""
import unittest

from retarget.rules import Rewriter
from retarget.targets import PROCESSORS, TARGETS, clang_options

from . import CONSTANT, module


def rewritten(text, target="thumbv7m", way="speed", poison=False):
    """The lines of a rewritten module, without the spaces before them."""
    return [line.strip() for line in Rewriter(TARGETS[target], way, poison).rewrite(text).splitlines()]


class Rules(unittest.TestCase):
    """Each test has the lines that come of one line, in their order."""

    def gives(self, line, *wanted, **options):
        lines = rewritten(module(line), **options)
        start = lines.index("start:") + 1
        self.assertEqual(lines[start : lines.index("ret void")], list(wanted))

    def same(self, line):
        self.gives(line, line)

    def test_layout_and_triple(self):
        for name, target in TARGETS.items():
            lines = rewritten(module(), name)
            self.assertEqual(lines[0], f'target datalayout = "{target.layout}"')
            self.assertEqual(lines[1], f'target triple = "{target.triple}"')
            self.assertIn("-p:32:32", target.layout)

    def test_slot_on_the_stack(self):
        self.gives("%s = alloca ptr, align 8", "%s = alloca [8 x i8], align 8")

    def test_other_alloca(self):
        self.same("%s = alloca [24 x i8], align 8")
        self.same("%s = alloca i64, align 8")

    def test_alignment(self):
        self.gives("%s = alloca [480 x i8], align 16", "%s = alloca [480 x i8], align 8")
        self.gives("%s = load <16 x i8>, ptr %a, align 64", "%s = load <16 x i8>, ptr %a, align 8")
        self.gives("store i128 0, ptr %a, align 16", "store i128 0, ptr %a, align 8")
        self.same("%s = load i8, ptr %a, align 1")

    def test_load(self):
        self.same("%s = load ptr, ptr %a, align 8, !noundef !1")
        self.same("%s = load i1, ptr %a, align 1, !range !2, !noundef !1")

    def test_load_of_a_pair(self):
        self.gives(
            "%s = load { ptr, i64 }, ptr %a, align 8",
            "%retarget.1 = load ptr, ptr %a, align 8",
            "%retarget.3 = getelementptr i8, ptr %a, i64 8",
            "%retarget.2 = load i64, ptr %retarget.3, align 8",
            "%retarget.4 = insertvalue { ptr, i64 } poison, ptr %retarget.1, 0",
            "%s = insertvalue { ptr, i64 } %retarget.4, i64 %retarget.2, 1",
        )

    def test_offsets_of_pairs(self):
        for kind, offset, align in ("{ i64, i64 }", 8, 8), ("{ i8, i32 }", 4, 4), ("{ i32, ptr }", 8, 8), ("{ i8, i8 }", 1, 1):
            second = kind.strip("{ }").split(", ")[1]
            lines = rewritten(module(f"%s = load {kind}, ptr %a, align 8"))
            self.assertIn(f"%retarget.3 = getelementptr i8, ptr %a, i64 {offset}", lines)
            self.assertIn(f"%retarget.2 = load {second}, ptr %retarget.3, align {align}", lines)

    def test_store_of_a_pair(self):
        self.gives(
            "store { ptr, i64 } %pair, ptr %a, align 1",
            "%retarget.1 = extractvalue { ptr, i64 } %pair, 0",
            "%retarget.2 = extractvalue { ptr, i64 } %pair, 1",
            "store ptr %retarget.1, ptr %a, align 1",
            "%retarget.3 = getelementptr i8, ptr %a, i64 8",
            "store i64 %retarget.2, ptr %retarget.3, align 1",
        )
        for kind, align in ("{ i64, i64 }", 8), ("{ i8, i32 }", 4), ("{ i64, i8 }", 1):
            second = kind.strip("{ }").split(", ")[1]
            lines = rewritten(module(f"store {kind} %pair, ptr %a, align 8"))
            self.assertIn(f"store {second} %retarget.2, ptr %retarget.3, align {align}", lines)

    def test_poison(self):
        above = "%retarget.1 = getelementptr i8, ptr %a, i64 4"
        self.gives("store ptr @bytes, ptr %a, align 8", "store ptr @bytes, ptr %a, align 8", above,
                   "store i32 3735928559, ptr %retarget.1, align 1", poison=True)  # fmt: skip
        self.gives("store i64 %n, ptr %a, align 8", "store i64 %n, ptr %a, align 8", poison=True)

    def test_memory_of_a_length(self):
        self.gives("call void @llvm.memset.p0.i64(ptr %a, i8 0, i64 72, i1 false)",
                   "call void @llvm.memset.p0.i32(ptr %a, i8 0, i32 72, i1 false)")  # fmt: skip
        self.gives("call void @llvm.memmove.p0.p0.i64(ptr %a, ptr @bytes, i64 2, i1 false)",
                   "call void @llvm.memmove.p0.p0.i32(ptr %a, ptr @bytes, i32 2, i1 false)")  # fmt: skip

    def test_memory_of_a_length_that_varies(self):
        self.gives("call void @llvm.memset.p0.i64(ptr %a, i8 %b, i64 %n, i1 false)", "%retarget.1 = trunc i64 %n to i32",
                   "call void @llvm.memset.p0.i32(ptr %a, i8 %b, i32 %retarget.1, i1 false)")  # fmt: skip

    def test_declarations(self):
        lines = rewritten(module())
        self.assertIn("declare void @llvm.memset.p0.i32(ptr writeonly captures(none), i8, i32, i1 immarg) #1", lines)
        self.assertFalse([line for line in lines if "memset.p0.i64" in line or "memmove.p0.p0.i64" in line])

    def test_address_as_a_number(self):
        self.gives("%s = ptrtoaddr ptr %a to i64", "%s = ptrtoint ptr %a to i64")

    def test_results(self):
        start = "define{} i8 @f(ptr %a, i64 %n) #0 {{\nstart:\n"
        for linkage, wanted in (" noundef", "define noundef zeroext i8 @f("), (" internal", "define internal i8 @f("):
            lines = rewritten(module(start=start.format(linkage)))
            self.assertTrue(any(line.startswith(wanted) for line in lines), lines)
        whole = module(start="define noundef i64 @f(ptr %a, i64 %n) #0 {\nstart:\n")
        self.assertIn("define noundef i64 @f(ptr %a, i64 %n) #0 {", rewritten(whole))

    def test_attributes(self):
        self.assertIn("attributes #0 = { nounwind }", rewritten(module()))
        small = rewritten(module(), way="size")
        self.assertIn("attributes #2 = { minsize optsize nounwind }", small)
        self.assertIn("attributes #1 = { nounwind memory(argmem: write) }", small)

    def test_what_stays(self):
        for line in (
            "%s = getelementptr inbounds nuw i8, ptr %a, i64 %n",
            "%s = add nuw i64 %n, -8",
            "%s = icmp ult i64 %n, 4",
            "%s = select i1 true, ptr %a, ptr null",
            "%s = zext i8 %b to i64",
            "%s = extractvalue { ptr, i64 } %pair, 1",
            'call void @"g::<[u8; 4]>"(ptr %a, i8 zeroext %b, i64 4)',
            "br label %end",
        ):
            self.same(line)

    def test_cases(self):
        lines = ["switch i8 %b, label %one [", "i8 0, label %one", "]"]
        text = rewritten(module(*lines))
        self.assertEqual(text[text.index("start:") + 1 :][:3], lines)

    def test_weak(self):
        other = 'define internal void @"sha2::block512::compress"(ptr %a) #0 {\nstart:\n  ret void\n}\n'
        text = module('call void @"sha2::block512::compress"(ptr %a)', before=CONSTANT + other)
        lines = rewritten(text)
        self.assertIn("define weak hidden void @cose_sha512_compress(ptr %a) #0 {", lines)
        self.assertIn("call void @cose_sha512_compress(ptr %a)", lines)
        self.assertIn('define internal void @"sha2::block512::compress"(ptr %a) #0 {', rewritten(text, "wasm32"))

    def test_numbers_with_a_point(self):
        """A processor that may have a unit for floats is compiled for as if it had none."""
        options = clang_options("thumbv7em", "speed")
        self.assertIn("-mfloat-abi=soft", options)
        for name in PROCESSORS:
            self.assertFalse([it for it in clang_options(name, "size") if it.startswith(("-mfpu", "-mfloat-abi=")) and it != "-mfloat-abi=soft"])

    def test_symbol_of_the_header(self):
        for name, target in TARGETS.items():
            text = "\n".join(rewritten(module(), name))
            self.assertEqual(text.count("@cose_lengths_have_64_bits"), 2 * target.is_processor)
            self.assertEqual(text.count("@llvm.used = appending global [1 x ptr] [ptr @cose_layout]"), target.is_processor)


if __name__ == "__main__":
    unittest.main()
