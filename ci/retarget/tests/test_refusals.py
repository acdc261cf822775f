"""Tests of each refusal: modules that the rewriting can't do right."""
import unittest

from retarget.calls import check_calls
from retarget.forms import Refused
from retarget.rules import Rewriter
from retarget.targets import TARGETS

from . import CONSTANT, HEAD, TAIL, module


class Refusals(unittest.TestCase):
    """Each module differs in one line from one that is taken."""

    def refused(self, why, text):
        with self.assertRaises(Refused) as raised:
            Rewriter(TARGETS["thumbv7m"], "speed").rewrite(text)
        self.assertIn(why, str(raised.exception))

    def lines(self, why, *lines):
        for line in lines:
            with self.subTest(line):
                self.refused(why, module(line))

    def test_taken(self):
        self.assertTrue(Rewriter(TARGETS["thumbv7m"], "speed").rewrite(module()))

    def test_constant_with_a_pointer(self):
        for constant in (
            "@table = private unnamed_addr constant [1 x ptr] [ptr @bytes], align 8\n",
            '@pair = private unnamed_addr constant <{ [1 x i8], ptr }> <{ [1 x i8] c"a", ptr @bytes }>, align 8\n',
        ):
            self.refused("a global that isn't a constant of bytes", module(before=CONSTANT + constant))

    def test_global_that_is_written(self):
        for word in "global", "thread_local global":
            line = f"@bytes = internal {word} [2 x i8] zeroinitializer, align 1\n"
            self.refused("a global that isn't a constant of bytes", module(before=line))

    def test_call_by_a_pointer(self):
        self.lines("a form of call", "call void %a(i64 %n)", "%s = call i64 %a()")

    def test_address_of_a_function(self):
        self.lines("the address of a function", "store ptr @f, ptr %a, align 8", "call void @g(ptr @f)", "%s = icmp eq ptr @f, %a")

    def test_more_than_a_form(self):
        self.lines("a form of store", "store i64 0, ptr %a, align 8, !nontemporal !3")
        self.lines("a form of add", "%s = add i64 %n, 1, !tbaa !3")

    def test_inttoptr(self):
        self.lines("an operation that isn't known", "%s = inttoptr i64 %n to ptr")
        self.lines("a form of store", "store ptr inttoptr (i64 4096 to ptr), ptr %a, align 8")

    def test_ptrtoint(self):
        self.lines("an operation that isn't known", "%s = ptrtoint ptr %a to i64")

    def test_big_endian(self):
        self.refused("little-endian", module(head=HEAD.replace('"e-', '"E-')))

    def test_narrow_pointers(self):
        self.refused("pointers that don't have 64 bits", module(head=HEAD.replace("-m:e-", "-m:e-p:32:32-")))

    def test_other_target(self):
        self.refused("a module of another target", module(head=HEAD.replace("x86_64", "aarch64")))

    def test_no_layout(self):
        self.refused("without a data layout", module(head=""))

    def test_getelementptr_of_no_bytes(self):
        self.lines("a form of getelementptr", "%s = getelementptr ptr, ptr %a, i64 1", "%s = getelementptr i8, ptr %a, i32 1",
                   "%s = getelementptr { ptr, i64 }, ptr %a, i64 0, i32 1")  # fmt: skip

    def test_alloca_of_a_struct(self):
        self.lines("a form of alloca", "%s = alloca { ptr, i64 }, align 8", "%s = alloca [2 x ptr], align 8",
                   "%s = alloca i8, i64 %n, align 1")  # fmt: skip

    def test_aggregates(self):
        self.lines("a form of load", "%s = load { ptr, i64, i64 }, ptr %a, align 8", "%s = load [2 x ptr], ptr %a, align 8")
        self.lines("a form of store", "store { i64, { ptr, i64 } } %pair, ptr %a, align 8")

    def test_volatile_and_atomic(self):
        self.lines("a form of load", "%s = load volatile i8, ptr %a, align 1", "%s = load atomic i8, ptr %a acquire, align 1")
        self.lines("an operation that isn't known", "fence acquire")

    def test_vectors_of_pointers(self):
        self.lines("a form of load", "%s = load <2 x ptr>, ptr %a, align 16")

    def test_tail_calls_and_assembler(self):
        self.lines("an operation that isn't known", "musttail call void @g(ptr %a)", "tail call void @g(ptr %a)")
        self.lines("a form of call", 'call void asm sideeffect "", ""()')

    def test_memory(self):
        self.lines("a call of an intrinsic for memory", "call void @llvm.memset.p0.i64(ptr %a, i8 0, i64 %n, i1 true)")
        self.lines("a length that 32 bits don't hold", "call void @llvm.memset.p0.i64(ptr %a, i8 0, i64 4294967296, i1 false)")

    def test_intrinsics(self):
        self.lines("an intrinsic that isn't known", "%s = call i64 @llvm.objectsize.i64.p0(ptr %a, i1 false)")
        self.lines("an intrinsic that isn't known", "call void @llvm.memset.inline.p0.i64(ptr %a, i8 0, i64 8, i1 false)")

    def test_function_of_another_library(self):
        self.refused("a function that isn't defined here", module(tail=TAIL + "declare void @malloc(i64)\n"))

    def test_parameters(self):
        for attribute in "byval([16 x i8])", "sret([16 x i8])", "dereferenceable(8)", "align 16":
            start = f"define internal void @f(ptr {attribute} %a) #0 {{\nstart:\n"
            self.refused("a definition of a form that isn't known", module(start=start))

    def test_exported_pair(self):
        start = "define {} @f({}) #0 {{\nstart:\n"
        for result, parameters in ("void", "{ ptr, i64 } %a"), ("{ ptr, i64 }", "ptr %a"), ("void", "<4 x i32> %a"):
            self.refused("an exported function", module(start=start.format(result, parameters)))

    def test_attributes(self):
        self.refused("an attribute that isn't known", module(tail=TAIL.replace("inline-asm", 'inline-asm" "no-jump-tables"="true')))

    def test_unknown_lines(self):
        self.refused("a line of a module that isn't known", module(tail=TAIL + "%t = type { ptr, i64 }\n"))
        self.refused("a line of a module that isn't known", module(tail=TAIL + 'module asm "nop"\n'))
        self.refused("a function without an end", HEAD + "define internal void @f() #0 {\nstart:\n  ret void\n")

    def test_names_of_the_rewriting(self):
        self.refused("a name of the rewriting", module("%retarget.1 = add i64 %n, 1"))
        self.refused("a name of the rewriting", module(before=CONSTANT.replace("@bytes", "@cose_lengths_have_64_bits")))
        self.refused("a name of the rewriting", module("call void @cose_sha512_compress(ptr %a)"))

    def test_recursion(self):
        check_calls(module("call void @g(ptr %a)"))
        other = "define internal void @g(ptr %a) #0 {\nstart:\n  call void @f(ptr %a)\n  ret void\n}\n"
        start = 'define internal void @"cose_head::item::f"(ptr %a) #0 {\nstart:\n'
        check_calls(module('call void @"cose_head::item::f"(ptr %a)', start=start))
        # of cose_head the reader of items alone may
        walker = start.replace("item", "walker")
        own = module('call void @"cose_head::walker::f"(ptr %a)', start=walker)
        for text in module("call void @f(ptr %a)"), module("call void @g(ptr %a)", tail=other + TAIL), own:
            with self.assertRaises(Refused):
                check_calls(text)


if __name__ == "__main__":
    unittest.main()
