"""Tests of the stack that is computed: small functions in C, compiled by the kit's clang, each with an array on its stack."""
import pathlib
import shutil
import subprocess
import tempfile
import unittest

from retarget import stack
from retarget.calls import NESTING
from retarget.targets import PROCESSORS, clang_options

RT = shutil.which("rt")
CLANG = RT and pathlib.Path(RT).resolve().parent.parent / "toolchain" / "bin" / "clang"
FUNCTION = "{linkage}__attribute__((noinline)) int {name}(int n) {{ volatile char room[{room}]; room[n] = 1; {calls} return room[0]; }}\n"


def function(name, room, calls="", linkage="static "):
    """A function in C that has so many bytes on its stack."""
    return FUNCTION.format(name=name, room=room, calls=calls, linkage=linkage)


@unittest.skipUnless(CLANG and CLANG.exists(), "there is no kit")
class Stack(unittest.TestCase):
    """What the calls of object files take."""

    def graph(self, source, target):
        with tempfile.TemporaryDirectory() as folder:
            path = pathlib.Path(folder, "out.o")
            options = [it for it in clang_options(target, "speed") if it != "-O3"]
            subprocess.run([CLANG, *options, "-O1", "-x", "c", "-", "-c", "-o", path], input=source, text=True, check=True)
            return stack.Graph(path.read_bytes())

    def test_deepest_path(self):
        source = function("low", 2000) + function("other", 300)
        source += function("high", 1000, "low(n); other(n); other(n);", "") + function("alone", 100, linkage="")
        for target in PROCESSORS:
            with self.subTest(target):
                graph = self.graph(source, target)
                most = graph.deepest()
                self.assertEqual(graph.exported, {"high", "alone"})
                self.assertEqual(most["high"][1], ("high", "low"))
                self.assertTrue(3000 <= most["high"][0] < 3100, most)
                self.assertTrue(100 <= most["alone"][0] < 150, most)

    def test_outside(self):
        source = "void outside(int n);\n" + function("high", 1000, "outside(n);", "")
        for target in PROCESSORS:
            with self.subTest(target):
                most = self.graph(source, target).deepest()
                self.assertTrue(1000 + stack.OUTSIDE <= most["high"][0] < 1100 + stack.OUTSIDE, most)

    def test_recursion(self):
        source = "int high(int n);\n" + function("low", 10, "high(n);") + function("high", 10, "low(n);", "")
        for target in PROCESSORS:
            with self.subTest(target), self.assertRaises(stack.StackError):
                self.graph(source, target).deepest()

    def test_nesting(self):
        source = f'static int item(int n) __asm__("{NESTING}read");\n'
        source += "static __attribute__((noinline)) int item(int n) { volatile char room[1000]; room[n] = 1;"
        source += "return n ? item(n - 1) + room[0] : room[0]; }\n" + function("high", 500, "item(n);", "")
        for target in PROCESSORS:
            for depth in 3, 8:
                with self.subTest(target, depth=depth):
                    most = self.graph(source, target).deepest(depth)["high"][0]
                    self.assertTrue(1000 * (depth + 1) + 500 <= most < 1050 * (depth + 1) + 600, most)

    def test_not_an_object_file(self):
        for data in b"", b"\x7fELF\x02\x01" + bytes(100), b"\x7fELF\x01\x02" + bytes(100):
            with self.assertRaises(stack.StackError):
                stack.Graph(data)

    def test_promises(self):
        names = ("large_verify", "large_feed", "verify", "admit", "feed", "device_feed", "claims")
        names = [f"cose_edge_{it}" for it in names]
        for way, wanted in (
            ("speed", (163840, 6144, 8192, 8192, 5120, 4096, 7168)),
            ("size", (163840, 8192, 11264, 12288, 8192, 7168, 9216)),
        ):
            self.assertEqual(tuple(stack.promised(it, way) for it in names), wanted)
            self.assertEqual(stack.promised("cose_edge_table_verify_cwt", way), wanted[2])
            self.assertEqual(stack.promised("cose_edge_verify_eddsa", way), wanted[3])
            self.assertEqual(stack.promised("cose_edge_table_read", way), wanted[4])


if __name__ == "__main__":
    unittest.main()
