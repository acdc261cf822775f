"""Tests of the symbol that keeps a program with other prototypes from linking: small programs, compiled and linked by the kit."""
import pathlib
import shutil
import subprocess
import tempfile
import unittest

from retarget.rules import WANTED, Rewriter
from retarget.targets import PROCESSORS, TARGETS, clang_options

from . import module
from .test_header import SYMBOLS

RT = shutil.which("rt")
BIN = RT and pathlib.Path(RT).resolve().parent.parent / "toolchain" / "bin"
LINKERS = {"riscv32imac": "elf32lriscv"}
# the kit has no header of C
PROGRAM = """\
#define UINTPTR_MAX __UINTPTR_MAX__
typedef __UINT8_TYPE__ uint8_t;
typedef __UINT64_TYPE__ uint64_t;
typedef __SIZE_TYPE__ size_t;
{header}
void cose_edge_f(const uint8_t *at, size_t length, uint8_t byte);
int main(void) {{ cose_edge_f(0, 0, 0); return 0; }}
"""


@unittest.skipUnless(BIN and BIN.exists(), "there is no kit")
class Link(unittest.TestCase):
    """A library of one function, and a program that calls it."""

    def compile(self, target, folder, name, language, text):
        path = folder / name
        command = [BIN / "clang", *clang_options(target, "size"), "-x", language, "-", "-c", "-o", path]
        subprocess.run(command, input=text, text=True, check=True)
        return path

    def link(self, target, header):
        """The status and what the linker says."""
        text = Rewriter(TARGETS[target], "size").rewrite(module(start="define void @cose_edge_f(ptr %a, i64 %n, i8 %b) #0 {\nstart:\n"))
        with tempfile.TemporaryDirectory() as where:
            folder = pathlib.Path(where)
            library = self.compile(target, folder, "library.o", "ir", text)
            archive = folder / "library.a"
            subprocess.run([BIN / "llvm-ar", "rcsD", archive, library], check=True)
            program = self.compile(target, folder, "main.o", "c", PROGRAM.format(header=header))
            machine = LINKERS.get(target, "armelf")
            command = [BIN / "ld.lld", "-m", machine, "--gc-sections", "-e", "main", program, archive, "-o", folder / "out"]
            run = subprocess.run(command, capture_output=True, text=True)
        return run.returncode, run.stderr

    def test_link(self):
        for target in PROCESSORS:
            with self.subTest(target):
                status, said = self.link(target, SYMBOLS)
                self.assertEqual((status, said), (0, ""))
                status, said = self.link(target, "")
                self.assertEqual(status, 1)
                self.assertIn(f"undefined symbol: {WANTED[1:]}", said)


if __name__ == "__main__":
    unittest.main()
