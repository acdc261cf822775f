"""How the program and the shared object are linked."""
import os
import pathlib
import subprocess
import unittest

from support import PROGRAM, TOP, Case, needs

ARCHIVES = pathlib.Path(os.environ.get("COSE_LIB_DIR", TOP / "crates" / "cose_c" / "out"))


@needs("readelf")
class Hardening(Case):
    def read(self, option, path):
        return subprocess.run(["readelf", option, path], stdout=subprocess.PIPE, check=True, text=True).stdout

    def look(self, path):
        """It has no fixed address, its table of addresses is written only while it is loaded (full RELRO), its stack
        and data can't be executed, and it has no path of its own for libraries."""
        self.assertRegex(self.read("-hW", path), r"(?m)^ *Type: *DYN ")
        segments, dynamic = self.read("-lW", path), self.read("-dW", path)
        self.assertRegex(segments, r"(?m)^ *GNU_RELRO ")
        self.assertRegex(segments, r"(?m)^ *GNU_STACK .* RW  *0")
        self.assertNotRegex(segments, r"(?m)^ *[A-Z_]* *0x.* RWE ")
        self.assertRegex(dynamic, r"\(FLAGS\) *.*BIND_NOW")
        self.assertNotRegex(dynamic, r"\((TEXTREL|RPATH|RUNPATH)\)")

    def test_the_program_can_be_moved_and_its_data_is_no_code(self):
        self.look(PROGRAM)
        self.assertRegex(self.read("-dW", PROGRAM), r"\(FLAGS_1\) .*PIE")

    @needs("cc")
    @unittest.skipUnless((ARCHIVES / "libcose_c.a").exists(), f"there is no archive in {ARCHIVES}")
    def test_the_shared_object_can_be_moved_and_its_data_is_no_code(self):
        environment = {**os.environ, "COSE_LIB_DIR": str(ARCHIVES)}
        words = [TOP / "install", "--prefix", self.folder]
        subprocess.run(words, env=environment, check=True, stdout=subprocess.DEVNULL)
        self.look(self.folder / "lib" / "libcose.so")
