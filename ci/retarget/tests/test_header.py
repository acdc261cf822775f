"""Tests of include/cose.h: its lengths have 64 bits on each target, and so have the slots of its pointers."""
import pathlib
import re
import unittest

from retarget.rules import WANTED, WEAK

HEADER = pathlib.Path(__file__).resolve().parents[3] / "include" / "cose.h"
TEXT = re.sub(r"/\*.*?\*/", "", HEADER.read_text(), flags=re.S)
# what the header has for targets with 32-bit pointers
SYMBOLS = re.search(r"^#if UINTPTR_MAX <= 0xffffffff\n.*?^#endif\n#endif\n", TEXT, re.M | re.S)[0]


class Header(unittest.TestCase):
    """Declarations, structs and symbols."""

    def test_declarations(self):
        declared = re.findall(r"^\w+ cose_\w+\([^{}]*?\);", TEXT, re.M)
        self.assertGreater(len(declared), 50)
        self.assertFalse([it for it in declared if "size_t" in it])

    def test_structs(self):
        structs = re.findall(r"^struct cose_\w+ \{\n(.*?)^\};", TEXT, re.M | re.S)
        self.assertGreater(len(structs), 10)
        for body in structs:
            self.assertNotIn("size_t", body)
            pointers = [line for line in body.splitlines() if "*" in line]
            self.assertFalse([line for line in pointers if not re.fullmatch(r" +COSE_SLOT_\((?:const )?\w+ \*\w+\); *", line)])
        # (slots on one line would have one name, which no compiler takes)
        self.assertIn("#define COSE_SLOT_(pointer) union { pointer; uint64_t COSE_NUMBERED_(__LINE__); }\n", TEXT)

    def test_symbols(self):
        self.assertIn(f"const uint8_t {WANTED[1:]} = 1;\n", SYMBOLS)
        for name in WEAK.values():
            self.assertIn(f"void {name[1:]}(void)\n{{", SYMBOLS)


if __name__ == "__main__":
    unittest.main()
