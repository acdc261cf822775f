"""Tests of the attributes of functions that are built for size."""
import re
import unittest

from retarget.inlining import APART, HOLDING, INLINED, OUT_OF_LINE, SHARED, STEPS, Inlining

from . import CONSTANT, HEAD, TAIL
from .test_rules import rewritten

GROUPS = TAIL.replace("attributes #1", "attributes #2 = { alwaysinline nounwind }\nattributes #3 = { noinline nounwind }\n"
                      "attributes #4 = { inlinehint nounwind }\nattributes #1")  # fmt: skip


def attributes(name, group, linkage="internal ", way="size"):
    """The attributes of a function of this name and group, after the rewriting."""
    text = f"{HEAD}{CONSTANT}define {linkage}void {name}(ptr %a) #{group} {{\nstart:\n  ret void\n}}\n{GROUPS}"
    lines = rewritten(text, way=way)
    number = next(line for line in lines if line.startswith("define")).split("#")[1].split()[0]
    return next(re.fullmatch(rf"attributes #{number} = \{{ (.*) \}}", line)[1] for line in lines if line.startswith(f"attributes #{number} "))


class Inlined(unittest.TestCase):
    """What is said of inlining is for speed; for size other functions are inlined."""

    def test_speed(self):
        self.assertEqual(attributes("@f", 0, way="speed"), "nounwind")
        self.assertEqual(attributes("@f", 2, way="speed"), "alwaysinline nounwind")
        self.assertEqual(attributes("@f", 3, way="speed"), "noinline nounwind")
        for name in SHARED:
            self.assertEqual(attributes(f'@"{name}::<=8>"', 0, way="speed"), "alwaysinline nounwind")
        for name in APART:
            self.assertEqual(attributes(f'@"{name}::<=8>"', 2, way="speed"), "noinline nounwind")

    def test_others(self):
        for group in 0, 2, 4:
            self.assertEqual(attributes("@f", group), "minsize optsize nounwind")
        self.assertEqual(attributes("@f", 3), "minsize noinline optsize nounwind")

    def test_named(self):
        for name in INLINED:
            self.assertEqual(attributes(f'@"{name}::<=8>"', 0), "alwaysinline optsize nounwind")
        for name in OUT_OF_LINE:
            self.assertEqual(attributes(f'@"{name}"', 2), "minsize noinline optsize nounwind")
        for name in HOLDING:
            self.assertEqual(attributes(f'@"{name}"', 0), "optsize nounwind")
            self.assertEqual(attributes(f'@"{name}"', 3), "noinline optsize nounwind")

    def test_hashing(self):
        self.assertEqual(attributes('@"sha2::block256::step"', 2), "alwaysinline optsize nounwind")
        self.assertEqual(attributes('@"sha2::block256::compress"', 0), "optsize nounwind")
        for name in STEPS:
            self.assertEqual(attributes(f'@"{name}"', 2), "noinline optsize nounwind")

    def test_exports(self):
        self.assertEqual(attributes("@cose_edge_open", 0, ""), "optsize nounwind")
        self.assertEqual(attributes('@"cose_c::open"', 0), "minsize optsize nounwind")

    def test_missing(self):
        for way, names in ("size", INLINED | OUT_OF_LINE | STEPS | HOLDING), ("speed", SHARED | APART):
            inlining = Inlining(GROUPS, way)
            for name in names:
                self.assertIn(name, inlining.missing())
                inlining.kind(f'@"{name}"', "0")
            self.assertEqual(inlining.missing(), [])


if __name__ == "__main__":
    unittest.main()
