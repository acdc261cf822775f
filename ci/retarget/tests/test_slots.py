"""Tests of the search for memory that is both a pointer and a number."""
import unittest

from retarget.forms import Refused
from retarget.slots import check_slots

from . import module

SLOT = ("%s = alloca [16 x i8], align 8", "store ptr %a, ptr %s, align 8")


class Slots(unittest.TestCase):
    """Places of pointers, alone and with a number."""

    def mixed(self, *lines):
        with self.assertRaises(Refused) as raised:
            check_slots(module(*lines))
        self.assertIn("is a pointer and a", str(raised.exception))

    def test_counts(self):
        self.assertEqual(check_slots(module()), 0)
        self.assertEqual(check_slots(module(*SLOT, "%t = load ptr, ptr %s, align 8")), 1)
        self.assertEqual(check_slots(module("%p = load { ptr, i64 }, ptr %a, align 8")), 1)

    def test_number_beside(self):
        self.assertEqual(check_slots(module(*SLOT, "%t = getelementptr i8, ptr %s, i64 8", "store i64 %n, ptr %t, align 8")), 1)

    def test_number_there(self):
        self.mixed(*SLOT, "%t = load i64, ptr %s, align 8")

    def test_number_in_the_upper_half(self):
        self.mixed(*SLOT, "%t = getelementptr i8, ptr %s, i64 4", "%u = load i32, ptr %t, align 4")
        self.mixed(*SLOT, "%t = getelementptr i8, ptr %s, i64 5", "%u = getelementptr i8, ptr %t, i64 2", "%v = load i8, ptr %u, align 1")

    def test_number_over_it(self):
        self.mixed("%p = getelementptr i8, ptr %a, i64 8", "store ptr %a, ptr %p, align 8", "%v = load <16 x i8>, ptr %a, align 1")

    def test_pointer_across(self):
        self.mixed(*SLOT, "%t = getelementptr i8, ptr %s, i64 4", "%u = load ptr, ptr %t, align 1")

    def test_pair(self):
        self.mixed(*SLOT, "store { i64, i64 } zeroinitializer, ptr %s, align 8")

    def test_two_functions(self):
        other = "define internal void @g(ptr %a) #0 {\nstart:\n  %s = load i64, ptr %a, align 8\n  ret void\n}\n"
        self.assertEqual(check_slots(module("%p = load ptr, ptr %a, align 8", tail=other)), 1)


if __name__ == "__main__":
    unittest.main()
