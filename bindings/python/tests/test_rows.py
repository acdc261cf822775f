"""The rows of rows/, a test a file."""

import unittest

import rows
import stated_rows


class Rows(unittest.TestCase):
    """Each row that the interface can ask is answered as it says."""

    # how many rows of each file are left out, so that no more are
    LEFT_OUT = {
        "messages": 68,
        "further_messages": 11,
        "detached": 7,
        "elsewhere": 0,
        "shapes": 7,
        "tokens": 4,
        "claims": 23,
        "terms": 0,
        "checklist": 0,
        "keys": 2,
        "sets": 11,
        "made": 1,
        "signed": 1,
    }

    # those of the checklist with a detached payload
    DETACHED = 5
    # those of terms with labels that are understood, or that are refused for another reason than NoKey
    WITHOUT_KEY = 7

    def test_rows(self) -> None:
        for schema, left_out in self.LEFT_OUT.items():
            with self.subTest(schema):
                counts = rows.run_file(schema)
                self.assertEqual(counts.differ, [])
                self.assertEqual(sum(counts.left_out.values()), left_out, counts.left_out)
                self.assertGreater(counts.rows, left_out)

    def test_table(self) -> None:
        """Each row of terms goes through a table too, and each of the checklist without such a payload."""
        stated_rows.through_table.clear()
        stated_rows.asked_for_key.clear()
        terms, checklist = rows.run_file("terms"), rows.run_file("checklist")
        self.assertEqual(terms.differ + checklist.differ, [])
        through = stated_rows.through_table
        self.assertEqual(through["terms"], terms.rows)
        self.assertEqual(checklist.rows - through["checklist"], self.DETACHED)
        self.assertEqual(terms.rows - stated_rows.asked_for_key["terms"], self.WITHOUT_KEY)


if __name__ == "__main__":
    unittest.main()
