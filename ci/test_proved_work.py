#!/usr/bin/env python3
"""Tests of ci/proved_work.py, with the runner of Python's library: in folders that look like those of the toolchain's checks."""
import pathlib
import shutil
import sys
import tempfile
import unittest

sys.dont_write_bytecode = True
import proved_work  # noqa: E402 (beside this file)

MODULE = "Rattle-low-proofs.one.oantt"


class Work(unittest.TestCase):
    def setUp(self):
        self.top = pathlib.Path(tempfile.mkdtemp(prefix="test-proved-"))
        self.addCleanup(shutil.rmtree, self.top)
        self.addCleanup(setattr, tempfile, "tempdir", tempfile.tempdir)
        tempfile.tempdir = str(self.top)
        self.room = self.top / proved_work.ROOM.format(7)
        (self.room / "long").mkdir(parents=True)
        self.work = proved_work.ProvedWork(self.top / "proofs")
        self.work.build = "build"

    def test_what_a_check_leaves_stays_under_the_name_of_its_crate(self):
        (self.room / MODULE).write_text("one")
        (self.room / "notes").write_text("no module")
        self.work.take("low", [7, 8])
        (self.room / "long" / MODULE).write_text("two")
        self.work.take("low", [7])
        shutil.rmtree(self.room)
        self.work.take("low", [7])
        self.assertFalse((self.work.folder / "low").exists())
        self.work.end("low")
        left = {str(it.relative_to(self.work.folder)): it.read_text() for it in self.work.folder.rglob("*") if it.is_file()}
        self.assertEqual(left, {f"low/build/{MODULE}": "one", f"low/build/long/{MODULE}": "two"})

    def test_nothing_is_kept_where_the_toolchain_has_no_such_folder(self):
        (self.room / MODULE).write_text("one")
        self.work.build = None
        self.work.take("low", [7])
        self.work.end("low")
        self.assertFalse(self.work.folder.exists())

    def test_a_link_is_put_in_place_of_another_file(self):
        one, other = self.top / "one", self.top / "other"
        for folder, text in (one, "of the gate"), (other, "of a batch"):
            (folder / "build").mkdir(parents=True)
            (folder / "build" / MODULE).write_text(text)
        (other / "build" / "records").write_text("of a batch")
        for _ in range(2):
            proved_work.link_over(one, other)
        self.assertTrue((other / "build" / MODULE).samefile(one / "build" / MODULE))
        self.assertEqual((other / "build" / "records").read_text(), "of a batch")


if __name__ == "__main__":
    unittest.main(verbosity=0)
