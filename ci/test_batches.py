#!/usr/bin/env python3
"""Tests of ci/batches.py, with the runner of Python's library."""
import pathlib
import sys
import tempfile
import unittest

sys.dont_write_bytecode = True
from batches import Batch, Change, Function, batches, changes_of, checks, function_at  # noqa: E402 (beside this file)

SOURCE = """//! A module.

const MOST: u8 = 1;

pub fn first(a: u8) -> u8
    ensures { result ≡ a }
{
    a + 0
}

impl<const H: usize> Take for Reader<'_, H> {
    fn take(&mut self) -> u8 {
        self.a + 1
    }

    fn other(&self) -> u8 {
        self.a + 2
    }
}

impl Writer {
    /// Puts.
    #[inline]
    pub fn put(&self) -> u8 {
        self.a + 5
    }
}

pub(crate) trait Give {
    fn give(&self) -> u8 {
        3
    }
}

const LAST: u8 = 4;
"""
FILES = {"src/a/b.rt": SOURCE, "specs/A.antt": "a"}


def at(text):
    return function_at("src/a/b.rt", SOURCE, SOURCE.index(text))


def edit(old, new, file="src/a/b.rt"):
    return [Change(file, old, new)]


class Functions(unittest.TestCase):
    def test_a_function_of_the_module(self):
        self.assertEqual(at("a + 0"), Function("a::b", "", "first"))

    def test_a_method_has_its_type(self):
        self.assertEqual(at("self.a + 1"), Function("a::b", "Reader", "take"))
        self.assertEqual(at("self.a + 2"), Function("a::b", "Reader", "other"))

    def test_a_method_of_a_trait(self):
        self.assertEqual(at("        3"), Function("a::b", "Give", "give"))

    def test_what_is_in_no_function(self):
        self.assertIsNone(at("MOST"))
        self.assertIsNone(at("LAST"))

    def test_the_root_file_has_no_module(self):
        self.assertEqual(function_at("src/lib.rt", SOURCE, SOURCE.index("a + 0")), Function("", "", "first"))

    def test_whose_goal_it_is(self):
        take = Function("a::b", "Reader", "take", "Take")
        for path in "a::b::ReaderTake::take", "a::b::<Reader as Take>::take", "a::b::Reader::take::bytes":
            self.assertTrue(take.has(path), path)
        for path in "a::b::Reader::other", "a::c::Reader::take", "a::b::Writer::take", "b::Reader::take", "a::b::Readers::take":
            self.assertFalse(take.has(path), path)

    def test_the_path_of_a_check(self):
        self.assertEqual(at("self.a + 1").path(), "a::b::ReaderTake::take")
        self.assertEqual(at("a + 0").path(), "a::b::first")
        self.assertEqual(function_at("src/main.rt", SOURCE, SOURCE.index("        3")).path(), "Give::give")

    def test_the_path_of_a_method_of_a_trait(self):
        for impl, path in (
            ("impl From<AllocError> for Fault", "FaultFromAllocError::make"),
            ("impl<'t, 'a, const N: usize> Keys<'a> for &'t Table<'a, N>", "RefTableKeys::make"),
            ("impl<R: Files<File = File> + Eprint> NewFiles for Noted<'_, R>", "NotedNewFiles::make"),
            ("impl fmt::Display for Line", "LineDisplay::make"),
        ):
            text = impl + " {\n    fn make() {\n        7\n    }\n}\n"
            made = function_at("src/a.rt", text, text.index("7"))
            self.assertEqual(made.path(), f"a::{path}")
            self.assertTrue(made.has(f"a::{path}"))

    def test_the_file_of_the_answers(self):
        self.assertEqual(at("a + 0").answers(), "proofs/a/b/first/Answers.antt")
        self.assertEqual(at("self.a + 1").answers(), "proofs/a/b/ReaderTake/take/Answers.antt")
        text = "#[inline]\n#[cycle(items)]\n/// Reads.\nfn read() {\n    7\n}\n"
        for file, path in ("src/a.rt", "proofs/a/+items/Answers.antt"), ("src/lib.rt", "proofs/+items/Answers.antt"):
            self.assertEqual(function_at(file, text, text.index("7")).answers(), path)
        other = text + "\nfn write() {\n    8\n}\n"
        self.assertEqual(function_at("src/a.rt", other, other.index("8")).answers(), "proofs/a/write/Answers.antt")

    def test_a_method_is_of_the_module_of_its_type(self):
        types = {"Reader": ["a"], "Twice": ["a", "c"]}
        text = "impl Reader {\n    fn read() {\n        7\n    }\n}\n"
        self.assertEqual(function_at("src/a/b.rt", text, text.index("7"), types), Function("a", "Reader", "read"))
        text = text.replace("Reader", "Twice")
        self.assertEqual(function_at("src/a/b.rt", text, text.index("7"), types), Function("a::b", "Twice", "read"))

    def test_a_function_for_callers_in_c(self):
        text = '#[unsafe(no_mangle)]\npub extern "C" fn lent(a: u8) {\n    a + 5\n}\n'
        self.assertEqual(function_at("src/c.rt", text, text.index("a + 5")), Function("c", "", "lent"))

    def test_a_module_of_that_name_below_is_another(self):
        self.assertFalse(Function("a", "Reader", "b").has("a::b::Reader::take"))
        self.assertFalse(Function("a", "", "take").has("a::Reader::take"))
        self.assertTrue(Function("a", "", "take").has("a::take::bytes"))


class Batches(unittest.TestCase):
    def made(self, *edits):
        made, alone = batches([(str(number), changes) for number, changes in enumerate(edits)], FILES.get)
        return [sorted(batch.functions) for batch in made], alone

    def test_different_functions_share_a_batch(self):
        self.assertEqual(self.made(edit("a + 0", "a"), edit("self.a + 5", "1")), ([["0", "1"]], []))
        self.assertEqual(self.made(edit("self.a + 1", "a"), edit("self.a + 2", "1")), ([["0", "1"]], []))

    def test_those_that_are_copied_and_those_that_are_not_never_do(self):
        self.assertEqual(self.made(edit("a + 0", "a"), edit("self.a + 1", "1"), edit("        3", "4")), ([["0"], ["1", "2"]], []))

    def test_two_edits_of_one_function_never_do(self):
        self.assertEqual(self.made(edit("a + 0", "a"), edit("a + 0", "1"), edit("a + 0", "2")), ([["0"], ["1"], ["2"]], []))
        self.assertEqual(self.made(edit("a + 0", "a + 9"), edit("+ 9", "1")), ([["0"]], ["1"]))

    def test_a_text_has_to_stand_once_after_the_others(self):
        self.assertEqual(self.made(edit("self.a + 1", "a + 0"), edit("a + 0", "1")), ([["0"], ["1"]], []))

    def test_definitions_constants_and_unknown_texts_are_alone(self):
        self.assertEqual(self.made(edit("a", "b", "specs/A.antt"), edit("MOST", "LEAST"), edit("none", "")), ([], ["0", "1", "2"]))

    users = {
        "src/limits.rt": "pub const ROOM: usize = 8; // ROOM\npub const WIDTH: usize = 2;\nconst TEXT: &str = \"a\";\n\n"
        "fn text() -> &str {\n    TEXT\n}\n",
        "src/c.rt": "use crate::limits::{ROOM,\n    WIDTH};\n\nfn one() -> u8 {\n    ROOM\n}\n\nfn two() -> u8\n    ensures { true }\n"
        "{\n    crate::limits::ROOM + 1\n}\n\nfn three() -> [u8; WIDTH] {\n    four()\n}\n",
    }

    def test_a_constant_is_of_the_bodies_that_name_it(self):
        room = [Change("src/limits.rt", "ROOM: usize = 8", "ROOM: usize = 9")]
        width = [Change("src/limits.rt", "= 2;", "= 3;")]
        text = [Change("src/limits.rt", '"a"', '"b"')]
        one, three = [Change("src/c.rt", "    ROOM\n", "    0\n")], [Change("src/c.rt", "four()", "five()")]
        named = [Change("src/c.rt", "four()", "ROOM")]
        files = [("room", room), ("width", width), ("one", one), ("three", three), ("named", named), ("text", text)]
        made, alone = batches(files, self.users.get, list(self.users))
        self.assertEqual([sorted(it.functions) for it in made], [["room", "three"], ["named", "one"], ["text"]])
        self.assertEqual(made[0].functions["room"], {Function("c", "", "one"), Function("c", "", "two")})
        self.assertEqual(alone, ["width"])

    def test_a_number_stands_in_the_copies_in_place_of_its_name(self):
        for new, number in ("ROOM: usize = 9_000;", "9_000_usize"), ("ROOM: usize = (1 << 3) - 1;", "((1 << 3) - 1)"):
            batch = Batch(self.users.get, list(self.users))
            self.assertTrue(batch.take("room", [Change("src/limits.rt", "ROOM: usize = 8;", new)]))
            self.assertEqual(batch.sources(), {"src/c.rt": self.users["src/c.rt"].replace(
                "\n\nfn two", f"\n\nfn one_edited_0() -> u8 {{\n    {number}\n}}\n\nfn two").replace(
                "\n\nfn three", f"\n\nfn two_edited_0() -> u8\n    ensures {{ true }}\n{{\n    {number} + 1\n}}\n\nfn three")})

    def test_another_constant_is_changed_where_it_stands(self):
        batch = Batch(self.users.get, list(self.users))
        self.assertTrue(batch.take("text", [Change("src/limits.rt", '"a"', '"b"')]))
        self.assertEqual(batch.sources(), {"src/limits.rt": self.users["src/limits.rt"].replace('"a"', '"b"')})
        self.assertEqual(batch.paths(), ["limits::text"])

    def test_all_are_tried(self):
        edits = [edit("a + 0", str(number)) for number in range(9)] + [edit("MOST", "LEAST")]
        made, alone = self.made(*edits)
        self.assertEqual(sum(map(len, made)) + len(alone), len(edits))

    def batch(self, **changes):
        """A batch that takes all of these edits."""
        batch = Batch(FILES.get)
        for name, change in changes.items():
            self.assertTrue(batch.take(name, change), name)
        return batch

    def test_the_answers_of_the_functions_of_a_batch(self):
        batch = self.batch(one=edit("self.a + 1", "self.a + 9"), two=edit("self.a + 2", "self.a + 9"))
        self.assertEqual(batch.answers(["a::b::ReaderTake::take"]), ["proofs/a/b/ReaderTake/take/Answers.antt"])
        self.assertEqual(len(batch.answers(batch.paths())), 2)

    def test_a_method_of_a_trait_is_changed_where_it_stands(self):
        batch = self.batch(one=edit("self.a + 1", "self.a + 9"), two=edit("        3", "        4"))
        self.assertEqual(batch.sources(), {"src/a/b.rt": SOURCE.replace("self.a + 1", "self.a + 9").replace("        3", "        4")})
        self.assertEqual(batch.paths(), ["a::b::Give::give", "a::b::ReaderTake::take"])

    def test_functions_that_call_each_other_are_changed_where_they_stand(self):
        text = "#[cycle(items)]\nfn read() {\n    7\n}\n"
        batch = Batch({"src/a.rt": text}.get)
        self.assertTrue(batch.take("one", edit("7", "8", "src/a.rt")))
        self.assertEqual(batch.sources(), {"src/a.rt": text.replace("7", "8")})

    def test_a_function_of_other_parameters_is_changed_where_it_stands(self):
        batch = self.batch(one=[Change("src/a/b.rt", "first(a: u8)", "first(a: u8, b: u8)"), Change("src/a/b.rt", "a + 0", "a + b")])
        self.assertEqual(batch.sources(), {"src/a/b.rt": SOURCE.replace("first(a: u8)", "first(a: u8, b: u8)").replace("a + 0", "a + b")})

    def test_another_function_is_copied(self):
        batch = self.batch(one=edit("self.a + 5", "self.a + 9"), two=edit("a + 0", "a + 9"))
        first, put = SOURCE[SOURCE.index("pub fn first"):SOURCE.index("\nimpl<const")], SOURCE[SOURCE.index("    /// Puts."):]
        put = put[:put.index("}\n") + 2]
        copied = SOURCE.replace(put, put + "\n" + put.replace("5", "9").replace("fn put", "fn put_edited_0"))
        copied = copied.replace(first, first + "\n" + first.replace("0", "9").replace("fn first", "fn first_edited_0"))
        self.assertEqual(batch.sources(), {"src/a/b.rt": copied})
        self.assertEqual(batch.paths(), ["a::b::Writer::put_edited_0", "a::b::first_edited_0"])

    def test_batches_of_copies_are_one_check_in_which_each_edit_has_its_function(self):
        edits = [edit("a + 0", "a + 9"), edit("self.a + 1", "1"), edit("a + 0", "a + 8"), edit("self.a + 1", "2"), edit("a + 5", "a + 7")]
        made, _ = batches([(str(number), changes) for number, changes in enumerate(edits)], FILES.get)
        self.assertEqual([sorted(it.functions) for it in made], [["0", "4"], ["1"], ["2"], ["3"]])
        copied, *others = checks(made)
        self.assertEqual([sorted(it.functions) for it in others], [["1"], ["3"]])
        self.assertEqual(copied.paths(), ["a::b::Writer::put_edited_0", "a::b::first_edited_0", "a::b::first_edited_2"])
        lines = copied.sources()["src/a/b.rt"].split("\n")
        self.assertEqual([lines[lines.index(f"pub fn first{of}(a: u8) -> u8") + 3] for of in ("", "_edited_0", "_edited_2")],
                         ["    a + 0", "    a + 9", "    a + 8"])
        goals = [("a::b::first_edited_2", "returns"), ("a::b::Writer::put", "returns")]
        self.assertEqual(copied.refused(goals), {"0": [], "2": [("a::b::first", "returns")], "4": []})

    def test_an_edit_of_two_lines_has_one_copy(self):
        batch = self.batch(one=[*edit("result ≡ a", "result ≡ b"), *edit("a + 0", "a + 9")])
        (_, lines), = batch.copies["src/a/b.rt"]
        self.assertEqual(lines, ["pub fn first_edited_0(a: u8) -> u8", "    ensures { result ≡ b }", "{", "    a + 9", "}"])

    def test_a_copy_has_the_answers_of_its_function(self):
        answers = "use Rattle.c.proofs.a.b.Writer.put.Goals as goal\nuse Rattle.c.proofs.a.b.Writer.put_all.Goals as other\n"
        with tempfile.TemporaryDirectory() as folder:
            own = pathlib.Path(folder, "proofs/a/b/Writer/put")
            for it in own, pathlib.Path(folder, "src/a"):
                it.mkdir(parents=True)
            for name in "Answers.antt", "Invariants.antt":
                (own / name).write_text(answers)
            edits = [("one", edit("self.a + 5", "self.a + 9")), ("two", edit("self.a + 5", "self.a + 8"))]
            (check,) = checks(batches(edits, FILES.get)[0])
            check.write(folder)
            for name in "Answers.antt", "Invariants.antt":
                self.assertEqual((own / name).read_text(), answers)
                for copied in "put_edited_0", "put_edited_1":
                    self.assertEqual((own.with_name(copied) / name).read_text(), answers.replace("put.", f"{copied}."))

    def test_a_body_that_is_not_wrong_is_found(self):
        batch = self.batch(wrong=edit("self.a + 1", "self.a + 9"), right=edit("self.a + 2", "2 + self.a"))
        goals = [("a::b::ReaderTake::take", "returns"), ("a::b::first", "returns")]
        self.assertEqual(batch.refused(goals), {"wrong": goals[:1], "right": []})

    def test_a_goal_of_a_copy_is_one_of_its_function(self):
        batch = self.batch(wrong=edit("a + 0", "a + 9"), right=edit("self.a + 5", "5 + self.a"))
        goals = [("a::b::first_edited_0", "returns"), ("a::b::Writer::put", "returns"), ("a::b::Writer::put_edited_1", "returns")]
        self.assertEqual(batch.refused(goals), {"wrong": [("a::b::first", "returns")], "right": []})

    def test_the_text_of_an_edit(self):
        text = "a comment\nfile: src/a.rt\nold:  a\nnew: b\nold: c\nnew:\n"
        self.assertEqual(changes_of(text), [Change("src/a.rt", " a", "b"), Change("src/a.rt", "c", "")])


if __name__ == "__main__":
    unittest.main(verbosity=0)
