"""Each request for memory of a run is refused in turn: each such run prints `fault memory` alone and ends with 2.

In a sequence it may follow the lines of messages. One request for the parts of a list is for more than they need, and where it is
refused less is asked for: that run goes on. The runs are rows of rows/commands.json: of each option of each command, and of each
kind of line that it prints, the one with most arguments that is accepted, and the one that isn't.
"""
import pathlib
import tempfile
import unittest

from support import UNPROVED, Case, command_rows, needs


def rows_to_try():
    found = {}
    # (what clap says of a command line is no answer of a command, and runs of hundreds of arguments have as many requests)
    rows = [row for row in command_rows() if not row.text.startswith(b"error: ") and len(row.arguments) < 20]
    for row in sorted(rows, key=lambda row: -len(row.arguments)):
        kinds = {line.split()[0] for line in row.text.splitlines() if row.text.isascii()}
        for part in row.options() | kinds:
            found.setdefault((row.arguments[0], part, row.status == 0), row)
    return {id(row): row for row in found.values()}.values()


@unittest.skipIf(UNPROVED, "the program without a proof has an allocator of its own")
@needs("cc")
class RefusedMemory(Case):
    def test_each_request_of_a_row(self):
        for row in rows_to_try():
            folder = pathlib.Path(tempfile.mkdtemp(dir=self.folder))
            for name, content in row.files.items():
                (folder / name).write_bytes(content)
            self.look_at_row(row, folder)

    def look_at_row(self, row, folder):
        spare, wanted = "--algs" in row.options(), (row.text, row.status)
        for nth, ended, is_refused in self.each_refusal(row.arguments, row.given, cwd=folder):
            with self.subTest(arguments=row.arguments, request=nth):
                if is_refused and not (spare and ended[:2] == wanted):
                    lines, fault, rest = ended.text.partition(b"fault memory\n")
                    self.assertEqual((ended.status, fault, rest), (2, b"fault memory\n", b""))
                    self.assertTrue(not lines or "--sequence" in row.options() and row.text.startswith(lines), lines)
                else:
                    self.assertEqual(ended[:2], wanted)
                    spare = spare and not is_refused
        self.assertGreater(nth, 1, "no request was refused")
