#!/usr/bin/env python3
"""Tests of ci/beside_gate, with the runner of Python's library: in a tree whose scripts only say that they were run."""
import pathlib
import shutil
import signal
import subprocess
import sys
import tempfile
import time
import unittest

sys.dont_write_bytecode = True
HERE = pathlib.Path(__file__).resolve().parent
CRATES = {"low": "low:", "mid": "mid: low", "cose_c": "cose_c staticlib: low kit", "top": "top: mid low  # no edits"}
EDITS = {"low": 1, "mid": 3, "cose_c": 5}
SCRIPTS = {
    # the fourth word is the part, and the last one the crate; a crate that has a file `passes` has an edit that isn't refused, and one that has `waits` takes a
    # minute, whatever it is sent
    "ci/wrong_bodies": """for crate; do :; done
echo "tries $crate $4" >>"$LOG"
[ "$crate" != cose_c ] || [ "$(cat crates/cose_c/out/incremental/kept)" = kept ]
[ ! -e "crates/$crate/waits" ] || {
    trap '' TERM
    sleep 60 &
    echo "$!" >"$LOG.waits"
    wait
}
count=$(ls "crates/$crate/wrong-bodies" | awk "NR % ${4#*/} == ${4%/*} % ${4#*/}" | wc -l)
[ ! -e "crates/$crate/passes" ] || {
    echo "wrong_bodies: $((count - 1)) of $count edits are refused, after 0 minutes"
    exit 1
}
echo "wrong_bodies: $count of $count edits are refused, after 0 minutes"
""",
    "ci/edge_archive": """[ -e crates/low/out/rlib/low.rlib/format ]
echo "archives $*" >>"$LOG"
[ "$(cat crates/cose_c/out/incremental/build/module)" = proved ]
echo kept >crates/cose_c/out/incremental/kept
echo archive >crates/cose_c/out/libcose_c.a
""",
    "ci/web_module": "echo module >bindings/js/cose.wasm\necho page >web/cose_wasm.js\n",
    "packaging/proof_record": 'echo "record of $1" >"$2.proof"\n',
}
WAIT = 20


def has_ended(number):
    """Whether a process has ended. (It stays until its parent asks for its status.)"""
    try:
        return pathlib.Path("/proc", number, "stat").read_text().rpartition(")")[2].split()[0] == "Z"
    except (FileNotFoundError, ProcessLookupError):
        return True


class Beside(unittest.TestCase):
    def setUp(self):
        self.top = pathlib.Path(tempfile.mkdtemp(prefix="test-beside-"))
        self.addCleanup(shutil.rmtree, self.top)
        (self.top / "crates.txt").write_text("\n".join(CRATES.values()))
        for crate in CRATES:
            folder = self.top / "crates" / crate
            (folder / "src").mkdir(parents=True)
            (folder / "src" / "lib.rt").write_text("//! A crate.\n")
            (folder / "wrong-bodies").mkdir()
            for number in range(EDITS.get(crate, 0)):
                (folder / "wrong-bodies" / f"{number}.edit").write_text("")
        for folder in ("ci", "packaging", "bindings/js", "web"):
            (self.top / folder).mkdir(parents=True)
        for path, text in SCRIPTS.items():
            script = self.top / path
            script.write_text("#!/bin/sh\nset -eu\n" + text)
            script.chmod(0o755)
        shutil.copy2(HERE / "beside_gate", self.top / "ci")
        self.told, self.log = self.top / "told", self.top / "log"
        self.told.mkdir()
        self.log.touch()

    def begin(self, *crates):
        command = [self.top / "ci" / "beside_gate", "--lanes", "2", self.told, *crates]
        self.process = subprocess.Popen(command, stdout=subprocess.PIPE, text=True, env={"PATH": "/usr/bin:/bin", "LOG": str(self.log)})
        self.addCleanup(self.process.kill)
        self.addCleanup(self.process.stdout.close)

    def tell(self, *lines):
        for line in lines:
            rlib = self.top / "crates" / line / "out" / "rlib" / f"{line}.rlib"
            if line in CRATES and "staticlib" not in CRATES[line]:
                rlib.mkdir(parents=True)
                (rlib / "format").touch()
            with open(self.told / "proved", "a") as file:
                print(line, file=file)

    def prove(self, crate):
        """Tells that the crate is proved, and leaves what its check has proved."""
        work = self.told / "proofs" / crate / "build"
        work.mkdir(parents=True)
        (work / "module").write_text("proved\n")
        self.tell(crate)

    def end(self):
        said, _ = self.process.communicate(timeout=WAIT)
        return self.process.returncode, said.splitlines()[-1].partition(", after")[0]

    def wait_for(self, line):
        for _ in range(WAIT * 10):
            if line in self.log.read_text().splitlines():
                return
            time.sleep(0.1)
        self.fail(f"nothing said '{line}'")

    def test_a_task_begins_when_its_crate_is_proved(self):
        self.begin()
        self.tell("low")
        self.wait_for("tries low 1/1")
        time.sleep(1)
        self.assertEqual(self.log.read_text(), "tries low 1/1\n")
        self.tell("mid")
        self.wait_for("tries mid 2/2")
        self.prove("cose_c")
        self.wait_for("tries cose_c 2/2")
        said = self.log.read_text().splitlines()
        self.assertLess(said.index("archives x86_64 thumbv7m wasm32"), said.index("tries cose_c 1/2"))
        self.tell("top", "ended")
        self.assertEqual(self.end(), (0, "beside_gate: 9 of 9 wrong bodies are refused"))

    def test_what_the_archives_leave_is_there_when_the_gate_has_ended(self):
        self.begin("cose_c")
        self.tell("low")
        self.prove("cose_c")
        self.wait_for("tries cose_c 2/2")
        time.sleep(1)
        out = self.top / "crates" / "cose_c" / "out"
        self.assertFalse(out.exists() or (self.told / "archives").exists())
        self.tell("ended")
        self.assertEqual(self.end(), (0, "beside_gate: 5 of 5 wrong bodies are refused"))
        self.assertTrue((self.told / "archives").exists())
        left = {"libcose_c.a": "archive", "libcose_c.a.proof": "record of cose_c", "incremental/kept": "kept"}
        self.assertEqual({it: (out / it).read_text().strip() for it in left}, left)
        self.assertEqual((self.top / "bindings" / "js" / "cose.wasm").read_text(), "module\n")
        self.assertEqual((self.top / "web" / "cose_wasm.js").read_text(), "page\n")

    def test_an_edit_that_is_not_refused_is_found(self):
        (self.top / "crates" / "mid" / "passes").touch()
        self.prove("cose_c")
        self.begin()
        self.tell("low", "mid", "ended")
        self.assertEqual(self.end(), (1, "beside_gate: 7 of 9 wrong bodies are refused"))

    def test_what_is_not_proved_is_not_done(self):
        self.begin("mid")
        self.tell("ended")
        self.assertEqual(self.end(), (2, "beside_gate: not done: wrong bodies of mid, part 1 of 2, wrong bodies of mid, part 2 of 2"))

    def test_signals_leave_no_process(self):
        (self.top / "crates" / "low" / "waits").touch()
        self.begin()
        self.tell("low")
        self.wait_for("tries low 1/1")
        waits = pathlib.Path(f"{self.log}.waits")
        while not (waits.exists() and waits.read_text().endswith("\n")):
            time.sleep(0.1)
        for number in (signal.SIGTERM, signal.SIGTERM, signal.SIGINT):
            self.process.send_signal(number)
            time.sleep(0.1)
        self.process.communicate(timeout=WAIT)
        self.assertEqual(self.process.returncode, 128 + signal.SIGTERM)
        for _ in range(WAIT * 10):
            if has_ended(waits.read_text().strip()):
                return
            time.sleep(0.1)
        self.fail("a process is left")

    def test_it_ends_with_a_gate_that_fails(self):
        self.begin()
        self.tell("ended failed")
        self.assertEqual(self.end(), (2, "beside_gate: the gate has failed, so what is beside it ends"))


if __name__ == "__main__":
    unittest.main(verbosity=0)
