"""The command line: the examples of the help, files of payloads, sequences, small stacks, the script at the top."""
import os
import pathlib
import re
import resource
import shutil
import subprocess
import unittest

from support import (AUTHENTIC, KEY, KEYS, MESSAGE, PROGRAM, SIGNED, SIGNED_KEY, TOP, UNPROVED, Case, cbor, mac0)

VERIFY, UNDER_KEY, MAKE = f"verify {KEYS}", "verify --keys-file key", "make --alg 5 --key-file key --length"
WITH_FILE, APART = f"{VERIFY} --payload-file", mac0(b"hi", is_detached=True)
HI, NO_FILE = APART.authentic(), "fault file payload-file"
TOKEN = mac0(cbor({2: "erikw", 4: 1444064944}))
VERSION = re.search(r"^## ([0-9.]*)", (TOP / "CHANGELOG.md").read_text(), re.M)[1]
STACKS = re.search(r"^\| the stack \| `ulimit -s (\d+)` \| `ulimit -s (\d+)` \|$",
                   (TOP / "docs" / "COMMANDS.md").read_text(), re.M)


class CommandLine(Case):
    files = {"key": KEY, "keys": KEY, "message": MESSAGE, "payload": b"\xa1\x06\x00",
             "token": mac0(b"\xa1\x06\x00").encoded()}
    runs = {
        "the version is that of the changes": [("--version", b"", f"cosecmd {VERSION}")],
        "an argument that is not UTF-8": [
            (["verify", "--keys", b"\xff"], b"", "error: invalid UTF-8 was detected in one or more arguments", 2)],
        "a list of keys reads no input": [
            ("keys --keys-file key", pathlib.Path("/"), "key at 0 kty 4 usable\nusable 1 of 1")],
    }

    def test_the_example_in_the_help_of_each_command_succeeds(self):
        (self.folder / "cosecmd").symlink_to(PROGRAM)
        environment = {**os.environ, "PATH": f"{self.folder}:{os.environ['PATH']}"}
        for command in "show", "verify", "cwt", "make", "digest":
            if command == "digest":
                self.put("keys", SIGNED_KEY)
                self.put("message", SIGNED)
            text = self.program([command, "--help"]).text.decode()
            example = re.search(rf"^Example: (cosecmd {command} .*)$", text, re.M)[1]
            self.expect([example], b"", None, 0, command=["sh", "-c"], env=environment)


class Payloads(Case):
    """Files of the payload of a message that has nil in its place."""
    files = {"key": KEY}
    runs = {
        "a pipe isn't opened where its length isn't stated": [(f"{WITH_FILE} unwritten", APART, NO_FILE)],
        "a stream that is closed is none of the files that are opened": [
            (f"{UNDER_KEY} --payload-file key", b"", "fault input", {"closed": [0]})],
    }

    def setUp(self):
        super().setUp()
        os.mkfifo(self.folder / "unwritten")

    def test_a_pipe_whose_length_is_stated(self):
        for content, text in (b"hi", HI), (b"hi, there", HI), (b"h", NO_FILE):
            with self.pipe("pipe", content):
                self.expect(f"{WITH_FILE} pipe --payload-length 2", APART, text)
        self.put("key", SIGNED_KEY)
        vouch, apart = self.program("digest --keys-file key", SIGNED).text, SIGNED[:11] + b"\xf6" + SIGNED[32:]
        with self.pipe("pipe", b"This is the content.hi, there"):
            self.expect("digest --keys-file key --payload-length 20 --payload-file pipe", apart, vouch)

    def test_a_block_device(self):
        """Its length is its own. Only root can make one of a file, and not everywhere."""
        words = ["losetup", "--find", "--show", "--read-only", self.put("disk", bytes(4096))]
        made = subprocess.run(words, capture_output=True, text=True) if shutil.which("losetup") else None
        if made is None or made.returncode:
            self.skipTest("losetup makes no block device here")
        self.addCleanup(subprocess.run, ["losetup", "--detach", made.stdout.strip()], check=True)
        message = mac0(bytes(4096), is_detached=True)
        self.expect(f"{WITH_FILE} {made.stdout}", message, message.authentic())

    @unittest.skipIf(UNPROVED, "a program that checks each step takes many minutes")
    def test_more_than_the_program_may_hold_at_once(self):
        """It is made, and verified in 64 MiB of memory."""
        message, path = mac0(bytes(100_000_000), is_detached=True), self.put("long", bytes(100_000_000))
        self.expect(f"{MAKE} 100000000", path, message._replace(is_detached=False).encoded())
        self.expect(f"{WITH_FILE} long", message, message.authentic(), limits={resource.RLIMIT_AS: 1 << 26})


class Sequences(Case):
    files = {"key": KEY}

    def test_the_lines_of_a_message_are_there_before_the_next_has_come(self):
        with self.begin(f"{UNDER_KEY} --sequence") as running:
            for place in 0, 44:
                running.stdin.write(MESSAGE)
                running.stdin.flush()
                lines = running.stdout.readline() + running.stdout.readline()
                self.assertEqual(lines.decode(), f"at {place}\n{AUTHENTIC}\n")
            running.stdin.close()
            self.assertEqual((running.stdout.read(), running.wait()), (b"", 0))


@unittest.skipIf(UNPROVED, "a program that checks each step takes more stack")
class Stacks(Case):
    """Each command runs in the stack that the page's table of limits states."""
    files = {"key": KEY, "public": SIGNED_KEY, "payload": b"hi"}
    small, large = ({"limits": {resource.RLIMIT_STACK: int(kibibytes) * 1024}} for kibibytes in STACKS.groups())
    # 15,000 labels in decreasing order
    labels = b"\xb9\x3a\x98" + b"".join(b"\x19" + label.to_bytes(2, "big") + b"\0" for label in range(15299, 299, -1))
    long = MESSAGE[:6] + labels + b"\x40\x58\x20" + bytes(32)
    runs = {
        "commands without limits run in the lesser stack": [
            ("keys --keys-file key", b"", "key at 0 kty 4 usable\nusable 1 of 1", small),
            (f"{MAKE} 2", b"hi", MESSAGE, small)],
        "headers that may be large have the other one": [
            ("keys --keys-file key --for-message", (MESSAGE, long), "key at 0 kty 4 usable fits\nusable 1 of 1", large),
            (f"{UNDER_KEY} --limits large", long, "refused BadAuth at 60010", large)],
    }

    def test_commands_with_limits(self):
        for limits, stack in ("small", self.small), ("large", self.large):
            for words, given, status in [
                ("show --diagnostic", MESSAGE, 0),
                ("show --detached --diagnostic", APART, 0),
                # a payload of eight arrays in one another
                ("show --with-payload --kind mac0", bytes.fromhex("8440a04981818181818181810040"), 0),
                (UNDER_KEY, MESSAGE, 0),
                (f"{UNDER_KEY} --payload-to kept_{limits}", MESSAGE, 0),
                (f"{UNDER_KEY} --sequence", MESSAGE + MESSAGE, 0),
                (f"{UNDER_KEY} --payload-file payload", APART, 0),
                ("cwt --keys-file key --now 0", MESSAGE, 1),
                ("cwt --keys-file key --now 0 --sequence --text", TOKEN.encoded() + TOKEN.encoded(), 0),
                ("digest --keys-file public", SIGNED, 0),
                ("digest --keys-file public --payload-file payload", SIGNED, 1),
            ]:
                self.expect(f"{words} --limits {limits}", given, None, status, **stack)


class Script(Case):
    """The script at the top, which runs the program, or the one without a proof."""
    files = {"key": KEY, "payload": b"hi"}

    @unittest.skipIf(UNPROVED, "it runs the proved program")
    def test_a_symbolic_link_to_it(self):
        (self.folder / "elsewhere").mkdir()
        (self.folder / "link").symlink_to(TOP / "cosecmd")
        (self.folder / "elsewhere" / "link to a link").symlink_to("../link")
        self.expect(VERIFY, MESSAGE, AUTHENTIC, command=["./link to a link"], cwd=self.folder / "elsewhere", said="")

    def test_the_program_without_a_proof_is_another(self):
        """The first run builds it, where it isn't built yet. The proved one stays as it is."""
        def state():
            found = PROGRAM.stat()
            return found.st_ino, found.st_size, found.st_mtime_ns, found.st_mode

        before, unproved = state(), {"command": [TOP / "cosecmd", "--unproved"]}
        self.expect("verify --keys-file=examples/key.cbor", MESSAGE, AUTHENTIC, cwd=TOP, **unproved)
        self.try_each([
            ("verify --keys zz", b"", "fault line keys", unproved),
            (f"{WITH_FILE} payload", APART, HI, unproved),
            (f"{MAKE} 2000000", bytes(2_000_000), mac0(bytes(2_000_000)).encoded(), unproved),
        ])
        self.assertEqual(before, state())
