"""Payloads that `verify --payload-to` keeps, and what the folder has after each run.

After an authentic message the folder has the new file alone, for its owner alone, with the payload that was signed or
tagged. After a refusal or a fault it has what it had before: a file, a folder, a pipe or a link of that name is left as
it is, also one that comes while the message is read. Short messages and names are in rows/commands.json.
"""
import fcntl
import hashlib
import os
import pathlib
import resource
import signal
import stat
import subprocess
import sys
import tempfile
import termios
import time
import unittest

from support import KEYS, MESSAGE, UNPROVED, Case, encoded, flipped, mac0, needs, preloaded

FAULT, NAME = "fault file payload-to", "new.bin"
INTO = f"verify {KEYS} --payload-to"
KEEP = f"{INTO} {NAME}"
# 5 MB, or 500 KB for the program without a proof, which is slow
LONG = bytes(range(256)) * (2_000 if UNPROVED else 20_000)
HI, WHOLE, PART = mac0(b"hi"), mac0(LONG), mac0(LONG[:200_000])
AUTHENTIC = HI.authentic()
FULL = pathlib.Path("/dev/full")


def setUpModule():
    """A shell that runs the tests in the background has them ignore SIGINT, and so their runs."""
    for number in signal.SIGINT, signal.SIGTERM, signal.SIGHUP:
        unittest.addModuleCleanup(signal.signal, number, signal.signal(number, signal.SIG_DFL))


def kept(payload, mode=stat.S_IFREG | 0o600):
    """What `contents` says of the file of a payload."""
    return f"{mode:o} {len(payload)} bytes, {hashlib.sha256(payload).hexdigest()}"


def contents(folder):
    """Each name in a folder, with its kind and mode, and the length and digest of a link's text or a file's bytes."""
    def content(path):
        return os.readlink(path).encode() if path.is_symlink() else path.read_bytes() if path.is_file() else b""

    return {path.name: kept(content(path), path.lstat().st_mode) for path in sorted(folder.iterdir())}


def limited(most, is_signaled=True):
    """Arguments of a run whose files have at most so many bytes: at one more a signal ends it, or the write fails."""
    # Python ignores the signal of a file that becomes too long, and so does its child then
    return {"limits": {resource.RLIMIT_FSIZE: most, resource.RLIMIT_CORE: 0}, "restore_signals": is_signaled}


class Folders(Case):
    """Runs that have a folder each."""

    def new_folder(self):
        return pathlib.Path(tempfile.mkdtemp(dir=self.folder))

    def tried(self, words, given, text, status=None, payload=None, folder=None, is_unread=False, **how):
        """A run whose folder then has a file of the last word with this payload in addition to what it had, or that
        alone. Its input may have to be left unread."""
        folder = folder or self.new_folder()
        name = os.path.basename(words[-1] if isinstance(words, list) else words.split()[-1])
        wanted = {**contents(folder), **({} if payload is None else {name: kept(payload)})}
        with open(self.put("input", encoded(given)), "rb") as source:
            self.expect(words, source, text, status, cwd=folder, **how)
            at = os.lseek(source.fileno(), 0, os.SEEK_CUR)
        with self.subTest(name=name, given=str(given)[:200], how=str(how)):
            self.assertEqual(contents(folder), wanted)
            self.assertFalse(is_unread and at, f"{at} bytes of the input were read")

    def waiting(self, folder, given, **how):
        """A run that was given these bytes, has read them, and sleeps until more come."""
        running = self.begin(KEEP, cwd=folder, stderr=subprocess.DEVNULL, **how)
        running.stdin.write(given)
        running.stdin.flush()
        while running.poll() is None:
            unread = int.from_bytes(fcntl.ioctl(running.stdin, termios.FIONREAD, bytes(4)), sys.byteorder)
            state = pathlib.Path(f"/proc/{running.pid}/stat").read_text().rpartition(")")[2].split()[0]
            if unread == 0 and state == "S":
                break
            time.sleep(0.05)
        return running

    def file_without_name(self, running):
        """The mode and the bytes of the one open file of a run that has no name."""
        opened = [path for path in pathlib.Path(f"/proc/{running.pid}/fd").iterdir() if path.is_file()]
        found = [(path.stat().st_mode, path.read_bytes()) for path in opened if path.stat().st_nlink == 0]
        self.assertEqual(len(found), 1, "files without a name")
        return found[0]


class Kept(Folders):
    wide = mac0(LONG, unprotected={10: bytes(60_000)})
    runs = {
        # also around the bytes that are written at once
        "payloads of no byte to 5 MB": [
            (KEEP, mac0(LONG[:length]), mac0(LONG[:length]).authentic(), {"payload": LONG[:length]})
            for length in (0, 2, 4095, 4096, 16383, 16384, 16385, 70000, len(LONG))],
        "a header that is longer than the room": [
            (f"verify {KEYS} --limits large --payload-to {NAME}", wide, wide.authentic(), {"payload": LONG}),
            (KEEP, wide, "refused PastRoom at 8")],
    }

    def test_a_path_in_another_folder(self):
        folder = self.new_folder()
        self.tried(f"{INTO} {folder / 'other'}", MESSAGE, AUTHENTIC, payload=b"hi", folder=folder)

    def test_its_owner_alone_may_read_it_whatever_the_mask_is(self):
        for mask in 0, 0o22, 0o77:
            self.addCleanup(os.umask, os.umask(mask))
            self.tried(KEEP, MESSAGE, AUTHENTIC, payload=b"hi")

    def test_a_message_that_comes_in_two_parts(self):
        """Meanwhile its payload is in a file without a name, for its owner alone, that is written in large parts. A
        file that gets the name by then is left as it is."""
        for is_taken, text, status, content in (False, WHOLE.authentic(), 0, LONG), (True, FAULT, 2, b"other"):
            folder = self.new_folder()
            with self.subTest(is_taken=is_taken), self.waiting(folder, WHOLE.encoded()[:-1]) as running:
                mode, written = self.file_without_name(running)
                self.assertEqual((contents(folder), f"{mode:o}"), ({}, f"{stat.S_IFREG | 0o600:o}"))
                self.assertGreaterEqual(len(written), len(LONG) - 65536)
                counts = pathlib.Path(f"/proc/{running.pid}/io").read_text().split()
                self.assertLessEqual(int(counts[counts.index("syscw:") + 1]), len(LONG) // 4096)
                if is_taken:
                    (folder / NAME).write_bytes(content)
                    (folder / NAME).chmod(0o600)
                output, _ = running.communicate(WHOLE.encoded()[-1:])
                self.assertEqual((output.decode(), running.returncode), (f"{text}\n", status))
                self.assertEqual(contents(folder), {NAME: kept(content)})

    @needs("cc")
    def test_of_runs_at_once_with_one_name_one_keeps_its_payload(self):
        """All wait before they give it, and the others are faults."""
        for count in 2, 8:
            folder, messages = self.new_folder(), [mac0(bytes([number]) * 20_000) for number in range(count)]
            environment = preloaded("watch_names", NAME_WAITS=300000)
            runs = [self.waiting(folder, message.encoded()[:-1], env=environment) for message in messages]
            for message, running in zip(messages, runs):
                running.stdin.write(message.encoded()[-1:])
                running.stdin.close()
            ended = []
            for running in runs:
                with running:
                    ended.append((running.stdout.read().decode(), running.wait()))
            good = [message.payload for message, end in zip(messages, ended) if end == (f"{message.authentic()}\n", 0)]
            with self.subTest(count=count, ended=ended):
                self.assertEqual((len(good), ended.count((f"{FAULT}\n", 2))), (1, count - 1))
                self.assertEqual(contents(folder), {NAME: kept(good[0])})


class Refused(Folders):
    runs = {
        "long messages that are refused": [
            (KEEP, WHOLE.encoded()[:60000], "refused Truncated at 60000"),
            (KEEP, flipped(WHOLE.encoded(), -1), WHOLE.bad_auth())],
        "a write of the file that fails": [
            (KEEP, message, FAULT, limited(most, is_signaled=False))
            for message, most in ((WHOLE, 0), (WHOLE, 100_000), (WHOLE, len(LONG) - 1), (HI, 1), (HI, 0))],
        "a file that becomes too long so that a signal ends the run": [
            (KEEP, PART, "", -signal.SIGXFSZ, limited(most)) for most in (0, 1, 100_000, 199_999)],
        # so no verdict and no text goes to the payload's file
        "a closed stream is no file of the run": [
            *((KEEP, MESSAGE, "", 2, {"closed": closed}) for closed in ([1], [0, 1], [1, 2], [0, 1, 2])),
            (KEEP, MESSAGE, "fault input", {"closed": [0]}),
            (KEEP, MESSAGE, AUTHENTIC, {"closed": [2], "payload": b"hi"})],
        "an output that fails": [(KEEP, MESSAGE, "", 2, {"output": FULL})],
    }

    def test_a_name_that_exists_is_a_fault_before_the_input_is_read(self):
        for make in (
            lambda path: path.write_bytes(b"other"),
            pathlib.Path.mkdir,
            os.mkfifo,
            lambda path: path.symlink_to("/dev/null"),
            lambda path: path.symlink_to("nothing"),
        ):
            folder = self.new_folder()
            make(folder / NAME)
            self.tried(KEEP, MESSAGE, FAULT, folder=folder, is_unread=True)

    @unittest.skipIf(os.geteuid() == 0, "root may write each folder")
    def test_a_folder_that_nobody_may_write(self):
        folder = self.new_folder()
        folder.chmod(0o500)
        self.tried(KEEP, MESSAGE, FAULT, folder=folder, is_unread=True)

    def test_an_output_that_nobody_reads(self):
        reading, writing = os.pipe()
        os.close(reading)
        self.tried(KEEP, MESSAGE, "", 2, output=writing)
        os.close(writing)

    def test_an_input_that_fails(self):
        self.expect(KEEP, pathlib.Path("/"), "fault input")
        self.assertEqual(contents(self.folder), {})

    def test_a_run_that_a_signal_ends(self):
        for number in signal.SIGINT, signal.SIGTERM, signal.SIGHUP, signal.SIGKILL:
            folder = self.new_folder()
            with self.subTest(signal=number.name), self.waiting(folder, mac0(LONG[:70000]).encoded()[:-1]) as running:
                self.file_without_name(running)
                running.send_signal(number)
                output, _ = running.communicate()
                self.assertEqual((output, running.returncode, contents(folder)), (b"", -number, {}))

    def test_a_verdict_that_becomes_longer_than_a_file_may_be(self):
        """By then the whole payload has its name; without the signal it loses it again."""
        for is_signaled, payload, status in (True, b"hi", -signal.SIGXFSZ), (False, None, 2):
            output = self.put("output", b"")
            self.tried(KEEP, MESSAGE, "", status, payload=payload, output=output, **limited(10, is_signaled))
            self.assertEqual(output.read_bytes().decode(), AUTHENTIC[:10])


@needs("cc")
class Preloaded(Folders):
    def test_another_process_gives_a_name_of_the_file_to_its_own(self):
        """Before it is looked at, while it is linked, or after that. What has been verified gets no name then, and what
        hasn't been verified doesn't get the name that was asked for."""
        part = r"cosecmd-.*\.part"
        for when, name in ("sync", part), ("link", part), ("linked", NAME), ("never", None):
            folder = self.new_folder()
            (folder / "other").write_bytes(b"other")
            environment = preloaded("swap_names", SWAP_WHEN=when, SWAP_WITH=folder / "other")
            self.expect(KEEP, MESSAGE, FAULT if name else AUTHENTIC, what=when, cwd=folder, env=environment)
            found = {path.name: path.read_bytes() for path in folder.iterdir()}
            with self.subTest(when=when):
                self.assertEqual(sorted(found.values()), [b"other"] if name else [b"hi", b"other"])
                self.assertRegex(" ".join(sorted(found)), f"^{name or f'{NAME} other'}$")

    def test_the_system_has_written_the_file_when_it_gets_its_name(self):
        """Where that, the name or its removal fails, so does the run, which says whether a name can't be removed."""
        message = mac0(LONG[:20_000])
        payload = message.payload
        for call, first, last, text, left in (
            ("", 0, 0, message.authentic(), [payload]),
            ("fsync", 1, 1, FAULT, []),
            ("link", 1, 1, FAULT, []),
            # the name that is removed at once, the temporary one, and all from it on, then the name of a verdict that
            # can't be printed
            ("unlink", 1, 1, FAULT, [b""]),
            ("unlink", 2, 2, FAULT, []),
            ("unlink", 2, 99, FAULT, [payload, payload]),
            ("unlink", 3, 3, "", [payload]),
        ):
            folder = self.new_folder()
            environment = preloaded("watch_names", FAIL_CALL=call, FAIL_FROM=first, FAIL_TO=last)
            how = {"what": call, "cwd": folder, "env": environment, **({} if text else {"output": FULL, "status": 2})}
            ended = self.expect(KEEP, message, text, **how)
            with self.subTest(call=call, first=first, last=last):
                self.assertEqual("can't be removed" in ended.said, bool(call) and payload in left, ended.said)
                self.assertEqual(sorted(contents(folder).values()), sorted(map(kept, left)))
                self.assertEqual((folder / NAME).exists(), payload in left, "the name that was asked for")

    def test_each_request_for_memory_is_refused_in_turn(self):
        folder = self.new_folder()
        for nth, ended, is_refused in self.each_refusal(KEEP, MESSAGE, cwd=folder):
            with self.subTest(request=nth):
                self.assertEqual(ended[:2], (b"fault memory\n", 2) if is_refused else (f"{AUTHENTIC}\n".encode(), 0))
                self.assertEqual(contents(folder), {} if is_refused else {NAME: kept(b"hi")})
