"""What the tests have in common: the program that is tried, messages that others than it make, what is wanted of runs.

The proved program is tried, or with COSECMD_UNPROVED=1 in the environment the one that `./cosecmd --unproved` builds.
Each run that something is wanted of is a subtest, so that all differences are reported and not the first.
"""
import atexit
import contextlib
import functools
import hashlib
import itertools
import json
import os
import pathlib
import re
import resource
import shlex
import shutil
import subprocess
import sys
import tempfile
import threading
import unittest
from typing import NamedTuple

__unittest = True  # a failure is shown where the test is, and not here
TOP = pathlib.Path(__file__).resolve().parent.parent
sys.path.insert(0, str(TOP / "ci"))
import mac_messages  # noqa: E402 (in ci/)
from openssl_messages import cbor, flipped  # noqa: E402 (in ci/)

UNPROVED = bool(os.environ.get("COSECMD_UNPROVED"))
PROGRAM = TOP / ("out/unproved/cosecmd" if UNPROVED else "crates/cosecmd/out/cosecmd")
# the script that has openssl verify signatures
SIGN1 = (sys.executable, TOP / "examples" / "verify_sign1", *(["--unproved"] if UNPROVED else []))


def keys(*several):
    """The option with a key, or with a set of several."""
    return f"--keys {cbor(several if len(several) > 1 else several[0]).hex()}"


# the example messages, of RFC 4231 section 4.3 and of RFC 9052 appendix C.2.1, and their keys
MESSAGE, KEY, SIGNED, SIGNED_KEY = (
    (TOP / "examples" / f"{name}.cbor").read_bytes() for name in ("mac0", "key", "sign1", "sign1_key"))
SECRET, AUTHENTIC = b"Jefe", "authentic mac0 alg 5 payload 2 taken 44"
KEYS = keys({1: 4, -1: SECRET})


class Row(NamedTuple):
    """A row of rows/commands.json: a run in a folder with these files, what it prints, its status and new files."""
    source: str
    arguments: list
    given: bytes
    files: dict
    text: bytes
    status: int
    new_files: dict

    def options(self):
        return {word.split("=")[0] for word in self.arguments if word.startswith("--")}


@functools.lru_cache(maxsize=None)
def command_rows():
    def row(source, test, result):
        text = bytes.fromhex(result["output"]) if result["verdict"] == "bytes" else result["output"].encode()
        files, new_files = ({name: bytes.fromhex(content) for name, content in it.items()}
                            for it in (test.get("files", {}), result.get("newFiles", {})))
        return Row(source, test["arguments"], bytes.fromhex(test["input"]), files, text, result["status"], new_files)

    groups = json.loads((TOP / "rows" / "commands.json").read_text())["testGroups"]
    return [row(group["source"], test, test["result"]) for group in groups for test in group["tests"]]


class Message(NamedTuple):
    """A COSE_Mac0 or a COSE_Sign1 (RFC 9052 sections 6.2 and 4.2), before it is encoded."""
    alg: int
    tags: bytes
    protected: bytes
    unprotected: dict
    payload: bytes
    auth: bytes
    is_detached: bool = False

    def encoded(self):
        payload = None if self.is_detached else self.payload
        return self.tags + cbor((self.protected, self.unprotected, payload, self.auth))

    def authentic(self):
        """What is printed where it is authentic."""
        kind = "mac0" if self.alg > 0 else "sign1"
        return f"authentic {kind} alg {self.alg} payload {len(self.payload)} taken {len(self.encoded())}"

    def bad_auth(self, refused="refused"):
        """What is printed where its tag or signature isn't that of the rest: the refusal has the place of it."""
        return f"{refused} BadAuth at {len(self.encoded()) - len(cbor(self.auth))}"

    def flipped(self, part, index):
        """The message with one bit of a part changed."""
        return self._replace(**{part: flipped(getattr(self, part), index)})


def encoded(message):
    """The bytes of a message, or of what is given instead."""
    return message.encoded() if isinstance(message, Message) else message


def mac0(payload, unprotected=None, data=b"", is_detached=False):
    """A COSE_Mac0 (RFC 9052 section 6.3) of a payload and external data, with HMAC 256/256."""
    protected = cbor({1: 5})
    tag = mac_messages.tag(5, SECRET, protected, data, payload)
    return Message(5, b"\xd1", protected, unprotected or {}, payload, tag, is_detached)


class Ended(NamedTuple):
    """How a run ended."""
    text: bytes
    status: int
    said: str  # on standard error

    def shown(self):
        """A text as it is, other bytes in hexadecimal, and of very many the digest."""
        text = f"{len(self.text)} bytes, {hashlib.sha256(self.text).hexdigest()}"
        if len(self.text) < 100_000:
            text = self.text.decode() if self.text.isascii() else self.text.hex()
        return f"{text}\n[status {self.status}]\n{self.said}"


def printed(text):
    """The bytes of these lines, each of which is ended."""
    return text if isinstance(text, bytes) else f"{text}\n".encode() if text else b""


def status_of(text):
    """The status of a run that prints this (docs/COMMANDS.md): 2 for a fault, 1 for a refusal, and 0 else."""
    lines = re.findall(rb"^(?:refused|fault) ", text, re.M)
    return 2 if b"fault " in lines else 1 if lines else 0


def needs(command):
    """A test, or a class of tests, that is skipped where there is no such command."""
    return unittest.skipUnless(shutil.which(command), f"there is no command {command}")


@functools.lru_cache(maxsize=None)
def shim(name):
    """The C of this name here, built as what is preloaded."""
    folder = tempfile.mkdtemp()
    atexit.register(shutil.rmtree, folder)
    built = pathlib.Path(folder, f"{name}.so")
    subprocess.run(["cc", "-shared", "-fPIC", "-O1", "-o", built, TOP / "tests" / f"{name}.c", "-ldl"], check=True)
    return built


def preloaded(name, **settings):
    """The environment of a run with a shim, and with what it reads there."""
    return {**os.environ, "LD_PRELOAD": str(shim(name)), **{name: str(value) for name, value in settings.items()}}


def folder_of(test_class):
    """A new folder, which is there until the tests of the class have ended."""
    folder = pathlib.Path(tempfile.mkdtemp())
    test_class.addClassCleanup(shutil.rmtree, folder)
    return folder


class Case(unittest.TestCase):
    """Tests over runs of the program in a folder, which has these files.

    The words of a run are a text that is split as a shell does, or a list. Beside its methods a class has a test for
    each behaviour that its table `runs` names, with the arguments of `tried` for each run: a tuple of words, or of
    inputs, is for each of them, and a dictionary at the end has arguments by name.
    """
    maxDiff = None
    files, runs = {}, {}

    def __init_subclass__(cls):
        for behaviour, runs in vars(cls).get("runs", {}).items():
            def test(self, runs=runs):
                self.try_each(runs)

            test.__name__ = "test_" + re.sub(r"\W+", "_", behaviour.lower().replace("'", ""))
            setattr(cls, test.__name__, test)

    def try_each(self, runs):
        for words, given, *rest in runs:
            named = rest.pop() if isinstance(rest[-1], dict) else {}
            for pair in itertools.product(*(it if type(it) is tuple else [it] for it in (words, given))):
                self.tried(*pair, *rest, **named)

    def tried(self, *run, **how):
        """A run of the table: `expect`, unless a class wants more of it."""
        self.expect(*run, **how)

    @classmethod
    def setUpClass(cls):
        if not PROGRAM.exists():
            raise FileNotFoundError(f"{PROGRAM.relative_to(TOP)} isn't built")

    def setUp(self):
        self.folder = pathlib.Path(tempfile.mkdtemp())
        self.addCleanup(shutil.rmtree, self.folder)
        for name, content in self.files.items():
            self.put(name, content)

    def put(self, name, content, mode=0o600):
        """The path of a file in the folder, which gets this content and mode."""
        path = self.folder / name
        path.write_bytes(content)
        path.chmod(mode)
        return path

    @contextlib.contextmanager
    def pipe(self, name, content, mode=0o600):
        """A pipe in the folder that gets this content. After the block its writer has ended, and it is gone."""
        os.mkfifo(self.folder / name, mode)
        writing = threading.Thread(target=(self.folder / name).write_bytes, args=(content,))
        writing.start()
        yield
        writing.join()
        (self.folder / name).unlink()

    def begin(self, words, **how):
        """A run of the program that is given its input by a pipe."""
        streams = {"stdin": subprocess.PIPE, "stdout": subprocess.PIPE, "cwd": self.folder}
        return subprocess.Popen([PROGRAM, *shlex.split(words)], **{**streams, **how})

    def program(self, words, given=b"", command=(), closed=(), limits=None, output=subprocess.PIPE, **how):
        """A run of the program or of a command. Its input is bytes in a pipe, or a path or a file that is given
        instead. Its output may be a path; descriptors are closed, and resources limited."""
        def prepare():
            for number, stream, flags in (0, given, os.O_RDONLY), (1, output, os.O_WRONLY):
                if isinstance(stream, pathlib.Path):
                    os.dup2(os.open(stream, flags), number)
            for kind, most in (limits or {}).items():
                resource.setrlimit(kind, (most, most))
            for number in closed:
                os.close(number)

        given = encoded(given)
        streams = {"input" if isinstance(given, bytes) else "stdin": given, "stdout": output, "stderr": subprocess.PIPE}
        streams = {name: None if isinstance(it, pathlib.Path) else it for name, it in streams.items()}
        how = {"cwd": self.folder, "executable": None if command else PROGRAM, "preexec_fn": prepare, **streams, **how}
        words = [*(command or ["cosecmd"]), *(shlex.split(words) if isinstance(words, str) else words)]
        ended = subprocess.run(words, check=False, **how)
        return Ended(ended.stdout or b"", ended.returncode, (ended.stderr or b"").decode())

    def expect(self, words, given, text, status=None, said=None, what="", **how):
        """A run prints this, lines or bytes or what a pattern has; it ends with this status, or with that of the text;
        and it says this on standard error. Of what is None anything is taken."""
        def met(wanted, seen):
            is_met = wanted is None or isinstance(wanted, re.Pattern) and wanted.fullmatch(seen)
            return seen if is_met else wanted.pattern if isinstance(wanted, re.Pattern) else wanted

        ended = self.program(words, given, **how)
        wanted = text if text is None or isinstance(text, re.Pattern) else printed(text)
        if status is None:
            status = ended.status if text is None else status_of(wanted) if isinstance(wanted, bytes) else 0
        with self.subTest(what, words=str(words)[:400], given=str(given)[:200]):
            self.assertEqual(ended.shown(), Ended(met(wanted, ended.text), status, met(said, ended.said)).shown())
        return ended

    def each_refusal(self, words, given, **how):
        """Runs of which each request for memory is refused in turn, and then one of which none is: whether one was."""
        for nth in itertools.count(1):
            with tempfile.TemporaryFile() as mark:
                environment = preloaded("refuse_nth", REFUSE_NTH=nth, REFUSE_MARK=mark.fileno())
                ended = self.program(words, given, env=environment, pass_fds=[mark.fileno()], **how)
                is_refused = mark.seek(0, os.SEEK_END) > 0
            yield nth, ended, is_refused
            if not is_refused:
                return
