"""Signatures by examples/verify_sign1: that of the example in RFC 9052, and those that OpenSSL makes here.

Each message is changed in several ways too, and then has to be refused. Images of 5 MB (50 KB for the program without a
proof, which is slow) are signed on each curve as detached payloads. Every option that the program's help lists is
tried, by the rows of rows/commands.json that openssl signed.
"""
import os
import re
import shlex

from support import (AUTHENTIC, KEYS, MESSAGE, SIGN1, SIGNED, UNPROVED, Case, Message, cbor, command_rows, encoded,
                     flipped, folder_of, keys, mac0, needs)
from openssl_messages import CURVES, new_pair  # (in ci/, which support has on the path)

PAYLOAD, DATA = b"a payload", b"external data"
IMAGE = b"\x5a" * (50_000 if UNPROVED else 5_000_000)
CWT = b"\xd8\x3d\xd2"  # the tag of a CWT before that of a COSE_Sign1
# the key of RFC 9052 appendix C.7.1 for the example of appendix C.2.1
EXAMPLE_X = bytes.fromhex("bac5b11cad8f99f9c72b05cf4b9e26d244dc189f745228255a219a86d6a09eff")
EXAMPLE_Y = bytes.fromhex("20138bf82dc1b6d562be0fa54ab7804a3a64b6d72ccfed6b6fb6ed28bbfc117e")
# the claims sub and exp, and what is printed of them
CLAIMS, LATER = {2: "erikw", 4: 1444064944}, "--now 1444064944"
ADMITTED = "admitted\nsub 6572696b77\nexp 1444064944"
EXPIRED, NO_ITEM = "refused claims Expired at 9", "refused Indefinite at 0\nLOST"
# what the program says of a signature that nobody looked at isn't passed on, where there is an answer
ANSWERED = re.compile("(?s)(?!.*--vouch)(?!.*not a verdict).*")
UNANSWERED = re.compile("(?s)(?!.*not a verdict).*")


def signed(pair, payload=PAYLOAD, tags=b"\xd2", data=b"", is_detached=False):
    """A COSE_Sign1 (RFC 9052 section 4.4) that openssl signs, with the content type in its protected header."""
    protected = cbor({1: pair.curve.alg, 3: "text/plain"})
    return Message(pair.curve.alg, tags, protected, {}, payload, pair.sign(protected, payload, data), is_detached)


def public(pair, y=None):
    """A COSE_Key of type EC2 (RFC 9053 section 7.1.1), whose y may be its sign."""
    return {1: 2, -1: pair.curve.number, -2: pair.x, -3: pair.y if y is None else y}


def in_sequence(*parts):
    """Messages after one another, and what is printed of them: of each, given with it, after its place. LOST is for the
    end of the one after which no next message can be found."""
    given, lines = b"", []
    for message, text in parts:
        lines += [f"at {len(given)}", text.replace("LOST", f"ended at {len(given)}: the next message can't be found")]
        given += encoded(message)
    return given, "\n".join(lines)


@needs("openssl")
class Script(Case):
    """Runs of the script."""

    def verify(self, key, message, text, options="", command="verify", **how):
        """A run under a key, or under what options say."""
        words = f"{command} {key if isinstance(key, str) else keys(key)} {options}"
        said = UNANSWERED if how.get("status") == 2 or text.startswith("fault") else ANSWERED
        self.expect(words, message, text, said=said, command=SIGN1, **how)


class Examples(Script):
    def test_its_help_is_the_programs_but_for_vouch(self):
        pattern = re.compile(b"(?s)(?!.*--vouch)(?=.*--payload-to).*verify_sign1 verify.*")
        self.expect("verify --help", b"", pattern, command=SIGN1)

    def test_the_example_of_rfc_9052(self):
        for y in EXAMPLE_Y, bool(EXAMPLE_Y[-1] % 2):
            key = {1: 2, -1: 1, -2: EXAMPLE_X, -3: y}
            self.verify(key, SIGNED, "authentic sign1 alg -7 payload 20 taken 98")
            self.verify(key, SIGNED.replace(b"content", b"contend"), "refused BadAuth at 32")

    def test_a_cose_mac0(self):
        self.verify(KEYS, MESSAGE, AUTHENTIC)
        self.verify(KEYS, flipped(MESSAGE, -1), "refused BadAuth at 10")
        self.verify(KEYS, b"", "refused Truncated at 0")


class Pairs(Script):
    """Tests over pairs of each algorithm, whose y is even and odd."""

    @classmethod
    def setUpClass(cls):
        super().setUpClass()
        folder = folder_of(cls)
        cls.pairs = [new_pair(folder, curve, parity) for curve in CURVES for parity in (0, 1)]
        cls.odd = cls.pairs[1::2]

    def points(self):
        """Each pair with its key, whose y is bytes or a sign."""
        return [(pair, public(pair, y)) for pair in self.pairs for y in (pair.y, bool(pair.y[-1] % 2))]


class Messages(Pairs):
    def test_good_messages(self):
        for pair, key in self.points():
            data = signed(pair, data=DATA)
            for message, options in [
                *((signed(pair, payload), "") for payload in (PAYLOAD, b"", bytes(100000))),
                (data, f"--aad {DATA.hex()}"),
                (data, f"--aad={DATA.hex()}"),
                (signed(pair, tags=b""), "--kind sign1"),
                (signed(pair, tags=CWT), ""),
            ]:
                self.verify(key, message, message.authentic(), options)

    def test_a_signature_that_is_shorter_in_der(self):
        for pair in self.odd:
            message = signed(pair)
            while 0 not in (message.auth[0], message.auth[pair.curve.coordinate]):
                message = signed(pair)
            self.verify(public(pair), message, message.authentic())

    def test_a_message_that_is_changed_after_it_was_signed(self):
        for pair, key in self.points():
            message, data, half = signed(pair), signed(pair, data=DATA), pair.curve.coordinate
            r, s = message.auth[:half], message.auth[half:]
            for other in [
                *(message.flipped(part, at) for part, at in (
                    ("payload", 0), ("payload", -1), ("protected", -1), ("auth", half - 1), ("auth", -1), ("auth", 0))),
                message._replace(payload=PAYLOAD[:-1]),
                *(message._replace(auth=auth) for auth in (s + r, bytes(2 * half), 2 * half * b"\xff", data.auth)),
            ]:
                self.verify(key, other, other.bad_auth())
            for options in "", f"--aad {flipped(DATA, 0).hex()}":
                self.verify(key, data, data.bad_auth(), options)

    def test_there_is_no_vouch(self):
        """Under the word of `digest` the program would find the forged message authentic."""
        for pair in self.pairs:
            forged = signed(pair)._replace(auth=bytes(2 * pair.curve.coordinate))
            word = self.program(f"digest {keys(public(pair))}", forged).text.split()[1].decode()
            for option in f"--vouch {word}", f"--vouch={word}":
                self.verify(public(pair), forged, "", option, status=2)

    def test_there_is_no_answer_without_openssl(self):
        """It is missing, or can't look."""
        unable = self.put("openssl", b"#!/bin/sh\nexit 1\n", 0o755).parent
        for pair in self.pairs:
            for path in os.devnull, f"{unable}{os.pathsep}{os.environ['PATH']}":
                self.verify(public(pair), signed(pair), "", status=2, env={**os.environ, "PATH": path})

    def test_an_image_that_is_signed_as_a_detached_payload(self):
        self.put("image", IMAGE)
        self.put("other", flipped(IMAGE, len(IMAGE) // 2))
        for pair in self.odd:
            message = signed(pair, IMAGE, is_detached=True)
            content = message.encoded()
            for given, text, options in [
                (message, message.authentic(), "--payload-file image"),
                (message, message.authentic(), "--payload-file=image"),
                (message, message.bad_auth(), "--payload-file other"),
                (message.flipped("protected", -1), message.bad_auth(), "--payload-file image"),
                (message.flipped("auth", -1), message.bad_auth(), "--payload-file image"),
                (message, f"refused Detached at {len(content) - len(cbor(message.auth)) - 1}", ""),
                (message, "fault file payload-file", "--payload-file none"),
                (content + b"\0", f"refused Trailing at {len(content)}", "--payload-file image"),
            ]:
                self.verify(public(pair), given, text, options)


class Sequences(Pairs):
    """Sequences (RFC 8742): what is said of each message is what is said of it alone."""

    def test_messages_after_one_another(self):
        for pair in self.odd:
            good, long, mac = signed(pair), signed(pair, bytes(9000)), mac0(b"hi")
            forged, false = good.flipped("payload", 0), mac.flipped("auth", -1)
            parts = [(it, it.bad_auth() if it in (forged, false) else it.authentic())
                     for it in (good, mac, long, forged, false, good)]
            # 0xff is a break, and begins no item (RFC 8949 section 3.2.1)
            several = [*(parts[:count] for count in (0, 1, 3, 4, 6)), [*parts, (b"\xff", NO_ITEM)]]
            for count in range(1, len(parts)):
                last = parts[count][0].encoded()[:-1]
                several.append([*parts[:count], (last, f"refused Truncated at {len(last)}\nLOST")])
            both = keys(public(pair), {1: 4, -1: b"Jefe"})
            for some in several:
                self.verify(both, *in_sequence(*some), "--sequence")
            self.verify("--keys zz", good, "fault line keys", "--sequence")
            self.verify(both, good, "", "--sequence", status=2, env={**os.environ, "PATH": os.devnull})

    def test_tokens_after_one_another(self):
        """One that is admitted, one that has expired, one whose signature isn't good."""
        for pair in self.odd:
            good, expired = (signed(pair, cbor({**CLAIMS, 4: CLAIMS[4] + more}), tags=CWT) for more in (1, 0))
            forged, admitted = good.flipped("auth", -1), ADMITTED.replace("944", "945")
            bad = forged.bad_auth("refused message")
            cases = in_sequence((good, admitted), (expired, EXPIRED), (forged, bad), (good, admitted))
            self.verify(public(pair), *cases, f"{LATER} --sequence", "cwt")


def rows_with(command, option):
    """The rows of a command with an option whose signatures openssl made; where there are none, those that have no files
    and no --vouch."""
    rows = [row for row in command_rows() if row.arguments[:1] == [command] and f"--{option}" in row.options()]
    return [row for row in rows if "signatures by openssl" in row.source] or [
        row for row in rows if not row.files and "--vouch" not in row.options()]


class Rows(Script):
    """Rows of the program, which the script answers alike without --vouch."""

    def try_row(self, row):
        folder = folder_of(type(self))
        for name, content in row.files.items():
            (folder / name).write_bytes(content)
        options = re.sub(" --vouch [0-9a-f]+", "", shlex.join(row.arguments[1:]))
        self.verify(options, row.given, row.text.decode()[:-1], command=row.arguments[0], cwd=folder)
        with self.subTest(options=options):
            self.assertEqual({path.name: path.read_bytes() for path in folder.iterdir()}, {**row.files, **row.new_files})

    def test_each_option_that_help_lists(self):
        """Of each, and of no other, a message is accepted and one isn't."""
        for command in "verify", "cwt":
            text = self.program(f"{command} --help").text.decode()
            # Examples and Messages try these two
            listed = set(re.findall(r"^ +(?:-h, )?--([a-z-]+)", text, re.M)) - {"help", "vouch"}
            rows = {option: rows_with(command, option) for option in sorted(listed)}
            for option, of_option in rows.items():
                self.assertEqual({row.status for row in of_option} - {2}, {0, 1}, f"rows/commands.json, --{option}")
            for row in {id(row): row for of_option in rows.values() for row in of_option}.values():
                self.assertEqual({option[2:] for option in row.options()} - {"vouch"} - listed, set())
                self.try_row(row)
