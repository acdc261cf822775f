"""Each read and each write of a run fails in turn: what it prints, its status, and how often it reads and writes.

Each read gives one byte, and each write takes at most eight. Where a read fails, or a write fails or takes none, the
run ends: it reads and writes nothing after that. Each file is opened once. fail_nth.c has what fails.
"""
from support import (AUTHENTIC, KEY, KEYS, MESSAGE, Case, cbor, keys, mac0, needs, preloaded, printed,
                     status_of)

# messages with nil in the place of their payload, of two bytes, of none, and of more than are taken at once
HI, EMPTY, LONG = (mac0(payload, is_detached=True) for payload in (b"hi", b"", 5000 * b"\x5a"))
NIL = HI.encoded()[:8]
# a message with the longest external data
WITH_DATA = mac0(b"hi", data=bytes(65535)).encoded()
# the claims of RFC 8392 appendix A.1, which expire at 1444064944
TOKEN = mac0(cbor({1: "coap://as.example.com", 2: "erikw", 3: "coap://light.example.com", 4: 1444064944, 5: 1443944944,
                   6: 1443944944, 7: b"\x0b\x71"})).encoded()
# a point of 32 bytes 11 and 32 bytes 22, and a COSE_Sign1 of no payload, whose signature is none under it
POINT = keys({1: 2, -1: 1, -2: 32 * b"\x11", -3: 32 * b"\x22"})
UNVERIFIED = bytes.fromhex("d28443a10126a0405840") + 64 * b"\x5a"

VERIFY, LIST, DIGEST = f"verify {KEYS}", f"keys {KEYS} --for-message", f"digest {POINT}"
WITH_FILE, SHOW_PAYLOAD = f"{VERIFY} --payload-file file", "show --with-payload"
CWT, LATE = (f"cwt {KEYS} --now {now}" for now in (1444064943, 1444064944))
MAKE = f"make --alg 5 --key {KEY.hex()} --length 2"
BY_FILE = "make --alg 5 --length 2 --key-file"
WITH_KEYS = ["verify --keys-file", "cwt --now 0 --keys-file", "digest --keys-file"]
FAULT = "fault file payload-file"
# files of a payload that fail: at a read, or because they have another length than when they were opened
FAILING = [{"file": 1}, {"file": 2}, {"content": b"hi?", "length": 2}, {"content": b"h", "length": 0}]


@needs("cc")
class FailingStreams(Case):
    runs = {
        "each read of a message and the one after it": [
            (words, given, "fault input", nth, {"input": nth}) for words, given in (
                *((words, MESSAGE) for words in (VERIFY, "show", SHOW_PAYLOAD, LIST)), (CWT, TOKEN),
                (DIGEST, UNVERIFIED), (f"{VERIFY} --payload 6869", HI.encoded())) for nth in range(1, len(given) + 2)],
        "nothing is read after a refusal": [
            (words, given, text, count, {"input": count + 1}) for words, given, text, count in (
                ((VERIFY, "show", DIGEST), b"\0\0", "refused WrongType at 0", 1),
                ((VERIFY, "show"), NIL + b"\0", "refused Detached at 7", 8),
                (CWT, b"\0\0", "refused message WrongType at 0", 1),
                (CWT, NIL + b"\0", "refused message Detached at 7", 8),
                (DIGEST, NIL + b"\0", "refused WrongTag at 0", 1),
                # a token is read once more only where its claims are admitted
                (LATE, TOKEN, "refused claims Expired at 59", 123))],
        "nothing is read before the keys are judged": [
            (f"{words} --keys 80", b"\0\0", "fault keys BadKeySet at 0", 0, {"input": 1})
            for words in ("verify", "digest", "keys --for-message", "cwt --now 0")],
        "there is no verdict on a file of the payload that fails": [
            *((WITH_FILE, (HI, NIL), FAULT, 8, failing) for failing in FAILING),
            # it isn't read where the message says by its front that it is refused
            *((WITH_FILE, given, f"refused {place}", None, 0, failing) for failing in FAILING for given, place in (
                (b"", "Truncated at 0"), (MESSAGE[:7], "Truncated at 7"), (b"\x84", "WrongTag at 0"),
                (MESSAGE, "Attached at 7"))),
            (WITH_FILE, LONG, FAULT, {"content": LONG.payload, "length": 4999})],
        "as many bytes of a file are read as it has when it is opened": [
            *((WITH_FILE, HI, "refused BadAuth at 8", None, length, {"opened": length}) for length in (1, 3)),
            *((WITH_FILE, HI, HI.authentic(), None, files, {"length": length, **piece})
              for length in (3, 11) for files, piece in ((2, {}), (1, {"piece": 4096})))],
        "a file of the payload is read no further than its bytes": [
            (WITH_FILE, HI, HI.authentic(), None, 2, {"file": 3}),
            (WITH_FILE, NIL, "refused Truncated at 8", None, 2, {"file": 3}),
            (WITH_FILE, EMPTY, EMPTY.authentic(), None, 0, {"content": b""}),
            (WITH_FILE, EMPTY, EMPTY.authentic(), None, 0, {"content": b"", "file": 1}),
            *((WITH_FILE, LONG, LONG.authentic(), None, files, {"content": LONG.payload, "piece": piece})
              for piece, files in ((1, 5000), (4096, 2))),
            (f"{VERIFY} --payload-file missing", HI, FAULT, 0, 0)],
        # the file is read after the nil, the eighth byte
        "of an input and a file that fail the one that is read first counts": [
            (WITH_FILE, HI, text, {"input": nth, "file": file}) for nth, file, text in (
                (1, 1, "fault input"), (8, 1, "fault input"), (9, 1, FAULT), (9, 2, FAULT), (9, 3, "fault input"),
                (42, 0, "fault input"), (43, 0, "fault input"), (44, 3, HI.authentic()))],
        "a file of keys fails in one of its nine bytes or at its end": [
            (f"{words} file", b"hi", f"fault file {words.split('--')[-1]}", 0, nth, {"content": KEY, "file": nth})
            for words in (*WITH_KEYS, BY_FILE) for nth in (1, 5, 10)],
        "a file of keys without an end is read up to 65536 bytes": [
            (f"{WITH_KEYS[0]} /dev/zero", b"hi", "fault keys BadKeySet at 0", 0, 65536, {"file": 65537}),
            (f"{BY_FILE} /dev/zero", b"hi", "fault file key-file", 0, 65536, {"file": 65537})],
        # the argument is longer than any that the system passes
        "external data has at most 65535 bytes": [
            (f"{words} --aad ''", given, text, inputs, {"digits": 2 * most}) for most, cases in (
                (65535, ((VERIFY, WITH_DATA, AUTHENTIC, 45), (MAKE, b"hi", WITH_DATA, 2))),
                (65536, ((VERIFY, WITH_DATA, "fault line aad", 0), (MAKE, b"hi", "fault line aad", 0))),
            ) for words, given, text, inputs in cases],
    }

    def counted(self, words, given=b"", content=b"hi", **fails):
        """How a run ends with such a file where this fails; how often it reads input and file, writes and opens."""
        self.put("file", content)
        with open(self.folder / "calls", "w+b") as mark:
            settings = {f"FAIL_{name.upper()}": value for name, value in fails.items()}
            environment = preloaded("fail_nth", FAIL_MARK=mark.fileno(), **settings, FAIL_PATH="file")
            ended = self.program(words, given, env=environment, pass_fds=[mark.fileno()])
        calls = (self.folder / "calls").read_bytes()
        return (ended, *(calls.count(kind) for kind in (b"i", b"f", b"o", b"n")))

    def tried(self, words, given, text, inputs=None, files=None, **how):
        """A run prints this after so many reads of the input and of the file, and opens each file of its words once."""
        ended, *seen = self.counted(words, given, **how)
        with self.subTest(words=words[:300], given=str(given)[:300], how=str(how)[:300]):
            opens = sum(word in ("file", "/dev/zero") for word in words.split())
            wanted = [seen[0] if inputs is None else inputs, seen[1] if files is None else files, seen[2], opens]
            self.assertEqual(seen, wanted, "the reads of the input and of the file, the writes, and the opens")
            self.assertEqual(ended[:2], (printed(text), status_of(printed(text))))

    def test_a_message_is_made_up_to_the_read_of_its_payload_that_fails(self):
        for nth, text, status in (1, MESSAGE[:8], 2), (2, MESSAGE[:9], 2), (3, MESSAGE, 0):
            ended, inputs, *_ = self.counted(MAKE, b"hi there", input=nth)
            self.assertEqual((ended[:2], inputs), ((text, status), min(nth, 2)), nth)

    def test_each_write_of_an_output_and_the_one_after_it(self):
        for words, given in (
            *((words, MESSAGE) for words in (VERIFY, "show", SHOW_PAYLOAD, LIST)),
            *((words, TOKEN) for words in (CWT, LATE)),
            *((words, b"") for words in (VERIFY, "verify --keys zz", "--help")),
            *((f"{MAKE} --kid 31", given) for given in (b"hi", b"h")),
            (DIGEST, UNVERIFIED),
        ):
            ended, *_, outputs, _ = whole = self.counted(words, given)
            self.assertEqual(ended[:2], self.program(words, given)[:2], f"{words}, in pieces and in one")
            self.assertGreater(outputs, 0, words)
            for nth in range(1, outputs + 2):
                for none in {}, {"takes_none": 1}:
                    self.look_at_write(words, whole, nth, self.counted(words, given, output=nth, **none))

    def look_at_write(self, words, whole, nth, seen):
        """A run ends at the write of this number, if it makes so many, with a part of what it writes otherwise."""
        (text, status, _), *_, outputs, _ = whole
        (said, code, _), *_, writes, _ = seen
        with self.subTest(words=words, write=nth):
            fails = nth <= outputs
            self.assertEqual((code, writes), (2, nth) if fails else (status, outputs))
            self.assertEqual((text.startswith(said), len(said) < len(text)), (True, fails), said)
