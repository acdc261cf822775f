"""Messages as text on standard input: texts of many lengths, texts that are wrong at each place, and signatures.

The texts are made by Python and, where they are there, by `openssl`, `base64`, `basenc` and `xxd`. What a text answers
is what its bytes answer. rows/commands.json has the forms of a text, and what each command answers to them.
"""
import base64
import itertools
import os
import re
import shutil
import subprocess

from support import AUTHENTIC, KEYS, MESSAGE, SIGN1, SIGNED, SIGNED_KEY, Case, flipped, mac0, needs

SIGNED_KEYS = "--keys-file public"
VERIFY, VERIFY_SIGNED = (f"verify {keys} --input" for keys in (KEYS, SIGNED_KEYS))
UNDECODED = re.compile("(?s).*decode the text first.*")
NO_TEXT = ("cosecmd: standard input begins as no text does; where it is CBOR, leave out --input, or write "
           "`--input auto`\n")
GOOD = "authentic sign1 alg -7 payload 20 taken 98"
COMMANDS = {"hex": ["xxd -p"], "base64url": ["openssl base64", "base64", "basenc --base64url"]}


def in_hex(content):
    return content.hex().encode()


def in_base64url(content):
    return base64.urlsafe_b64encode(content).rstrip(b"=")


FORMS = {"hex": in_hex, "base64url": in_base64url}


class TextInput(Case):
    def test_payloads_of_many_lengths(self):
        for length in [*range(24), 255, 4096, 20000]:
            message = mac0(os.urandom(length))
            for form, write in FORMS.items():
                there = [command.split() for command in COMMANDS[form] if shutil.which(command.split()[0])]
                texts = [subprocess.run(it, input=message.encoded(), stdout=subprocess.PIPE, check=True).stdout for it in there]
                self.try_each([(f"{VERIFY} {form}", (write(message.encoded()), *texts), message.authentic(), None, "")])

    def test_auto_tells_a_message_by_its_first_byte(self):
        """It is an array, a map or a tag."""
        for first in range(0x80, 0xe0):
            content = bytes([first]) + MESSAGE[1:]
            plain = self.program("show --kind mac0", content)
            for writing in content, in_hex(content), in_hex(content).upper(), in_base64url(content):
                self.expect("show --kind mac0 --input auto", writing, plain.text, plain.status)

    def test_a_text_that_comes_in_pieces_of_one_byte(self):
        for writing in (write(MESSAGE) for write in FORMS.values()):
            with self.begin(f"{VERIFY} auto", bufsize=0) as running:
                for at in range(len(writing)):
                    running.stdin.write(writing[at:at + 1] + b"\r\n" * (at % 5 == 4))
                running.stdin.close()
                self.assertEqual(running.stdout.read().decode(), f"{AUTHENTIC}\n", writing)

    def test_a_wrong_character_at_each_place(self):
        """Standard error says which one it is, and repeats nothing of the text."""
        for form, name, wrongs in ("hex", "hexadecimal", b"!\x00\xc3g"), ("base64url", "base64url", b"!\x00\xc3."):
            writing = FORMS[form](MESSAGE)
            for place, wrong in itertools.product(range(len(writing) + 1), wrongs):
                given = writing[:place] + bytes([wrong]) + writing[place:]
                said = f"cosecmd: character {place + 1} of standard input is wrong in "
                hint = NO_TEXT if place == 0 and wrong >= 0x80 else ""
                self.expect(f"{VERIFY} {form}", given, "fault input", said=f"{said}{name}\n{hint}")
                if place and form == "hex":
                    self.expect(f"{VERIFY} auto", given, "fault input", said=f"{said}hexadecimal or base64url\n")


@needs("openssl")
class Signatures(Case):
    """The script that has openssl verify a signature."""
    files = {"public": SIGNED_KEY}
    runs = {
        "a signature is verified of a text": [
            (f"{VERIFY_SIGNED} {form}", write(content), text, {"command": SIGN1})
            for form, write in (*FORMS.items(), *(("auto", write) for write in FORMS.values()))
            for content, text in ((SIGNED, GOOD), (flipped(SIGNED, -1), "refused BadAuth at 32"))],
        "a sequence in text has to be decoded first": [
            (f"{VERIFY_SIGNED} hex --sequence", in_hex(SIGNED), "", 2, UNDECODED, {"command": SIGN1}),
            (f"{VERIFY_SIGNED} hex", in_hex(SIGNED) + b"f6", "", 2, UNDECODED, {"command": SIGN1}),
            (f"{VERIFY_SIGNED} cbor --sequence", SIGNED, f"at 0\n{GOOD}", {"command": SIGN1})],
    }
