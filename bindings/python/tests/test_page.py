"""The code of docs/PYTHON.md runs."""

import base64
import contextlib
import io
import json
import os
import pathlib
import re
import shutil
import subprocess
import sys
import tempfile
import time
import unittest
from typing import Any, Dict, List

from cose import cbor
from support import EXAMPLES, KEYS, REPOSITORY, SECRET, mac0
from test_program import PEM

PAGE = (REPOSITORY / "docs" / "PYTHON.md").read_text()
CLAIMS = {1: "an issuer", 3: "coap://light.example.com", 4: int(time.time()) + 1_000}
TOKEN = mac0(cbor.encode(CLAIMS))


def blocks(language: str) -> List[str]:
    return re.findall(rf"^```{language}\n(.*?)^```", PAGE, re.S | re.M)


class Page(unittest.TestCase):
    def test_python(self) -> None:
        message = mac0(b"a payload")
        names: Dict[str, Any] = {"keys": KEYS, "data": message, "token": TOKEN}
        names["pieces"], names["tokens"] = [message[:20], message[20:]], [TOKEN, TOKEN[:-1]]
        printed = io.StringIO()
        with contextlib.redirect_stdout(printed):
            for block in blocks("python"):
                exec(block, names)
        self.assertIn("b'a payload'", printed.getvalue())
        self.assertIn("an issuer", printed.getvalue())
        self.assertEqual(names["payload"], b"a payload")

    def test_commands(self) -> None:
        try:
            import cryptography  # noqa: F401
        except ImportError:
            self.skipTest("the package cryptography isn't installed")
        path = os.pathsep.join([os.path.dirname(sys.executable), os.environ["PATH"]])
        if not shutil.which("python", path=path):
            self.skipTest("no command is named python")
        key = {"kty": "oct", "k": base64.urlsafe_b64encode(SECRET).decode()}
        commands = [it for it in blocks("sh") if "python -m cose" in it]
        self.assertEqual(len(commands), 1)
        with tempfile.TemporaryDirectory() as name:
            folder = pathlib.Path(name)
            (folder / "key.pem").write_text(PEM)
            (folder / "message.cbor").write_bytes((EXAMPLES / "sign1.cbor").read_bytes())
            (folder / "keys.jwk").write_text(json.dumps({"keys": [key]}))
            (folder / "token.txt").write_text(TOKEN.hex())
            environment = {**os.environ, "PATH": path}
            ended = subprocess.run(
                ["sh", "-e", "-c", commands[0]],
                cwd=folder,
                env=environment,
                stdout=subprocess.PIPE,
                check=True,
            )
        message, token = map(json.loads, ended.stdout.decode().splitlines())
        self.assertEqual((message["verdict"], message["kind"]), ("authentic", "sign1"))
        self.assertEqual((token["verdict"], token["claims"]["iss"]), ("admitted", "an issuer"))


if __name__ == "__main__":
    unittest.main()
