"""examples/tokens_dask in one process: blocks that don't begin where a token does."""

import collections
import functools
import importlib.machinery
import importlib.util
import pathlib
import tempfile
import unittest
import unittest.mock
from typing import Any, Tuple

from cose import cbor
from support import KEYS, REPOSITORY, mac0

NOW = 1_000


def example() -> Any:
    """The script as a module."""
    path = str(REPOSITORY / "examples" / "tokens_dask")
    loader = importlib.machinery.SourceFileLoader("tokens_dask", path)
    spec = importlib.util.spec_from_loader(loader.name, loader)
    assert spec
    module = importlib.util.module_from_spec(spec)
    with unittest.mock.patch("sys.dont_write_bytecode", True):
        loader.exec_module(module)
    return module


class Blocks(unittest.TestCase):
    def test_blocks(self) -> None:
        """Each token is counted once, also where payloads are made of tokens, so that guesses fail."""
        small = mac0(cbor.encode({2: "erikw", 4: NOW + 1}))
        old = mac0(cbor.encode({2: "erikw", 4: NOW}))
        bad = small[:-1] + bytes([small[-1] ^ 1])
        nested = mac0(cbor.encode({100: small * 40}))
        odd = mac0(cbor.encode({100: b"\xd1\x84\x43" * 1_000}))
        data = (small * 7 + nested + old + odd + small * 3 + bad + nested) * 5
        wanted = {"accepted": 65, "refused claims Expired": 5, "refused message BadAuth": 5}
        script, again = example(), 0
        with tempfile.TemporaryDirectory() as folder:
            path = pathlib.Path(folder, "tokens")
            path.write_bytes(data)
            task = functools.partial(script.verify_block, path, keys=KEYS, now=NOW)

            def count_again(begin: int, end: int) -> Tuple[int, int, "collections.Counter[str]"]:
                nonlocal again
                again += 1
                return task(begin, end)  # type: ignore[no-any-return]

            for size in (len(data), 97, 333, 5_000):
                blocks = [(at, min(at + size, len(data))) for at in range(0, len(data), size)]
                results = (task(*it, is_guess=it[0] > 0) for it in blocks)
                self.assertEqual(script.in_order(blocks, results, count_again), wanted)
            self.assertGreater(again, 0)
            path.write_bytes(data + b"\x1f")
            with self.assertRaisesRegex(ValueError, f"no CBOR item is at {len(data)}"):
                task(0, len(data) + 1)


if __name__ == "__main__":
    unittest.main()
