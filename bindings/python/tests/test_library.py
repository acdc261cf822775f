"""The structs and the calls are those of the C header."""

import ctypes
import re
import shutil
import subprocess
import tempfile
import unittest
from pathlib import Path
from typing import Dict, List, Type, cast

import cose
from cose import _library
from cose.errors import LibraryNotFound
from support import REPOSITORY

HEADER = REPOSITORY / "include" / "cose.h"
STRUCTS: Dict[str, Type[ctypes.Structure]] = {
    "cose_status": _library.StatusStruct,
    "cose_message_verdict": _library.VerdictStruct,
    "cose_signature_input": _library.SignInputStruct,
    "cose_message_shape": _library.ShapeStruct,
    "cose_key_set": _library.KeySetStruct,
    "cose_policy": _library.PolicyStruct,
    "cose_range": _library.RangeStruct,
    "cose_date": _library.DateStruct,
    "cose_claims_set": _library.ClaimsStruct,
    "cose_fed": _library.FedStruct,
    "cose_made": _library.MadeStruct,
    "cose_verifier": _library.HandleStruct,
    "cose_large_verifier": _library.HandleStruct,
    "cose_device_verifier": _library.HandleStruct,
    "cose_table": _library.HandleStruct,
    "cose_maker": _library.HandleStruct,
    "cose_signer": _library.HandleStruct,
}


def lines(name: str, struct: Type[ctypes.Structure]) -> List[str]:
    """The size of a struct, and where each field lies and how many bytes it has."""
    found = [f"{name} {ctypes.sizeof(struct)}"]
    for field in struct._fields_:
        place = getattr(struct, field[0])
        found.append(f"{name}.{field[0]} {place.offset} {place.size}")
    return found


@unittest.skipUnless(HEADER.exists(), "include/cose.h isn't there")
class Header(unittest.TestCase):
    def test_structs(self) -> None:
        compiler = shutil.which("cc")
        if not compiler:
            self.skipTest("there is no C compiler")
        wanted = [line for name, struct in STRUCTS.items() for line in lines(name, struct)]
        code = ["#include <stdio.h>", '#include "cose.h"', "int main(void) {"]
        for line in wanted:
            name, _, field = line.split()[0].partition(".")
            if field:
                size = f"sizeof ((struct {name} *)0)->{field}"
                numbers = f"offsetof(struct {name}, {field}), {size}"
                code.append(f'printf("{name}.{field} %zu %zu\\n", {numbers});')
            else:
                code.append(f'printf("{name} %zu\\n", sizeof(struct {name}));')
        code.append("return 0; }")
        with tempfile.TemporaryDirectory() as folder:
            source, program = Path(folder, "sizes.c"), Path(folder, "sizes")
            source.write_text("\n".join(code))
            # the header's inline functions call the library: what isn't used is left out
            words = [compiler, "-O1", f"-I{HEADER.parent}", str(source), "-o", str(program)]
            subprocess.run(words, check=True)
            printed = subprocess.run([str(program)], stdout=subprocess.PIPE, text=True, check=True)
        self.assertEqual(printed.stdout.splitlines(), wanted)

    def test_numbers(self) -> None:
        text = HEADER.read_text()
        statuses = re.search(r"enum cose_status_number \{(.*?)\n\};", text, re.S)
        assert statuses
        named = re.findall(r"COSE_([A-Z_]+) = (\d+)", statuses[1])
        self.assertEqual(named, [(it.name, str(it.value)) for it in _library.Status])

    def test_version(self) -> None:
        """The package, the header and the library have one version, and another library is refused."""
        parts = re.findall(r"#define COSE_VERSION_[A-Z]+ (\d+)", HEADER.read_text())
        self.assertEqual(".".join(parts), cose.__version__)
        self.assertEqual(_library.VERSION, tuple(map(int, parts)))

        class Other:
            """A library of another version."""

            _name = "other"

            @staticmethod
            def cose_version() -> int:
                return 1 << 16

        with self.assertRaisesRegex(LibraryNotFound, "version 1.0.0"):
            _library._check_version(cast(ctypes.CDLL, Other()))

    def test_calls(self) -> None:
        """Every exported function of the header is called, with as many arguments."""
        text = re.sub(r"/\*.*?\*/", "", HEADER.read_text(), flags=re.S)
        declared = re.findall(r"^(?:void|size_t|uint\d+_t) (cose_\w+)\(([^)]*)\);", text, re.M)
        wanted = {
            name: 0 if arguments.strip() == "void" else arguments.count(",") + 1
            for name, arguments in declared
        }
        calls = {**vars(_library.small)}
        found = {f"cose_{name}": len(it.argtypes) for name, it in calls.items()}
        for name, it in vars(_library.large).items():
            found[f"cose_{_library._large(name)}"] = len(it.argtypes)
        self.assertEqual(found, wanted)


if __name__ == "__main__":
    unittest.main()
