"""The library for C: the header, archives, shared objects, and what pkg-config and CMake read."""
import pathlib
import shutil
import subprocess
import tempfile
from typing import Dict, Optional

import source
from archives import Entry, Files, of_file, of_folder
from source import LICENSES, TOP, Source

# the compilers that link for each processor, and the name of the processor in Debian and in the tags of wheels
COMPILERS = {"x86_64": "cc", "aarch64": "aarch64-linux-gnu-gcc"}
DEBIAN = {"x86_64": "amd64", "aarch64": "arm64"}
HARDENED = ("-Wl,-z,defs", "-Wl,-z,relro", "-Wl,-z,now", "-Wl,--build-id=none")


def compiler(target: str) -> Optional[str]:
    """The compiler for a processor, if this machine has one."""
    return shutil.which(COMPILERS[target])


def shared_object(target: str, archive: pathlib.Path, soname: str) -> bytes:
    """A shared object of a whole archive, which exports the calls of the header alone."""
    source.proved(archive)
    with tempfile.TemporaryDirectory() as folder:
        made = pathlib.Path(folder, "libcose.so")
        whole = ["-Wl,--whole-archive", str(archive), "-Wl,--no-whole-archive", "-lc"]
        script = f"-Wl,--version-script={TOP / 'packaging' / 'cose.map'}"
        subprocess.run([str(compiler(target)), "-shared", "-s", f"-Wl,-soname,{soname}", script, *HARDENED, *whole, "-o", str(made)], check=True)
        return made.read_bytes()


def filled(name: str, values: Dict[str, str]) -> Entry:
    """A file of packaging/ with values in the places that their names have there."""
    text = (TOP / "packaging" / name).read_text()
    for word, value in values.items():
        text = text.replace(f"@{word}@", value)
    return Entry(text.encode())


def header_files() -> Files:
    """The header, for every processor."""
    return {"include/cose.h": of_file(TOP / "include" / "cose.h")}


def project_files(made_from: Source, libraries: str) -> Files:
    """What pkg-config and CMake read, below a prefix whose libraries are in this folder."""
    values = {"version": made_from.version, "libraries": libraries}
    return {
        f"{libraries}/pkgconfig/cose.pc": filled("release/cose.pc.in", values),
        f"{libraries}/cmake/cose/cose-config.cmake": filled("release/cose-config.cmake.in", values),
        f"{libraries}/cmake/cose/cose-config-version.cmake": filled("release/cose-config-version.cmake.in", values),
    }


def package(made_from: Source) -> Files:
    """All that a program in C needs: it is unpacked anywhere."""
    base = f"libcose-{made_from.version}/"
    files: Files = {f"{base}{name}": entry for name, entry in {**header_files(), **project_files(made_from, "lib")}.items()}
    for target, path in source.archives().items():
        source.proved(path)
        files[f"{base}lib/{'libcose.a' if target == 'x86_64' else target + '/libcose.a'}"] = of_file(path)
    files.update(of_folder(TOP / "examples" / "c", f"{base}examples/", ("*.c", "*.h", "adapters/*")))
    files[f"{base}examples/mac0.cbor"] = of_file(TOP / "examples" / "mac0.cbor")
    files.update({f"{base}{name}": of_file(TOP / name) for name in LICENSES})
    files[f"{base}C.md"] = of_file(TOP / "docs" / "C.md")
    return files
