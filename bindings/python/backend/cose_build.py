"""Builds the wheel of the package cose (PEP 517) by the standard library and a C compiler alone.

setuptools would have to be fetched into the environment that pip builds in; this fetches nothing.

The archive is libcose_c.a, as it is built, or libcose.a, as it is installed: that of the folder
COSE_LIB_DIR, or that which pkg-config knows as `cose`. It becomes cose/_libcose.so, and the record of
its proof is in the wheel too. An archive without the mark of a proof is refused. Where Python.h is
there, the extension that makes the calls that are made most is compiled, and linked to
cose/_libcose.so. Where there is no archive, but an installed libcose.so, the package loads that one.
"""

from __future__ import annotations

import base64
import ctypes
import hashlib
import os
import pathlib
import re
import shlex
import subprocess
import sys
import sysconfig
import tarfile
import tempfile
import zipfile
from typing import Any, Dict, List, Optional

TOP = pathlib.Path(__file__).resolve().parent.parent
SOURCE = TOP / "src" / "cose"
EXTENSION = TOP / "extension" / "calls.c"
LIBRARY = "_libcose.so"
# for each Python from 3.9 on: the name of the extension, and the tags of a wheel that has it
STABLE, STABLE_TAG = "_extension.abi3.so", "cp39-abi3"
ARCHIVES = ("libcose_c.a", "libcose.a")
LICENSES = ("LICENSE-APACHE", "LICENSE-MIT")
PAGE = "PYTHON.md"
# what the compiler writes into what it makes of a proved crate, and into nothing else
MARK = re.compile(rb"rattle logic=([0-9a-f]+)")
METADATA = """\
Metadata-Version: 2.1
Name: cose
Version: {version}
Summary: Verifies COSE messages (RFC 9052) and CBOR Web Tokens (RFC 8392) by a proved library
Maintainer-email: Tafejin maintainers <maintainers@users.noreply.tafejin.example>
License: MIT OR Apache-2.0
License-File: LICENSE-APACHE
License-File: LICENSE-MIT
Description-Content-Type: text/markdown
Requires-Python: >=3.9
Provides-Extra: ecdsa
Requires-Dist: cryptography>=38; extra == "ecdsa"
"""


def _version() -> str:
    found = re.search(r'^__version__ = "(.*)"$', (SOURCE / "__init__.py").read_text(), re.M)
    assert found, "cose/__init__.py has a version"
    return found[1]


def _archive() -> Optional[pathlib.Path]:
    """Where the archive is, if it is anywhere."""
    folder = os.environ.get("COSE_LIB_DIR")
    if folder is None:
        command = ["pkg-config", "--variable=libdir", "cose"]
        try:
            folder = subprocess.run(command, capture_output=True, text=True).stdout.strip()
        except FileNotFoundError:
            folder = ""
    archives = [pathlib.Path(folder, name) for name in ARCHIVES] if folder else []
    return next((archive for archive in archives if archive.exists()), None)


def _has_installed_library() -> bool:
    for name in ("libcose.so.0", "libcose.so"):
        try:
            ctypes.CDLL(name)
        except OSError:
            continue
        return True
    return False


def _link(archive: pathlib.Path, library: pathlib.Path) -> None:
    """Makes a shared library of the whole archive, which needs nothing but the C library."""
    whole = ["-Wl,--whole-archive", str(archive), "-Wl,--no-whole-archive"]
    named = ["-Wl,-soname," + library.name, "-Wl,-z,defs", "-o", str(library), "-lc"]
    _compile("-shared", "-s", *whole, *named)


def _link_extension(library: pathlib.Path, extension: pathlib.Path) -> None:
    """Compiles the extension, which finds the library in the folder that it is in itself."""
    header, place = _shared("cose.h").parent, sysconfig.get_paths()["include"]
    options = ["-std=c11", "-O2", "-fPIC", "-fvisibility=hidden", f"-I{header}", f"-I{place}"]
    linked = ["-Wl,-rpath,$ORIGIN", f"-L{library.parent}", f"-l:{library.name}"]
    _compile("-shared", "-s", *options, str(EXTENSION), *linked, "-o", str(extension))


def _has_stable_abi() -> bool:
    """Whether this Python has the stable ABI, and the header that an extension is compiled with."""
    is_free_threaded = bool(sysconfig.get_config_var("Py_GIL_DISABLED"))
    if sys.implementation.name != "cpython" or is_free_threaded:
        return False
    return pathlib.Path(sysconfig.get_paths()["include"], "Python.h").exists()


def _compile(*words: str) -> None:
    """Runs the C compiler."""
    compiler = shlex.split(os.environ.get("CC", "cc"))
    command = [*compiler, *words]
    try:
        ended = subprocess.run(command, capture_output=True, text=True)
    except FileNotFoundError:
        raise SystemExit(f"cose: there is no C compiler: {compiler[0]}") from None
    if ended.returncode:
        raise SystemExit(f"cose: {shlex.join(command)}\n{ended.stderr}")


def _proof_of(archive: pathlib.Path) -> bytes:
    """The record of an archive's proof: the one beside it or installed, or what it says itself."""
    content = archive.read_bytes()
    found = MARK.search(content)
    if not found:
        raise SystemExit(f"cose: {archive} isn't what the compiler makes of a proved crate")
    line = f"sha256 {hashlib.sha256(content).hexdigest()}"
    installed = archive.parent.parent / "share" / "doc" / "cose" / "libcose.proof"
    for record in (archive.with_name(archive.name + ".proof"), installed):
        if record.exists() and line in record.read_text().splitlines():
            return record.read_bytes()
    return f"proved each function\nlogic {found[1].decode()}\n{line}\n".encode()


def _shared(name: str) -> pathlib.Path:
    """A file of the repository, or its copy in what build_sdist packs."""
    repository = TOP.parent.parent
    folders = (TOP, repository, repository / "docs", repository / "include")
    places = [folder / name for folder in folders]
    return next(place for place in places if place.exists())


def _sources() -> List[pathlib.Path]:
    """The package's modules, and the types of the extension."""
    return sorted([*SOURCE.glob("*.py"), *SOURCE.glob("*.pyi")])


def _files(info: str) -> Dict[str, bytes]:
    """The files of the wheel, by their names."""
    files = {f"cose/{it.name}": it.read_bytes() for it in _sources()}
    files["cose/py.typed"] = b""
    files.update({f"{info}/licenses/{name}": _shared(name).read_bytes() for name in LICENSES})
    archive = _archive()
    if archive:
        files[f"{info}/libcose.proof"] = _proof_of(archive)
        with tempfile.TemporaryDirectory() as folder:
            library, extension = (pathlib.Path(folder, it) for it in (LIBRARY, STABLE))
            _link(archive, library)
            if _has_stable_abi():
                _link_extension(library, extension)
            files.update(
                {f"cose/{it.name}": it.read_bytes() for it in (library, extension) if it.exists()}
            )
    elif not _has_installed_library():
        raise SystemExit(
            f"cose: there is no {' or '.join(ARCHIVES)}, and no installed libcose.so:"
            f" set COSE_LIB_DIR to the folder of the archive"
        )
    return files


def _record(files: Dict[str, bytes], own: str) -> bytes:
    lines = []
    for name, data in files.items():
        digest = base64.urlsafe_b64encode(hashlib.sha256(data).digest()).rstrip(b"=").decode()
        lines.append(f"{name},sha256={digest},{len(data)}\n")
    return "".join([*lines, f"{own},,\n"]).encode()


def build_wheel(
    wheel_directory: str,
    config_settings: Optional[Dict[str, Any]] = None,
    metadata_directory: Optional[str] = None,
) -> str:
    """Builds the wheel, and returns its name (PEP 517)."""
    version = _version()
    info = f"cose-{version}.dist-info"
    files = _files(info)
    platform = "any"
    if f"cose/{LIBRARY}" in files:
        platform = re.sub(r"[-.]", "_", sysconfig.get_platform())
    tag = f"{STABLE_TAG if f'cose/{STABLE}' in files else 'py3-none'}-{platform}"
    page = _shared(PAGE).read_text()
    files[f"{info}/METADATA"] = f"{METADATA.format(version=version)}\n{page}".encode()
    pure = str(platform == "any").lower()
    files[f"{info}/WHEEL"] = (
        f"Wheel-Version: 1.0\nGenerator: cose_build\nRoot-Is-Purelib: {pure}\nTag: {tag}\n"
    ).encode()
    files[f"{info}/RECORD"] = _record(files, f"{info}/RECORD")
    name = f"cose-{version}-{tag}.whl"
    with zipfile.ZipFile(pathlib.Path(wheel_directory, name), "w", zipfile.ZIP_DEFLATED) as wheel:
        for path, data in files.items():
            entry = zipfile.ZipInfo(path)
            entry.external_attr = 0o644 << 16
            entry.compress_type = zipfile.ZIP_DEFLATED
            wheel.writestr(entry, data)
    return name


def build_sdist(sdist_directory: str, config_settings: Optional[Dict[str, Any]] = None) -> str:
    """Packs the sources, and returns the name (PEP 517)."""
    base = f"cose-{_version()}"
    with tarfile.open(pathlib.Path(sdist_directory, f"{base}.tar.gz"), "w:gz") as packed:
        own = [TOP / "pyproject.toml", *TOP.glob("backend/*.py"), EXTENSION, SOURCE / "py.typed"]
        for path in [*own, *_sources()]:
            packed.add(path, f"{base}/{path.relative_to(TOP)}")
        for name in (*LICENSES, PAGE, "cose.h"):
            packed.add(_shared(name), f"{base}/{name}")
    return f"{base}.tar.gz"
