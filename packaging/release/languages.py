"""The packages for Python, JavaScript, Rust and Go, each with the library inside where its customs have a place for it."""
import base64
import hashlib
import importlib.util
import json
import re
from types import ModuleType
from typing import Dict, Tuple

import library
import source
from archives import Entry, Files, of_file, of_folder
from program import record
from source import LICENSES, MODULE, TOP, Refusal, Source

# the oldest C library that the wheels are for, by PEP 599 (manylinux2014)
OLDEST_LIBRARY = (2, 17)


def backend() -> ModuleType:
    """What builds the package for Python from its sources."""
    path = TOP / "bindings" / "python" / "backend" / "cose_build.py"
    found = importlib.util.spec_from_file_location("cose_build", path)
    module = importlib.util.module_from_spec(found)
    found.loader.exec_module(module)
    return module


def check_symbols(content: bytes) -> None:
    """Refuses a shared object that wants a newer C library than the wheels are for."""
    wanted = {tuple(map(int, it.split(b"."))) for it in re.findall(rb"GLIBC_([0-9.]+)\0", content)}
    if wanted and max(wanted) > OLDEST_LIBRARY:
        raise Refusal(f"the shared object wants version {'.'.join(map(str, max(wanted)))} of the C library")


def wheel(made_from: Source, target: str) -> Tuple[str, Files]:
    """A wheel with the library inside, which loads no other."""
    build = backend()
    archive = source.archives()[target]
    library_made = library.shared_object(target, archive, "_libcose.so")
    check_symbols(library_made)
    info, tag = f"cose-{made_from.version}.dist-info", f"py3-none-manylinux2014_{target}"
    folder = TOP / "bindings" / "python" / "src" / "cose"
    files: Dict[str, bytes] = {f"cose/{it.name}": it.read_bytes() for it in sorted(folder.glob("*.py"))}
    files["cose/py.typed"] = b""
    files["cose/_libcose.so"] = library_made
    files.update({f"{info}/licenses/{name}": (TOP / name).read_bytes() for name in LICENSES})
    files[f"{info}/libcose.proof"] = record(made_from, archive.read_bytes()).encode()
    page = (TOP / "docs" / "PYTHON.md").read_text()
    files[f"{info}/METADATA"] = f"{build.METADATA.format(version=made_from.version)}\n{page}".encode()
    files[f"{info}/WHEEL"] = f"Wheel-Version: 1.0\nGenerator: release\nRoot-Is-Purelib: false\nTag: {tag}\n".encode()
    lines = [f"{name},sha256={base64.urlsafe_b64encode(hashlib.sha256(data).digest()).rstrip(b'=').decode()},{len(data)}\n" for name, data in files.items()]
    files[f"{info}/RECORD"] = "".join([*lines, f"{info}/RECORD,,\n"]).encode()
    return f"cose-{made_from.version}-{tag}.whl", {name: Entry(data) for name, data in files.items()}


def python_sources(made_from: Source) -> Files:
    """The sources of the package for Python, with the archives, so that pip builds from them without a variable."""
    base, top = f"cose-{made_from.version}/", TOP / "bindings" / "python"
    own = ("pyproject.toml", "backend/*.py", "extension/*.c", "src/cose/*.py", "src/cose/*.pyi", "src/cose/py.typed")
    files = of_folder(top, base, own)
    for name in LICENSES:
        files[base + name] = of_file(TOP / name)
    files[base + "PYTHON.md"] = of_file(TOP / "docs" / "PYTHON.md")
    files[base + "cose.h"] = of_file(TOP / "include" / "cose.h")
    metadata = backend().METADATA.format(version=made_from.version)
    files[base + "PKG-INFO"] = Entry(metadata.encode())
    return files


def node(made_from: Source) -> Files:
    """The package for Node, with the module inside."""
    if not MODULE.exists():
        raise Refusal("bindings/js/cose.wasm isn't built: ci/web_module builds it")
    top = TOP / "bindings" / "js"
    described = json.loads((top / "package.json").read_text())
    described.pop("private")
    described.pop("scripts")
    files = {f"package/{name}": of_file(top / name) for name in described["files"]}
    files["package/package.json"] = Entry((json.dumps(described, indent=4) + "\n").encode())
    files["package/README.md"] = of_file(TOP / "docs" / "WEB.md")
    files.update({f"package/{name}": of_file(TOP / name) for name in LICENSES})
    return files


def crate(made_from: Source) -> Files:
    """The crate for Rust, with the archives for the processors that its build looks for."""
    base, top = f"cose-{made_from.version}/", TOP / "bindings" / "rust"
    files = of_folder(top, base, ("Cargo.toml", "build.rs", "src/**/*.rs", "tests/**/*.rs", "README.md"))
    for target in library.COMPILERS:
        path = source.archives()[target]
        source.proved(path)
        files[f"{base}lib/{target}/libcose.a"] = of_file(path)
    files.update({base + name: of_file(TOP / name) for name in LICENSES})
    return files


def go(made_from: Source) -> Files:
    """The module for Go, which is linked with the C library that pkg-config knows."""
    files = of_folder(TOP / "bindings" / "go", f"cose-go-{made_from.version}/", ("*.go", "*.h", "go.mod"))
    files.update({f"cose-go-{made_from.version}/{name}": of_file(TOP / name) for name in LICENSES})
    return files
