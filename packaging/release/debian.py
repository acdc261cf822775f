"""The packages for Debian, which its own dpkg-deb writes."""
import gzip
import hashlib
import os
import pathlib
import re
import subprocess
import tempfile
from typing import Dict, NamedTuple

import library
import source
from archives import Entry, Files, of_file, write_all
from program import SHARED, tree
from source import TOP, Refusal, Source

CONTROL = """\
Package: {package}
Version: {version}
Architecture: {processor}
Maintainer: {maintainer}
Installed-Size: {size}
Section: {section}
Priority: optional
{relations}Description: {short}
{long}
"""
COPYRIGHT = """\
Format: https://www.debian.org/doc/packaging-manuals/copyright-format/1.0/
Upstream-Name: cose

Files: *
Copyright: 2026 {maintainer}
License: Apache-2.0 or Expat

License: Apache-2.0
 On Debian systems, the text of the Apache License, version 2.0, is in /usr/share/common-licenses/Apache-2.0.

License: Expat
{expat}
"""


class Package(NamedTuple):
    """What is different from one package to another."""
    name: str
    section: str
    relations: str
    short: str
    long: str
    files: Files
    control: Files = {}


def maintainer() -> str:
    """Who maintains it: the author of the last commit, as SECURITY.md has him."""
    return source.run("git", "log", "-1", "--format=%an <%ae>")


def common(name: str, made_from: Source) -> Files:
    """What each package has: its copyright and its changes."""
    expat = "\n".join(" " + (line or ".") for line in (TOP / "LICENSE-MIT").read_text().split("\n\n", 1)[1].strip().splitlines())
    copyright_text = COPYRIGHT.format(maintainer=maintainer(), expat=expat)
    date = subprocess.run(["date", "-Ru", f"-d@{made_from.time}"], check=True, capture_output=True, text=True).stdout.strip()
    changes = f"{name} ({made_from.version}) unstable; urgency=medium\n\n  * CHANGELOG.md has what changed.\n\n -- {maintainer()}  {date}\n"
    return {
        f"usr/share/doc/{name}/copyright": Entry(copyright_text.encode()),
        f"usr/share/doc/{name}/changelog.gz": Entry(gzip.compress(changes.encode(), 9, mtime=0)),
        f"usr/share/doc/{name}/CHANGELOG.md.gz": Entry(gzip.compress((TOP / "CHANGELOG.md").read_bytes(), 9, mtime=0)),
    }


def needed_library(content: bytes) -> str:
    """The C library that a program or a shared object wants."""
    wanted = {tuple(map(int, it.split(b"."))) for it in re.findall(rb"GLIBC_([0-9.]+)\0", content)}
    return f"libc6 (>= {'.'.join(map(str, max(wanted)))})" if wanted else "libc6"


def program(made_from: Source) -> Package:
    """The program."""
    files: Files = {}
    for name, entry in tree(made_from, SHARED).items():
        place = name.replace("share/zsh/site-functions/", "share/zsh/vendor-completions/")
        if place.startswith("share/man/"):
            place, entry = place + ".gz", Entry(gzip.compress(entry.content, 9, mtime=0))
        files["usr/" + place] = entry
    relations = f"Depends: {needed_library(files['usr/libexec/cose/cosecmd'].content)}, python3\nRecommends: openssl\n"
    long = " cosecmd verifies COSE_Mac0 and COSE_Sign1 messages (RFC 9052) and CBOR Web\n Tokens (RFC 8392) in stated memory, and makes COSE_Mac0 messages."
    return Package("cosecmd", "utils", relations, "verifies COSE messages and CBOR Web Tokens", long, files)


def shared(made_from: Source, target: str) -> Package:
    """The shared object."""
    major = made_from.version.split(".")[0]
    place = f"usr/lib/{target}-linux-gnu/"
    content = library.shared_object(target, source.archives()[target], f"libcose.so.{major}")
    real = f"libcose.so.{made_from.version}"
    files = {place + real: Entry(content), place + f"libcose.so.{major}": Entry(b"", link=real)}
    control = {"shlibs": Entry(f"libcose {major} libcose{major} (>= {made_from.version})\n".encode()), "triggers": Entry(b"activate-noawait ldconfig\n")}
    long = " It verifies COSE_Mac0 and COSE_Sign1 messages (RFC 9052) and CBOR Web Tokens\n (RFC 8392). Each function is proved to meet its contract."
    relations = f"Depends: {needed_library(content)}\nMulti-Arch: same\n"
    return Package(f"libcose{major}", "libs", relations, "verifier of COSE messages and CBOR Web Tokens", long, files, control)


def development(made_from: Source, target: str) -> Package:
    """What programs are built with."""
    major = made_from.version.split(".")[0]
    below = f"lib/{target}-linux-gnu"
    files = {f"usr/{name}": entry for name, entry in {**library.header_files(), **library.project_files(made_from, below)}.items()}
    files[f"usr/{below}/pkgconfig/cose.pc"] = Entry(files[f"usr/{below}/pkgconfig/cose.pc"].content.replace(b"${pcfiledir}/../..", b"/usr").replace(b"/usr/..", b"/usr"))
    files[f"usr/{below}/libcose.a"] = of_file(source.archives()[target])
    files[f"usr/{below}/libcose.so"] = Entry(b"", link=f"libcose.so.{major}")
    files["usr/share/doc/libcose-dev/C.md.gz"] = Entry(gzip.compress((TOP / "docs" / "C.md").read_bytes(), 9, mtime=0))
    long = " The header, the archive, and what pkg-config and CMake read, of a verifier of\n COSE messages (RFC 9052) and CBOR Web Tokens (RFC 8392)."
    relations = f"Depends: libcose{major} (= {made_from.version})\nMulti-Arch: same\n"
    return Package("libcose-dev", "libdevel", relations, "verifier of COSE messages, for development", long, files)


def write(package: Package, made_from: Source, processor: str, folder: pathlib.Path) -> str:
    """Writes a package, and returns its name."""
    files = {**package.files, **common(package.name, made_from)}
    name = f"{package.name}_{made_from.version}_{processor}.deb"
    with tempfile.TemporaryDirectory() as work:
        root = pathlib.Path(work)
        root.chmod(0o755)
        write_all(files, root)
        size = sum(-(-len(entry.content) // 1024) for entry in files.values())
        fields: Dict[str, str] = {"package": package.name, "version": made_from.version, "processor": processor, "section": package.section}
        control = CONTROL.format(**fields, maintainer=maintainer(), size=size, relations=package.relations, short=package.short, long=package.long)
        sums = "".join(f"{hashlib.md5(entry.content).hexdigest()}  {path}\n" for path, entry in sorted(files.items()) if not entry.link)
        write_all({**package.control, "control": Entry(control.encode()), "md5sums": Entry(sums.encode())}, root / "DEBIAN")
        for path in sorted(root.rglob("*")):
            if path.is_dir():
                path.chmod(0o755)
        environment = {**os.environ, "SOURCE_DATE_EPOCH": str(made_from.time)}
        command = ["dpkg-deb", "--root-owner-group", "-Zxz", "--build", str(root), str(folder / name)]
        ended = subprocess.run(command, env=environment, capture_output=True, text=True)
        if ended.returncode:
            raise Refusal(f"dpkg-deb: {ended.stderr}")
    return name
