"""What a release is made of: the sources at a commit, and what was proved and built from them."""
import pathlib
import re
import subprocess
from typing import Dict, List, NamedTuple

TOP = pathlib.Path(__file__).resolve().parent.parent.parent
OUT = TOP / "crates" / "cose_c" / "out"
PROGRAM = TOP / "crates" / "cosecmd" / "out" / "cosecmd"
MODULE = TOP / "bindings" / "js" / "cose.wasm"
# which commit `./check` passed, which it writes last
CHECKED = TOP / "out" / "checked"
# what the compiler writes into what it makes of a proved crate, and into nothing else
MARK = re.compile(rb"rattle logic=([0-9a-f]+)")
# the archives of the library, by target; the last are for speed and for size
ARCHIVES = {"x86_64": "libcose_c.a", "aarch64": "libcose_c.aarch64.a"}
DEVICES = ("thumbv6m", "thumbv7m", "thumbv7em", "riscv32imac")
LICENSES = ("LICENSE-APACHE", "LICENSE-MIT")


class Refusal(Exception):
    """Why no release is made."""


def run(*command: str) -> str:
    """What a command prints."""
    return subprocess.run(command, cwd=TOP, check=True, capture_output=True, text=True).stdout.strip()


def version() -> str:
    """The version of the header, which every package has."""
    text = (TOP / "include" / "cose.h").read_text()
    return ".".join(re.search(rf"#define COSE_VERSION_{part} (\d+)", text)[1] for part in ("MAJOR", "MINOR", "PATCH"))


class Source(NamedTuple):
    """The sources: their commit, its time in seconds, and the version."""
    commit: str
    time: int
    version: str
    kit: str


def read() -> Source:
    """The sources, where they may be released."""
    if run("git", "status", "--porcelain"):
        raise Refusal("the tree has uncommitted changes")
    commit = run("git", "rev-parse", "HEAD")
    if not CHECKED.exists() or CHECKED.read_text().split() != [commit]:
        raise Refusal(f"./check hasn't passed at this commit: there is no {CHECKED.relative_to(TOP)} that says so")
    head = re.search(rf"^## {re.escape(version())}(.*)$", (TOP / "CHANGELOG.md").read_text(), re.M)
    if not head or "not released" in head[1]:
        raise Refusal(f"CHANGELOG.md says that {version()} is not released yet")
    return Source(commit, int(run("git", "log", "-1", "--format=%ct")), version(), run("rt", "version"))


def proved(path: pathlib.Path) -> bytes:
    """A program or an archive, which has to have the mark of a proof."""
    if not path.exists():
        raise Refusal(f"{path} isn't built: ./check builds it, and ci/edge_archive the archives")
    content = path.read_bytes()
    if not MARK.search(content):
        raise Refusal(f"{path} isn't what the compiler makes of a proved crate")
    return content


def archives() -> Dict[str, pathlib.Path]:
    """The archives by the name that they have in a release: those for both 64-bit processors, and of the others all that are built."""
    found = {target: OUT / name for target, name in ARCHIVES.items()}
    devices: List[str] = [f"{target}.{kind}" for target in DEVICES for kind in ("speed", "size")]
    found.update({name: OUT / f"libcose_c.{name}.a" for name in devices if (OUT / f"libcose_c.{name}.a").exists()})
    return found


def functions(crate: str) -> int:
    """How many functions of a crate are proved, by its sources."""
    files = (TOP / "crates" / crate / "src").rglob("*.rt")
    return sum(len(re.findall(r"^\s*(?:pub(?:\(crate\))? )?(?:const )?(?:extern \"C\" )?fn \w+", path.read_text(), re.M)) for path in files)
