"""The program, with its scripts, manual pages and completions."""
import pathlib
import subprocess
import tempfile

import source
from archives import Entry, Files, of_file
from source import LICENSES, PROGRAM, TOP, Source

SCRIPTS = {"verify_sign1": "cosecmd-sign1", "cose_key": "cosecmd-key"}
PROGRAMS = ("cosecmd", *SCRIPTS.values())
LIBRARIES = ("libos_c.a", "liblibc_c.a")
# how the object that the compiler made of the proved crate is linked: for any Linux, and for a system's C library
STATIC = ("-static-pie",)
SHARED = ("-pie", "-Wl,-z,relro", "-Wl,-z,now")


def linked(way: "tuple[str, ...]") -> bytes:
    """The program, linked in this way, with the kit's two libraries of calls of the system."""
    made = PROGRAM.with_suffix(".o")
    source.proved(PROGRAM)
    if not made.exists():
        raise source.Refusal(f"{made.relative_to(TOP)} isn't there: `rt run -- --version` in crates/cosecmd leaves it")
    kit = pathlib.Path(source.run("rt", "doc")).parent
    with tempfile.TemporaryDirectory() as folder:
        program = pathlib.Path(folder, "cosecmd")
        command = ["cc", *way, "-s", "-Wl,--build-id=none", str(made), *(str(kit / "c" / name) for name in LIBRARIES), "-o", str(program)]
        ended = subprocess.run(command, capture_output=True, text=True)
        if ended.returncode:
            raise source.Refusal(f"cc: {ended.stderr}")
        return source.proved(program)


def record(made_from: Source, content: bytes) -> str:
    """What is known of the proof of a program or an archive."""
    logic = source.MARK.search(content)[1].decode()
    return f"proved each function\nkit {made_from.kit}\nlogic {logic}\ncommit {made_from.commit}\n"


def script(name: str) -> Entry:
    """A script of examples/ under the name that it is installed by, which finds the program from where it is."""
    text = (TOP / "examples" / name).read_text().replace(name, SCRIPTS[name])
    place = 'PROGRAM = pathlib.Path(__file__).resolve().parent.parent / "libexec" / "cose" / "cosecmd"'
    lines = [place if line.startswith("PROGRAM = ") else line for line in text.splitlines()]
    return Entry(("\n".join(lines) + "\n").encode(), 0o755)


def pages() -> Files:
    """The manual pages and the completions."""
    files: Files = {}
    with tempfile.TemporaryDirectory() as folder:
        for kind in ("man", "completions"):
            subprocess.run([TOP / "packaging" / "pages", kind, pathlib.Path(folder, kind)], check=True, stdout=subprocess.DEVNULL)
        for page in sorted(pathlib.Path(folder, "man").glob("*.1")):
            files[f"share/man/man1/{page.name}"] = Entry(page.read_bytes())
        made = pathlib.Path(folder, "completions")
        for name in PROGRAMS:
            files[f"share/bash-completion/completions/{name}"] = Entry((made / f"{name}.bash").read_bytes())
            files[f"share/zsh/site-functions/_{name}"] = Entry((made / f"_{name}").read_bytes())
            files[f"share/fish/vendor_completions.d/{name}.fish"] = Entry((made / f"{name}.fish").read_bytes())
    return files


def tree(made_from: Source, way: "tuple[str, ...]") -> Files:
    """The program below a prefix, linked in this way."""
    content = linked(way)
    wrapper = (TOP / "packaging" / "cosecmd.in").read_text().replace("@record@\n", record(made_from, content))
    files: Files = {"libexec/cose/cosecmd": Entry(content, 0o755), "bin/cosecmd": Entry(wrapper.encode(), 0o755)}
    files.update({f"bin/{SCRIPTS[name]}": script(name) for name in SCRIPTS})
    files["libexec/cose/key_forms.py"] = of_file(TOP / "bindings" / "python" / "src" / "cose" / "key_forms.py")
    return {**files, **pages()}


def package(made_from: Source) -> Files:
    """The program for any Linux: it is unpacked anywhere."""
    base = f"cosecmd-{made_from.version}/"
    files = {f"{base}{name}": entry for name, entry in tree(made_from, STATIC).items()}
    for name in (*LICENSES, "README.md", "SECURITY.md"):
        files[f"{base}share/doc/cose/{name}"] = of_file(TOP / name)
    for name in ("mac0.cbor", "key.cbor"):
        files[f"{base}share/doc/cose/examples/{name}"] = of_file(TOP / "examples" / name)
    return files
