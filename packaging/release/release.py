"""Writes a release into a folder: `./release` runs this."""
import argparse
import pathlib
import subprocess
import sys
from typing import Callable, Dict, Tuple

sys.dont_write_bytecode = True
import archives  # noqa: E402 (beside this file)
import debian  # noqa: E402
import languages  # noqa: E402
import library  # noqa: E402
import page  # noqa: E402
import program  # noqa: E402
import source  # noqa: E402
import statement  # noqa: E402
from source import TOP, Refusal, Source  # noqa: E402


def say(text: str) -> None:
    print(f"release: {text}", file=sys.stderr)


def packed(made_from: Source) -> Dict[str, bytes]:
    """The archives of a release, by their names."""
    version = made_from.version
    tar: Dict[str, Callable[[Source], archives.Files]] = {
        f"cosecmd-{version}-linux-x86_64.tar.gz": program.package,
        f"libcose-{version}.tar.gz": library.package,
        f"cose-{version}.tar.gz": languages.python_sources,
        f"cose-{version}.tgz": languages.node,
        f"cose-{version}.crate": languages.crate,
    }
    made = {name: archives.tar_gz(files(made_from), made_from.time) for name, files in tar.items()}
    made[f"cose-go-{version}.zip"] = archives.zip_file(languages.go(made_from))
    rows = archives.of_folder(TOP / "rows", f"cose-rows-{version}/", ("*.json", "README.md"))
    made[f"cose-rows-{version}.tar.gz"] = archives.tar_gz(rows, made_from.time)
    plain = subprocess.run(["git", "archive", "--format=tar", f"--prefix=cose-sources-{version}/", "HEAD"], cwd=TOP, check=True, capture_output=True).stdout
    made[f"cose-sources-{version}.tar.xz"] = subprocess.run(["xz", "--threads=1", "-6", "--stdout"], input=plain, check=True, capture_output=True).stdout
    made[f"cose-{version}.html"] = page.single().content
    return made


def for_processors(made_from: Source, folder: pathlib.Path) -> None:
    """The packages that are linked for each processor."""
    written = [debian.write(debian.program(made_from), made_from, "amd64", folder)]
    for target, processor in library.DEBIAN.items():
        name, files = languages.wheel(made_from, target)
        (folder / name).write_bytes(archives.zip_file(files))
        for package in (debian.shared(made_from, target), debian.development(made_from, target)):
            written.append(debian.write(package, made_from, processor, folder))


def lacking() -> Tuple[str, ...]:
    """The commands that this machine lacks."""
    wanted = ("git", "rt", "dpkg-deb", "xz", "openssl", *library.COMPILERS.values())
    return tuple(name for name in wanted if subprocess.run(["sh", "-c", f"command -v {name}"], capture_output=True).returncode)


def release(folder: pathlib.Path, key: "pathlib.Path | None") -> None:
    missing = lacking()
    if missing:
        raise Refusal(f"this machine lacks {', '.join(missing)}")
    made_from = source.read()
    if folder.exists() and any(folder.iterdir()):
        raise Refusal(f"{folder} isn't empty")
    folder.mkdir(parents=True, exist_ok=True)
    for name, content in packed(made_from).items():
        (folder / name).write_bytes(content)
    for_processors(made_from, folder)
    files = {path.name: path.read_bytes() for path in sorted(folder.iterdir())}
    for name, entry in statement.write(files, made_from, key).items():
        (folder / name).write_bytes(entry.content)
    say(f"{len(list(folder.iterdir()))} files of {made_from.version} in {folder}")
    if not key:
        say("it is unsigned: --key FILE names the releaser's key, on P-256, as PEM")


def main() -> int:
    how = argparse.ArgumentParser(prog="release", description="Writes a release into a folder.")
    how.add_argument("--key", type=pathlib.Path, metavar="FILE", help="the releaser's key, which signs SHA256SUMS")
    how.add_argument("folder", type=pathlib.Path, metavar="FOLDER")
    asked = how.parse_args()
    try:
        release(asked.folder, asked.key)
    except Refusal as why:
        say(str(why))
        return 1
    return 0


if __name__ == "__main__":
    sys.exit(main())
