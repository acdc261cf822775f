"""Archives whose bytes depend on their content and on one time alone: no owner, no clock and no order of a folder is in them."""
import gzip
import io
import pathlib
import tarfile
import zipfile
from typing import Dict, NamedTuple, Tuple

# the time of the entries of a zip file, which can't be before 1980
ZIP_TIME = (1980, 1, 1, 0, 0, 0)


class Entry(NamedTuple):
    """A file of an archive, or a link."""
    content: bytes
    mode: int = 0o644
    link: str = ""


Files = Dict[str, Entry]


def of_file(path: pathlib.Path) -> Entry:
    """A file as it is, executable or not."""
    return Entry(path.read_bytes(), 0o755 if path.stat().st_mode & 0o100 else 0o644)


def of_folder(folder: pathlib.Path, below: str, names: Tuple[str, ...]) -> Files:
    """The files of a folder that these patterns name, below this name."""
    paths = {path for name in names for path in folder.glob(name) if path.is_file()}
    return {f"{below}{path.relative_to(folder)}": of_file(path) for path in sorted(paths)}


def tar_gz(files: Files, time: int) -> bytes:
    """A tar file, compressed."""
    plain = io.BytesIO()
    with tarfile.open(fileobj=plain, mode="w", format=tarfile.PAX_FORMAT) as packed:
        for name, entry in sorted(files.items()):
            info = tarfile.TarInfo(name)
            info.mtime, info.mode, info.size = time, entry.mode, len(entry.content)
            if entry.link:
                info.type, info.linkname, info.mode = tarfile.SYMTYPE, entry.link, 0o777
            packed.addfile(info, io.BytesIO(entry.content))
    pressed = io.BytesIO()
    with gzip.GzipFile(filename="", mode="wb", compresslevel=9, fileobj=pressed, mtime=time) as out:
        out.write(plain.getvalue())
    return pressed.getvalue()


def zip_file(files: Files) -> bytes:
    """A zip file."""
    packed = io.BytesIO()
    with zipfile.ZipFile(packed, "w", zipfile.ZIP_DEFLATED, compresslevel=9) as out:
        for name, entry in files.items():
            info = zipfile.ZipInfo(name, ZIP_TIME)
            info.external_attr, info.compress_type, info.create_system = (0o100000 | entry.mode) << 16, zipfile.ZIP_DEFLATED, 3
            out.writestr(info, entry.content)
    return packed.getvalue()


def write_all(files: Files, folder: pathlib.Path) -> None:
    """Writes files into a folder."""
    for name, entry in files.items():
        path = folder / name
        path.parent.mkdir(parents=True, exist_ok=True)
        if entry.link:
            path.symlink_to(entry.link)
        else:
            path.write_bytes(entry.content)
            path.chmod(entry.mode)
