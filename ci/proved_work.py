"""What the gate has proved of each crate, for other checks to begin with.

`rt ci` proves each crate from nothing, and of its proof it leaves nothing but a library's statements. While a check runs the
toolchain holds each module that it has checked in a file of a temporary folder. Here these files get a second name, in a folder of
the form that a check takes by `--incremental`, and stay after the check. What the gate's own checks read isn't touched, and its
verdicts rest on nothing of this. Where a toolchain does otherwise nothing is kept, and who looks for it proves the same again.
"""
import collections
import contextlib
import os
import pathlib
import subprocess
import tempfile

# the temporary folder of a check, by the number of its process
ROOM = "rattle-logic-built-locked-{}-0"
# a module that is checked, and where one stands there: by its name, or by a sum where that is too long
MODULE = ".oantt"
PARTS = ("", "long")


def build_name():
    """The folder in which this build of the toolchain keeps its work, or None where it can't be told."""
    with contextlib.suppress(OSError, StopIteration):
        page = subprocess.run(["rt", "doc"], capture_output=True, text=True).stdout.strip()
        lines = (pathlib.Path(page).parent / "rlibs" / "std.rlib" / "format").read_text().splitlines()
        return next(it.split(" ", 1)[1] for it in lines if it.startswith("rattle-build ")).replace("/", "_")
    return None


def link_over(one, other):
    """Gives the files below a folder a second name below another one, in place of what has that name there."""
    for at, _, names in os.walk(one):
        there = pathlib.Path(other, os.path.relpath(at, one))
        there.mkdir(parents=True, exist_ok=True)
        for name in names:
            path, link = pathlib.Path(at, name), there / name
            with contextlib.suppress(FileNotFoundError):
                if link.samefile(path):
                    continue
                link.unlink()
            os.link(path, link)


class ProvedWork:
    """Folders with the work of the gate's checks, one for each crate that is proved."""

    def __init__(self, folder):
        self.folder, self.build, self.linked = folder, build_name(), collections.defaultdict(set)

    def take(self, crate, numbers):
        """Links what the crate's check, which is one of these processes, has proved so far."""
        rooms = [pathlib.Path(tempfile.gettempdir(), ROOM.format(number)) for number in numbers if self.build]
        for room in rooms:
            for part in PARTS:
                with contextlib.suppress(OSError):  # (no such folder, or the check ends meanwhile)
                    self.link(room / part, self.folder / f".{crate}" / self.build / part)

    def link(self, one, other):
        """Links the modules of one folder that have no link yet to another."""
        linked = self.linked[one]
        new = [name for name in set(os.listdir(one)) - linked if name.endswith(MODULE)]
        other.mkdir(parents=True, exist_ok=True)
        for name in new:
            with contextlib.suppress(FileExistsError):  # (a check that was killed is run once more)
                os.link(one / name, other / name)
            linked.add(name)

    def end(self, crate):
        """Has the work of a crate that is proved stand under its name."""
        with contextlib.suppress(OSError):
            (self.folder / f".{crate}").rename(self.folder / crate)
