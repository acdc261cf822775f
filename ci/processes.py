"""Processes as /proc shows them, with their processor time, and a bound of it."""
import collections
import contextlib
import os
import pathlib
import resource
import threading

TICKS = os.sysconf("SC_CLK_TCK")
# a process as /proc shows it: its parent, its start in ticks, and its processor time with that of ended children
Process = collections.namedtuple("Process", "parent start seconds")


def bound_time(seconds=600):
    """Ends this process, and each that it starts, after so many seconds of its own processor time: one that would not end by
    itself is seen, and one that only has to wait for the machine is left alone."""
    _, most = resource.getrlimit(resource.RLIMIT_CPU)
    if most == resource.RLIM_INFINITY or most > seconds:
        resource.setrlimit(resource.RLIMIT_CPU, (seconds, most))


def running():
    """Every process of the machine by its number."""
    found = {}
    for name in filter(str.isdigit, os.listdir("/proc")):
        try:
            words = pathlib.Path("/proc", name, "stat").read_text(errors="replace").rpartition(")")[2].split()
        except OSError:
            continue
        found[int(name)] = Process(int(words[1]), int(words[19]), sum(map(int, words[11:15])) / TICKS)
    return found


def below(number, found):
    """The process and all below it."""
    children = collections.defaultdict(list)
    for it, process in found.items():
        children[process.parent].append(it)
    all_of_them = [number] if number in found else []
    for it in all_of_them:
        all_of_them += children[it]
    return all_of_them


def words_of(number):
    """The words of a process of the checker and its folder, or None."""
    try:
        words = pathlib.Path("/proc", str(number), "cmdline").read_text(errors="replace").split("\0")
        folder = os.readlink(f"/proc/{number}/cwd")
    except OSError:
        return None
    at = next((at for at, it in enumerate(words) if it.endswith("/rattle")), None)
    return None if at is None or words[at + 1] not in ("build", "check") else (words, folder)


class Checks:
    """The checks below a process, and the processor time of each. `part` gives what a check works for, by its words and folder."""

    def __init__(self, part):
        self.part = part
        # by a check's number and start: its part, and its processor time so far
        self.checks = {}

    def sample(self, root):
        """Adds what the processes have used, and returns the parts that checks are running for, with the numbers of their processes."""
        found, parts = running(), {}
        for number in below(root, found):
            key = number, found[number].start
            if key in self.checks:
                part = self.checks[key][0]
            else:
                given = words_of(number)
                part = given and self.part(*given)
            parent = found[number].parent
            # (a check works in copies of itself, too)
            is_copy = parent in found and (parent, found[parent].start) in self.checks
            if part and not is_copy:
                copies = below(number, found)
                self.checks[key] = part, sum(found[it].seconds for it in copies)
                parts.setdefault(part, []).extend(copies)
        return parts

    def seconds(self):
        """The processor time by part."""
        sums = collections.Counter()
        for part, spent in self.checks.values():
            sums[part] += spent
        return sums

    def count(self, part):
        """How many checks were seen for a part."""
        return sum(it == part for it, _ in self.checks.values())

    @contextlib.contextmanager
    def seen(self, pause=0.5):
        """Samples what is below this process, until the block ends."""
        ended = threading.Event()

        def watch():
            while not ended.wait(pause):
                self.sample(os.getpid())

        thread = threading.Thread(target=watch, daemon=True)
        thread.start()
        try:
            yield
        finally:
            ended.set()
            thread.join()
