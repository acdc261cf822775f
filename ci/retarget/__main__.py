"""Rewrites the LLVM module of a static library for a processor with 32-bit pointers.

usage: python3 -m retarget TARGET speed|size [--poison] < in.ll > out.ll
       python3 -m retarget --options TARGET speed|size
       python3 -m retarget --rounds TARGET
       python3 -m retarget --stack speed|size OBJECT

The input is the text of a module for x86_64-unknown-linux-gnu, not optimized yet. The second form prints the options with which
clang compiles the output, the third how often it optimizes it; the last says how much stack the calls of an object file take, and
fails where that is more than docs/DEVICES.md promises. --poison, for tests, writes a pattern above each pointer that is stored.
"""
import sys

from .calls import check_calls
from .forms import Refused
from .rules import Rewriter
from .slots import check_slots
from .stack import report
from .targets import LEVELS, ROUNDS, TARGETS, clang_options


def rewrite(target, way, poison):
    """Rewrites the standard input. It returns the exit status."""
    text = sys.stdin.read()
    rewriter = Rewriter(TARGETS[target], way, poison)
    try:
        check_calls(text)
        places = check_slots(text)
        written = rewriter.rewrite(text)
        missing = rewriter.inlining.missing() if rewriter.inlining else []
        if missing:
            raise Refused("a function that inlining.py names isn't there", ", ".join(missing))
    except Refused as refused:
        print(f"retarget: {refused}", file=sys.stderr)
        return 1
    sys.stdout.write(written)
    counts = [f"{count} {what}" for what, count in sorted(rewriter.counts.items())]
    print(f"retarget: {target}: {', '.join(counts)}; {places} places of pointers, none a number too", file=sys.stderr)
    return 0


def main(arguments):
    match arguments:
        case ["--options", target, way] if target in TARGETS and way in LEVELS:
            print(" ".join(clang_options(target, way)))
            return 0
        case ["--rounds", target] if target in TARGETS:
            print(ROUNDS if TARGETS[target].is_processor else 1)
            return 0
        case ["--stack", way, path] if way in LEVELS:
            return report(path, way)
        case [target, way, *more] if target in TARGETS and way in LEVELS and more in ([], ["--poison"]):
            return rewrite(target, way, bool(more))
    print(__doc__.split("\n\n")[1], file=sys.stderr)
    return 2


sys.exit(main(sys.argv[1:]))
