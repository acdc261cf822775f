"""What a message and a token cost in Python under a table of one key, next to their HMAC by `hmac`: nanoseconds of each.

usage: rate.py MESSAGE TOKEN AUTHENTICATED
"""
import hmac
import pathlib
import sys
import time
from typing import Callable

import cose

CALLS, TURNS = 20_000, 7


def fastest(call: Callable[[], object]) -> float:
    """The fastest of some turns, for one call."""
    least = float("inf")
    for _ in range(TURNS):
        start = time.thread_time_ns()
        for _ in range(CALLS):
            call()
        least = min(least, (time.thread_time_ns() - start) / CALLS)
    return least


def main() -> None:
    message, token, text = (pathlib.Path(name).read_bytes() for name in sys.argv[1:4])
    table = cose.KeyTable(bytes.fromhex("a2010420444a656665"))
    calls = (
        lambda: hmac.digest(b"Jefe", text, "sha256"),
        lambda: cose.verify(table, message),
        lambda: cose.verify_cwt(table, token, now=1444064943, leeway=60, audience="coap://light.example.com"),
    )
    print(*(f"{fastest(it):.0f}" for it in calls))


main()
