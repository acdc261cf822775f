"""Verifies a message or a token, and prints JSON: `python -m cose --help`."""

from __future__ import annotations

import argparse
import json
import pathlib
import sys
import traceback
from typing import Any, Dict, Iterator, List, Optional

import cose

from . import key_files, spelling

_ACCEPTED, _REFUSED, _FAULT = 0, 1, 2
_KINDS = {"tagged": None, "mac0": cose.Kind.MAC0, "sign1": cose.Kind.SIGN1}


def _parser() -> argparse.ArgumentParser:
    parser = argparse.ArgumentParser(
        prog="python -m cose",
        description="Verifies a COSE message or a CBOR Web Token, and prints JSON.",
        epilog="Exit status: 0 accepted, 1 refused, 2 a fault of arguments, files or keys.",
    )
    commands = parser.add_subparsers(dest="command", required=True, metavar="COMMAND")
    verify = commands.add_parser("verify", help="verify a COSE_Mac0 or a COSE_Sign1")
    cwt = commands.add_parser("cwt", help="verify a CBOR Web Token, and admit its claims")
    for command in (verify, cwt):
        add = command.add_argument
        add("file", nargs="?", default="-", help="the message; - is standard input, the default")
        add(
            "--keys",
            required=True,
            metavar="FILE",
            help="a COSE_Key or COSE_KeySet, a PEM of an EC public key, a JWK or a JWK set",
        )
        add("--form", choices=["auto", *spelling.FORMS], default="auto", help="of the message")
        add("--aad", type=bytes.fromhex, default=b"", metavar="HEX", help="external data")
        add("--kind", choices=_KINDS, default="tagged", help="the kind, if the tag doesn't say it")
        add("--large", action="store_true", help="allow headers of 65,535 bytes, nested 16 deep")
    verify.add_argument("--payload", metavar="FILE", help="the payload, where it is detached")
    cwt.add_argument(
        "--now", type=int, metavar="SECONDS", help="since 1970; by default the clock's"
    )
    cwt.add_argument("--leeway", type=int, default=0, metavar="SECONDS", help="between the clocks")
    cwt.add_argument("--aud", metavar="TEXT", help="the audience that a token has to name")
    return parser


def _plain(value: Any) -> Any:
    """A value for JSON: bytes are hexadecimal."""
    if isinstance(value, bytes):
        return value.hex()
    if isinstance(value, cose.ConfirmationKey):
        return {name: _plain(it) for name, it in vars(value).items()}
    return value


def _fields(claims: cose.Claims) -> Iterator[tuple[str, Any]]:
    for name in ("iss", "sub", "exp", "nbf", "iat", "cti"):
        if getattr(claims, name) is not None:
            yield name, _plain(getattr(claims, name))
    if claims.aud:
        yield "aud", list(claims.aud)
    if claims.cnf is not None:
        yield "cnf", {name: _plain(it) for name, it in vars(claims.cnf).items() if it is not None}


def _content(name: str) -> bytes:
    return sys.stdin.buffer.read() if name == "-" else pathlib.Path(name).read_bytes()


def _answer(arguments: argparse.Namespace) -> Dict[str, Any]:
    """What is printed of an accepted message or token."""
    keys = key_files.read(_content(arguments.keys))
    data = _content(arguments.file)
    if arguments.form == "auto":
        message = spelling.detect(data)
    else:
        message = spelling.read(data, arguments.form)
    common = {
        "aad": arguments.aad,
        "wanted": _KINDS[arguments.kind],
        "ecdsa": _ecdsa(),
        "large": arguments.large,
    }
    if arguments.command == "cwt":
        policy = {"now": arguments.now, "leeway": arguments.leeway, "audience": arguments.aud}
        claims = cose.verify_cwt(keys, message, **policy, **common)
        return {"verdict": "admitted", "claims": dict(_fields(claims))}
    payload = None if arguments.payload is None else _content(arguments.payload)
    found = cose.verify(keys, message, payload=payload, **common)
    return {
        "verdict": "authentic",
        "kind": found.kind.name.lower(),
        "alg": int(found.alg),
        "payload": found.payload.hex(),
        "taken": found.taken,
    }


def _ecdsa() -> Optional[cose.Ecdsa]:
    """What verifies signatures, or None where it isn't installed."""
    try:
        return cose.ecdsa()
    except ModuleNotFoundError:
        return None


def _run(arguments: argparse.Namespace) -> int:
    try:
        printed, status = _answer(arguments), _ACCEPTED
    except cose.Refused as refused:
        subject = f" {refused.subject}" if arguments.command == "cwt" else ""
        printed = {"verdict": f"refused{subject}", "reason": refused.reason.name}
        printed["place"], status = refused.place, _REFUSED
    print(json.dumps(printed, ensure_ascii=False), flush=True)
    return status


def main(words: Optional[List[str]] = None) -> int:
    """Runs the program, and returns its exit status."""
    arguments = _parser().parse_args(words)
    try:
        return _run(arguments)
    except cose.SignatureUnverified:
        print("cose: to verify signatures, install the package 'cryptography'", file=sys.stderr)
    except (cose.Error, OSError, ValueError) as error:
        print(f"cose: {error}", file=sys.stderr)
    except Exception:  # its own status is that of a refusal
        traceback.print_exc()
    return _FAULT


if __name__ == "__main__":
    sys.exit(main())
