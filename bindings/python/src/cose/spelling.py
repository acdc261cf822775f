"""Bytes that come as hexadecimal, as base64url or as they are."""

from __future__ import annotations

import base64
import binascii
import re
from typing import Callable, Dict


def _hexadecimal(text: bytes) -> bytes:
    return bytes.fromhex(text.decode("ascii"))


def _base64url(text: bytes) -> bytes:
    """Base64url (RFC 4648 section 5), with its padding or without."""
    digits = re.sub(rb"\s+", b"", text).rstrip(b"=")
    if not re.fullmatch(rb"[A-Za-z0-9_-]*", digits):
        raise ValueError("no base64url")
    return base64.urlsafe_b64decode(digits + b"=" * (-len(digits) % 4))


FORMS: Dict[str, Callable[[bytes], bytes]] = {
    "hex": _hexadecimal,
    "base64url": _base64url,
    "binary": lambda data: data,
}


def read(data: bytes, form: str) -> bytes:
    """The bytes that are spelled in a form. Raises `ValueError`."""
    try:
        return FORMS[form](data)
    except (ValueError, binascii.Error):
        raise ValueError(f"it isn't {form}") from None


def detect(data: bytes) -> bytes:
    """The bytes that are spelled in the form that fits.

    Messages and keys begin with a tag, an array or a map, so with a byte above 127: what does is
    binary, and what does once it is read as hexadecimal, or else as base64url, is that.
    """
    for form in ("binary", "hex", "base64url"):
        try:
            read_bytes = read(data, form)
        except ValueError:
            continue
        if read_bytes and read_bytes[0] > 127:
            return read_bytes
    return data
