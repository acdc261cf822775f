"""The calls that are made most: by the extension, where it was built, and otherwise by ctypes.

The extension is linked to `_libcose.so` of this folder. Where COSE_LIBRARY names another library, all
calls are made by ctypes.
"""

from __future__ import annotations

import os

# whether the extension makes the calls
IS_BUILT = False
if not os.environ.get("COSE_LIBRARY"):
    try:
        from ._extension import (
            Found,
            feed,
            field,
            items,
            made,
            table_admit,
            table_authenticate,
            table_verify,
            table_verify_cwt,
            table_verify_cwts,
            verify,
            verify_cwt,
        )

        IS_BUILT = True
    except ModuleNotFoundError:
        pass
if not IS_BUILT:
    from ._by_ctypes import (
        feed,
        items,
        table_admit,
        table_authenticate,
        table_verify,
        table_verify_cwt,
        table_verify_cwts,
        verify,
        verify_cwt,
    )
    from ._fields import Found, field, made

__all__ = [
    "Found",
    "IS_BUILT",
    "feed",
    "field",
    "items",
    "made",
    "table_admit",
    "table_authenticate",
    "table_verify",
    "table_verify_cwt",
    "table_verify_cwts",
    "verify",
    "verify_cwt",
]
