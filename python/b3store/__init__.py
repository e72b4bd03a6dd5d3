"""b3store: a content-addressed store in memory, from Python.

`Store` is a store in this process, `Client` connects to a server that many processes share, and both have the same methods; `AsyncStore` is a
layer for asyncio. `b3store.hashing` computes BLAKE3. It and `Store` use the library libb3store. `python -m b3store` is the command line,
and `python -m b3store.server` is the server.

    from b3store import Store

    with Store() as store:
        tenant = store.tenant(1 << 30)
        filed = store.upload(open("file", "rb"), tenant)
        print(filed.address, store.fetch(tenant, filed.address, 0, 10))
"""
TYPE_CHECKING = False
"""True for a checker of types. To import that from `typing` takes long, and until it is done Ctrl-C would be a traceback (programs.py)."""

if TYPE_CHECKING:
    import typing

    from .asynchronous import AsyncStore
    from .client import Client
    from .redo import LogError, renew
    from .redo_log import RedoLog, SaveError
    from .store import Store
    from .transfers import StoredObject, Upload
    from .values import (
        CHUNK_LEN, MAX_LIMIT, MAX_NUMBER, MAX_PART_LEN, MAX_SESSIONS, MAX_UPLOAD_LEN, PART_LEN, RANGE_LEN, REFUSALS, Counts, Ended, Filed, Held, ObjectPage,
        ObjectRow, OpenUpload, Redone, Refused, StoreError, Totals, Usage,
    )

__all__ = [
    "CHUNK_LEN", "MAX_LIMIT", "MAX_NUMBER", "MAX_PART_LEN", "MAX_SESSIONS", "MAX_UPLOAD_LEN", "PART_LEN", "RANGE_LEN", "REFUSALS",
    "AsyncStore", "Client", "Counts", "Ended", "Filed", "Held", "LogError", "ObjectPage", "ObjectRow", "OpenUpload", "RedoLog", "Redone", "Refused",
    "SaveError", "Store", "StoreError", "StoredObject", "Totals", "Upload", "Usage", "renew",
]
__version__ = "1.0.0"
_MODULES = {
    "AsyncStore": "asynchronous", "Client": "client", "LogError": "redo", "RedoLog": "redo_log", "SaveError": "redo_log", "Store": "store",
    "StoredObject": "transfers", "Upload": "transfers", "renew": "redo",
}
"""Where a name is defined, unless that is `values`."""


def __getattr__(name: str) -> "typing.Any":
    """Imports a module when a name of it is used first. So a program of this package can begin before they are imported (programs.py), and asyncio is
    imported only if it is used."""
    if name not in __all__:
        raise AttributeError(f"module {__name__!r} has no attribute {name!r}")
    import importlib

    value = getattr(importlib.import_module("." + _MODULES.get(name, "values"), __name__), name)
    globals()[name] = value
    return value


def __dir__() -> "typing.List[str]":
    return sorted({*globals(), *__all__})
