"""A store in this process, by the library libb3store."""
import contextlib
import ctypes
import functools
import io
import threading
from typing import Any, Callable, List, Optional, Tuple

from .library import BOUND, NONE, PROGRESS, SEALED, SIZE, U64, WHY, Handle, Result, address_of, load, new_bytes, refusal_of
from .sessions import READ_LEN, Session
from .commands import Commands, Value, opened
from .transfers import Upload, split
from .values import Buffer, Filed, Held, Refused, check_room

FUNCTIONS = (
    "b3store_begin", "b3store_begin_open", "b3store_close", "b3store_fetch", "b3store_file", "b3store_len", "b3store_lines", "b3store_open", "b3store_plan",
    "b3store_prepare", "b3store_put", "b3store_read",
)
SMALL_LEN = 1 << 14
"""Up to this many bytes are filed, prepared or read without letting other threads run: a thread that does may wait longer than the call takes."""
LONG = (b"entries", b"fileas", b"list", b"objects", b"redo", b"tenants", b"uploads")
"""How lines begin that may take long."""
MAX_TENANTS, MAX_ENTRIES, WORKERS = 1 << 16, 1 << 32, 1


@functools.lru_cache(maxsize=None)
def loaded() -> Tuple[Any, Any]:
    """The library, whose calls let other threads run, and again for calls that don't."""
    return load(FUNCTIONS)


class Lines(Session):
    """The lines of one turn, and their answers."""

    def __init__(self, store: "Store") -> None:
        self._store, self._end = store, "an answer is missing"

    def write(self, *pieces: Buffer) -> None:
        """Has the library run lines. Their answers are read next."""
        self._reading = io.BufferedReader(Answers(self._store, b"".join(pieces)), READ_LEN)


class Answers(io.RawIOBase):
    """Answers to lines, which the library keeps until they are read."""

    def __init__(self, store: "Store", lines: bytes) -> None:
        super().__init__()
        self._store, self._handle, self._offset = store, ctypes.byref(Handle()), 0
        calls = store._library if lines.startswith(LONG) else store._small
        store._call(calls.b3store_lines, lines, SIZE(len(lines)), self._handle, store._work_at)

    def readable(self) -> bool:
        return True

    def readinto(self, room: Any) -> int:
        view = check_room(room)
        count = self._store._copy(self._handle, self._offset, view.nbytes, ctypes.c_void_p(address_of(view)))[1]
        self._offset += count
        return count

    def close(self) -> None:
        if not self.closed:
            self._store._small.b3store_close(self._handle)
        super().close()


class Store(Commands):
    """A store in the memory of this process. When it is closed, dropped, or the process ends, everything in it is lost.

    Threads can share it: they hash and copy side by side, and take turns for a few microseconds for each command. After it is closed, calls raise ValueError;
    so they do in a process that was forked, which opens a store of its own."""

    _at: Any = ctypes.byref(Handle())
    """The library's handle: here a closed one, which a store has until it is open, and after a fork."""
    _library: Any = None

    def __init__(self) -> None:
        """Opens an empty store. Raises OSError without the library. Refusals: S14."""
        self._library, self._small = loaded()
        self._lock = threading.Lock()
        # what calls store is read before the lock is released
        self._why, self._work_at = Result(WHY), ctypes.byref(U64())
        self._at = ctypes.byref(Handle())
        self._call(self._small.b3store_open, U64(MAX_TENANTS), U64(MAX_ENTRIES), U64(WORKERS))
        opened.add(self)

    def __del__(self) -> None:
        if self._library is not None:
            self._library.b3store_close(self._at)

    def close(self) -> None:
        """Frees the store, after the command of another thread. A second call has no effect."""
        with self._lock:
            self._library.b3store_close(self._at)

    def _file(self, tenant: int, view: memoryview, address: Optional[str]) -> Filed:
        if address is None and view.nbytes <= SMALL_LEN:
            return self._file_small(tenant, view.tobytes())
        return self._upload_parts(Upload(self, view.nbytes), tenant, None, split(view), address)

    def _file_small(self, tenant: int, content: bytes) -> Filed:
        sealed, left = Result(SEALED), U64(NONE)
        words = U64(tenant), content, SIZE(len(content)), sealed.at, ctypes.byref(left), self._why.at, self._work_at
        try:
            self._call(self._small.b3store_file, *words)
        except Refused:
            # an upload whose abort was refused too
            if left.value != NONE:
                self.abort(left.value)
            raise
        digest, is_new = sealed.read()
        return Filed(is_new == 1, digest.hex(), len(content))

    def _put(self, upload: int, offset: int, view: memoryview) -> Held:
        number, bound, progress = U64(upload), Result(BOUND), Result(PROGRESS)
        self._call(self._small.b3store_plan, number, bound.at, self._why.at)
        length, is_open = bound.read()
        at, close = ctypes.byref(Handle()), self._small.b3store_close
        try:
            count, start = view.nbytes, ctypes.c_void_p(address_of(view))
            answer = self._calls_for(count).b3store_prepare(at, U64(length), ctypes.c_bool(is_open), U64(offset), start, SIZE(count), ctypes.byref(U64()))
            if answer:
                raise refusal_of(answer)
            self._call(self._small.b3store_put, number, at, progress.at, self._why.at, self._work_at)
        finally:
            close(at)
        held, missing, is_whole = progress.read()
        return Held(held, None if is_whole else missing)

    def _put_all(self, upload: int, offset: int, parts: List[memoryview]) -> None:
        for part in parts:
            self._put(upload, offset, part)
            offset += part.nbytes

    def _fetch(self, tenant: int, address: str, offset: int, length: int) -> bytes:
        return bytes(self._read(tenant, address, offset, length)[0])

    def _read_into(self, tenant: int, address: str, view: memoryview, offset: int, min_len: int = 0) -> int:
        return self._read(tenant, address, offset, view.nbytes, ctypes.c_void_p(address_of(view)))[1]

    def _read(self, tenant: int, address: str, offset: int, length: int, room: Any = None) -> Tuple[Any, int]:
        """Reads bytes of an object into memory, or into new bytes. Returns these, and how many were read."""
        at, close = ctypes.byref(Handle()), self._small.b3store_close
        try:
            self._call(self._small.b3store_fetch, U64(tenant), bytes.fromhex(address), at, self._why.at)
            return self._copy(at, offset, length, room)
        finally:
            close(at)

    def _copy(self, at: Any, offset: int, length: int, room: Any = None) -> Tuple[Any, int]:
        """The same for bytes of what a handle keeps: an object, or a text."""
        size = U64()
        self._small.b3store_len(at, ctypes.byref(size))
        count = max(0, min(length, size.value - offset))
        content = new_bytes(None, count) if room is None else room
        self._calls_for(count).b3store_read(at, U64(offset), content, SIZE(count), ctypes.byref(size))
        return content, count

    def _begin(self, word: str, tenant: int, length: int) -> int:
        number = U64(NONE)
        at, begin = ctypes.byref(number), self._small.b3store_begin if word == "begin" else self._small.b3store_begin_open
        try:
            self._call(begin, U64(tenant), U64(length), at, self._why.at)
            # a signal is handled after a call: here its exception can't come between the upload and the caller
            return number.value
        except BaseException:
            with contextlib.suppress(Refused, ValueError):
                if number.value != NONE:
                    self.abort(number.value)
            raise

    def _calls_for(self, count: int) -> Any:
        """The library for so many bytes."""
        return self._small if count <= SMALL_LEN else self._library

    def _call(self, function: Any, *words: Any) -> None:
        """Calls a function on the store. Raises what its answer says."""
        with self._lock:
            answer = function(self._at, *words)
            if answer:
                raise refusal_of(answer, *self._why.read())

    def _in_turn(self, work: Callable[[Session], Value]) -> Value:
        return work(Lines(self))

    def _leave(self) -> None:
        # here no call of the library may be made on it
        self._at, self._lock = Store._at, threading.Lock()
