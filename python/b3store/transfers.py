"""Uploads of any length, and objects as file objects."""
import contextlib
import io
import itertools
import operator
import os
import stat
from types import TracebackType
from typing import Any, Iterator, Optional, Type

from . import TYPE_CHECKING
from .values import PART_LEN, Buffer, Ended, Filed, Refused, check_address, check_bytes, check_room

if TYPE_CHECKING:
    from .commands import Commands

PARTS_AT_ONCE = 4
"""How many parts are sent in one turn. Those of a file are read before, so that a slow one keeps no session from other threads."""
MAX_TRIES = 10
OPEN_LEN = 1 << 40
"""How many bytes an upload whose length isn't known reserves at most: 64 of them fit into a tenant of the maximum limit."""


class Upload:
    """An open upload, as a context manager: if an exception leaves its block, the upload is aborted; otherwise it is sealed, unless the block has sealed
    it. `filed` then has the object.

        with store.start_upload(tenant) as upload:
            upload.write(b"any number")
            upload.write(b"of bytes")
        print(upload.filed.address)"""

    def __init__(self, commands: "Commands", length: Optional[int]) -> None:
        self._commands, self._length = commands, length
        self.number = 0
        self.filed: Optional[Filed] = None
        """The object, once the upload is sealed."""
        self.is_open = False
        self._kept, self._sent = bytearray(), 0
        self._fault: Optional[BaseException] = None
        """Why a write failed, until that is raised again, or the upload is ended otherwise."""

    def __enter__(self) -> "Upload":
        return self

    def __exit__(self, kind: Optional[Type[BaseException]], fault: Optional[BaseException], trace: Optional[TracebackType]) -> None:
        if not self.is_open:
            if fault is None and self._fault is not None:
                raise self._fault
            return
        if fault is not None:
            return self._abort_quietly()
        self.seal()

    def _begin(self, tenant: int, max_len: Optional[int] = None, min_len: int = 0) -> None:
        """Begins the upload. If neither its length nor a maximum is known, its bound is all that the tenant has left, up to OPEN_LEN; if that is less than
        `min_len`, it is refused."""
        limit, tries = OPEN_LEN if max_len is None else max_len, MAX_TRIES if self._length is None and max_len is None else 1
        while not self.is_open:
            try:
                self.number = self._commands.begin_open(tenant, limit) if self._length is None else self._commands.begin(tenant, self._length)
                self.is_open = True
            except Refused as refusal:
                tries -= 1
                if not tries or refusal.number != "S6" or not isinstance(refusal.value, int) or refusal.value < min_len:
                    raise
                limit = refusal.value

    def write(self, content: Buffer) -> int:
        """Adds bytes, any number of them, after those of earlier calls, and returns their number. If it can't send them, or is interrupted, the upload is
        aborted, and the end of the block raises the same again. Refusals: those of `Commands.put`. Raises ValueError if the upload isn't open."""
        view = check_bytes(content)
        if not self.is_open:
            raise ValueError("the upload isn't open")
        try:
            self._write(view)
        except BaseException as fault:
            # it isn't known which of them are put
            self._fault = fault
            self._abort_quietly()
            raise
        return view.nbytes

    def seal(self, address: Optional[str] = None) -> Filed:
        """Files the upload as an object. If an address is given, content with another address is refused. After a refusal the upload is aborted.
        Refusals: S7, S10, S11, S6, and those of `Commands.put`, since the last bytes that were written are sent now."""
        address = None if address is None else check_address(address)
        try:
            if self._kept:
                self._send_kept()
            if self._length is None:
                self._commands.fix(self.number, self._sent)
            filed = self._commands._seal(self.number, address, self._sent if self._length is None else self._length)
        except BaseException:
            self._abort_quietly()
            self._fault = None
            raise
        self.is_open, self.filed = False, filed
        return filed

    def abort(self) -> None:
        """Ends the upload without an object, unless a failed write has done so. Refusals: S7."""
        if self._fault is None:
            self._commands.abort(self.number)
        self.is_open, self._fault = False, None

    def _abort_quietly(self) -> None:
        self.is_open = False
        with contextlib.suppress(Refused, Ended, ValueError):
            self._commands.abort(self.number)

    def _write(self, view: memoryview) -> None:
        start = min(-len(self._kept) % PART_LEN, view.nbytes)
        self._kept += view[:start]
        if len(self._kept) == PART_LEN:
            self._send_kept()
        end = start + (view.nbytes - start) // PART_LEN * PART_LEN
        self._send(split(view[start:end]))
        self._kept += view[end:]

    def _send_kept(self) -> None:
        kept, self._kept = self._kept, bytearray()
        self._send(split(memoryview(kept)))

    def _send(self, parts: Iterator[memoryview]) -> None:
        """Sends parts, a few in each turn. After a failure the upload has to be aborted."""
        for batch in iter(lambda: list(itertools.islice(parts, PARTS_AT_ONCE)), []):
            self._commands._put_all(self.number, self._sent, batch)
            self._sent += sum(part.nbytes for part in batch)


class StoredObject(io.RawIOBase):
    """An object's bytes as a raw file object, which is read-only and seekable. Other commands can run between two reads."""

    def __init__(self, commands: "Commands", tenant: int, address: str) -> None:
        super().__init__()
        self._commands, self._tenant, self._at = commands, tenant, 0
        self.address = address
        self.size = commands.size(tenant, address)
        """The object's length."""

    def readable(self) -> bool:
        return True

    def seekable(self) -> bool:
        return True

    def write(self, content: Any) -> int:
        """Raises io.UnsupportedOperation: an object never changes."""
        raise io.UnsupportedOperation("an object can't be written to")

    def tell(self) -> int:
        """Returns the position of the next read."""
        return self._at

    def seek(self, offset: int, whence: int = io.SEEK_SET) -> int:
        """Changes the position of the next read, and returns it. Positions after the end are allowed; there nothing is read."""
        if whence not in (io.SEEK_SET, io.SEEK_CUR, io.SEEK_END):
            raise ValueError(f"whence must be 0, 1 or 2, not {whence!r}")
        position = (0, self._at, self.size)[whence] + operator.index(offset)
        if position < 0:
            raise ValueError(f"the position {position} is negative")
        self._at = position
        return position

    def readinto(self, room: Any) -> int:
        """Reads into a writable buffer, and returns how many bytes it read: fewer than there is room for only at the end. Refusals: S1, S12."""
        if self.closed:
            raise ValueError("the file is closed")
        view = check_room(room)[: max(0, self.size - self._at)]
        if view.nbytes:
            self._commands._read_into(self._tenant, self.address, view, self._at, view.nbytes)
            self._at += view.nbytes
        return view.nbytes

    def readall(self) -> bytes:
        """Reads all bytes up to the end. Refusals: S1, S12."""
        return b"".join(iter(lambda: self.read(PART_LEN) or b"", b""))


def split(view: memoryview) -> Iterator[memoryview]:
    """The parts of bytes that are in memory."""
    return (view[at : at + PART_LEN] for at in range(0, view.nbytes, PART_LEN))


def is_file(content: Any) -> bool:
    """Whether content is a file object, and no buffer: an mmap is both, and used as a buffer."""
    try:
        memoryview(content)
        return False
    except TypeError:
        return hasattr(content, "read")


def read_part(file: Any, length: int) -> memoryview:
    """Reads up to `length` bytes of a file, fewer only at its end. Raises TypeError if the file doesn't return bytes, and BlockingIOError if it is not in
    blocking mode and has none."""
    pieces, left = [], length
    while left:
        piece = file.read(left)
        if piece is None:
            raise BlockingIOError("the file has no bytes now: set it to blocking mode")
        pieces.append(check_bytes(piece))
        left -= pieces[-1].nbytes
        if left < 0:
            raise ValueError(f"the file read {-left} bytes too many")
        if not pieces[-1].nbytes:
            break
    return pieces[0] if len(pieces) == 1 else memoryview(b"".join(pieces))


def parts_of(file: Any, limit: Optional[int] = None, length: Optional[int] = None) -> Iterator[memoryview]:
    """Yields the parts of a file's remaining bytes, up to `limit` bytes in all. Raises ValueError if they are fewer than `length`."""
    at = 0
    while limit is None or at < limit:
        part = read_part(file, PART_LEN if limit is None else min(PART_LEN, limit - at))
        at += part.nbytes
        if part.nbytes:
            yield part
        if part.nbytes < PART_LEN:
            break
    if length is not None and at < length:
        raise ValueError(f"the file ends after {at} of {length} bytes")


def length_of(file: Any) -> Optional[int]:
    """How many bytes a regular file has from its position on, as far as it says so: those of the system say 0. None for any other file, such as one that
    decompresses another."""
    if not isinstance(getattr(file, "raw", file), io.FileIO):
        return None
    status = os.fstat(file.fileno())
    return max(0, status.st_size - file.tell()) if stat.S_ISREG(status.st_mode) and status.st_size else None
