"""The commands of a store, as lines, of a server (client.py) or of the library (store.py); and uploads of any length."""
import io
import itertools
import os
import sys
import weakref
from typing import Any, BinaryIO, Callable, Dict, Iterator, List, Optional, Sequence, TypeVar, Union

from .redo import run_lines
from .sessions import Session
from .transfers import PARTS_AT_ONCE, StoredObject, Upload, is_file, length_of, parts_of, split
from .values import (
    CHUNK_LEN, FILED, MAX_NUMBER, MAX_REDONE, MAX_UPLOAD_LEN, PART_LEN, RANGE_LEN, Buffer, Counts, Filed, Held, ObjectPage, ObjectRow, OpenUpload, Redone,
    Refused, Totals, Usage, check_address, check_bytes, check_number, check_room, half_of_memory, parse,
)

Value = TypeVar("Value")
Self = TypeVar("Self", bound="Commands")

opened: "weakref.WeakSet[Commands]" = weakref.WeakSet()
"""The stores that leave themselves to the parent of a new process."""
HELD, ROW, TOTALS = "held N (?:all|missing N)", "A L", "objects N bytes N uploads N held N parts N"
"""Forms of answers (`values.parse`)."""


class Commands:
    """A method for each command. Arguments are checked before anything is sent: TypeError for a wrong type, ValueError for a value that no command
    takes. Every method can raise Refused, for a command that changed nothing, and of a client Ended; docstrings list the refusals, which `REFUSALS` explains.
    S13, a full journal, can happen to every command that changes something, and S14, out of memory, to every command."""

    def _in_turn(self, work: Callable[[Session], Value]) -> Value:
        """What a function returns for a session, which nothing else uses meanwhile."""
        raise NotImplementedError

    def close(self) -> None:
        """Ends the use of the store."""
        raise NotImplementedError

    def _leave(self) -> None:
        """Leaves the store to the parent of a new process, whose copy of it can't be used."""

    def __enter__(self: Self) -> Self:
        return self

    def __exit__(self, *_: Any) -> None:
        self.close()

    def tenant(self, limit: Optional[int] = None) -> int:
        """Opens a tenant, which may hold up to `limit` bytes, by default half of this machine's memory, and returns its number. It can't be closed, and a store
        has at most 65,536: a program that runs again uses the same one. Refusals: S2, S3."""
        return int(self._ask("tenant N", f"tenant {check_number('limit', half_of_memory() if limit is None else limit)}")[0])

    def limit(self, tenant: int, limit: int) -> None:
        """Changes a tenant's limit. Refusals: S1, S3, S4."""
        self._ask("ok", f"limit {check_number('tenant', tenant)} {check_number('limit', limit)}")

    def begin(self, tenant: int, length: int) -> int:
        """Begins an upload of `length` bytes, and returns its number. Refusals: S1, S5, S6."""
        return self._begin("begin", check_number("tenant", tenant), check_number("length", length))

    def begin_open(self, tenant: int, max_len: int) -> int:
        """Begins an upload of up to `max_len` bytes, whose end is fixed later, and returns its number. Refusals: S1, S5, S6."""
        return self._begin("open", check_number("tenant", tenant), check_number("max_len", max_len))

    def fix(self, upload: int, length: int) -> None:
        """Fixes an upload's end. Refusals: S7, S5, S15."""
        self._ask("ok", f"fix {check_number('upload', upload)} {check_number('length', length)}")

    def put(self, upload: int, offset: int, part: Buffer) -> Held:
        """Adds a part to an upload. Refusals: S7, F2 to F6, S9, S15."""
        return self._put(check_number("upload", upload), check_number("offset", offset), check_bytes(part))

    def _put(self, upload: int, offset: int, view: memoryview) -> Held:
        return Held(*self._ask(HELD, f"putb {upload} {offset} {view.nbytes}", view))

    def seal(self, upload: int) -> Filed:
        """Files an upload as an object. Refusals: S7, S16, S10, S6."""
        return self._seal(upload)

    def seal_as(self, upload: int, address: str) -> Filed:
        """Files an upload as an object if it has this address. Refusals: those of `seal`, and S11."""
        return self._seal(upload, check_address(address))

    def _seal(self, upload: int, address: Optional[str] = None, length: Optional[int] = None) -> Filed:
        """Files an upload as an object, which must have this address and this length, if they are known."""
        line = f"seal {check_number('upload', upload)}" if address is None else f"sealas {check_number('upload', upload)} {address}"
        return self._talk(lambda _, *values: filed_of(values, address, length), FILED, line)

    def abort(self, upload: int) -> None:
        """Ends an upload without an object. Refusals: S7."""
        self._ask("ok", f"abort {check_number('upload', upload)}")

    def file(self, tenant: int, content: Buffer, address: Optional[str] = None) -> Filed:
        """Files content; a client does so in one turn, and with `upload` others have turns meanwhile. If an address is given, content with another address is
        refused. Refusals: those of `begin`, `put` and `seal_as`; after a refusal the upload is aborted."""
        return self._file(check_number("tenant", tenant), check_bytes(content), None if address is None else check_address(address))

    def _file(self, tenant: int, view: memoryview, address: Optional[str]) -> Filed:
        line = f"file {tenant} {view.nbytes}" if address is None else f"fileas {tenant} {address} {view.nbytes}"
        return self._talk(lambda _, *values: filed_of(values, address, view.nbytes), FILED, line, view)

    def forget(self, tenant: int, address: str) -> None:
        """Stops holding an object for a tenant. The object is removed when no tenant holds it any more. Refusals: S1, S12."""
        self._ask("ok", f"forget {check_number('tenant', tenant)} {check_address(address)}")

    def has(self, tenant: int, address: str) -> Optional[int]:
        """Returns the length of an object that a tenant holds, or None. Refusals: S1."""
        try:
            return self.size(tenant, address)
        except Refused as refusal:
            if refusal.number != "S12":
                raise
            return None

    def size(self, tenant: int, address: str) -> int:
        """Returns the length of an object that a tenant holds. Refusals: S1, S12."""
        return int(self._ask("has L", f"has {check_number('tenant', tenant)} {check_address(address)}")[0])

    def fetch(self, tenant: int, address: str, offset: int = 0, length: int = MAX_UPLOAD_LEN) -> bytes:
        """Returns up to `length` bytes of an object, starting at `offset`; by default all. Refusals: S1, S12."""
        return self._fetch(check_number("tenant", tenant), check_address(address), check_number("offset", offset), check_number("length", length))

    def _fetch(self, tenant: int, address: str, offset: int, length: int) -> bytes:
        return self._talk(lambda session, count: session.content(count, length), "bytes N", f"fetchb {tenant} {address} {offset} {length}")

    def fetch_into(self, tenant: int, address: str, room: Buffer, offset: int = 0) -> int:
        """Reads an object's bytes, starting at `offset`, into a writable buffer, and returns how many it read. These are fewer than the buffer has room for
        only at the object's end. Refusals: S1, S12."""
        return self._read_into(check_number("tenant", tenant), check_address(address), check_room(room), check_number("offset", offset))

    def _read_into(self, tenant: int, address: str, view: memoryview, offset: int, min_len: int = 0) -> int:
        """Reads into a buffer at least `min_len` bytes, which the object is known to have."""
        line = f"fetchb {tenant} {address} {offset} {view.nbytes}"
        return self._talk(lambda session, count: session.content_into(count, view, min_len), "bytes N", line)

    def ranges(self, tenant: int, address: str, length: int = RANGE_LEN) -> Iterator[bytes]:
        """Yields an object's bytes in ranges of `length`. Other commands can run between two of them. Refusals: S1, S12."""
        length = check_number("length", length, 1)
        return filter(None, pages(lambda offset: self.fetch(tenant, address, offset, length), 0, length))

    def usage(self, tenant: int) -> Usage:
        """Returns how many bytes a tenant uses and reserves, and its limit. Refusals: S1."""
        return Usage(*self._ask("used N reserved N limit N", f"usage {check_number('tenant', tenant)}"))

    def list(self, tenant: int) -> Dict[str, int]:
        """Returns the lengths of the objects that a tenant holds, by address, in the order in which they were filed. Refusals: S1, S14."""
        return {address: length for address, length in self._rows(ROW, "list N", f"list {check_number('tenant', tenant)}")}

    def objects(self, tenant: int, first: int = 0, count: int = MAX_REDONE) -> ObjectPage:
        """Returns up to `count` of the objects that a tenant holds, in the order in which they were filed: those with a number from `first` on. To list all in
        pages, begin with 0, and go on with `next` until there are fewer than `count`. Refusals: S1, S14."""
        count = check_number("count", count)
        line = f"objects {check_number('tenant', tenant)} {check_number('first', first)} {count}"

        def read(session: Session, following: int, rows: int) -> ObjectPage:
            check_number("rows", rows, 0, count)
            return ObjectPage(following, [ObjectRow(*parse(ROW, session.line())) for _ in range(rows)])

        return self._talk(read, "objects N N", line)

    def uploads(self, tenant: int) -> List[OpenUpload]:
        """Returns a tenant's open uploads, in the order of their numbers. Refusals: S1, S14."""
        return [OpenUpload(*row) for row in self._rows("N N (?:N|-) N", "uploads N", f"uploads {check_number('tenant', tenant)}")]

    def tenants(self) -> Dict[int, Usage]:
        """Returns how many bytes each tenant uses and reserves, and its limit, by number."""
        return {number: Usage(*usage) for number, *usage in self._rows("N N N N", "tenants N", "tenants")}

    def counts(self) -> Counts:
        """Returns how many entries the journal has and how many tenants there are, and what the store contains, at one moment."""
        return Counts(*self._ask(f"entries N tenants N {TOTALS}", "counts"))

    def stat(self) -> Totals:
        """Returns what the store contains."""
        return Totals(*self._ask(TOTALS, "stat"))

    def entries(self, start: int = 0, count: Optional[int] = None) -> List[str]:
        """Returns the journal's entries from number `start` on, up to `count` of them, as lines without a newline. Refusals: S14."""
        line = f"entries {check_number('start', start)}" + ("" if count is None else f" {check_number('count', count)}")

        def read(session: Session, rows: int) -> List[str]:
            check_number("rows", rows, 0, MAX_NUMBER if count is None else count)
            return [session.line() for _ in range(rows)]

        return self._talk(read, "journal N", line)

    def journal(self, start: int = 0, page_len: int = 1000) -> Iterator[str]:
        """Yields the journal's entries from number `start` on, which it reads in pages of `page_len`, until there are no more. Refusals: S14."""
        start, page_len = check_number("start", start), check_number("page_len", page_len, 1)
        return itertools.chain.from_iterable(pages(lambda at: self.entries(at, page_len), start, page_len))

    def redo(self, first: int, count: int = MAX_REDONE) -> Redone:
        """Returns lines that redo on another store what up to `count` entries of the journal, from number `first` on, have done, and the number of the entry
        after these. What tenants still hold comes with its bytes: up to 4 MiB, or one object. `run_lines` runs them. Refusals: S14."""
        return self._redo(lambda session, length: session.content(length, sys.maxsize), first, count)

    def _redo_to(self, write: Callable[[memoryview], None], first: int, count: int) -> int:
        """The same, but passes the lines in pieces to a function, which must raise nothing. Returns the number of the entry after those."""
        return self._redo(lambda session, length: session.content_to(length, write), first, count).next

    def _redo(self, read: Callable[[Session, int], Any], first: int, count: int) -> Redone:
        line = f"redo {check_number('first', first)} {check_number('count', count)}"
        return self._talk(lambda session, following, length: Redone(following, read(session, length)), "redo N N", line)

    def start_upload(self, tenant: int, length: Optional[int] = None, max_len: Optional[int] = None) -> Upload:
        """Begins an upload, to be used in a `with` statement. If the length isn't known, `max_len` bytes are reserved until it is sealed, by default all
        that the tenant has left, up to 1 TiB. Refusals: S1, S5, S6."""
        if length is not None and max_len is not None:
            raise ValueError("an upload has a length or a maximum length, not both")
        upload = Upload(self, None if length is None else check_number("length", length))
        upload._begin(tenant, max_len)
        return upload

    def upload(
        self, content: Union[Buffer, BinaryIO], tenant: int, length: Optional[int] = None, *, address: Optional[str] = None, max_len: Optional[int] = None
    ) -> Filed:
        """Files content of any length: bytes, or a file object that is open for reading bytes, from its position on.

        A file need not be seekable. Without a `length` it is read to its end, and a regular one to the end that it had at first; with one, `length` bytes are
        read, and ValueError is raised if it ends earlier. If the length isn't known, `max_len` bytes are reserved:
        by default as many as the file seems to have, or all that the tenant has left, up to 1 TiB. With an `address`, the content is filed only if that
        is its address. If anything is raised, the upload is aborted.

        Refusals: S1, S5, S6; F4 for a file that is longer than what is reserved; S11."""
        address = None if address is None else check_address(address)
        length = None if length is None else check_number("length", length, 0, MAX_UPLOAD_LEN)
        max_len = None if max_len is None else check_number("max_len", max_len)
        if is_file(content):
            return self._upload_file(content, tenant, length, address, max_len)
        view = check_bytes(content)
        if length is not None and length != view.nbytes:
            raise ValueError(f"the content has {view.nbytes} bytes, and not {length}")
        if view.nbytes <= PART_LEN:
            return self.file(tenant, view, address)
        return self._upload_parts(Upload(self, view.nbytes), tenant, None, split(view), address)

    def open(self, tenant: int, address: str, buffering: int = RANGE_LEN) -> Union[io.BufferedReader, StoredObject]:
        """Opens an object as a file object for reading bytes, which can seek. `buffering` is the length of its buffer, 0 for none. Refusals: S1, S12."""
        check_number("buffering", buffering, 0, sys.maxsize)
        raw = StoredObject(self, check_number("tenant", tenant), check_address(address))
        return io.BufferedReader(raw, buffering) if buffering else raw

    def run_lines(self, lines: Union[Buffer, BinaryIO]) -> int:
        """Runs lines that another store has returned for `redo`: bytes, or a file of them, from its start on, that can seek. This store must have run the lines
        of all entries before. Returns how many bytes the lines have, without an incomplete one at the end, which isn't run. Raises LogError for the
        first line that is wrong or refused; up to 39 after it may have been run. A `forget` that is refused with S12 has no effect: `redo` may return such
        ones."""
        return run_lines(self, lines)

    def _upload_file(self, file: Any, tenant: int, length: Optional[int], address: Optional[str], max_len: Optional[int]) -> Filed:
        limit = length_of(file) if length is None else length
        parts = parts_of(file, limit, length)
        first = list(itertools.islice(parts, PARTS_AT_ONCE))
        count = sum(part.nbytes for part in first)
        if max_len is None and (count < PARTS_AT_ONCE * PART_LEN or count == length):
            if count <= PART_LEN:
                return self.file(tenant, first[0] if first else b"", address)
            return self._upload_parts(Upload(self, count), tenant, None, iter(first), address)
        if max_len is None and limit is not None:
            max_len = -(-limit // CHUNK_LEN) * CHUNK_LEN
        return self._upload_parts(Upload(self, length), tenant, max_len, itertools.chain(first, parts), address, count)

    def _upload_parts(
        self, upload: Upload, tenant: int, max_len: Optional[int], parts: Iterator[memoryview], address: Optional[str], min_len: int = 0
    ) -> Filed:
        """Files the content of some parts, by an upload that has not begun."""
        with upload:
            # here an interrupt can't come between the begin and the block that ends the upload
            upload._begin(tenant, max_len, min_len)
            upload._send(parts)
            return upload.seal(address)

    def _put_all(self, upload: int, offset: int, parts: List[memoryview]) -> None:
        """Puts a few parts one after another in one turn."""
        lines: List[Buffer] = []
        for part in parts:
            lines += [b"putb %d %d %d\n" % (upload, offset, part.nbytes), part]
            offset += part.nbytes
        for refusal in self._in_turn(lambda session: session.refusals(HELD, len(parts), *lines)):
            if refusal is not None:
                raise refusal

    def _begin(self, word: str, tenant: int, length: int) -> int:
        return int(self._ask("upload N", f"{word} {tenant} {length}")[0])

    def _ask(self, form: str, line: str, content: Buffer = b"") -> List[Any]:
        return self._in_turn(lambda session: session.ask(form, line, content))

    def _rows(self, row: str, form: str, line: str) -> List[List[Any]]:
        """The values in each of the lines that follow an answer."""
        return self._talk(lambda session, count: [parse(row, session.line()) for _ in range(count)], form, line)

    def _talk(self, read: Callable[..., Value], form: str, line: str, content: Buffer = b"") -> Value:
        """Sends a command, and returns what a function makes of the session and the values in the answer."""
        return self._in_turn(lambda session: read(session, *session.ask(form, line, content)))


def pages(read: Callable[[int], Any], at: int, length: int) -> Iterator[Any]:
    """Yields what a function returns for each position from one on, `length` items at a time, until there are fewer."""
    for start in itertools.count(at, length):
        page = read(start)
        yield page
        if len(page) < length:
            return


def filed_of(values: Sequence[Any], address: Optional[str], length: Optional[int]) -> Filed:
    """The object of an answer, which must have this address and this length, if they are known. Raises ValueError."""
    filed = Filed(values[0] == "new", *values[1:])
    if address is not None and filed.address != address.lower() or length is not None and filed.length != length:
        raise ValueError(f"{filed.address} of {filed.length} bytes was filed, not what was asked for")
    return filed


def leave_all() -> None:
    """Leaves all stores to the parent of a new process."""
    for store in list(opened):
        store._leave()


os.register_at_fork(after_in_child=leave_all)
