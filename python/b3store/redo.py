"""Runs the lines that `redo` gives (docs/PROTOCOL.md), and moves what a store has to a new one."""
import heapq
import io
import itertools
import re
from typing import BinaryIO, Callable, Iterator, List, NamedTuple, Optional, Tuple, Union

from . import TYPE_CHECKING
from .sessions import PIECE_LEN
from .transfers import is_file
from .values import FILED, Buffer, ObjectRow, Refused, StoreError, check_bytes

if TYPE_CHECKING:
    from .commands import Commands
    from .store import Store

LINE = re.compile(rb"(?:tenant [0-9]{1,19}|limit [0-9]{1,19} [0-9]{1,19}|forget [0-9]{1,19} [0-9a-f]{64}|fileas ([0-9]{1,19}) ([0-9a-f]{64}) ([0-9]{1,14}))\n")
WORDS = (b"tenant ", b"limit ", b"forget ", b"fileas ")
DONE = f"tenant N|ok|{FILED}"
MAX_LINE_LEN = 1 << 7
MAX_BATCH = 40
"""How many lines are sent before the first one's answer is read. Their answers fit into the smallest pipe, of 4096 bytes: Linux gives such ones to a user who
has many."""

Tick = Callable[[], None]
"""Is called again and again while there is progress."""


class LogError(StoreError):
    """A line of a log is no such line, or is refused."""

    def __init__(self, number: int, offset: int, refusal: Optional[Refused] = None) -> None:
        super().__init__(number, offset, refusal)
        self.number, self.offset, self.refusal = number, offset, refusal
        """The number of the line, from 1 on; the offset of its first byte; and why it is refused, if it is a line of a log."""

    def __str__(self) -> str:
        return f"line {self.number}, at byte {self.offset}, is " + ("no line of a log" if self.refusal is None else f"refused: {self.refusal}")


class Line(NamedTuple):
    """A line of a log, and the bytes that follow it."""

    number: int
    offset: int
    text: bytes
    length: int
    """How many bytes follow."""
    content: bytes
    """These, unless they are too many to be read at once."""


def lines_of(log: BinaryIO) -> Iterator[Line]:
    """Yields the lines of a log, without an incomplete one at the end. Raises LogError for one that is wrong."""
    log.seek(0, io.SEEK_END)
    # some kinds of files return it from `seek` only in newer versions of Python
    size, at = log.tell(), 0
    for number in itertools.count(1):
        log.seek(at)
        text = log.readline(MAX_LINE_LEN)
        found = LINE.fullmatch(text)
        if not found and not (at + len(text) == size and may_begin(text)):
            raise LogError(number, at)
        length = int(found[3] or 0) if found else 0
        content = log.read(length) if length <= PIECE_LEN else b""
        if not found or at + len(text) + length > size or len(content) < length <= PIECE_LEN:
            return
        yield Line(number, at, text, length, content)
        at += len(text) + length


def may_begin(part: bytes) -> bool:
    """Whether a line of a log may begin with some bytes."""
    return any(word.startswith(part) or part.startswith(word) and not part[len(word) :].strip(b"0123456789abcdef ") for word in WORDS)


def batches_of(lines: Iterator[Line]) -> Iterator[List[Line]]:
    """Groups lines that are sent together. One that very many bytes follow is alone."""
    batch: List[Line] = []
    try:
        for line in lines:
            if batch and (len(batch) == MAX_BATCH or sum(before.length for before in batch) + line.length > PIECE_LEN):
                yield batch
                batch = []
            batch.append(line)
    except LogError:
        yield batch
        raise
    yield batch


def run_lines(
    store: "Commands", log: Union[Buffer, BinaryIO], tick: Tick = lambda: None, skip: Optional[Callable[[LogError], None]] = None
) -> int:
    """See `Commands.run_lines`. If `skip` is given, it is called for an object that has another address, in place of an error."""
    file: BinaryIO = log if is_file(log) else io.BytesIO(check_bytes(log))  # type: ignore[assignment]
    end = 0
    for batch in batches_of(lines_of(file)):
        refusals = run_long(store, batch[0], file) if batch and batch[0].length > PIECE_LEN else run_batch(store, batch)
        for line, refusal in zip(batch, refusals):
            if refusal is not None and refusal.number == "S11" and skip is not None:
                skip(LogError(line.number, line.offset, refusal))
            elif refusal is not None and refusal.number != "S12":
                raise LogError(line.number, line.offset, refusal)
            end = line.offset + len(line.text) + line.length
        tick()
    return end


def run_batch(store: "Commands", batch: List[Line]) -> List[Optional[Refused]]:
    """Runs lines, which are sent at once. Returns the refusal of each, or None."""
    pieces = [piece for line in batch for piece in (line.text, line.content)]
    return store._in_turn(lambda session: session.refusals(DONE, len(batch), *pieces)) if batch else []


def run_long(store: "Commands", line: Line, log: BinaryIO) -> List[Optional[Refused]]:
    """Runs a line that files an object, whose bytes are read and sent in parts."""
    _, tenant, address, _ = line.text.decode().split()
    log.seek(line.offset + len(line.text))
    try:
        store.upload(log, int(tenant), line.length, address=address)
    except Refused as refusal:
        return [refusal]
    return [None]


def numbered(store: "Commands", tenant: int) -> Iterator[Tuple[int, int, ObjectRow]]:
    """Yields the objects that a tenant holds: what is one above the number of each, the tenant, and its address and length. Each may be forgotten after it."""
    following = 0
    while True:
        following, rows = store.objects(tenant, following, 1)
        if not rows:
            return
        yield following, tenant, rows[0]


def move(source: "Commands", target: "Commands") -> None:
    """Moves the objects of all tenants to a store that has these tenants, one after the other, in the order in which they were filed."""
    for _, tenant, (address, length) in heapq.merge(*(numbered(source, tenant) for tenant in source.tenants())):
        target.upload(source.fetch(tenant, address) if length <= PIECE_LEN else source.open(tenant, address, 0), tenant, length)
        source.forget(tenant, address)


def renew(store: "Store") -> "Store":
    """Moves what a `Store` has to a new one, whose journal is short, and closes it. The new one has the same tenants, limits and objects, in the same order;
    open uploads are lost. Besides the journals, memory is needed for one more object. No other thread may change the store meanwhile, and one that reads may be
    refused with S12. If anything is raised, as for S14, the objects are moved back, and the store can be used further."""
    new = type(store)()
    try:
        for _, usage in sorted(store.tenants().items()):
            new.tenant(usage.limit)
        move(store, new)
    except BaseException:
        move(new, store)
        new.close()
        raise
    store.close()
    return new
