"""Sessions: connections to a store, each used by one thread at a time."""
import contextlib
import fcntl
import os
import select
import sys
from typing import Any, BinaryIO, Callable, List, Optional

from .values import Buffer, Ended, Refused, parse

READ_LEN, PIECE_LEN = 1 << 16, 1 << 20
"""The length of a session's read buffer, and of the pieces in which many raw bytes are read."""
MAX_LINE_LEN = 1 << 12
"""The maximum length of a line of an answer. All that a store writes are much shorter."""
SET_PIPE_SIZE = 1031
"""The number of F_SETPIPE_SZ, which `fcntl` has from Python 3.10 on."""

BUSY = "the server is busy: each of its sessions has a client"
REFUSED = "refused ([SF][0-9]{1,2})(?: ([a-z]+) (?:N|A))?"


def set_pipe_size(pipe: Any, size: int) -> None:
    """Sets the capacity of a pipe, if the system allows it."""
    with contextlib.suppress(OSError):
        fcntl.fcntl(pipe, SET_PIPE_SIZE, size)


class Session:
    """Two ends: commands are written to one, and answers read from the other. `end` says what has happened when the other side has ended."""

    def __init__(self, sending: Any, reading: BinaryIO, end: str) -> None:
        self._sending, self._reading, self._end = sending, reading, end
        self.fault: Optional[Ended] = None
        """Why it can't be used any more."""

    def is_at_rest(self) -> bool:
        """Whether the other side has neither closed the connection nor sent anything. No answer may be due."""
        with contextlib.suppress(OSError):
            poll = select.poll()
            poll.register(self._reading, select.POLLIN)
            return not poll.poll(0)
        return False

    def write(self, *pieces: Buffer) -> None:
        """Writes pieces one after another, in as few system calls as possible: other threads run while one lasts."""
        views = [memoryview(piece) for piece in pieces if len(piece)]
        while views:
            count = self._call(os.writev, self._sending.fileno(), views)
            while views and count >= views[0].nbytes:
                count -= views.pop(0).nbytes
            if count:
                views[0] = views[0][count:]

    def ask(self, form: str, line: str, content: Buffer = b"") -> List[Any]:
        """Sends a command, and returns the values in its answer."""
        self.write(line.encode("ascii") + b"\n", content)
        return self.answer(form)

    def answer(self, form: str) -> List[Any]:
        """Returns the values in an answer of a form (`values.parse`). Raises Refused."""
        line = self.line()
        if line.startswith("refused"):
            name, label, value, address = parse(REFUSED, line)
            raise Refused(name, address or value, label)
        if line == "busy":
            raise Ended(BUSY)
        return parse(form, line)

    def refusals(self, form: str, count: int, *pieces: Buffer) -> List[Optional[Refused]]:
        """Sends several commands at once, and returns the refusal of each, or None. Their answers must fit any pipe."""
        self.write(*pieces)
        found: List[Optional[Refused]] = []
        while len(found) < count:
            try:
                self.answer(form)
                found.append(None)
            except Refused as refusal:
                found.append(refusal)
        return found

    def line(self) -> str:
        """Reads a line, and returns it without its newline."""
        line = self._call(self._reading.readline, MAX_LINE_LEN)
        if len(line) == MAX_LINE_LEN:
            raise ValueError("a line is too long")
        if not line.endswith(b"\n"):
            raise Ended(self._end)
        return line[:-1].decode("ascii")

    def content(self, count: int, max_len: int) -> bytes:
        """Reads the raw bytes of an answer."""
        if count > min(max_len, sys.maxsize):
            raise ValueError(f"{count} bytes instead of {max_len}")
        content = self._call(self._reading.read, count)
        if len(content) < count:
            raise Ended(self._end)
        return content

    def content_into(self, count: int, room: memoryview, min_len: int) -> int:
        """Reads the raw bytes of an answer, at least `min_len`, into a buffer, and returns how many they are."""
        if not min_len <= count <= room.nbytes:
            raise ValueError(f"{count} bytes instead of {room.nbytes}")
        if self._call(self._reading.readinto, room[:count]) < count:  # type: ignore[attr-defined]
            raise Ended(self._end)
        return count

    def content_to(self, count: int, write: Callable[[memoryview], None]) -> None:
        """Reads the raw bytes of an answer, and passes them to a function in pieces, each of which is in memory until the next one."""
        room = memoryview(bytearray(min(count, PIECE_LEN)))
        while count:
            piece = room[:count]
            count -= self.content_into(piece.nbytes, piece, piece.nbytes)
            write(piece)

    def _call(self, call: Callable[..., Any], *words: Any) -> Any:
        """What a call on an end returns. An error means that the other side has ended. One without a number isn't the system's: a signal's handler has raised
        it."""
        try:
            return call(*words)
        except OSError as fault:
            raise fault if fault.errno is None else Ended(self._end) from None

    def close(self) -> None:
        for end in self._sending, self._reading:
            with contextlib.suppress(OSError):
                end.close()

    def leave(self, nowhere: int) -> None:
        """Puts another descriptor in place of both ends', which this process has inherited. The buffer is dropped: it stays locked here if a thread of the
        parent was reading."""
        for end in self._sending, self._reading:
            with contextlib.suppress(OSError, ValueError):
                os.dup2(nowhere, end.fileno(), False)
        with contextlib.suppress(OSError, ValueError):
            self._reading = self._reading.detach()  # type: ignore[attr-defined]
