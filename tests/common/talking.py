"""A client's side of a session."""
import os
import select

SECONDS = 30
"""How long an answer is waited for."""
ROWS = (b"list", b"journal", b"uploads", b"tenants")
"""The answers that begin with the number of the lines after them."""


class NoAnswer(Exception):
    """A session or a server gave no answer in time."""


class Closed(NoAnswer):
    """The other side has ended."""


class Talk:
    """Requests are written to one descriptor, and answers are read from the other."""

    def __init__(self, sending, reading):
        self.sending, self.reading, self.rest = sending, reading, bytearray()

    def send(self, *pieces):
        view = memoryview(b"".join(pieces))
        while view:
            view = view[os.write(self.sending, view) :]

    def more(self, wait=SECONDS):
        """Reads more of the answers."""
        if not select.select([self.reading], [], [], wait)[0]:
            raise NoAnswer(f"no answer within {wait} s")
        piece = os.read(self.reading, 1 << 16)
        if not piece:
            raise Closed("the connection ended")
        self.rest += piece

    def take(self, count, wait=SECONDS):
        """The next bytes."""
        while len(self.rest) < count:
            self.more(wait)
        found = bytes(self.rest[:count])
        del self.rest[:count]
        return found

    def line(self, wait=SECONDS):
        """The next line, with its newline."""
        while b"\n" not in self.rest:
            self.more(wait)
        return self.take(self.rest.index(b"\n") + 1)

    def answer(self, wait=SECONDS):
        """The next answer, whole."""
        first = self.line(wait)
        words = first.split()
        if words[:1] in ([b"bytes"], [b"redo"]) and len(words) > 1:
            return first + self.take(int(words[-1]), wait)
        if words[:1] and words[0] in ROWS and len(words) == 2:
            return first + b"".join(self.line(wait) for _ in range(int(words[1])))
        return first

    def ask(self, line, content=b"", wait=SECONDS):
        self.send(line.encode() + b"\n", content)
        return self.answer(wait)

    def ask_number(self, line):
        """The number that an answer has after its word."""
        return int(self.ask(line).split()[1])

    def file(self, content, tenant=0):
        """Files an object, and returns its address."""
        return self.ask(f"file {tenant} {len(content)}", content).split()[1].decode()

    def uploads(self, tenant=0):
        """The numbers of a tenant's open uploads."""
        return [int(row.split()[0]) for row in self.ask(f"uploads {tenant}").splitlines()[1:]]
