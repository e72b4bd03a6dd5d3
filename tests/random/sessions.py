"""Random sessions: the lines of random scripts, and lines with raw bytes after them, some of which are malformed or truncated."""
from blake3 import address_of
from questions import QUESTIONS
from scripts import LENGTHS, NUMBERS, Writer, spoilt
from script import pattern
from session import file, session_of
from store import Refused


class Session:
    """Writes a session, and keeps the store that it leaves where no line is spoilt."""

    def __init__(self, chance):
        self.chance, self.writer, self.data = chance, Writer(chance), b""

    def add_line(self, line):
        self.writer.add(line)
        self.data += line.encode() + b"\n"

    def part(self):
        """A part's line, and its bytes: those of a random put."""
        chance, writer = self.chance, self.writer
        number = writer.upload()
        offset, length = writer.place_in(writer.store.uploads.get(number))
        if chance.random() < 0.1:
            offset, length = chance.randrange(4100), chance.choice(LENGTHS)
        taken = chance.choice((pattern(offset, length), chance.randbytes(length), b"\n" * length))
        line = f"putb {number} {offset} {length}"
        if chance.random() < 0.03:
            self.data += spoilt(chance, line).encode() + b"\n" + taken
            return
        self.data += line.encode() + b"\n" + taken
        try:
            writer.store.put(number, offset, taken)
        except Refused:
            pass

    def filing(self):
        """A file's line, and its bytes; often those of an object that is there."""
        chance, writer = self.chance, self.writer
        contents = [content for content, _ in writer.store.objects.values()]
        taken = chance.choice(contents + [pattern(0, chance.choice(LENGTHS)), chance.randbytes(chance.choice(LENGTHS))])
        tenant, address = writer.tenant(), chance.choice((None, address_of(taken), writer.address().lower()))
        line = f"file {tenant} {len(taken)}" if address is None else f"fileas {tenant} {address} {len(taken)}"
        if chance.random() < 0.05:
            self.data += spoilt(chance, line).encode() + b"\n" + taken
            return
        self.data += line.encode() + b"\n" + taken
        try:
            file(writer.store, tenant, taken, address)
        except Refused:
            pass

    def question(self):
        """One of a session's own lines without bytes after it, with values in place of the names of its fields."""
        chance, writer = self.chance, self.writer
        values = {"T": writer.tenant, "U": writer.upload, "ADDRESS": writer.address}
        fields = chance.choice(["fetchb T ADDRESS", "fetchb T ADDRESS FROM LEN", *QUESTIONS]).split(" ")
        line = " ".join(str(values.get(field, self.number)()) if field.isupper() else field for field in fields)
        line = spoilt(chance, line) if chance.random() < 0.06 else line
        self.data += line.encode() + b"\n"

    def number(self):
        return self.chance.choice(self.chance.choice((range(7), LENGTHS, LENGTHS, NUMBERS)))

    def step(self):
        kind = self.chance.random()
        if not self.writer.lines or kind < 0.5:
            self.add_line(self.writer.line())
        elif kind < 0.7:
            self.part()
        elif kind < 0.8:
            self.filing()
        else:
            self.question()


def case(chance):
    """A session: the program's words, its input, its output and its exit status."""
    session = Session(chance)
    for _ in range(chance.randrange(1, 60)):
        session.step()
    data = session.data
    if chance.random() < 0.3:
        data = data[: chance.randrange(len(data) + 1)]
    output, status = session_of(data)
    return ["serve"], data, output, status
