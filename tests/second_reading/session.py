"""Reads a session's input as docs/PROTOCOL.md defines it, and answers it by the model."""
import contextlib
import re

from questions import QUESTIONS
from script import ADDRESS, NUMBER, call_of
from store import MAX_PART, Refused, Store

# followed by as many raw bytes as their last field says
WITH_BYTES = ["putb U OFFSET LEN", "file T LEN", "fileas T ADDRESS LEN"]
LINES = [*WITH_BYTES, "fetchb T ADDRESS", "fetchb T ADDRESS FROM LEN", *QUESTIONS]


def pattern_of(line):
    """What a line has to match: its word, an address for each ADDRESS, and a number for each other name in capitals."""
    return re.compile(" ".join(ADDRESS if field == "ADDRESS" else NUMBER if field.isupper() else field for field in line.split(" ")))


ENDINGS = {("seal", b"new"), ("seal", b"known"), ("sealas", b"new"), ("sealas", b"known"), ("abort", b"ok")}
"""The words of the lines that end an upload, each with how its answer begins then."""
PATTERNS = {line: pattern_of(line) for line in LINES}


def request_of(line):
    """A session's own line and its values, or None where it is none of these."""
    for form, pattern in PATTERNS.items():
        found = pattern.fullmatch(line)
        if found:
            values = [field.lower() if name == "ADDRESS" else int(field) for name, field in zip(form.split(" ")[1:], found.groups())]
            return (form, values) if all(isinstance(value, str) or value < 1 << 64 for value in values) else None
    return None


def bytes_after(line):
    """How many raw bytes follow a line."""
    form, values = request_of(line) or ("", [])
    return values[-1] if form in WITH_BYTES else 0


def text_of(lines):
    """The text of lines; bytes are what follows a line."""
    return b"".join(line if isinstance(line, bytes) else line.encode() + b"\n" for line in lines)


def requests_with_ends(data):
    """Each line that is not empty, the bytes that it takes after it, None where they are cut off, and where both end in the data."""
    at = 0
    while at < len(data):
        end = data.find(b"\n", at)
        end = len(data) if end < 0 else end
        line, at = data[at:end].decode("latin-1"), end + 1
        length = bytes_after(line)
        taken, at = data[at : at + length], at + length
        if line:
            yield line, taken if len(taken) == length else None, at


def requests_of(data):
    """The same without the ends."""
    return ((line, taken) for line, taken, _ in requests_with_ends(data))


def content_answer(store, tenant, address, first=0, length=None):
    content = store.object_of(tenant, address)[0]
    content = content[first:] if length is None else content[first : first + length]
    return b"bytes %d\n" % len(content) + content


def file(store, tenant, content, address=None):
    """Files an object as a client does that puts the greatest parts, and aborts the upload after a refusal."""
    number = int(store.begin(tenant, len(content))[0].split()[1])
    try:
        for offset in range(0, len(content), MAX_PART):
            store.put(number, offset, content[offset : offset + MAX_PART])
        return store.seal(number, address)
    except Refused:
        with contextlib.suppress(Refused):
            store.abort(number)
        raise


def answer_to(store, line, taken):
    """The answer to a line with the bytes after it, unless it is refused."""
    form, values = request_of(line) or ("", [])
    if form.startswith("putb "):
        return text_of(store.put(values[0], values[1], taken))
    if form == "file T LEN":
        return text_of(file(store, values[0], taken))
    if form == "fileas T ADDRESS LEN":
        return text_of(file(store, values[0], taken, values[1]))
    if form.startswith("fetchb "):
        return content_answer(store, *values)
    if form:
        return text_of(QUESTIONS[form](store, *values))
    call = call_of(line)
    return text_of(getattr(store, call[0])(*call[1]) if call else ["bad"])


def answer_of(store, line, taken):
    """The answer to a line, or its refusal."""
    try:
        return answer_to(store, line, taken)
    except Refused as refused:
        return f"refused {refused}\n".encode()


def session_of(data):
    """The answers to a session, and the exit status."""
    store, output = Store(), b""
    for line, taken in requests_of(data):
        if taken is None:
            return output, 1
        output += answer_of(store, line, taken)
    return output, 0


class OwnUploads:
    """The uploads that a session began and hasn't ended itself, in the order of their begins."""

    def __init__(self):
        self.numbers = []

    def note(self, line, answer):
        """Notes what a line with this answer began or ended."""
        words, given = line.split(" "), answer.split()
        if words[0] in ("begin", "open") and given[0] == b"upload":
            self.numbers.append(int(given[1]))
        elif (words[0], given[0]) in ENDINGS and int(words[1]) in self.numbers:
            self.numbers.remove(int(words[1]))

    def abort(self, store):
        """Aborts them, one after the other. One that another session has ended is gone."""
        for number in self.numbers:
            with contextlib.suppress(Refused):
                store.abort(number)


def answers_within(data, count):
    """The answers to the requests that end within so many bytes of a session."""
    ends = [end for _, taken, end in requests_with_ends(data) if taken is not None and end <= count]
    return session_of(data[: max(ends, default=0)])[0]
