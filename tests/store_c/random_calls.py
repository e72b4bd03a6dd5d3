"""python3 tests/store_c/random_calls.py LIBRARY [--cases N] [--seed S]: makes random calls of the shared library libb3store, and compares what they
store and return with the answers of the second implementation, tests/second_reading, which was written from docs/PROTOCOL.md.

A case is a random session of tests/random, on a store with random limits. Each of its lines is answered by calls (library.py), or some by
b3store_lines; between them bytes are filed in one call, and parts are put that were prepared for other uploads. A case that differs is printed
after FAILED with its seed; `--cases 1 --seed S` runs it again. The last line is `N passed, M failed`.
"""
import argparse
import functools
import os
import random
import sys

sys.dont_write_bytecode = True
TESTS = os.path.dirname(os.path.dirname(os.path.abspath(__file__)))
sys.path[1:1] = [os.path.join(TESTS, name) for name in ("common", "second_reading", "random")]
from blake3 import address_of
from judging import judged
from library import Library, Wrong
from python_needed import end_where_older
from script import call_of, pattern
from scripts import LENGTHS
from session import answer_of, file, request_of, requests_of, text_of
from sessions import Session, case as session_case
from store import MAX_LENGTH, MAX_PART, MAX_TENANTS, Refused, Store, Upload, part_fault

MAX_ENTRIES = 1 << 32
WITHOUT_CALL = ("counts", "objects", "redo")
"""The words of the lines that no call answers alone."""
MAX_TEXT = 5000
"""How much is printed of what differs."""


class Model(Store):
    """The store of the second reading, with limits, and with the calls that no line has."""

    def __init__(self, tenants, entries):
        super().__init__()
        self.tenants_limit, self.entries_limit = tenants, entries

    def keep(self, *fields):
        if len(self.journal) >= self.entries_limit:
            raise Refused("S13")
        super().keep(*fields)

    def tenant(self, limit):
        if len(self.limits) >= self.tenants_limit:
            raise Refused("S2")
        return super().tenant(limit)

    def put_as(self, bound, is_open, number, offset, data):
        fault = "F1" if bound > MAX_LENGTH else part_fault(Upload(None, bound, None if is_open else bound), offset, len(data))
        if fault:
            raise Refused(fault)
        upload = self.upload_at(number)
        if (bound, is_open) != (upload.bound, upload.has_open_plan):
            raise Refused("S8")
        return self.put(number, offset, data)

    def file(self, tenant, data):
        if len(data) > MAX_PART:
            raise Refused("F6")
        number = self.begun
        self.begin(tenant, len(data))
        try:
            if data:
                self.put(number, 0, data)
            return self.seal(number)
        except Refused as refused:
            self.abort_or_leave(number, refused)

    def abort_or_leave(self, number, refused):
        try:
            self.abort(number)
        except Refused:
            raise Refused(f"{refused} left {number}") from None
        raise refused


def calls_of(library, line, taken):
    """The library's answer to a line with the bytes after it, by calls."""
    form, values = request_of(line) or ("", [])
    word = form.split(" ")[0]
    if word == "putb":
        return library.put(values[0], values[1], taken)
    if word in ("file", "fileas"):
        return file(library, values[0], taken, *values[1:-1])
    if word == "fetchb":
        content = library.content(*values)
        return [f"bytes {len(content)}", content]
    if word:
        return getattr(library, word)(*values)
    call = call_of(line)
    return getattr(library, call[0])(*call[1]) if call else ["bad"]


def reported(call, *words):
    """What a call answers, or its refusal."""
    try:
        return text_of(call(*words))
    except Refused as refused:
        return f"refused {refused}\n".encode()


class Case:
    """A random session, on a store of the library and on the model."""

    def __init__(self, path, chance):
        self.chance = chance
        limits = chance.choice((2, 3, MAX_TENANTS)), chance.choice((7, 20, MAX_ENTRIES, MAX_ENTRIES, MAX_ENTRIES))
        self.model, self.library, self.session = Model(*limits), Library(path, chance, *limits), Session(chance)
        self.writer = self.session.writer
        self.writer.store = Model(*limits)

    def difference(self):
        """What differs, or None."""
        for _ in range(self.chance.randrange(1, 60)):
            found = self.step()
            if found:
                return found
        self.library.close()
        return None

    def step(self):
        kind = self.chance.random() if self.writer.lines else 1
        if kind < 0.1:
            return self.both("file", self.writer.tenant(), self.content())
        if kind < 0.15:
            return self.both("put_as", *self.other_plan())
        whole = [number for number, upload in self.model.uploads.items() if upload.end is not None and upload.missing() is None]
        if whole and kind < 0.2:
            return self.both("seal", whole[0], address_of(self.model.uploads[whole[0]].content()))
        self.session.data = b""
        self.session.step()
        return self.lines()

    def both(self, name, *words):
        """A call that no line has, on both stores and on the one that lines speak of."""
        _, wanted, found = (reported(getattr(store, name), *words) for store in (self.writer.store, self.model, self.library))
        return difference(name, words, wanted, found)

    def content(self):
        length = MAX_PART + self.chance.randrange(2) if self.chance.random() < 0.001 else self.chance.choice(LENGTHS)
        return pattern(self.chance.choice((0, 0, 1, 1024)), length)

    def other_plan(self):
        """A part, most often for another upload than that to which it is put."""
        number = self.writer.upload()
        offset, length = self.writer.place_in(self.writer.store.uploads.get(number))
        bound = self.chance.choice((*self.writer.lengths, offset + length, MAX_LENGTH, MAX_LENGTH + 1))
        length = MAX_PART + 1024 if self.chance.random() < 0.005 else length
        return bound, self.chance.random() < 0.5, number, offset, pattern(offset, length)

    def lines(self):
        """The lines of a step, each by calls or by b3store_lines."""
        for line, taken in requests_of(self.session.data):
            is_cut = taken is None
            wanted = b"" if is_cut else answer_of(self.model, line, taken)
            if is_cut or line.split(" ")[0] in WITHOUT_CALL or self.chance.random() < 0.2:
                wanted, found = (wanted, is_cut), self.library.answers_of(line.encode("latin-1") + b"\n" + (taken or b""))
                self.library.owners.update((number, upload.tenant) for number, upload in self.model.uploads.items())
            else:
                found = reported(calls_of, self.library, line, taken)
            if found != wanted:
                return difference("line", (line, taken), wanted, found)
        return None


def difference_of_lines(path, chance):
    """What b3store_lines does otherwise on a whole session, or None."""
    _, data, output, status = session_case(chance)
    library = Library(path, chance, MAX_TENANTS, MAX_ENTRIES)
    found = difference("lines", data, (output, status == 1), library.answers_of(data))
    library.close()
    return found


def difference(name, words, wanted, found):
    return None if found == wanted else f"{name} {words!r}\nwanted {wanted!r}\nanswered {found!r}"


def differences_at(path, seed):
    """What the library does otherwise in the case of a seed."""
    chance = random.Random(seed)
    try:
        found = difference_of_lines(path, chance) if seed % 8 == 0 else Case(path, chance).difference()
    except Wrong as wrong:
        found = str(wrong)
    return [f"{found:.{MAX_TEXT}}"] if found else []


def main():
    end_where_older()
    parser = argparse.ArgumentParser(description=__doc__.split("\n\n")[0])
    parser.add_argument("library")
    parser.add_argument("--cases", type=int, default=500)
    parser.add_argument("--seed", type=int, default=1)
    options = parser.parse_args()
    path, seeds = os.path.abspath(options.library), range(options.seed, options.seed + options.cases)
    return judged((f"random calls, seed {seed}", functools.partial(differences_at, path, seed)) for seed in seeds)


if __name__ == "__main__":
    sys.exit(main())
