#!/usr/bin/env python3
"""plain_server.py [--wrong KIND] serve [--at PATH --sessions N [--keep-uploads]]: a slow `b3store serve --at` by the second reading, for tests/sessions; `audit`, too.

With --wrong it breaks a promise, once in a while, so that tests/sessions has something to find:

  older       a question is answered from the state of some entries before
  loses       a command is accepted, and neither done nor in the journal
  doubles     an accepted command is twice in the journal
  alters      an object is answered with another last byte
  shares      two clients that begin the same are both given one upload, by one entry
  reorders    an accepted command changes places with the entry before it
  half        a last line without a newline is taken as a command
  lags        answers are kept back until there are many
  waits       no client is answered while one doesn't read its answers
  trips       a bad line at the door ends the server
  stays       the uploads that a client began stay open when its session ends
  strays      the end of a session aborts the upload that was begun last, whoever began it
  keeps       memory is never freed
"""
import contextlib
import copy
import os
import re
import sys
import threading

sys.dont_write_bytecode = True
TESTS = os.path.dirname(os.path.dirname(os.path.abspath(__file__)))
sys.path[1:1] = [os.path.join(TESTS, "second_reading")]
from journal import audit_answer
from questions import QUESTIONS
from session import OwnUploads, answer_of, bytes_after
from store import Store

WRONG = ("older", "loses", "doubles", "alters", "shares", "reorders", "half", "lags", "waits", "trips", "stays", "strays", "keeps")
ASKING = {"usage", "list", "stat", "fetch", "fetchb", *(line.split(" ")[0] for line in QUESTIONS)}
"""The words of the lines that change nothing."""
AGE = 12
"""How many entries older a state is that a wrong server answers from."""
LONGEST = 1 << 26
"""The bytes of a longer part are read to the end of the input."""
KEPT = 100
"""How many times the length of a part a wrong server keeps."""
EVERY = 15
"""Each such question or command is answered wrongly."""


class Answers:
    """The store and its answers, of which some may be wrong."""

    def __init__(self, wrong, keeps):
        self.wrong, self.keeps, self.store, self.lock = wrong, keeps, Store(), threading.Lock()
        self.count, self.older, self.begun, self.kept, self.uploads = 0, [], {}, [], {}

    def answer(self, session, line, taken):
        word = line.split(" ")[0]
        before = len(self.store.journal)
        if self.wrong and self.wrong in MISTAKES:
            given = MISTAKES[self.wrong](self, session, word, line, taken)
            if given is not None:
                return given
        given = answer_of(self.store, line, taken)
        if self.wrong == "older" and len(self.store.journal) % AGE == 0:
            self.older = [*self.older[-1:], copy.deepcopy(self.store)]
        if self.wrong in OF_ENTRIES and len(self.store.journal) > before > 0 and self.is_due():
            OF_ENTRIES[self.wrong](self.store.journal)
        if self.wrong == "alters" and re.match(rb"bytes [1-9]", given) and self.is_due():
            given = given[:-1] + bytes([given[-1] ^ 1])
        self.uploads.setdefault(session, OwnUploads()).note(line, given)
        return given

    def is_due(self):
        self.count += 1
        return self.count % EVERY == 0

    def from_older(self, _, word, line, taken):
        if word in ASKING and len(self.older) == 2 and self.is_due():
            return answer_of(self.older[0], line, taken)
        return None

    def lost(self, _, word, line, taken):
        if word in ("limit", "abort", "forget", "begin", "putb", "seal") and self.is_due():
            return answer_of(copy.deepcopy(self.store), line, taken)
        return None

    def kept_on(self, _session, _word, _line, taken):
        self.kept.append(KEPT * taken)

    def end(self, session):
        """Aborts a session's own uploads at its end."""
        own = self.uploads.pop(session, OwnUploads())
        if self.wrong == "strays" and self.store.uploads:
            self.store.abort(max(self.store.uploads))
        if not self.keeps and self.wrong != "stays":
            own.abort(self.store)

    def shared(self, session, word, line, taken):
        if word not in ("begin", "open"):
            return None
        other, given = self.begun.pop(line, (session, b""))
        if other != session:
            return given
        given = answer_of(self.store, line, taken)
        if given.startswith(b"upload"):
            self.begun[line] = (session, given)
        return given


MISTAKES = {
    "older": Answers.from_older, "loses": Answers.lost, "shares": Answers.shared, "keeps": Answers.kept_on,
}
OF_ENTRIES = {
    "doubles": lambda journal: journal.append(journal[-1]),
    "reorders": lambda journal: journal.append(journal.pop(-2)),
}
"""What is done to a journal after an accepted command."""


class Cut(Exception):
    """A session's input ends within the bytes of a part."""


def requests(reader, takes_half):
    """Each line with the bytes after it. An unfinished line is none."""
    for line in reader:
        if not line.endswith(b"\n") and not takes_half:
            return
        line = line.rstrip(b"\n").decode("latin-1")
        length = bytes_after(line)
        taken = reader.read(length if length <= LONGEST else -1)
        if len(taken) < length:
            raise Cut
        if line:
            yield line, taken


def serve(answers, session, reader, writer):
    """Answers a session until its input ends, or its output can't be written, and gives its status."""
    try:
        for line, taken in requests(reader, answers.wrong == "half"):
            with answers.lock:
                given = answers.answer(session, line, taken)
            with answers.lock if answers.wrong == "waits" else contextlib.nullcontext():
                writer.write(given)
                if answers.wrong != "lags":
                    writer.flush()
        return 0
    except Cut:
        return 1
    except OSError:
        return 3


def open_end(path, flags, mode):
    """This server's end of a named pipe. The pipe is opened for both before, so that no dead client is waited for."""
    both = os.open(path, os.O_RDWR)
    try:
        return os.fdopen(os.open(path, flags), mode)
    finally:
        os.close(both)


def number_of(text):
    """The number that a line at the door is."""
    if not re.fullmatch(rb"0|[1-9][0-9]*", text.rstrip(b"\n")) or int(text) >= 1 << 64:
        raise ValueError("no number")
    return int(text)


def serve_door(answers, at, door, lock):
    """Serves the clients that come by the door, one after the other."""
    while True:
        with lock:
            text = door.readline()
        try:
            number = number_of(text)
            reader = open_end(f"{at}.{number}.in", os.O_RDONLY, "rb")
            writer = open_end(f"{at}.{number}.out", os.O_WRONLY, "wb")
        except (ValueError, OSError) as fault:
            reason = f"{at}: a line is not a client's number" if isinstance(fault, ValueError) else f"{fault.filename}: no such file"
            print(f"b3store: {reason}", file=sys.stderr, flush=True)
            if answers.wrong == "trips":
                os._exit(3)
            continue
        serve(answers, number, reader, writer)
        with answers.lock:
            answers.end(number)
        for end in reader, writer:
            try:
                end.close()
            except OSError:
                pass


def main():
    words, wrong = sys.argv[1:], None
    if words[:1] == ["--wrong"]:
        wrong, words = words[1], words[2:]
    if words == ["audit"]:
        sys.stdout.buffer.write(audit_answer(sys.stdin.buffer.read())[0])
        return
    keeps = words == ["serve"] or words[5:] == ["--keep-uploads"]
    answers, lock = Answers("half" if words == ["serve"] else wrong, keeps), threading.Lock()
    if words != ["serve"]:
        _, _, at, _, sessions = words[:5]
        door = os.fdopen(os.open(at, os.O_RDWR), "rb")
        for _ in range(int(sessions)):
            threading.Thread(target=serve_door, args=(answers, at, door, lock), daemon=True).start()
    os._exit(serve(answers, 0, sys.stdin.buffer, sys.stdout.buffer))


if __name__ == "__main__":
    main()
