"""Clients in processes of their own, that choose random commands by what they were answered, and log each command and its answer."""
import collections
import multiprocessing
import os
import pickle
import random
import sys
import time

from door import NoAnswer, Session
from history import Op, shortened
from session import OwnUploads

LENGTHS = (5, 1000, 1024, 2048, 2049, 3072, 3072)
FILLS = 3
"""Parts are one byte again and again, of so many: clients put the same contents."""
LIMITS = (20000, 30000, 40000)
FORKING = multiprocessing.get_context("fork")
WEIGHTS = {
    "limit": 2, "begin": 12, "open": 6, "fix": 5, "putb": 22, "put": 3, "seal": 14, "sealas": 2, "abort": 4, "forget": 6, "fetchb": 6, "fetch": 1,
    "has": 5, "usage": 5, "list": 2, "uploads": 3, "tenants": 2, "stat": 3, "entries": 3, "counted": 3, "bad": 0.3, "tenant": 0.02,
}
SCARCE = {"journal": 0.005}
"""The answer has every entry so far."""


class Chooser:
    """Chooses a client's commands: on few tenants, uploads and contents, so that clients collide."""

    def __init__(self, chance, clients, number):
        self.chance, self.clients, self.number, self.limits = chance, clients, number % 64, 0
        """A client's number is in its limits, so that it is known whose entry one is."""
        self.uploads, self.latest, self.addresses, self.entries = {}, 0, ["0" * 64], 0
        weights = {**WEIGHTS, **SCARCE}
        self.kinds, self.weights = list(weights), list(weights.values())

    def tenant(self):
        return self.chance.choice((0, 0, 0, 1, 1, 2, 3))

    def upload(self):
        if self.uploads and self.chance.random() < 0.7:
            return self.chance.choice(list(self.uploads))
        return max(0, self.latest + self.clients - self.chance.randrange(3 * self.clients + 6))

    def address(self):
        found = self.chance.choice(self.addresses)
        return found.upper() if self.chance.random() < 0.1 else found

    def part(self, number):
        """A part's offset, its length and the byte that it has."""
        length, fill = self.uploads.get(number) or self.chance.choice(LENGTHS), self.chance.randrange(FILLS)
        if self.chance.random() < 0.05:
            return self.chance.choice((0, 1024, 5)), self.chance.choice((0, *LENGTHS)), fill
        if self.chance.random() < 0.4:
            return 0, length, fill
        offset = 1024 * self.chance.randrange(max(1, -(-length // 1024)))
        return offset, min(length - offset, 1024 * self.chance.randrange(1, 4)), fill

    def command(self):
        """A line, and what follows it: a byte, and how often."""
        kind = self.chance.choices(self.kinds, self.weights)[0]
        if kind == "putb":
            number = self.upload()
            offset, length, fill = self.part(number)
            return f"putb {number} {offset} {length}", (fill, length)
        return LINES.get(kind, lambda it: f"{kind} {it.tenant()}")(self), (0, 0)

    def any_fix(self):
        number = self.upload()
        return f"fix {number} {self.uploads.get(number, 5) if self.chance.random() < 0.6 else self.chance.choice(LENGTHS)}"

    def any_put(self):
        number = self.upload()
        offset, length, fill = self.part(number)
        return f"put {number} {offset} x:{(bytes([fill]) * length).hex()}"

    def any_limit(self):
        self.limits += 1
        return f"limit {self.tenant()} {20000 + 64 * (self.limits * 7 % 300) + self.number}"

    def any_fetchb(self):
        ranged = f" {self.chance.choice(LENGTHS)} {self.chance.choice(LENGTHS)}" if self.chance.random() < 0.3 else ""
        return f"fetchb {self.tenant()} {self.address()}{ranged}"

    def see(self, line, answer):
        """Remembers what an answer says about uploads, addresses and the journal."""
        words, asked = answer.split(b"\n", 1)[0].split(), line.split(" ")
        if words[:1] == [b"upload"]:
            self.latest = max(self.latest, int(words[1]))
            self.uploads[int(words[1])] = int(asked[2])
        elif words[:1] in ([b"new"], [b"known"]):
            self.uploads.pop(int(asked[1]), None)
            self.addresses = [*self.addresses[-40:], words[1].decode()]
        elif words[:2] == [b"refused", b"S7"]:
            self.uploads.pop(int(asked[1]), None)
        elif words[:1] == [b"uploads"]:
            for row in answer.splitlines()[1:]:
                number, bound, _, _ = row.split()
                self.uploads[int(number)] = int(bound)
                self.latest = max(self.latest, int(number))
        elif asked[0] == "entries" and len(asked) == 2 and words[:1] == [b"journal"]:
            self.entries = int(asked[1]) + int(words[1])
        while len(self.uploads) > 12:
            del self.uploads[next(iter(self.uploads))]


LINES = {
    "limit": Chooser.any_limit, "fix": Chooser.any_fix, "put": Chooser.any_put, "fetchb": Chooser.any_fetchb,
    "tenant": lambda it: f"tenant {it.chance.choice(LIMITS)}",
    "begin": lambda it: f"begin {it.tenant()} {it.chance.choice(LENGTHS) if it.chance.random() < 0.97 else 0}",
    "open": lambda it: f"open {it.tenant()} {it.chance.choice(LENGTHS)}",
    "seal": lambda it: f"seal {it.upload()}",
    "sealas": lambda it: f"sealas {it.upload()} {it.address()}",
    "abort": lambda it: f"abort {it.upload()}",
    "forget": lambda it: f"forget {it.tenant()} {it.address()}",
    "fetch": lambda it: f"fetch {it.tenant()} {it.address()}",
    "has": lambda it: f"has {it.tenant()} {it.address()}",
    "entries": lambda it: f"entries {it.entries}",
    "counted": lambda it: f"entries {max(0, it.entries - it.chance.randrange(9))} {it.chance.choice((0, 1, 2, 5, 1000))}",
    "bad": lambda it: "frob 1", "stat": lambda it: "stat", "tenants": lambda it: "tenants", "journal": lambda it: "journal",
}
"""The lines of commands; any other has a tenant alone."""


class Log:
    """Where a client writes each command before it is sent, and each answer. What a killed client wrote is there."""

    def __init__(self, path):
        self.file = open(path, "wb", buffering=0)

    def sent(self, line, taken):
        self.file.write(pickle.dumps((time.monotonic_ns(), line, taken)))

    def answered(self, answer):
        self.file.write(pickle.dumps((time.monotonic_ns(), shortened(answer))))

    def ended(self):
        """Notes that the session ends."""
        self.file.write(pickle.dumps((time.monotonic_ns(), None, None, None)))

    def cut(self):
        """Notes that what was sent is answered no more."""
        self.file.write(pickle.dumps((time.monotonic_ns(),)))


def records_of(path):
    """The records of a log, which may be truncated."""
    with open(path, "rb") as file:
        while True:
            try:
                yield pickle.load(file)
            except (EOFError, pickle.UnpicklingError):
                return


def read_log(path, client, kind=Op, ends=None):
    """The commands and answers of a client's log. The aborts at the end of each session are added to `ends`: nobody is answered them."""
    found, waiting, own, now = [], collections.deque(), OwnUploads(), 0
    ends = [] if ends is None else ends
    for now, *record in records_of(path):
        if len(record) == 2:
            found.append(kind(client, now, *record))
            waiting.append(found[-1])
        elif not record:
            waiting.clear()
        elif len(record) == 1:
            op = waiting.popleft()
            op.ended, op.answer = now, record[0]
            own.note(op.line, op.answer)
        else:
            ends += [end_of(number, now) for number in own.numbers]
            own = OwnUploads()
    ends += [end_of(number, now) for number in own.numbers]
    return found


def end_of(number, now):
    """The abort of an upload whose session ended at this time."""
    return Op(0, now, f"abort {number}", (0, 0))


def talk(session, chooser, log, count, ahead=1):
    """Sends a number of commands, several at a time before their answers are read."""
    waiting = []
    for number in range(count):
        line, (fill, length) = chooser.command()
        log.sent(line, (fill, length))
        session.send(line.encode() + b"\n", bytes([fill]) * length)
        waiting.append(line)
        while len(waiting) >= ahead or waiting and number == count - 1:
            answer = session.answer()
            log.answered(answer)
            chooser.see(waiting.pop(0), answer)


def run_client(at, number, seed, clients, count, path):
    """A client's whole life: some sessions, one after the other, as a client that comes and goes. Every fifth one sends ahead of its answers."""
    chance = random.Random(seed)
    chooser, log, sessions = Chooser(chance, clients, number), Log(path), 3
    for part in range(sessions):
        with Session(at, 1000 * number + part) as session:
            talk(session, chooser, log, count // sessions, 4 if number % 5 == 4 else 1)
            log.ended()


def guarded(life, *words):
    """Runs a client's life, and ends the process with what went wrong."""
    try:
        life(*words)
    except (NoAnswer, OSError, ValueError) as fault:
        sys.exit(f"a client ends: {type(fault).__name__}: {fault}")


def start(life, *words):
    """Starts a client's life in a process of its own."""
    process = FORKING.Process(target=guarded, args=(life, *words), daemon=True)
    process.start()
    return process


def start_clients(server, seed, clients, count):
    """Starts clients in processes of their own, and gives these and their logs."""
    started = []
    for number in range(1, clients + 1):
        path = os.path.join(server.folder, f"log.{number}")
        process = start(run_client, server.at, number, seed * 1000 + number, clients, count // clients, path)
        started.append((process, path))
    return started


def join_clients(started, seconds):
    """Waits for clients to end, and gives what is wrong with how they did."""
    end, found = time.monotonic() + seconds, []
    for number, (process, _) in enumerate(started, 1):
        process.join(max(0, end - time.monotonic()))
        if process.exitcode is None:
            process.kill()
            process.join()
            found.append(f"client {number} did not end within {seconds} s")
        elif process.exitcode:
            found.append(f"client {number} ended with {process.exitcode}")
    return found
