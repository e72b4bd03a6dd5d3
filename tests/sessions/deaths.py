"""Clients that are killed anywhere, while others work."""
import contextlib
import os
import random
import subprocess
import time

from clients import FILLS, Chooser, Log, end_of, join_clients, read_log, start, talk
from door import Server, Session
from history import Op, faults_of
from journal import audit_answer
from judging import wait_until
from resident import ENTRY_BYTES, resident

SESSIONS, WORKERS, VICTIMS = 8, 3, 4
PAUSE = 0.004
"""How long a worker waits before each command, so that the journal stays one that can be replayed."""
LIVES = (0, 0.15)
"""How long a victim lives, in seconds."""
TENANTS = 3
MAX_SHOWN = 3
ENDS = 15
SLACK = 8 << 20
"""How much of a server's memory may be for its threads, and what its allocator keeps."""


def asked(server, line):
    """What the session on standard input and output is asked, as a part of a history."""
    op = Op(0, time.monotonic_ns(), line, (0, 0))
    op.answer = server.ask(line)
    op.ended = time.monotonic_ns()
    return op


def work(at, number, seed, end, path):
    """A worker's life: sessions one after the other, until the time is over."""
    chance = random.Random(seed)
    chooser, log, part = Chooser(chance, WORKERS + VICTIMS, number), Log(path), 0
    while time.monotonic() < end:
        with Session(at, 1000 * number + part % 1000) as session:
            while time.monotonic() < end and chance.random() > 0.01:
                talk(session, chooser, log, 1)
                time.sleep(PAUSE)
            log.ended()
        part += 1


def send_half(session, chooser, log, chance):
    """Sends a line without its end, or a part without its last bytes."""
    talk(session, chooser, log, chance.randrange(3))
    line, (fill, length) = chooser.command()
    if length:
        session.send(line.encode() + b"\n" + bytes([fill]) * chance.randrange(length))
    else:
        session.send(line.encode()[: chance.randrange(1, len(line) + 1)])
    time.sleep(ENDS)


def read_nothing(session, chooser, log, chance):
    """Sends commands, and reads no answers, until both pipes are full."""
    while True:
        line, (fill, length) = chooser.command()
        if chance.random() < 0.3:
            line, length = "journal", 0
        log.sent(line, (fill, length))
        session.send(line.encode() + b"\n", bytes([fill]) * length)


class Victim(Chooser):
    """What victims put at a place of an upload is always the same, since nobody knows which of them put it."""

    def part(self, number):
        offset, length, _ = super().part(number)
        return offset, length, (number + offset // 1024) % FILLS


def live(at, number, seed, path):
    """A victim's life, which ends when it is killed."""
    chance = random.Random(seed)
    chooser, log = Victim(chance, WORKERS + VICTIMS, WORKERS + number), Log(path)
    chooser.latest = chance.randrange(50)
    with Session(at, number, chance.random() < 0.97) as session:
        kind = chance.randrange(3)
        if kind == 0:
            talk(session, chooser, log, 1 << 30, chance.choice((1, 3)))
        else:
            (send_half, read_nothing)[kind - 1](session, chooser, log, chance)


class Victims:
    """Clients that are started and killed, some at a time."""

    def __init__(self, server, chance):
        self.server, self.chance, self.count, self.living, self.paths = server, chance, 0, [], []

    def start(self):
        self.count += 1
        number, path = 10 ** 6 + self.count, os.path.join(self.server.folder, f"victim.{self.count}")
        process = start(live, self.server.at, number, number, path)
        self.living.append((time.monotonic() + self.chance.uniform(*LIVES), process, number))
        self.paths.append(path)

    def kill_those_due(self, now):
        for row in [row for row in self.living if now >= row[0]]:
            _, process, number = row
            process.kill()
            process.join()
            self.living.remove(row)
            for end in "in", "out":
                with contextlib.suppress(FileNotFoundError):
                    os.remove(f"{self.server.at}.{number}.{end}")

    def run(self, end):
        while time.monotonic() < end:
            while len(self.living) < VICTIMS:
                self.start()
            time.sleep(0.002)
            self.kill_those_due(time.monotonic())
        self.kill_those_due(float("inf"))

    def histories(self, first, ends):
        return [read_log(path, first + at, ends=ends) for at, path in enumerate(self.paths) if os.path.exists(path)]


def all_sessions_answer(server):
    """Whether as many clients are answered at once as there are sessions."""
    sessions = [server.session() for _ in range(SESSIONS)]
    found = [f"a session answers {answer!r}" for answer in [one.ask("usage 0") for one in sessions] if not answer.startswith(b"used")]
    for session in sessions:
        session.close()
    return found


def left_open(server):
    """What is wrong where uploads of clients that have ended are open still after a while."""
    if wait_until(lambda: set(server.all_uploads()) <= {b"uploads 0\n"}):
        return []
    return [f"uploads of clients that have ended are open: {server.all_uploads()}"]


def untold(journal, histories):
    """The aborts of uploads whose clients died before they were answered the number."""
    told = {int(op.answer.split()[1]) for history in histories for op in history if (op.answer or b"").startswith(b"upload ")}
    begun = [int(entry.split(" ")[1]) for entry in journal if entry.startswith(("begin ", "open "))]
    return [end_of(number, 0) for number in begun if number not in told]


def audit_differs(program, journal, totals):
    """What `audit` says of a journal, where that is not what the second reading says, or not what `stat` answered."""
    text = "".join(f"{line}\n" for line in ["b3store-journal 2", *journal]).encode()
    reported = subprocess.run([*program, "audit"], input=text, capture_output=True).stdout
    wanted, _ = audit_answer(text)
    return [] if reported == wanted and wanted.startswith(totals) else [f"audit reports {reported!r}, the second reading {wanted!r}, and stat {totals!r}"]


def more_memory(server, before, entries, stat):
    """What is wrong with how much more memory the server has than it had before."""
    most = sum(int(number) for number in stat.split()[3:8:4]) + ENTRY_BYTES * entries + SLACK
    more = resident(server.process.pid) - before
    return [f"{more} bytes more are resident, of at most {most}"] if more > most else []


def deaths(program, minutes, seed):
    """What is wrong where clients are killed for some minutes while others work: what the journal doesn't explain, or memory that is not freed."""
    with Server(program, SESSIONS) as server:
        first, before = [asked(server, "tenant 30000") for _ in range(TENANTS)], resident(server.process.pid)
        end, workers = time.monotonic() + 60 * minutes, []
        for number in range(1, WORKERS + 1):
            path = os.path.join(server.folder, f"log.{number}")
            workers.append((start(work, server.at, number, seed * 1000 + number, end, path), path))
        victims = Victims(server, random.Random(seed))
        victims.run(end)
        found = join_clients(workers, 60) + all_sessions_answer(server) + left_open(server)
        if found:
            return found + [server.reported()[-300:]]
        ends = []
        histories = [first] + [read_log(path, number, ends=ends) for number, (_, path) in enumerate(workers, 1)]
        histories += victims.histories(len(histories), ends)
        stat = asked(server, "stat")
        histories[0] += [stat] + [asked(server, f"{word} {tenant}") for word in ("list", "uploads") for tenant in range(TENANTS)]
        journal = server.ask("journal").decode().splitlines()[1:]
        histories += [ends + untold(journal, histories)]
        found = more_memory(server, before, len(journal), stat.answer) + faults_of(journal, histories) + audit_differs(program, journal, stat.answer)
        status = server.end()
    print(f"{victims.count} clients were killed beside {sum(map(len, histories[:4]))} commands; {len(journal)} entries", flush=True)
    return found[:MAX_SHOWN] + ([f"the server ended with {status}"] if status else [])
