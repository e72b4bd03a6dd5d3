"""A growth of memory that the server is refused while two clients work: one command is refused, and every other answer is the model's."""
import contextlib
import os
import select
import tempfile
import time

from door import NoAnswer, Server
from preloaded import CannotPreload, Preloaded
from session import answer_of
from store import Store

REFUSING = os.path.join(os.path.dirname(os.path.dirname(os.path.abspath(__file__))), "common", "memory.c")
MAX_GROWTHS = 2000
SECONDS = 20
LOOKS = 0.05
REFUSED = b"refused S14\n"
TALK = (
    (0, "tenant 9000", b""), (1, "tenant 9000", b""), (0, "open 0 4096", b""), (1, "begin 1 2049", b""), (0, "putb 0 0 2048", b"a" * 2048),
    (1, "putb 1 0 1024", b"a" * 1024), (0, "uploads 0", b""), (1, "put 1 1024 p:1024", b""), (0, "putb 0 2048 1", b"a"), (1, "putb 1 2048 1", b"b"),
    (0, "seal 0", b""), (1, "seal 1", b""), (0, "list 0", b""), (1, "entries 2 5", b""), (0, "usage 1", b""), (1, "tenants", b""), (0, "journal", b""),
    (1, "stat", b""), (0, "begin 1 3", b""), (1, "abort 2", b""), (0, "f" * 3000, b""), (1, "entries 8", b""),
)
"""Which of two clients sends what."""


class Skipped(Exception):
    """The server has ended before it served a client, as it may when out of memory."""


def begin(server, session):
    """Makes sure that a session is served: where the server reports that it couldn't be, the client comes again."""
    reports, end = 0, time.monotonic() + SECONDS
    session.send(b"frob\n")
    session.knock()
    while time.monotonic() < end:
        with contextlib.suppress(NoAnswer):
            return session.answer(LOOKS)
        if server.process.poll() is not None:
            raise Skipped
        if len(server.reported().splitlines()) > reports:
            reports += 1
            session.knock()
    raise NoAnswer("a session does not begin")


def talk(server):
    """The two clients' talk, and what of it is not by the model."""
    store, refused = Store(), 0
    with contextlib.ExitStack() as stack:
        sessions = [stack.enter_context(server.session(knocks=False)) for _ in range(2)]
        for session in sessions:
            begin(server, session)
        for at, line, content in TALK:
            answer = sessions[at].ask(line, content, SECONDS)
            if answer == REFUSED:
                refused += 1
                continue
            wanted = answer_of(store, line, content)
            if answer != wanted:
                return [f"client {at}: {line[:40]!r} is answered {answer!r}, not {wanted!r}"]
        journal = server.ask("journal")
        journal, refused = (server.ask("journal"), refused + 1) if journal == REFUSED else (journal, refused)
        found = [] if journal == answer_of(store, "journal", b"") else [f"the journal is {journal!r}, not {store.journal}"]
    return found + ([f"{refused} commands were refused memory"] if refused > 1 else [])


def with_a_refused_growth(program, library, growth):
    """What is wrong with a server that is refused a growth, and whether it was."""
    seen, disturbed = os.pipe()
    try:
        with Server(program, 2, LD_PRELOAD=library, GROWTH=str(growth), DISTURBED=str(disturbed)) as server:
            return faults_of_talk(server), bool(select.select([seen], [], [], 0)[0])
    finally:
        os.close(seen)
        os.close(disturbed)


def faults_of_talk(server):
    """What is wrong with the talk. The server may end when out of memory before both clients are served."""
    try:
        found, status = talk(server), server.end()
        return found + ([f"it ended with {status}"] if status else [])
    except (Skipped, OSError, NoAnswer) as fault:
        status, reported = server.process.poll(), server.reported()
        if status is None:
            return [f"{fault}; standard error has {reported[-200:]!r}"]
        return [] if status == 3 and reported == "b3store: out of memory\n" else [f"it ended with {status} and {reported!r}"]


def refused_growths(program):
    """Refuses each growth in turn, until a run has fewer."""
    found = []
    with tempfile.TemporaryDirectory() as folder:
        try:
            library = Preloaded(folder, REFUSING).library
        except CannotPreload as fault:
            return [str(fault)]
        for growth in range(1, MAX_GROWTHS):
            faults, was_met = with_a_refused_growth(program, library, growth)
            found += [f"growth {growth}: {fault}" for fault in faults]
            if not was_met or len(found) > 3:
                break
    print(f"{growth} growths were refused in turn", flush=True)
    return found if growth > 1 or found else ["no growth was refused"]
