"""Clients that don't read, come in numbers, end early, or come wrongly: one promise each."""
import contextlib
import functools
import os
import threading
import time

from deaths import audit_differs
from door import NoAnswer, Server, knock
from judging import check, wait_until

SHORTLY = 0.3
"""How long it is made sure that no answer comes."""
ROUNDS = 100
MAX_SESSIONS = 64
MORE_THAN_PIPES = 1 << 18
BAD_LINES = (b"frob\n", b"\n", b"-1\n", b"1 2\n", b"0x10\n", b" 5\n", b"18446744073709551616\n", b"a" * 4000 + b"\n", b"\xff\xfe\n")
"""Lines at the door that are no number."""


@contextlib.contextmanager
def sessions_of(server, count):
    """So many clients at once."""
    found = [server.session() for _ in range(count)]
    try:
        yield found
    finally:
        for session in found:
            session.close()


def one_that_never_reads(program):
    """It holds no one up, and has its own answers, in order, once it reads."""
    with Server(program, 4) as server, sessions_of(server, 4) as (silent, *others):
        server.ask("tenant 1000000")
        others[0].file(b"abc")
        lines = ["journal", "stat", "usage 0", "entries 0"] * 2000
        sender = threading.Thread(target=silent.send, args=("".join(f"{line}\n" for line in lines).encode(),), daemon=True)
        sender.start()
        time.sleep(SHORTLY)
        for number in range(ROUNDS):
            for session in others:
                check((len(session.file(b"%d" % number)), 64))
        answers = [silent.answer() for _ in lines]
        check(([answer.split()[0] for answer in answers] == [b"journal", b"objects", b"used", b"journal"] * 2000, True))
        check((sum(map(len, answers)) > MORE_THAN_PIPES, True), (server.end(), 0))


def more_than_there_are_sessions(program, count=2):
    """They wait, and are served when others end."""
    with Server(program, count) as server, sessions_of(server, count + 4) as clients:
        for session in clients:
            session.send(b"stat\n")
        served = newly_served(clients, count)
        check((len(served), count))
        while len(served) < len(clients):
            served[-1].close()
            following = newly_served([session for session in clients if session not in served], 1)
            check((len(following), 1))
            served += following
        check((server.end(), 0))


def newly_served(clients, count):
    """The clients that are answered: as many as are waited for, and those that are answered shortly after them."""
    served = []

    def are_served():
        served.extend([session for session in clients if session not in served and is_answered(session)])
        return len(served) >= count

    wait_until(are_served)
    time.sleep(SHORTLY)
    are_served()
    return served


def is_answered(session):
    with contextlib.suppress(NoAnswer):
        return session.answer(0).startswith(b"objects ")
    return False


def bad_lines_at_the_door(program):
    """They are reported on standard error, and every session goes on."""
    with Server(program, 3) as server, sessions_of(server, 1) as (before,):
        check((before.ask("tenant 5000"), b"tenant 0\n"))
        for number, line in enumerate(BAD_LINES, 1):
            knock(server.at, line)
            check(((line, wait_until(lambda: len(server.reported().splitlines()) >= number)), (line, True)))
        with sessions_of(server, 2) as after:
            check(*((session.ask("usage 0"), b"used 0 reserved 0 limit 5000\n") for session in (before, *after)), (server.end(), 0))


def pipes_that_are_not_there(program):
    """A number with no pipes, or with one of the two, is reported, and every session goes on."""
    with Server(program, 3) as server:
        check((server.ask("tenant 5000"), b"tenant 0\n"))
        for count, missing in enumerate((("in", "out"), ("in",), ("out",)), 1):
            session = server.session(knocks=False)
            for end in missing:
                os.remove(f"{server.at}.{session.number}.{end}")
            session.knock()
            check(((missing, wait_until(lambda: len(server.reported().splitlines()) >= count)), (missing, True)))
            session.close()
        with sessions_of(server, 3) as after:
            check(*((session.ask("usage 0"), b"used 0 reserved 0 limit 5000\n") for session in after), (server.end(), 0))


HALVES = (b"abort 1", b"limit 0 4", b"begin 0 10", b"seal 1", b"putb 1 0 3", b"putb 1 0 3\nab", b"putb 1 0 1024\n" + bytes(1023), b"tenant 5")
"""What a client can have sent when it dies, which is no whole command."""
CUT_FILES = (b"file 0 4", b"file 0 4\n", b"file 0 4\nabc", b"file 0 4000\n" + bytes(3999), b"fileas 0 " + b"0" * 64 + b" 4\nabc", b"file 0 9000\nabc")
"""The same of a file, of which uploads are begun and aborted."""


def halves_of_commands(program):
    """A client that ends within a line or a part has not sent it, and ends nothing of another's."""
    with Server(program, 2) as server:
        check((server.ask("tenant 5000"), b"tenant 0\n"), (server.ask("begin 0 3"), b"upload 0\n"), (server.ask("begin 0 3"), b"upload 1\n"))
        for half in HALVES:
            with server.session() as session:
                check((session.ask("has 0 " + "0" * 64), b"refused S12\n"))
                session.send(half)
            with server.session() as session:
                check((session.ask("uploads 0"), b"uploads 2\n0 3 3 0\n1 3 3 0\n"))
        time.sleep(SHORTLY)
        check((server.ask("journal"), b"journal 3\ntenant 0 5000\nbegin 0 0 3\nbegin 1 0 3\n"))
        for cut in CUT_FILES:
            with server.session() as session:
                check((session.ask("has 0 " + "0" * 64), b"refused S12\n"))
                session.send(cut)
            with server.session() as session:
                check((wait_until(lambda: session.uploads() == [0, 1]), True), (session.ask("usage 0"), b"used 0 reserved 6 limit 5000\n"))
        check((server.end(), 0))


def begun(session):
    """The number of an upload of three bytes that a session begins."""
    return session.ask_number("begin 0 3")


def put_to(session, number):
    return session.ask(f"putb {number} 0 3", b"abc")


LAST_WORDS = {
    "after a begin": lambda session, number: None,
    "after an open": lambda session, number: session.ask("open 0 3"),
    "after a part": put_to,
    "within a line": lambda session, number: session.send(b"seal %d" % number),
    "within a part": lambda session, number: session.send(b"putb %d 0 3\nab" % number),
    "within a file": lambda session, number: session.send(b"file 0 4000\nabc"),
    "without reading": lambda session, number: session.send(b"journal\n" * 8000),
}
"""What a client does last that has begun an upload."""


def own_uploads_of_clients_that_end(program):
    """They are aborted, and only they: one that another client began stays, also if the client that ends has put to it."""
    with Server(program, 3) as server:
        check((server.ask("tenant 5000"), b"tenant 0\n"), (server.ask("begin 0 3"), b"upload 0\n"))
        for name, last_words in LAST_WORDS.items():
            with server.session() as session:
                number = begun(session)
                last_words(session, number)
            check(((name, wait_until(lambda: server.ask("uploads 0") == b"uploads 1\n0 3 3 0\n")), (name, True)))
            check((server.ask("usage 0"), b"used 0 reserved 3 limit 5000\n"))
        with server.session() as session:
            check((put_to(session, 0), b"held 3 all\n"), (session.ask_number("begin 0 3") > 0, True))
        check((wait_until(lambda: server.ask("uploads 0") == b"uploads 1\n0 3 3 3\n"), True))
        aborted = [entry for entry in server.ask("journal").splitlines() if entry.startswith(b"abort ")]
        check((b"abort 0" in aborted, False), (len(aborted), len(set(aborted))), (audit_of(program, server), []), (server.end(), 0))


def audit_of(program, server):
    """What is wrong with a replay of a server's journal."""
    return audit_differs(program, server.ask("journal").decode().splitlines()[1:], server.ask("stat"))


def own_uploads_that_others_end(program):
    """What another client sealed stays filed, and what it aborted is aborted once. Later uploads of others stay."""
    with Server(program, 3) as server, sessions_of(server, 1) as (other,):
        check((server.ask("tenant 5000"), b"tenant 0\n"))
        with server.session() as session:
            sealed, aborted = begun(session), begun(session)
            put_to(session, sealed)
            check((other.ask(f"abort {aborted}"), b"ok\n"))
            address = other.ask(f"seal {sealed}").split()[1].decode()
            later = begun(other)
        with server.session() as session:
            check((session.ask(f"has 0 {address}"), b"has 3\n"))
        time.sleep(SHORTLY)
        check((server.ask("uploads 0"), b"uploads 1\n%d 3 3 0\n" % later), (server.ask("journal").count(b"abort"), 1))
        check((audit_of(program, server), []), (server.end(), 0))


def own_uploads_that_are_kept(program):
    """With --keep-uploads they are open, and another client goes on with them."""
    with Server(program, 3, keeps=True) as server, sessions_of(server, 1) as (other,):
        check((server.ask("tenant 5000"), b"tenant 0\n"))
        numbers = []
        for last_words in LAST_WORDS.values():
            with server.session() as session:
                numbers.append(begun(session))
                last_words(session, numbers[-1])
        with server.session() as session:
            session.ask("stat")
        for number in numbers:
            check((put_to(other, number).startswith((b"held 3 all", b"refused S9")), True))
            check((other.ask(f"seal {number}").split()[0] in (b"new", b"known"), True))
        check((audit_of(program, server), []), (server.end(), 0))


def answers_before_it_waits(program):
    """What was sent together is answered, in order, while the next line or the bytes of a part are only half there."""
    with Server(program, 1) as server, server.session() as session:
        session.send(b"tenant 5000\nbegin 0 3\nputb 0 0 3\na")
        check((session.answer(), b"tenant 0\n"), (session.answer(), b"upload 0\n"))
        session.send(b"bcsta")
        check((session.answer(), b"held 3 all\n"))
        session.send(b"t\nhas")
        check((session.answer(), b"objects 0 bytes 0 uploads 1 held 3 parts 1\n"))
        server.send(b"tenants\nuploads 0\nst")
        check((server.answer(), b"tenants 1\n0 0 3 5000\n"), (server.answer(), b"uploads 1\n0 3 3 3\n"))


def the_end_of_standard_input(program):
    """It ends the server with the status of its session, whatever clients do."""
    for text, status in (b"", 0), (b"frob\n", 0), (b"tenant 5\n", 0), (b"putb 0 0 5\nab", 1):
        with Server(program, 3) as server, sessions_of(server, 2) as (one, two):
            check((one.ask("tenants"), b"tenants 0\n"), (two.ask("stat")[:10], b"objects 0 "))
            two.send(b"putb 0 0 1024\nabc")
            server.send(text)
            check((server.end(), status), (server.reported(), ""))


LONE_CASES = {
    "a client that never reads": one_that_never_reads,
    "more clients than sessions": more_than_there_are_sessions,
    "more clients than 64 sessions": functools.partial(more_than_there_are_sessions, count=MAX_SESSIONS),
    "bad lines at the door": bad_lines_at_the_door,
    "pipes that are not there": pipes_that_are_not_there,
    "halves of commands": halves_of_commands,
    "own uploads of clients that end": own_uploads_of_clients_that_end,
    "own uploads that others end": own_uploads_that_others_end,
    "own uploads that are kept": own_uploads_that_are_kept,
    "answers before it waits": answers_before_it_waits,
    "the end of standard input": the_end_of_standard_input,
}
