"""What goes through a connection, by its socket or by its session's pipes; and what is left of it when it ends."""
import contextlib
import itertools
import os
import random
import signal
import subprocess
import threading
import time

from judging import SECONDS_TO_WAIT, check, wait_until
from redoing import save_folder
from running import CLEAN, SECONDS, SHORTLY, Closed, Connection, Piped, Running, is_running
from shared import raised
from b3store import Client, Ended

KEEPS = "b3store.server: a client keeps the pipes of a connection that has ended: its session lasts until it closes them\n"
SHUT_DOWN = "b3store.server: the server ends while 1 connection is open\n"


def a_session():
    """The lines of `serve` and nothing else. After a client has shut down its side it gets its answers, and the end. What it began and left open is aborted
    before, unless uploads are kept; what it sends over the socket beside its pipes is ignored."""
    for kind, (words, left) in itertools.product((Connection, Piped), (((), []), (("--keep-uploads",), [1]))):
        with Running(*words) as server, server.client() as other:
            with kind(server.path) as one:
                check((one.ask("tenant 5000"), b"tenant 0\n"), (other.ask("begin 0 3"), b"upload 0\n"), (one.ask("open 0 1024"), b"upload 1\n"))
                check((one.ask("putb 0 0 3", b"abc"), b"held 3 all\n"), (other.uploads(), [0, 1]))
                address = one.ask("seal 0").split()[1].decode()
                check((other.ask(f"fetchb 0 {address}"), b"bytes 3\nabc"), (one.ask("frob"), b"bad\n"))
                if kind is Piped:
                    one.socket.sendall(b"abort 1\n")
                else:
                    one.send(b"usage 0\nstat\n")
                    totals = b"used 3 reserved 1024 limit 5000\nobjects 1 bytes 3 uploads 1 held 0 parts 0\n"
                    check((one.ends(), totals), (other.uploads(), left))
            check((wait_until(lambda: other.uploads() == left), True), (other.ask("entries 1 1"), b"journal 1\nbegin 0 0 3\n"), (other.ends(), b""))
            check((wait_until(lambda: not server.sessions()), True))
            check((server.lines, [f"b3store.server: listening on {server.path}\n"]), (server.end(), CLEAN))


def contents_of_all_lengths():
    """Contents go both ways as they are."""
    with Running() as server, server.client() as one, server.client() as two:
        chance = random.Random(1)
        one.ask("tenant 1000000000")
        for length in (1, 1023, 4095, 4096, 4097, 65535, 65536, 65537, 1 << 20, (1 << 24) - 1, 1 << 24):
            content = chance.getrandbits(8 * length).to_bytes(length, "little")
            address = one.file(content)
            check(*((client.ask(f"fetchb 0 {address}") == b"bytes %d\n" % length + content, True) for client in (one, two)))


def clients_that_leave():
    """Their uploads are aborted, also those whose answers they never read, and no half of a command is done, through the socket or through pipes."""
    with Running("--sessions", "2", "--wait", "60") as server, server.client() as other:
        other.ask("tenant 1000000000")
        kept = other.ask_number("begin 0 7")
        halves = (b"", b"limit 0 5", b"putb 1 0 1024\nabc", b"begin 0 5\n" * 500, b"begin 0 5\nentries 0\n" * 200, b"fetchb 0 " + b"0" * 64)
        for kind, half in itertools.product((Connection, Piped), halves):
            with kind(server.path) as client:
                client.send(b"begin 0 5\n" + half)
                check((client.line()[:7], b"upload "))
            check((wait_until(lambda: other.uploads() == [kept]), True))
        check((other.ask("usage 0"), b"used 0 reserved 7 limit 1000000000\n"), (other.ends(), b""), (server.end(), CLEAN))


def one_that_never_reads():
    """It delays no other, and has its answers, in order, when it reads at last. If it leaves, its turn is free soon after, and its uploads are aborted."""
    with Running("--sessions", "3", "--wait", "60") as server, server.client() as other:
        other.ask("tenant 1000000000")
        address = other.file(bytes(1 << 20))
        with server.client() as silent:
            lines = f"fetchb 0 {address}\nhas 0 {address}\njournal\n".encode() * 300
            sender = threading.Thread(target=silent.send, args=(lines,))
            sender.start()
            time.sleep(SHORTLY)
            for number in range(100):
                other.file(b"%d" % number)
                with server.client() as one:
                    check((one.ask(f"has 0 {address}"), b"has 1048576\n"))
            kinds = [silent.answer().split(b" ", 1)[0] for _ in range(900)]
            sender.join()
            check((kinds == [b"bytes", b"has", b"journal"] * 300, True))
            silent.send(f"begin 0 5\nfetchb 0 {address}\n".encode() * 200)
            time.sleep(SHORTLY)
        check((wait_until(lambda: server.sessions() == 1 and other.uploads() == []), True), (other.ends(), b""), (server.end(), CLEAN))


def pipes_that_nobody_takes():
    """The line that asks for pipes may come in pieces. The turn of a client that asks and leaves, half asks, or reads the line without the pipes, is free at
    once."""
    with Running("--sessions", "1", "--wait", "60") as server:
        start = time.monotonic()
        with Connection(server.path) as client:
            for byte in b"pipes\n":
                client.send(bytes([byte]))
                time.sleep(0.01)
            check((client.line(), b"pipes\n"))
        for text in (b"pipes\n", b"pip", b"", b"pipes\n" + b"begin 0 3\n" * 1000):
            for _ in range(20):
                with Connection(server.path) as client:
                    client.send(text)
        with Connection(server.path) as client:
            check((client.ask("tenants"), b"tenants 0\n"), (client.ends(), b""))
        check((time.monotonic() - start < SECONDS_TO_WAIT, True), (wait_until(lambda: not server.sessions()), True), (server.end(), CLEAN))


def pipes_that_are_kept():
    """A client that closes its socket and keeps the pipes keeps its session and its turn, which is reported, and so does a process that it has started with
    them. Then the turn is free, and its uploads are aborted. It keeps no other client out, and not the end of the server."""
    with Running("--sessions", "2", "--wait", "1") as server:
        with Connection(server.path) as other:
            kept = Piped(server.path)
            check((other.ask("tenant 5000"), b"tenant 0\n"), (kept.ask("begin 0 5"), b"upload 0\n"))
            kept.socket.close()
            check((wait_until(lambda: server.reported() == KEEPS), True), (kept.uploads(), [0]))
            with Connection(server.path) as late:
                check((late.remaining(), b"busy\n"))
            child = subprocess.Popen(["sleep", "60"], pass_fds=kept.pipes)
            kept.close()
            time.sleep(SHORTLY)
            check((len(other.uploads()), 1))
            child.kill()
            child.wait()
            check((wait_until(lambda: other.uploads() == []), True), (wait_until(lambda: server.connections() == 1), True))
            with Connection(server.path) as late:
                check((late.ask("tenants"), b"tenants 1\n0 0 0 5000\n"), (late.ends(), b""))
            check((other.ends(), b""), (wait_until(lambda: server.connections() == 0), True))
        with contextlib.closing(Piped(server.path)) as again:
            again.socket.close()
            server.signal()
            check((server.status(), 0), (server.left(), []), (server.reported(), KEEPS + KEEPS + SHUT_DOWN))
            check((raised(again.ask, "stat") in (Closed, BrokenPipeError), True))


def saves_beside_idle_clients():
    """A client that is idle when the server saves sends nothing any more; all that was answered is saved."""
    with save_folder() as folder:
        with Running("--save", folder, "--grace", "0") as server, Client(server.path) as idle, Client(server.path) as busy:
            tenant = idle.tenant(1 << 30)
            idle.file(tenant, b"idle")
            answered = []

            def work():
                with contextlib.suppress(Ended):
                    while True:
                        answered.append(busy.file(tenant, b"%d" % len(answered)).address)

            worker = threading.Thread(target=work)
            worker.start()
            check((wait_until(lambda: len(answered) > 50), True))
            server.signal()
            worker.join(SECONDS)
            check((worker.is_alive(), False), (server.status(), 0), (raised(idle.file, tenant, b"late"), Ended), (idle.alive, False))
            check((server.reported(), "b3store.server: the server ends while 2 connections are open\n"), (server.left(), []))
        with Running("--save", folder) as server, Client(server.path) as store:
            check((set(answered) <= set(store.list(tenant)), True), (store.stat().objects, len(answered) + 1))


def processes_that_are_killed():
    """If the store is killed, the server says so, with its status, and ends with 3; if the server is killed, the store ends. Clients see the end, whatever they
    do: with pipes, without, and one that waits for an answer."""
    for kills_store in False, True:
        with Running() as server, server.client() as plain, Client(server.path) as client, Piped(server.path) as silent:
            tenant, store = client.tenant(1 << 30), server.store()
            address = client.upload(bytes(1 << 24), tenant).address
            silent.send(f"fetchb 0 {address}\n".encode() * 10)
            plain.send(f"fetchb 0 {address}\n".encode() * 10)
            time.sleep(SHORTLY)
            os.kill(store if kills_store else server.process.pid, signal.SIGKILL)
            check((server.status(), 3 if kills_store else -signal.SIGKILL), (wait_until(lambda store=store: not is_running(store)), True))
            check((raised(client.stat), Ended), (raised(client.begin, tenant, 5), Ended), (client.alive, False))
            check((len(plain.remaining()) < 10 << 24, True))
            told = "b3store.server: the store ended with status -9, killed by SIGKILL; everything in it is lost\n"
            check((server.reported(), told if kills_store else ""), (server.left() == [], kills_store))
