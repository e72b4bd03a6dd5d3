"""Clients of a server."""
import array
import contextlib
import io
import itertools
import os
import pathlib
import re
import select
import signal
import socket
import sys
import tempfile
import textwrap
import threading

from running import Running
from shared import ABC, SECONDS, TOP, Interrupted, alarms, check, ended, in_threads, interrupt, interrupted_calls, raised, refusal, wait_until
from b3store import Client, Ended, Filed, Usage
from b3store.client import PipeSession
from b3store.sessions import Session
from transfers import PART_LEN, content_of


def over_a_socket():
    with Running() as server:
        with Client(server.path) as store:
            check((store.file(store.tenant(50), b"abc"), Filed(True, ABC, 3)), (refusal(store.usage, 5), ("S1", None)), (store.alive, True))
        check((store.alive, False), (ended(store.stat), "the client was closed"), (store.close(), None))
        with Client(pathlib.Path(server.path), sessions=1) as store:
            check((store.file(0, b"abc"), Filed(False, ABC, 3)), (store.usage(0), Usage(3, 0, 50)))


def over_several_runs():
    """The example of docs/USE.md, run again, uses the tenant that it opened at first."""
    with open(os.path.join(TOP, "docs", "USE.md"), encoding="utf-8") as page:
        code = re.search(r"(?m)^    from b3store import Client\n\n(?:    .*\n)+", page.read())[0]
    before = os.getcwd()
    with tempfile.TemporaryDirectory() as place, Running() as server, Client(server.path) as store:
        os.chdir(place)
        try:
            for _ in range(2):
                exec(textwrap.dedent(code).replace("/run/b3store/socket", server.path), {})
        finally:
            os.chdir(before)
        check((list(store.tenants()), [0]), (store.list(0), {ABC: 3}))


@contextlib.contextmanager
def listening(serve):
    """The path of a socket, each connection to which is passed to a function, in a thread."""
    def accept():
        with contextlib.suppress(OSError):
            while True:
                threading.Thread(target=serve, args=(listener.accept()[0],), daemon=True).start()

    with tempfile.TemporaryDirectory() as place, socket.socket(socket.AF_UNIX) as listener:
        path = os.path.join(place, "socket")
        listener.bind(path)
        listener.listen()
        threading.Thread(target=accept, daemon=True).start()
        try:
            yield path
        finally:
            listener.shutdown(socket.SHUT_RDWR)


def forwarded(target):
    """A socket whose connections are forwarded to another one, by copies of their bytes, as `ssh -L` does. Descriptors are lost."""
    def copy(source, other):
        with contextlib.suppress(OSError):
            while True:
                content = source.recv(1 << 16)
                if not content:
                    break
                other.sendall(content)
        with contextlib.suppress(OSError):
            other.shutdown(socket.SHUT_WR)

    def serve(connection):
        other = socket.socket(socket.AF_UNIX)
        other.connect(target)
        threading.Thread(target=copy, args=(other, connection), daemon=True).start()
        copy(connection, other)

    return listening(serve)


def over_a_forwarded_socket():
    """A client to which no pipes can be passed sends its lines through the socket, which has no timeout. What it has begun is aborted when it ends."""
    content = content_of(9 * PART_LEN + 3)
    with Running() as server, forwarded(server.path) as path, Client(server.path) as near:
        socket.setdefaulttimeout(SECONDS)
        with Client(path, sessions=3) as store:
            socket.setdefaulttimeout(None)
            tenant = store.tenant(1 << 30)
            address = store.upload(io.BytesIO(content), tenant).address
            check((store.fetch(tenant, address) == content, True), (near.fetch(tenant, address) == content, True), (store.alive, True))
            check((in_threads(lambda _: store.file(tenant, b"abc").address, 3), [ABC] * 3), (len(store.uploads(tenant)), 0))
            upload = store.begin(tenant, 5)
            check((near.uploads(tenant)[0].number, upload), ([type(session) for session in store._all + near._all], [Session] * 3 + [PipeSession]))
        check((wait_until(lambda: near.uploads(tenant) == []), True))
    with server_of(b"tenant 5\n", passes_pipes=False) as path, Client(path) as store:
        check((store.tenant(), 5))


def servers_that_pass_no_pipes():
    """What is no answer to the first line is an error of the connection, and keeps no descriptor."""
    before = len(os.listdir("/proc/self/fd"))
    with open(os.devnull, "rb") as file:
        ends = [file.fileno(), file.fileno()]
        cases = (
            (b"busy\n", [], "the server is busy: each of its sessions has a client"), (b"", [], "has closed the connection"), (b"pip", [], "has closed the connection"),
            (b"tenant 0\n", [], "the server answers b'tenant 0"), (b"pipes\n", ends[:1], "the server answers"), (b"xxxxxxxx", [], "has closed the connection"),
            (b"tenant 0\n", ends, "the server answers b'tenant 0"), (b"pip", ends, "has closed the connection"),
        )
        for answer, passed, reason in cases:

            def serve(connection, answer=answer, passed=passed):
                with connection:
                    connection.recv(6)
                    if answer:
                        connection.sendmsg([answer], [(socket.SOL_SOCKET, socket.SCM_RIGHTS, array.array("i", passed))] if passed else [])

            with listening(serve) as path:
                told = ended(Client, path)
                check((told is not None and reason in told, True))
    check((wait_until(lambda: len(os.listdir("/proc/self/fd")) <= before), True))


def places_that_are_wrong():
    """They raise before anything is sent."""
    with tempfile.TemporaryDirectory() as place:
        none, file, long = (os.path.join(place, name) for name in ("none", "file", "l" * 200))
        with open(file, "wb"):
            pass
        check((raised(Client, none), FileNotFoundError), (raised(Client, file), ConnectionRefusedError), (raised(Client, long), OSError))
        try:
            Client(none)
        except OSError as fault:
            check((fault.filename, none))
    for words in {}, {"path": None}, {"path": 5}, {"path": "a", "sessions": "2"}, {"host": "a", "port": 80}:
        check((raised(lambda words=words: Client(**words)), TypeError))
    check(*((raised(lambda count=count: Client("a", sessions=count)), ValueError) for count in (0, 65)))


@contextlib.contextmanager
def server_of(*answers, passes_pipes=True):
    """A server whose connections get some bytes, each after a line, and are then closed. With None for bytes it waits until the client closes its socket."""
    is_done = threading.Event()

    def serve(connection):
        with connection, contextlib.ExitStack() as ending, contextlib.suppress(OSError):
            ends = ends_of(connection, passes_pipes, ending)
            for answer in answers if ends else []:
                source = select.select(list(ends), [], [])[0][0]
                if not os.read(source, 1 << 16):
                    return
                while answer is None:
                    if is_done.wait(0.05) or select.select([connection], [], [], 0)[0] and not connection.recv(1 << 16):
                        return
                os.write(ends[source], answer)

    with listening(serve) as path:
        try:
            yield path
        finally:
            is_done.set()


def ends_of(connection, passes_pipes, ending):
    """Where a server reads from a connection, and where it writes the answers to what it reads there. None if the client has to connect again."""
    ends = {connection.fileno(): connection.fileno()}
    if connection.recv(6, socket.MSG_PEEK) != b"pipes\n":
        return ends
    connection.recv(6)
    if not passes_pipes:
        connection.sendall(b"bad\n")
        return None
    (requests, theirs), (other, answers) = os.pipe(), os.pipe()
    connection.sendmsg([b"pipes\n"], [(socket.SOL_SOCKET, socket.SCM_RIGHTS, array.array("i", [theirs, other]))])
    for end in theirs, other:
        os.close(end)
    for end in requests, answers:
        ending.callback(os.close, end)
    return {**ends, requests: answers}


def servers_that_end():
    """What was wrong is said at the call that finds it, and at every later one."""
    cases = (
        ([b"tenant 0\n"], 1, "has closed the connection"), ([b"tenant 0"], 0, "has closed the connection"), ([b"busy\n"], 0, "the server is busy: each of its sessions has a client"),
        ([b"frob\n"], 0, "the store's answer makes no sense: 'frob'"), ([b"\xff\xff\n"], 0, "the store's answer makes no sense"), ([b"tenant 0\n", b"tenant 1\n"], 2, "has closed the connection"),
    )
    for answers, count, reason in cases:
        with server_of(*answers) as path, Client(path) as store:
            check(([store.tenant() for _ in range(count)], list(range(count))))
            told = ended(store.tenant)
            check((told is not None and reason in told, True), (ended(store.stat), told), (ended(store.fetch, 0, ABC), told), (store.alive, False))
    with server_of(b"tenant 0\n") as path, Client(path) as store:
        check((store.tenant(), 0), (wait_until(lambda: not store.alive), True))


def clients_that_are_closed():
    """A client that is broken ends the commands of its other threads when it is closed."""
    with server_of(None, passes_pipes=False) as path:
        store = Client(path, sessions=2)
        results = []
        thread = threading.Thread(target=lambda: results.append(raised(store.stat)), daemon=True)
        thread.start()
        threading.Event().wait(0.2)
        store._fault = Ended("broken")
        store.close()
        thread.join(SECONDS)
        check((results, [Ended]), (raised(store.stat), Ended))


def interrupts_at_any_moment():
    """No interrupt of a command, or of `alive`, keeps a session. Older versions of Python look for signals before nearly each step, also of a finally: there it
    is only rarer."""
    if sys.version_info < (3, 11):
        return []
    with alarms(), Running() as server:
        for number in range(100):
            with Client(server.path) as store:
                interrupted_calls(store.stat, 0.002 + number / 20000)
                check((store._free.qsize(), 1))
        with Client(server.path, sessions=3) as store:
            for number in range(1000):
                interrupted_calls(lambda: store.alive, 0.0001 + number / 10000000)
                kept = 3 - store._free.qsize()
                store._give_back(store._all[:kept])
                check((kept, 0))


def give_up(*_):
    raise TimeoutError("it takes too long")


def commands_that_take_too_long():
    """If an exception interrupts a command, it reaches the caller, and the client can't be used any more: an answer is unread. An OSError that a handler
    raises, as TimeoutError, isn't taken for the end of the server."""
    cases = (
        (None, lambda store: store.stat()), (b"bytes 5", lambda store: store.stat()), (None, lambda store: store.put(0, 0, bytes(1 << 24))),
        (b"bytes 5\nabc", lambda store: store.fetch(0, ABC)), (b"bytes 5\nabc", lambda store: store.fetch_into(0, ABC, bytearray(5))),
    )
    for (answer, call), (handler, fault) in itertools.product(cases, ((give_up, TimeoutError), (interrupt, Interrupted))):
        with alarms(handler), server_of(answer, None) as path, Client(path) as store:
            signal.setitimer(signal.ITIMER_REAL, 0.3)
            check((raised(call, store), fault), (ended(store.stat), f"a command was interrupted by {fault.__name__}"), (store.alive, False))
