"""How a server starts and ends, when it doesn't start, and which connections it refuses."""
import contextlib
import os
import signal
import socket
import stat
import subprocess
import sys
import tempfile
import time

from judging import SECONDS_TO_WAIT, check, wait_until
from redoing import save_folder
from running import AS_MODULE, CLEAN, PROGRAM, RUN_SERVER, SECONDS, SHORTLY, Connection, Running, environment, fails, is_listening, is_running, run_python
from talking import NoAnswer

WITH_NOHUP = f"import signal; signal.signal(signal.SIGHUP, signal.SIG_IGN); {RUN_SERVER}"
WITH_FEW_FILES = f"import resource; resource.setrlimit(resource.RLIMIT_NOFILE, (48, 48)); {RUN_SERVER}"
WITH_PASSED = f"import os; os.dup2(int(os.environ['PASSED']), 3); os.environ.update(LISTEN_FDS='1', LISTEN_PID=str(os.getpid())); {RUN_SERVER}"
"""A server that has a descriptor 3 of systemd."""
STARVED_AT_FIRST = f"""
import socket
accept, left = socket.socket.accept, [1]
def accept_or_fail(listening):
    left[0] -= 1
    if left[0] >= 0:
        raise MemoryError
    return accept(listening)
socket.socket.accept = accept_or_fail
{RUN_SERVER}
"""
"""A server that has no memory for its first connection when it is to be accepted."""


WITHOUT_THREADS = """
import _thread, sys
from b3store import server
def start(work, words, start=_thread.start_new_thread):
    if work is server.follow:
        raise RuntimeError("can't start new thread")
    start(work, words)
_thread.start_new_thread = start
sys.exit(server.main())
"""


def busy():
    """A connection above N waits, has its turn when another ends, and is sent `busy` after a time; then nothing that it sent was done."""
    with Running("--sessions", "1", "--wait", "1") as server, server.client() as first:
        first.ask("tenant 5000")
        start = time.monotonic()
        with server.client() as late:
            late.send(b"limit 0 4000\n")
            check((late.remaining(), b"busy\n"), (0.9 < time.monotonic() - start < SECONDS_TO_WAIT, True))
        check((first.ask("usage 0"), b"used 0 reserved 0 limit 5000\n"), (first.ends(), b""), (server.end(), CLEAN))
    with Running("--sessions", "2", "--wait", "0") as server, server.client() as first:
        check((first.ask("tenants"), b"tenants 0\n"))
        for _ in range(50):
            with server.client() as other:
                check((other.ask("tenants"), b"tenants 0\n"))
                with server.client() as late:
                    check((late.remaining(), b"busy\n"))
            # its turn ends a little after its session
            check((wait_until(lambda: server.connections() == 1), True))
        check((first.ends(), b""), (server.end(), CLEAN))


def turns_in_order():
    """Those that wait have their turns in the order in which they came."""
    with Running("--sessions", "2", "--wait", "60") as server:
        clients = [server.client() for _ in range(10)]
        for client in clients:
            client.send(b"stat\n")
        for client in clients:
            # otherwise it has no turn before a later one ends
            client.answer()
            client.close()
        check((server.end(), CLEAN))


def many_at_once():
    """Two hundred connections at once over four sessions are all served, some of which say nothing, and leave no open file, no thread and no pipe."""
    with Running("--sessions", "4", "--wait", "60") as server:

        def kept():
            at = f"/proc/{server.process.pid}"
            names = os.listdir(os.path.join(server.temporary, os.listdir(server.temporary)[0]))
            return len(os.listdir(f"{at}/fd")), len(os.listdir(f"{at}/task")), names

        before = kept()
        for _ in range(2):
            clients = [server.client() for _ in range(200)]
            for number, client in enumerate(clients):
                client.send(b"stat\n" if number % 3 else b"")
                client.socket.shutdown(socket.SHUT_WR)
            answers = [client.remaining() for client in clients]
            for client in clients:
                client.close()
            check(({*answers[1::3], *answers[2::3]}, {b"objects 0 bytes 0 uploads 0 held 0 parts 0\n"}), ({*answers[::3]}, {b""}))
        check((wait_until(lambda: kept() == before), True), (before[2], ["door"]), (server.end(), CLEAN))


def too_few_files():
    """Connections for which there are no open files left are closed or wait, the server says so, and serves again once others have ended."""
    with Running("--sessions", "16", "--wait", "60", python=["-c", WITH_FEW_FILES]) as server:
        with server.client() as first:
            first.ask("tenant 5000")
            clients = [server.client() for _ in range(60)]
            check((server.reports("too many open files"), True))
            for client in clients:
                client.close()

        def serves_again():
            """Whether a connection is served. While the others end, there may be no open files for it either."""
            with contextlib.suppress(OSError, NoAnswer), server.client() as last:
                return (last.ask("usage 0"), last.ends()) == (b"used 0 reserved 0 limit 5000\n", b"")
            return False

        check((wait_until(serves_again), True))
        status, told, left = server.end()
        check((status, 0), ("Traceback" in told, False), (left, []))


def connections_without_memory():
    """A connection for which there is no memory at first is accepted later, and what the store has is kept."""
    with Running(python=["-c", STARVED_AT_FIRST]) as server, server.client() as client:
        check((client.ask("tenants"), b"tenants 0\n"), (client.ends(), b""))
        check((server.end(), (0, "b3store.server: a connection can't be accepted: out of memory\n", [])))


def streams_that_take_nothing():
    """A server without standard streams, or whose output is full, or is a pipe that nobody reads, serves its clients, and saves."""
    reading, full = os.pipe()
    os.set_blocking(full, False)
    with contextlib.suppress(BlockingIOError):
        while True:
            os.write(full, bytes(4096))
    os.set_blocking(full, True)
    for redirections in "<&- >&- 2>&-", ">&-", ">/dev/full 2>/dev/full", "":
        with tempfile.TemporaryDirectory() as folder:
            path = f"{folder}/socket"
            words = [sys.executable, *AS_MODULE, "--socket", path, "--program", PROGRAM, "--save", f"{folder}/saved", "--grace", "0"]
            shell = ["/bin/sh", "-c", f'exec "$@" {redirections}', "sh", *words]
            with subprocess.Popen(shell, stdout=full, stderr=full, env=environment(TMPDIR=folder), start_new_session=True) as server:
                check((wait_until(lambda: is_listening(path)), True))
                with Connection(path) as client:
                    check((client.ask("tenants"), b"tenants 0\n"))
                    server.terminate()
                    check((server.wait(SECONDS), 0), (os.listdir(folder), ["saved"]))
    os.close(reading)
    os.close(full)


def too_large_for_the_store():
    """What has no room in the memory that the store may take is refused. The store still gives what it has, and takes more once the client has left."""
    with Running("--memory", str(10**19)) as server:
        check((server.end(), CLEAN))
    with Running("--memory", "256M") as server, server.client() as other:
        other.ask(f"tenant {1 << 46}")
        address = other.file(b"kept")
        kept = other.ask(f"fetchb 0 {address}")
        with server.client() as client:
            upload, part, count = client.ask_number(f"open 0 {1 << 40}"), bytes(1 << 20), 0
            answer = client.ask(f"putb {upload} 0 {len(part)}", part)
            while answer.startswith(b"held") and count < 300:
                count += 1
                answer = client.ask(f"putb {upload} {count << 20} {len(part)}", part)
            check((answer, b"refused S14\n"), (100 < count < 256, True), (other.ask(f"fetchb 0 {address}"), kept), (client.ends(), b""))
        check((wait_until(lambda: other.uploads() == []), True), (len(other.file(bytes(1 << 20))), 64))
        check((other.ask(f"fetchb 0 {address}"), kept), (other.ends(), b""), (server.end(), CLEAN))


def wrong_words():
    """Each has status 2 and a line that names it."""
    numbers = "sessions 0", "sessions 65", "sessions 4.5", "wait -1", "wait nan", "grace inf", "grace soon", "memory much", "memory 5P"
    empty = [([f"--{name}", ""], f"--{name} is empty") for name in ("save", "socket", "program")]
    others = [(["--frob"], "--frob"), (["--tcp", "127.0.0.1:0"], "--tcp"), (["more"], "more"), (["--sync", "always"], "--sync")]
    for words, wanted in (*((f"--{text}".split(), repr(text.split()[1])) for text in numbers), *empty, *others):
        status, told = fails("--socket", "/nowhere/at/all", *words)
        check((status, 2), (wanted in told and "Traceback" not in told, True))
    nothing = (1, "b3store.server: nothing to listen on: give --socket PATH\n")
    check((fails(), nothing), (fails(LISTEN_FDS="1", LISTEN_PID="1"), nothing))


def files_of_sockets():
    """The socket has mode 0600 and is removed. One that is listened on, or no socket, is an error and stays; that of a server that was killed is replaced."""
    with Running() as server:
        mode = os.lstat(server.path).st_mode
        check((stat.S_ISSOCK(mode), True), (stat.S_IMODE(mode), 0o600))
        check((fails("--socket", server.path), (1, f"b3store.server: {server.path} is in use: another process listens on it\n")))
        with server.client() as client:
            check((client.ask("tenants"), b"tenants 0\n"))
        os.rename(server.path, f"{server.folder}/other")
        with open(server.path, "w", encoding="ascii") as file:
            file.write("kept")
        check((fails("--socket", server.path), (1, f"b3store.server: {server.path} exists and is not a socket\n")))
        check((fails("--socket", f"{server.folder}/a/b"), (1, f"b3store.server: cannot listen on {server.folder}/a/b: no such file or directory\n")))
        status, told = fails("--socket", f"{server.folder}/{'a' * 120}")
        check((status, 1), ("path too long" in told and told.count("\n") == 1, True))
        check((server.end(), (0, "", ["other", "socket"])))
    with Running() as killed:
        store = killed.store()
        killed.kill()
        check((os.path.exists(killed.path), True), (wait_until(lambda: not is_running(store)), True))
        with Running(path=killed.path) as server, server.client() as client:
            check((client.ask("tenants"), b"tenants 0\n"), (client.ends(), b""), (server.end(), CLEAN), (os.path.exists(killed.path), False))


def programs_that_are_none():
    """A program that is missing, can't be run, ends at once or is no store: one line, status 1, and nothing is left."""
    for text, wanted in (
        (None, "cannot start {}: no such file or directory"),
        ("exit 3\n", "{} ended with status 3 before it answered"),
        ("kill -9 $$\n", "{} ended with status -9, killed by SIGKILL before it answered"),
        ("exec cat\n", "{} is not a store: the program answered b'stat\\n' to stat"),
        ("exec >&-; exec sleep 60\n", "{} is not a store: the program closed its output"),
    ):
        with tempfile.TemporaryDirectory() as folder, tempfile.TemporaryDirectory() as temporary:
            path = os.path.join(folder, "program")
            if text is not None:
                with open(path, "w", encoding="ascii") as file:
                    file.write("#!/bin/sh\n" + text)
                os.chmod(path, 0o755)
            told = fails("--socket", f"{folder}/socket", "--program", path, TMPDIR=temporary)
            check((told, (1, f"b3store.server: {wanted.format(path)}\n")))
            check((os.listdir(temporary), []), (os.path.exists(f"{folder}/socket"), False))


def threads_that_cannot_start():
    with save_folder() as folder:
        status, _, told = run_python("-c", WITHOUT_THREADS, "--socket", f"{folder}-socket", "--save", folder, "--program", PROGRAM)
        check((status, 1), (told, "b3store.server: can't start new thread\n"), (os.path.exists(f"{folder}-socket"), False))


def ends_in_time():
    """After SIGTERM those that are served go on, new ones are refused, those that wait are sent `busy`; the server ends with the last."""
    with Running("--sessions", "1", "--grace", "60") as server, server.client() as client, server.client() as waiting:
        client.ask("tenant 5000")
        client.send(b"begin 0 3\nputb 0 0 3\na")
        check((client.line(), b"upload 0\n"), (wait_until(lambda: server.connections() == 2), True))
        server.signal()
        check((waiting.remaining(), b"busy\n"), (wait_until(lambda: not os.path.exists(server.path)), True))
        client.send(b"bc")
        check((client.line(), b"held 3 all\n"), (client.ask("seal 0").split()[0], b"new"), (server.process.poll(), None))
        check((client.ends(), b""), (server.status(), 0), (server.reported(), ""), (server.left(), []))


def ends_by_force():
    """A connection that is open after the grace is ended; a second signal ends the wait; each of four signals has the same effect."""
    twice = [([number] * 2, "60", 0.0) for number in (signal.SIGTERM, signal.SIGINT, signal.SIGHUP, signal.SIGQUIT)]
    for numbers, grace, wanted in (([signal.SIGTERM], "1", 1.0), ([signal.SIGTERM], "0", 0.0), *twice):
        with Running("--grace", grace) as server, server.client() as client, server.client() as silent:
            client.ask("tenant 1000000000")
            address = client.file(bytes(1 << 20))
            silent.send(f"fetchb 0 {address}\n".encode() * 100)
            check((wait_until(lambda: server.sessions() == 2), True))
            time.sleep(SHORTLY)
            start = time.monotonic()
            for number in numbers:
                os.killpg(server.process.pid, number)
                # a signal that comes before the one before it was seen is not counted
                check((wait_until(lambda: not os.path.exists(server.path)), True))
            told = (server.status(), server.reported())
            check((told, (0, "b3store.server: the server ends while 2 connections are open\n")), (server.left(), []), (client.remaining(), b""))
            check((wanted <= time.monotonic() - start < wanted + SECONDS_TO_WAIT, True))


def signals_without_effect():
    """SIGHUP under nohup, and signals that are for something else."""
    with Running(python=["-c", WITH_NOHUP]) as server, server.client() as client:
        for number in signal.SIGHUP, signal.SIGUSR1, signal.SIGUSR2, signal.SIGALRM, signal.SIGVTALRM, signal.SIGPROF, signal.SIGIO:
            os.killpg(server.process.pid, number)
        time.sleep(SHORTLY)
        check((client.ask("tenants"), b"tenants 0\n"), (client.ends(), b""), (server.end(), CLEAN))


def notifications():
    """The server reports to systemd when it is ready and when it stops, at a path and at an abstract name. It asks for more time while it restores, and while
    clients last and it saves. If systemd takes no reports, it serves and ends all the same."""
    more = b"EXTEND_TIMEOUT_USEC=60000000"
    with save_folder() as folder:
        for name, address in (f"{folder}-notify", f"{folder}-notify"), (f"@b3store-test-{os.getpid()}", f"\0b3store-test-{os.getpid()}"):
            with socket.socket(socket.AF_UNIX, socket.SOCK_DGRAM) as listening, socket.socket(socket.AF_UNIX, socket.SOCK_DGRAM) as sender:
                listening.bind(address)
                listening.settimeout(SECONDS)
                with Running("--save", folder, "--grace", "60", NOTIFY_SOCKET=name) as server, server.client() as client:
                    check((client.ask("tenants"), b"tenants 0\n"), (listening.recv(100), more), (listening.recv(100), b"READY=1"))
                    server.signal()
                    check((listening.recv(100), b"STOPPING=1"), (listening.recv(100), more))
                    check((client.ask("tenants"), b"tenants 0\n"), (client.ends(), b""), (server.status(), 0))
                sender.setblocking(False)
                with contextlib.suppress(BlockingIOError):
                    while True:
                        sender.sendto(b"x", address)
                with Running(NOTIFY_SOCKET=name) as server:
                    check((server.end(), CLEAN))


def sockets_that_are_passed():
    """The server listens on what systemd passes, and leaves its file. What is no listening Unix-domain socket is an error."""
    with contextlib.ExitStack() as ending:
        passed, silent, tcp = (ending.enter_context(socket.socket(family)) for family in (socket.AF_UNIX, socket.AF_UNIX, socket.AF_INET))
        path = os.path.join(ending.enter_context(tempfile.TemporaryDirectory()), "socket")
        passed.bind(path)
        for listening in passed, tcp:
            listening.listen()
        with Running(python=["-c", WITH_PASSED], PASSED=str(passed.fileno())) as server, Connection(path) as client:
            check((server.lines, [f"b3store.server: listening on {path}\n"]), (client.ask("tenants"), b"tenants 0\n"), (client.ends(), b""))
            check((server.end(), CLEAN), (os.path.exists(path), True))
        for other in silent, tcp:
            with Running(python=["-c", WITH_PASSED], PASSED=str(other.fileno())) as server:
                told = "b3store.server: the passed descriptor 3 is not a listening Unix-domain socket\n"
                check((server.lines, [""]), (server.status(), 1), (server.reported(), told), (server.left(), []))
