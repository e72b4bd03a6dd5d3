"""What a server saves in a folder, and what a later one restores from it."""
import contextlib
import os
import resource
import shutil
import signal
import subprocess
import sys
import tempfile
import time

from judging import check, wait_until
from redoing import append_to, file_some, files_in, fill_folder, save_folder, saved_in, state_of
from running import AS_MODULE, CLEAN, PROGRAM, RUN_SERVER, SHORTLY, Running, environment, fails
from b3store import Client
from b3store.files import lock_folder

LONG = (5 << 20) + 5
"""The length of an object that the store redoes alone."""
LIMITED = """
import os, resource, sys
from b3store import server
server.SECONDS_BETWEEN_SAVES = 0.5
resource.setrlimit(resource.RLIMIT_FSIZE, (int(os.environ["LIMIT"]), resource.getrlimit(resource.RLIMIT_FSIZE)[1]))
sys.exit(server.main())
"""
"""A server that can't write files longer than the variable LIMIT, and soon tries again."""
FAILING_ONCE = """
import sys
from b3store import server
finish, left = server.RedoLog.finish, [1]
def fail_once(*given):
    left[0] -= 1
    if left[0] >= 0:
        raise KeyError("unforeseen")
    return finish(*given)
server.RedoLog.finish = fail_once
sys.exit(server.main())
"""
"""A server whose first save fails in an unforeseen way, and that soon tries again."""
HASTY = f"from b3store import server_store; server_store.SECONDS_OF_SILENCE = 1.0; {RUN_SERVER}"
"""A server that doesn't wait long for a store that doesn't answer."""
TRIES_AGAIN = "before: file too large; it is tried again, for "
"""What the line has that reports a failed save."""


def restores_all():
    """All tenants with their numbers and limits, and all objects with their bytes, holders and order, again and again; open uploads are not saved."""
    with save_folder() as folder:
        with Running("--save", folder, "--keep-uploads") as server:
            with Client(server.path) as store:
                file_some(store)
                store.upload(bytes(LONG), 0)
                for content in b"", b"1" * 300_000, b"other":
                    store.file(1, content)
                store.forget(1, store.file(1, b"forgotten").address)
                store.tenant(0)
                store.limit(1, 5_000_000)
                store.begin(0, 5000)
                before = state_of(store)
            check((len(server.lines), 1), (server.end(), CLEAN), (sorted(os.listdir(folder)), ["clean", "log"]))
        for number in range(3):
            with Running("--save", folder) as server:
                with Client(server.path) as store:
                    check((state_of(store), before), (store.uploads(0), []), (os.listdir(folder), ["log"]))
                    check((server.lines[0].endswith("objects and 3 tenants\n"), True))
                    store.file(number % 2, b"%d" % number)
                    before = state_of(store)
                check((server.end(), CLEAN))
        check((saved_in(folder), before), (os.stat(folder).st_mode & 0o777, 0o700))


def saves_while_commands_are_left():
    """A client that doesn't finish in time is cut: what it sent ahead is executed before the save or never, what was answered is saved, and an incomplete
    command isn't run."""
    with save_folder() as folder, Running("--save", folder, "--grace", "0") as server, server.client() as client, server.client() as silent:
        client.ask("tenant 100000000")
        addresses = [client.file(b"%d" % number) for number in range(2500)]
        long = client.file(bytes(1 << 24))
        client.send(b"begin 0 5\nlimit 0 5")
        silent.socket.setblocking(False)
        lines = b"".join(f"fetchb 0 {long}\n".encode() * 5 + f"forget 0 {address}\n".encode() for address in reversed(addresses))
        with contextlib.suppress(BlockingIOError):
            while lines:
                lines = lines[silent.socket.send(lines) :]
                time.sleep(SHORTLY / 10)
        check((wait_until(lambda: server.sessions() == 2), True))
        server.signal()
        told = "b3store.server: the server ends while 2 connections are open\n"
        check((server.status(), 0), (server.reported(), told), (server.left(), []))
        limit, rows = saved_in(folder)[0]
        kept = [address for address, _ in rows]
        check((limit, 100000000), (kept, addresses[: len(kept) - 1] + [long]), (1 < len(kept), True))


def folders_that_are_changed():
    """In a folder that is moved, the log is followed. If it is removed, that is reported, the clients are served, and nothing is saved anywhere else."""
    with save_folder() as folder:
        with Running("--save", folder) as server:
            with Client(server.path) as store:
                store.tenant(100000)
                os.rename(folder, f"{folder}-moved")
                fill_folder(folder)
                files = files_in(folder)
                store.file(0, b"moved")
                state = state_of(store)
            check((server.end(), CLEAN), (files_in(folder), files), (saved_in(f"{folder}-moved"), state))
        with Running("--save", folder) as server:
            with Client(server.path) as store:
                shutil.rmtree(folder)
                store.file(0, b"lost")
                wanted = f"b3store.server: the log in {folder} can't be written: no such file or directory; it is tried again\n"
                check((wait_until(lambda: server.reported() == wanted), True), (store.stat().objects, 11))
            status, told, left = _end_unsaved(server)
            check((status, 4), (told.count("no such file or directory"), 3), (left, []), (os.path.exists(folder), False))


def folders_that_are_refused():
    """A message, status 1, and nothing changes: a socket's folder, a folder in use, and a log that can't be restored. So if the store can't be started."""
    with save_folder() as folder:
        os.mkdir(folder, 0o700)
        told = f"b3store.server: {folder}/socket can't be in the folder of --save\n"
        check((fails("--socket", f"{folder}/socket", "--save", folder), (1, told)))
        locked = lock_folder(folder)
        told = f"b3store.server: cannot listen on {folder}/socket: its folder is in use by another server or a backup\n"
        check((fails("--socket", f"{folder}/socket"), (1, told)))
        told = f"b3store.server: {folder} is in use by another process\n"
        check((fails("--socket", f"{folder}-socket", "--save", folder), (1, told)), (os.path.exists(f"{folder}-socket"), False))
        os.close(locked)
        check((fails("--program", f"{folder}/none", "--socket", f"{folder}-socket", "--save", folder)[0], 1), (files_in(folder), {"log": b""}))
        append_to(f"{folder}/log")
        status, told = fails("--socket", f"{folder}-socket", "--save", folder)
        check((status, 1), (told.startswith(f"b3store.server: {folder}/log: line 1, at byte 0, is no line of a log"), True), (told.count("\n"), 1))
        check((files_in(folder), {"log": b"another"}))


def _end_unsaved(server):
    """What `end` returns of a server that can't save, which a second signal ends."""
    server.signal()
    server.reports("; it is tried again, for ")
    return server.end()


def saves_that_fail():
    """A save that fails is reported once, and tried again, until the disk has room: nothing is lost. A client that connects meanwhile sees the end."""
    with save_folder() as folder, Running("--save", folder, python=["-c", LIMITED], LIMIT="100000") as server:
        with Client(server.path) as store:
            store.file(store.tenant(5000000), bytes(200_000))
            state = state_of(store)
        server.signal()
        check((server.reports(TRIES_AGAIN), True))
        with server.client() as late:
            time.sleep(SHORTLY)
            check((server.reported().count(TRIES_AGAIN), 1), (server.process.poll(), None))
            resource.prlimit(server.process.pid, resource.RLIMIT_FSIZE, (resource.getrlimit(resource.RLIMIT_FSIZE)[1],) * 2)
            check((server.status(), 0), (server.left(), []), (late.remaining(), b""), (saved_in(folder), state))
    with save_folder() as folder, Running("--save", folder, python=["-c", FAILING_ONCE]) as server:
        with Client(server.path) as store:
            store.tenant(5000)
        status, told, left = server.end()
        check((status, 0), ("the store can't be saved: 'unforeseen'" in told, True), (left, []), (saved_in(folder), {0: (5000, [])}))


def saves_that_never_succeed():
    """After some time, or a further signal, the save that is tried is the last one, and the status says so."""
    for script, signals in (LIMITED.replace("server.SECONDS_BETWEEN_SAVES", "server.SECONDS_FOR_SAVES = server.SECONDS_BETWEEN_SAVES"), 1), (LIMITED, 2):
        with save_folder() as folder, Running("--save", folder, python=["-c", script], LIMIT="100000") as server:
            with Client(server.path) as store:
                store.file(store.tenant(5000000), bytes(200_000))
            status, told, left = server.end() if signals == 1 else _end_unsaved(server)
            check((status, 4), (told.count(TRIES_AGAIN), 1), (left, []))


def stores_that_are_stopped():
    """A store that doesn't answer is killed, and what is lost is reported; the save before stays."""
    with save_folder() as folder:
        fill_folder(folder)
        log = files_in(folder)["log"]
        with Running("--save", folder, "--grace", "0", python=["-c", HASTY]) as server:
            os.kill(server.store(), signal.SIGSTOP)
            status, told, left = server.end()
        wanted = "b3store.server: the store did not answer for 1 s, and was killed; everything in it is lost, except for what its log has"
        check((status, 4), (told.splitlines()[-1], wanted), (left, []), (files_in(folder), {"log": log}))


def stores_that_end():
    """When the store's process is killed, the folder keeps the save before, also if it was stopped."""
    with save_folder() as folder:
        fill_folder(folder)
        files = {"log": files_in(folder)["log"]}
        with Running("--save", folder) as server:
            os.kill(server.store(), signal.SIGKILL)
            check((server.status(), 3), ("is lost, except for what its log has\n" in server.reported(), True), (files_in(folder), files))
        with Running("--save", folder, "--grace", "0") as server, server.client() as client:
            client.ask("begin 0 5")
            os.kill(server.store(), signal.SIGSTOP)
            server.signal()
            check((server.reports("the server ends while 1 connection is open"), True))
            os.kill(server.store(), signal.SIGKILL)
            wanted = f"b3store.server: the store can't be saved in {folder}, which has what was saved before: the store has ended"
            check((server.status(), 4), (files_in(folder), files), (server.reported().splitlines()[1:2], [wanted]), (server.reported().count("\n"), 3))


def stops_at_the_start():
    """A signal while a server starts the store and restores ends it, and the folder keeps what it has. A second one interrupts nothing."""
    with save_folder() as folder:
        fill_folder(folder)
        log = files_in(folder)["log"]
        for moment in range(8):
            words = [sys.executable, *AS_MODULE, "--program", PROGRAM, "--socket", f"{folder}-socket", "--save", folder]
            with tempfile.TemporaryDirectory() as room, subprocess.Popen(words, stdout=-1, stderr=-1, env=environment(TMPDIR=room)) as server:
                check((wait_until(lambda: os.path.exists(f"{folder}-socket")), True))
                time.sleep(0.03 * moment)
                server.terminate()
                time.sleep(0.005 * moment)
                server.send_signal(signal.SIGINT)
                told = server.communicate()[1]
                check((server.returncode, 0), (b"b3store.server" in told, False), (os.listdir(room), []))
            check((wait_until(lambda: not os.path.exists(f"{folder}-socket")), True))
        check((files_in(folder)["log"], log))
