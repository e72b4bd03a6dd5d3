"""How a server's log follows the store, whatever fails or is killed."""
import contextlib
import hashlib
import itertools
import os
import random
import resource
import signal
import subprocess
import tempfile
import threading
import time
from pathlib import Path
from unittest import mock

from judging import check, wait_until
from redoing import files_in, is_saved, save_folder, saved_in, state_of
from running import AS_MODULE, PROGRAM, SECONDS, Running, fails
from shared import raised
from b3store import Client, Ended
from b3store.server_store import StoreProcess
from b3store.sessions import Session

KILLS = 20
WRITERS = 3
RUN_QUICKLY = "import sys; from b3store import server; server.SECONDS_BETWEEN_WRITES = 0.02; sys.exit(server.main())"
"""A server that appends to its log 50 times a second."""
STEPS = f"""
import os, signal
from b3store import redo_log
left, is_writing, write = [int(os.environ["STEPS"])], [], redo_log.RedoLog._write_anew
def counted(call):
    def work(*given, **named):
        if is_writing:
            left[0] -= 1
            if left[0] < 0:
                os.kill(os.getpid(), signal.SIGKILL)
        return call(*given, **named)
    return work
def write_in_steps(*given):
    is_writing.append(1)
    try:
        return write(*given)
    finally:
        is_writing.clear()
redo_log.RedoLog._write_anew = write_in_steps
for name in "fsync", "fdatasync", "replace", "unlink", "open", "pwrite", "fstat":
    setattr(os, name, counted(getattr(os, name)))
{RUN_QUICKLY}
"""
"""A server that is killed while it writes its log anew, once it has done as many steps with files as the variable STEPS says."""


def _is_logged(folder, content):
    """Whether a log soon has some bytes."""
    return wait_until(lambda: os.path.exists(f"{folder}/log") and content in Path(f"{folder}/log").read_bytes())


def follows_clients():
    """What a client changes is in the log soon, for each word of --sync. The lines of the log are those of a session."""
    for word in "second", "no":
        with save_folder() as folder:
            with Running("--save", folder, "--sync", word) as server, Client(server.path) as store:
                address = store.file(store.tenant(5000), b"abc").address
                store.limit(0, 6)
                lines = b"tenant 5000\nfileas 0 %s 3\nabclimit 0 6\n" % address.encode()
                check((_is_logged(folder, lines), True), (files_in(folder), {"log": lines}))
                server.kill()
            with Running("--save", folder) as server, Client(server.path) as store:
                check((server.lines[0], "b3store.server: restored 1 object and 1 tenant; the last process was killed\n"))
                check((state_of(store), {0: (6, [(address, b"abc")])}))


def answers_that_are_cut():
    """If the server has no memory within an answer of the store, later ones are read right, whatever the bytes look like that were unread."""
    read, left = Session.content_into, [2]

    def read_or_fail(*given):
        left[0] -= 1
        if left[0] == 0:
            raise MemoryError
        return read(*given)

    with contextlib.closing(StoreProcess()) as store:
        store.start(PROGRAM, 1, 1 << 30)
        store.file(store.tenant(), b"objects 1 bytes 2\nredo 5 0\nok\n" * 100_000)
        with mock.patch.object(Session, "content_into", read_or_fail):
            check((raised(store._redo_to, bytes, 0, 9), MemoryError))
        check((store.stat().objects, 1), (store._redo_to(bytes, 0, 9), 4))


def _write(path, numbers, filed, sent):
    """Files objects and forgets most of them, until the connection ends. Notes the hashes of all contents, and of those that it didn't forget when they were
    answered."""
    with contextlib.suppress(OSError, Ended), Client(path) as client:
        for part in itertools.count(1):
            content = b"%d %d %d" % (*numbers, part) * (20_000 if part % 8 else 1)
            sent.add(hashlib.sha256(content).digest())
            filed[client.file(0, content).address] = time.monotonic()
            if len(filed) > 10:
                address = next(iter(filed))
                del filed[address]
                client.forget(0, address)


def kills_beside_writers():
    """Whenever a server or its store is killed, everything is restored that was answered before something that is in the log was sent, and nothing that wasn't
    sent. Meanwhile the log is written anew."""
    chance, anew, missing, sent = random.Random(9), 0, set(), set()
    with save_folder() as folder:
        for number in range(KILLS):
            python = ["-c", RUN_QUICKLY] if number % 5 else AS_MODULE
            with Running("--save", folder, python=python) as server, Client(server.path) as client:
                client.tenant(1 << 40)
                restored = {address: hashlib.sha256(client.fetch(0, address)).digest() for address in client.list(0)}
                check((missing - {*restored}, set()), ({*restored.values()} - sent, set()))
                for address in restored:
                    client.forget(0, address)
                inode, filed = os.stat(f"{folder}/log").st_ino, [{} for _ in range(WRITERS)]
                writers = [threading.Thread(target=_write, args=(server.path, (number, at), filed[at], sent)) for at in range(WRITERS)]
                for writer in writers:
                    writer.start()
                time.sleep(chance.uniform(0, 1))
                before, marker = time.monotonic(), b"%d" % number
                sent.add(hashlib.sha256(marker).digest())
                check((_is_logged(folder, client.file(0, marker).address.encode()), True))
                time.sleep(chance.uniform(0, 0.2))
                os.kill(server.store() if number % 3 == 2 else server.process.pid, signal.SIGKILL)
                server.status()
                for writer in writers:
                    writer.join(SECONDS)
                missing = {address for those in filed for address, at in those.items() if at < before}
                anew += os.stat(f"{folder}/log").st_ino != inode
    check((anew > 2, True), (len(sent) > KILLS * WRITERS, True))


def kills_while_written_anew():
    """A server that is killed at each step of that, one after the other, loses nothing."""
    statuses = []
    while statuses[-1:] != [0] and len(statuses) < 60:
        with save_folder() as folder:
            with Running("--save", folder, python=["-c", STEPS], STEPS=str(len(statuses))) as server, server.client() as client:
                client.ask("tenant 100000000")
                address = client.file(bytes(2_000_000))
                kept = client.file(b"kept")
                check((_is_logged(folder, b"kept"), True))
                client.send(f"forget 0 {address}\n".encode())
                wait_until(lambda: server.process.poll() is not None or os.stat(f"{folder}/log").st_size < 1_000_000)
                with contextlib.suppress(OSError):
                    client.ends()
                    server.signal()
                statuses.append(server.status())
            check((saved_in(folder)[0][1], [(kept, b"kept")]), (set(os.listdir(folder)) <= {"log", "log.new", "clean"}, True))
    check((set(statuses[:-1]), {-signal.SIGKILL}), (statuses[-1], 0), (len(statuses) > 6, True))


def _cannot_write(folder, fill, free):
    """While there is no room, clients are served, and a kill loses only what was filed since. Then the log gets all of that."""
    with Running("--save", folder) as server, Client(server.path) as store:
        first = store.file(store.tenant(5000000), b"first").address
        check((_is_logged(folder, first.encode()), True))
        fill(server)
        addresses = [first, *(store.file(0, b"%d" % number * 150_000).address for number in range(3))]
        check((server.reports(f"b3store.server: the log in {folder} can't be written: "), True))
        time.sleep(2)
        rows = [address for address, _ in saved_in(folder)[0][1]]
        check((rows, addresses[: len(rows)]), (0 < len(rows) < 4, True))
        free(server)
        check((_is_logged(folder, store.file(0, b"last").address.encode()), True), (server.reports(" is written again\n"), True))
        check((server.reported().count("\n"), 2), (is_saved(folder, store), True))


def _limits(server, length):
    """Lets a server write files of some length."""
    hard = resource.prlimit(server.process.pid, resource.RLIMIT_FSIZE)[1]
    resource.prlimit(server.process.pid, resource.RLIMIT_FSIZE, (hard if length < 0 else length, hard))


def full_disks():
    """A write that fails is reported once, and leaves what was written before; once there is room, the log gets the rest. A folder of a file system that can't
    be written to is refused."""
    with save_folder() as folder:
        _cannot_write(folder, lambda server: _limits(server, 200_000), lambda server: _limits(server, -1))
    with tempfile.TemporaryDirectory() as disk:
        if subprocess.run(["mount", "-t", "tmpfs", "-o", "size=900k", "none", disk], stderr=subprocess.DEVNULL).returncode:
            return
        try:
            other, folder = Path(disk, "other"), os.path.join(disk, "saved")
            _cannot_write(folder, lambda _: other.write_bytes(bytes(700_000)), lambda _: other.unlink())
            files = files_in(folder)
            subprocess.run(["mount", "-o", "remount,ro", disk], check=True)
            told = f"b3store.server: cannot use the folder {folder}: read-only file system\n"
            check((fails("--socket", "/tmp/none", "--save", folder), (1, told)), (files_in(folder), files))
        finally:
            subprocess.run(["umount", disk], check=True)
