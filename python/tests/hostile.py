"""Servers that lie, processes that inherit a store, and closes beside other work."""
import asyncio
import gc
import os
import signal
import socket
import subprocess
import sys
import tempfile
import threading
import time
import warnings
from pathlib import Path

from served import server_of
from running import Running, client_of_a_server, environment, listen_to_signals, run
from shared import ABC, FOUR, SECONDS, check, ended, forked, raised, wait_until
from b3store import AsyncStore, Client, Store
from b3store.sessions import MAX_LINE_LEN, Session


WRONG_ANSWERS = (
    "frob", "tenant", "tenant x", "refused", "refused S6 free x", "refused S6 free", "", "held 3", "tenant -1", "tenant +1", "tenant 1_0", "tenant 1\r",
    "refused S11 found x", "tenant 0 1", f"tenant {10 ** 20}", "x" * MAX_LINE_LEN,
)
"""Lines that are no answer to `tenant`."""
LINE = ABC.encode()
LIES = (
    *(([answer.encode() + b"\n"], lambda store: store.tenant()) for answer in WRONG_ANSWERS),
    *(
        ([text], call)
        for text in (b"bytes 6\nabcdef", b"bytes -1\nabc", b"bytes 99999999999999999999999\nabc", b"bytes\n", b"bytes 5\nabc")
        for call in (lambda store: store.fetch(0, ABC, 0, 5), lambda store: store.fetch_into(0, ABC, bytearray(5)))
    ),
    ([b"has 100\n", b"bytes 10\n0123456789"], lambda store: store.open(0, ABC).read()),
    ([b"has 3\n", b"bytes 2\nab"], lambda store: store.open(0, ABC, 0).readinto(bytearray(9))),
    ([b"objects 1 1\nfoo\n"], lambda store: store.objects(0)), ([b"objects 1 1\n%s 3 3\n" % LINE], lambda store: store.objects(0)),
    ([b"list 1\n%s 3\n" % LINE.upper()], lambda store: store.list(0)), ([b"list 1\n%s %d\n" % (LINE, 10 ** 14)], lambda store: store.list(0)),
    ([b"refused S11 address %s\n" % LINE.upper()], lambda store: store.seal_as(0, FOUR)), ([b"new %s 3\n" % FOUR.encode()], lambda store: store.file(0, b"abc", ABC)),
    ([b"new %s 4\n" % LINE], lambda store: store.file(0, b"abc")), ([b"new %s 3\n" % FOUR.encode()], lambda store: store.seal_as(0, ABC)),
    ([b"upload 0\n", b"held 3 all\n", b"new %s 4\n" % LINE], lambda store: writes(store, b"abc")),
    ([b"upload 0\n", b"held 3 all\n", b"new %s 4\n" % LINE], lambda store: writes(store, b"abc", ABC)),
    ([b"bytes %d\n" % (1 << 63)], lambda store: store.fetch(0, ABC, 0, (1 << 64) - 1)), ([b"ok but\n"], lambda store: store.abort(0)),
    ([b"has 3 or more\n"], lambda store: store.size(0, ABC)), ([b"has %d\n" % 10 ** 14], lambda store: store.open(0, ABC)),
    ([b"held 3 of 5\n"], lambda store: store.put(0, 0, b"abc")), ([b"held 3 missing 5 6\n"], lambda store: store.put(0, 0, b"abc")),
    ([b"used 1 limit 2 reserved 3\n"], lambda store: store.usage(0)), ([b"objects 1 bytes 2 uploads 3 held 4 parts 5 at\n"], lambda store: store.stat()),
    ([b"objects 1 bytes 2 uploads 3 parts 4 held 5\n"], lambda store: store.stat()),
    ([b"journal 3\na\nb\nc\n"], lambda store: store.entries(0, 2)), ([b"journal 3\na\nb\nc\n"], lambda store: list(store.journal(0, 2))),
)
"""Answers that no store gives, and the call that gets them."""


def answers_that_lie():
    """Each is noticed at once, and ends the connection: that call raises Ended, and so does every later one."""
    for answers, call in LIES:
        with server_of(*answers) as path, Client(path) as store:
            told = ended(call, store)
            check(((answers, told is None), (answers, False)), (store.alive, False), (ended(store.stat), told))
    ours, theirs = socket.socketpair()
    with ours, theirs:
        session = Session(ours, ours.makefile("rb"), "it has ended")
        check((session.is_at_rest(), True), (theirs.send(b"busy\n"), 5), (session.is_at_rest(), False))


def writes(store, content, address=None):
    """Writes content, and seals it."""
    upload = store.start_upload(0, len(content))
    upload.write(content)
    upload.seal(address)


def gets_that_fail():
    """The old file stays as it is, and no part of a new one is left."""
    with server_of(b"has 3\n", b"bytes 2\nab") as path, tempfile.TemporaryDirectory() as place:
        file = os.path.join(place, "file")
        Path(file).write_bytes(b"old")
        status, _, told = run(["--socket", path, "get", "--tenant", "0", ABC, "-o", file])
        check((status, 3), ("makes no sense" in told, True), (Path(file).read_bytes(), b"old"), (os.listdir(place), ["file"]))


def gets_that_are_ended():
    """A signal leaves no part of a file, also if a second one comes while it is removed, and of a background job, which Ctrl-C doesn't reach."""
    twice = "import os, runpy; unlink, kill = os.unlink, os.kill; os.unlink = lambda name: (kill(os.getpid(), %d), unlink(name)); "
    run = "runpy.run_module('b3store', run_name='__main__', alter_sys=True)"
    for number in signal.SIGTERM, signal.SIGHUP, signal.SIGINT:
        for python in (["-m", "b3store"], *(["-c", twice % second + run] for second in (signal.SIGINT, signal.SIGTERM))):
            ended_get(python, number, listen_to_signals)
    ended_get(["-m", "b3store"], signal.SIGTERM, work_in_the_background)


def ended_get(python, number, prepare):
    """What is wrong with the end of a `get` into a file, which these words run, at a signal."""
    with server_of(b"has 3\n", None) as path, tempfile.TemporaryDirectory() as place:
        words = [sys.executable, *python, "--socket", path, "get", "--tenant", "0", ABC, "-o", os.path.join(place, "file")]
        with subprocess.Popen(words, stdout=subprocess.PIPE, stderr=subprocess.PIPE, preexec_fn=prepare, env=environment()) as get:
            check((wait_until(lambda: os.listdir(place)), True))
            get.send_signal(number)
            check((get.communicate(timeout=SECONDS), (b"", b"")), (get.returncode, 128 + number), (os.listdir(place), []))


def work_in_the_background():
    """A shell without job control lets what is in its background ignore SIGINT."""
    listen_to_signals()
    signal.signal(signal.SIGINT, signal.SIG_IGN)


def processes_that_inherit():
    """A process after a fork uses none of its parent's connections, whose answers it would take away."""
    with client_of_a_server() as store:
        tenant = store.tenant()
        with forked(lambda: ended(store.stat) or "nothing is raised") as told:
            check(("belongs to the process that opened it" in told, True), (store.upload(b"abc", tenant).address, ABC), (store.alive, True))


def closes_beside_a_fork():
    """What a process closes ends although a new process lives, which in turn waits for no thread of its parent."""
    with Running() as server:
        for count, work in (1, Client.close), (16, Client.close), (16, lambda _: None):
            store = Client(server.path, sessions=count)
            free, taken = store._free, store._free.get()
            with forked(lambda work=work, store=store: f"closed {work(store)}") as told:
                free.put(taken)
                closing = threading.Thread(target=store.close, daemon=True)
                closing.start()
                closing.join(SECONDS / 2)
                check((told, "closed None"), (closing.is_alive(), False))
                with Client(server.path, sessions=16) as other:
                    check((other.alive, True))


def closes_beside_a_thread():
    """A new process also closes a client from which a thread of its parent reads, or which one was closing."""
    for is_taken, work in (False, lambda store: ended(store.stat)), (True, Client.close):
        with server_of(None) as path:
            store = Client(path)
            taken = [store._free.get()] if is_taken else []
            thread = threading.Thread(target=work, args=(store,), daemon=True)
            thread.start()
            time.sleep(0.2)
            with forked(lambda store=store: f"closed {store.close()}") as told:
                check((told, "closed None"), (thread.is_alive(), True))
            store._give_back(taken)
        thread.join(SECONDS / 2)
        check((thread.is_alive(), False))


def stores_that_are_dropped():
    """A store that is not closed keeps no descriptor once nothing has it, without a search for cycles of objects."""
    with server_of(b"tenant 0\n") as path, server_of(b"tenant x\n") as other:
        makes = (
            lambda: Client(path, sessions=2).alive, lambda: raised(Client(path).stat), lambda: raised(Client(other).tenant),
        )
        gc.collect()
        gc.disable()
        try:
            for make in makes:
                before = len(os.listdir("/proc/self/fd"))
                with warnings.catch_warnings():
                    warnings.simplefilter("ignore", ResourceWarning)
                    make()
                # the server has an end of each connection, too
                check((wait_until(lambda before=before: len(os.listdir("/proc/self/fd")) <= before, SECONDS / 4), True))
        finally:
            gc.enable()


async def _close_beside_a_pipe():
    """Closes a store while a thread of it reads a pipe, whose other end belongs to the same loop."""
    reading, writing = os.pipe()
    with open(reading, "rb", buffering=0) as source, open(writing, "wb", buffering=0) as target:
        store = AsyncStore(Store(), 2)
        upload = asyncio.ensure_future(store.upload(source, await store.tenant()))
        await asyncio.sleep(0.1)
        rescue = threading.Timer(SECONDS / 4, target.close)
        rescue.start()
        closing = asyncio.ensure_future(store.close())
        await asyncio.sleep(0.2)
        check((target.closed, False))
        target.close()
        await closing
        rescue.cancel()
        results = await asyncio.gather(upload, store.stat(), return_exceptions=True)
        check(([type(result) for result in results], [ValueError, ValueError]))


def stores_for_asyncio_that_are_closed():
    asyncio.run(_close_beside_a_pipe())
