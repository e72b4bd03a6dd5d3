"""What examples/cache.py keeps in its folder: over restarts, kills, full disks and damage."""
import contextlib
import http.client
import os
import random
import resource
import signal
import subprocess
import sys
import tempfile
import threading
import time
from pathlib import Path

from servers import SERVER, Cache, altered
from shared import SECONDS, check, readable_by_others, wait_until
from b3store import Store
from b3store.redo_log import RedoLog

KILLS, CLIENTS, KEYS = 12, 4, 20


def contents(folder):
    """The files of a folder, with what is in them."""
    found = {}
    for name in sorted(os.listdir(folder)):
        found[name] = Path(os.path.join(folder, name)).read_bytes()
    return found


def restarts():
    """All is there again that was, and nothing that was deleted or evicted; a start with a lower limit keeps what was stored last."""
    with tempfile.TemporaryDirectory() as place:
        folder = os.path.join(place, "new", "cache")
        os.mkdir(os.path.dirname(folder))
        large = os.urandom(3000000)
        with Cache(folder, "--limit", "7M") as cache:
            check((cache.put("/evicted", bytes(2000000)), 201), (cache.put("/large", large), 201), (cache.put("/same", large), 201), (cache.put("/k%ff?", b"abc"), 201))
            check((cache.put("/old", b"old"), 201), (cache.put("/old", b"new"), 201), (cache.put("/gone", b"x"), 201), (cache.ask("DELETE", "/gone")[0], 204))
            check((cache.stop(), (0, b"")), (cache.reports(), []), (readable_by_others(folder), []))
        for limit, wanted in ("7M", [404, large, large, b"abc", b"new", 404]), ("1M", [404, 404, 404, b"abc", b"new", 404]), ("4M", [404, 404, 404, b"abc", b"new", 404]):
            with Cache(folder, "--limit", limit) as cache:
                got = [cache.get(key) for key in ("/evicted", "/large", "/same", "/k%ff?", "/old", "/gone")]
                check((got == wanted, True))
                check((cache.stop()[0], 0), (cache.reports(), []))


class Client(threading.Thread):
    """Stores and deletes what is under some keys until the cache ends. Content is a number, a space, and bytes that follow from it."""

    def __init__(self, port, name, start):
        super().__init__(daemon=True)
        self.port, self.name, self.number = port, name, start
        self.done = {}
        """The changes of each key that were answered, or sent last: the number, 0 for a DELETE, and the time of the answer, or None."""

    def run(self):
        rng = random.Random(self.number)
        connection = http.client.HTTPConnection("127.0.0.1", self.port, timeout=SECONDS)
        with contextlib.suppress(OSError, http.client.HTTPException):
            while True:
                self.number += 1
                key, deletes = f"/{self.name}/{rng.randrange(KEYS)}", rng.random() < 0.2
                changes = self.done.setdefault(key, [])
                changes.append([0 if deletes else self.number, None])
                connection.request(*(("DELETE", key) if deletes else ("PUT", key, content_of(self.number))))
                answer = connection.getresponse()
                answer.read()
                if answer.status in (201, 204, 404):
                    changes[-1][1] = time.monotonic()
                elif not deletes:
                    # a DELETE that can't be made permanent may have dropped the key
                    changes.pop()


def content_of(number):
    return b"%d " % number + random.Random(number).randbytes(number * 7919 % 30000)


def faults_of(cache, client, synced):
    """What the keys of a client have that they may not have after a kill, before which all was synced that was answered up to some time."""
    found = []
    for key, changes in client.done.items():
        content = cache.get(key)
        number = 0 if content == 404 else int(content.split(b" ")[0])
        if number and content != content_of(number):
            found.append(f"{key} has content that nobody stored")
        numbers = [change[0] for change in changes]
        # a DELETE that was answered is permanent
        old = [at for at, (changed, answered) in enumerate(changes) if answered and (not changed or answered < synced)]
        allowed = numbers[max(old, default=0) :] + ([0] if not old else [])
        # of what was changed since then some may be lost, but nothing older is there again
        if number not in allowed and not (number == 0 and any(changed == 0 for changed in allowed)):
            found.append(f"{key} has {number}, and not one of {allowed[:9]}")
    return found


def kills():
    """Killed at any moment while clients change it, and while its content moves, it begins with all that was answered before it was synced, as for a DELETE."""
    rng = random.Random(5)
    with tempfile.TemporaryDirectory() as place:
        folder, moves, number = os.path.join(place, "cache"), 0, 0
        for life in range(KILLS):
            with Cache(folder, server=altered(cache_content__MAX_ENTRIES=300)) as cache:
                clients = [Client(cache.port, f"{life}.{at}", number + 1000000 * at) for at in range(CLIENTS)]
                for client in clients:
                    client.start()
                time.sleep(0.3 + rng.random() * 2)
                check((cache.put("/synced", b""), 201))
                synced = time.monotonic()
                check((cache.ask("DELETE", "/synced")[0], 204))
                time.sleep(rng.random() * 2)
                moves += cache.metrics()["renewals_total"]
                cache.stop(signal.SIGKILL)
                for client in clients:
                    client.join(SECONDS)
                number = max(client.number for client in clients)
            with Cache(folder) as cache:
                for client in clients:
                    check((faults_of(cache, client, synced), []))
                check(([line for line in cache.reports() if "within a line" not in line], []))
                check((cache.stop()[0], 0))
        check((moves > 0, True))


def full_disks():
    """While nothing more can be written, PUT, DELETE and /healthz are answered by 503, and what is there is given; then all goes on, and nothing is lost."""
    with tempfile.TemporaryDirectory() as place, Cache(os.path.join(place, "cache")) as cache:
        kept = os.urandom(500000)
        check((cache.put("/kept", kept), 201), (cache.put("/kept2", b"abc"), 201), (wait_until(lambda: os.path.getsize(os.path.join(cache.folder, "log")) > 500000), True))
        resource.prlimit(cache.process.pid, resource.RLIMIT_FSIZE, (600000, resource.RLIM_INFINITY))
        check((cache.put("/more", kept[::-1]), 201), (wait_until(lambda: cache.ask("GET", "/healthz")[0] == 503), True))
        check((cache.put("/x", b"abc"), 503), (cache.ask("DELETE", "/kept")[0], 503), (cache.get("/kept") == kept, True), (cache.metrics()["is_writable"], 0))
        # a body that is too long for memory finds no room either
        check((cache.put("/y", bytes(2000000)), 503), (len(cache.reports()), 1))
        resource.prlimit(cache.process.pid, resource.RLIMIT_FSIZE, (resource.RLIM_INFINITY, resource.RLIM_INFINITY))
        check((wait_until(lambda: cache.ask("GET", "/healthz")[0] == 200), True), (cache.put("/x", b"abc"), 201), (cache.stop()[0], 0))
        with Cache(cache.folder) as again:
            check((again.get("/kept") == kept, True), (again.get("/more") == kept[::-1], True), (again.get("/x"), b"abc"), (again.get("/kept2"), b"abc"))


def bodies_without_disk():
    """A long body that the disk has no room for is refused; no other request is."""
    with tempfile.TemporaryDirectory() as place, Cache(os.path.join(place, "cache")) as cache:
        resource.prlimit(cache.process.pid, resource.RLIMIT_FSIZE, (1500000, resource.RLIM_INFINITY))
        check((cache.put("/long", bytes(3000000)), 507), (cache.put("/short", b"abc"), 201), (cache.get("/short"), b"abc"), (cache.get("/long"), 404), (cache.reports(), []))


def ended(words, **how):
    """The status of a cache that ends at once, and its lines."""
    run = subprocess.run([sys.executable, SERVER, *words, "--port", "0"], stdout=subprocess.PIPE, stderr=subprocess.PIPE, timeout=SECONDS, **how)
    return run.returncode, run.stdout, [line for line in run.stderr.decode().splitlines() if "cache: port" not in line]


def filled_folder(place):
    """A folder of a cache with three keys, and the offset of the content of the second one in its log."""
    folder = os.path.join(place, "cache")
    with Cache(folder) as cache:
        for key in "abc":
            cache.put("/" + key, key.encode() * 5000)
        cache.stop()
    return folder, contents(folder)["log"].index(b"b" * 5000)


def damaged_logs():
    """Damaged content is reported, and all else is loaded. What is no log, or isn't a cache's, is refused with one line, and not changed."""
    with tempfile.TemporaryDirectory() as place:
        folder, offset = filled_folder(place)
        log = os.path.join(folder, "log")
        whole = contents(folder)["log"]
        for damaged, kept in (whole[: offset + 7] + b"x" + whole[offset + 8 :], [b"a" * 5000, 404, b"c" * 5000]), (whole[:-3], [b"a" * 5000, b"b" * 5000, 404]):
            Path(log).write_bytes(damaged)
            with Cache(folder) as cache:
                check(([cache.get("/" + key) for key in "abc"], kept), (len(cache.reports()), 1))
                check((cache.put("/new", b"new"), 201), (cache.stop()[0], 0))
            with Cache(folder) as cache:
                check((cache.get("/new"), b"new"), ([cache.get("/" + key) for key in "abc"], kept), (cache.stop()[0], 0))
        Path(log).write_bytes(whole.replace(b"tenant ", b"tenant x", 1))
        before = contents(folder)
        status, out, lines = ended([folder])
        check((status, 1), (out, b""), (1 <= len(lines) <= 2, True), ("/log: line" in lines[-1], True), (contents(folder) == before, True))


def other_folders():
    """A folder with other files, a store that isn't a cache's, a folder that others may write to, and one in use: each is refused with one line, and not changed."""
    with tempfile.TemporaryDirectory() as place:
        folder, stored, open_to_all = (os.path.join(place, name) for name in ("other", "stored", "open"))
        os.mkdir(folder)
        os.mkdir(open_to_all)
        os.chmod(open_to_all, 0o777)
        with open(os.path.join(folder, "file"), "wb"):
            pass
        log = RedoLog(stored, print)
        with Store() as store:
            log.restore(store)
            store.file(store.tenant(1 << 20), b"abc")
            log.finish(store)
        log.close()
        for path in folder, stored, open_to_all, os.path.join(folder, "file"), "", folder + "/file/x":
            before = contents(path) if os.path.isdir(path) else {}
            status, out, lines = ended([path])
            check(((path, status, out, len(lines)), (path, 1, b"", 1)))
            check(((path, {**(contents(path) if before else {}), "clean": b""}), (path, {**before, "clean": b""})))
        with Cache(os.path.join(place, "cache")) as cache:
            check((ended([cache.folder])[0], 1), (ended([cache.folder + "2", "--host", "no.such.host.invalid"])[0], 1))
            run = subprocess.run([sys.executable, SERVER, cache.folder + "3", "--port", str(cache.port)], stderr=subprocess.PIPE, timeout=SECONDS)
            check((run.returncode, 1), (run.stderr, b"cache: address already in use\n"))
        for words in ["--port", "x"], ["--limit", "10X"], ["--max-body", "-1"]:
            run = subprocess.run([sys.executable, SERVER, os.path.join(place, "x"), *words], stderr=subprocess.PIPE, timeout=SECONDS)
            check((run.returncode, 2), (words[1].encode() in run.stderr.splitlines()[-1], True))


WAITING = """
import os, time
restore = cache_content.RedoLog.restore
def wait_and_restore(log, store, tick):
    while not os.path.exists({!r}):
        time.sleep(0.1)
        tick()
    return restore(log, store, tick)
cache_content.RedoLog.restore = wait_and_restore
"""
"""Lets a cache load its folder once there is a file."""


def answers_while_it_loads():
    """Until all is loaded, keys are misses and nothing can be changed. A signal ends it at once then, and changes nothing."""
    with tempfile.TemporaryDirectory() as place:
        (folder, _), going = filled_folder(place), os.path.join(place, "going")
        before, server = contents(folder), altered(before=WAITING.format(going))
        for is_ended in True, False:
            with Cache(folder, server=server, loads=False) as cache:
                check((cache.get("/a"), 404), (cache.put("/a", b"x"), 503), (cache.ask("DELETE", "/a")[0], 503), (cache.ask("GET", "/healthz")[0], 503))
                check((cache.answer("PUT", "/a", b"x")[2]["Retry-After"], "1"))
                if is_ended:
                    check((cache.stop()[0], 0), (contents(folder) == before, True))
                    continue
                os.mkdir(going)
                check((wait_until(lambda: cache.ask("GET", "/healthz")[0] == 200), True), (cache.get("/a"), b"a" * 5000), (cache.stop()[0], 0))


def signals():
    """Each signal that ends a program ends it well, whatever clients do, unless it is ignored, as by nohup."""
    for number in signal.SIGTERM, signal.SIGINT, signal.SIGHUP, signal.SIGQUIT:
        with tempfile.TemporaryDirectory() as place:
            with Cache(os.path.join(place, "cache")) as cache:
                client = Client(cache.port, "k", 0)
                client.start()
                time.sleep(0.5)
                check(((number, cache.stop(number)), (number, (0, b""))), (cache.reports(), []))
                client.join(SECONDS)
            with Cache(cache.folder) as again:
                check((faults_of(again, client, time.monotonic()), []))
    with tempfile.TemporaryDirectory() as place:
        with Cache(os.path.join(place, "cache"), preexec_fn=lambda: signal.signal(signal.SIGHUP, signal.SIG_IGN)) as cache:
            cache.process.send_signal(signal.SIGHUP)
            time.sleep(1.5)
            check((cache.put("/k", b"abc"), 201), (cache.stop()[0], 0))


CASES = restarts, kills, full_disks, bodies_without_disk, damaged_logs, other_folders, answers_while_it_loads, signals
