"""b3store.follow: copies of a server, on another server and in a folder, whatever is killed."""
import os
import signal
from pathlib import Path

from judging import check, wait_until
from redoing import append_to, save_folder, saved_in, state_of
from running import CLEAN, Program, Running
from b3store import Client

OBJECTS = 10_000
LARGE = (9 << 20) + 1
"""The length of an object that isn't kept in memory while it is copied."""
AGAIN = "{} has closed the connection; it is tried again\n"


class Following(Program):
    """A b3store.follow that runs."""

    def __init__(self, source, target):
        super().__init__()
        self.start(["-m", "b3store.follow", source, target], self.errors)

    def ends(self, number=None):
        """Its status, and all that it has written."""
        if number is not None:
            self.signal(number)
        return [self.status(), self.reported()]


def _same(first, second):
    """Whether a server soon has all that another one has."""
    return wait_until(lambda: second.stat() == first.stat() and state_of(second) == state_of(first))


def a_standby():
    """A standby gets what the first server has while clients use that, and again after it was killed. When the first one is killed, it has everything."""
    with Running() as first, save_folder() as folder:
        with Running("--save", folder) as second, Following(first.path, second.path) as following, Client(first.path) as filling:
            for limit in (1 << 30, 5, 1 << 20):
                filling.tenant(limit)
            addresses = [filling.file(0, b"%d" % number).address for number in range(OBJECTS // 2)]
            filling.upload(bytes(LARGE), 0)
            second.kill()
            for address in addresses[::7]:
                filling.forget(0, address)
            filling.limit(1, 6)
            with Running("--save", folder, path=second.path), Client(second.path) as copied:
                for number in range(OBJECTS // 2, OBJECTS):
                    filling.file(0 if number % 50 else 2, b"%d" % number)
                check((_same(filling, copied), True))
                state = state_of(filling)
                first.kill()
                check((state_of(copied) == state, True), (copied.tenant(7), 3), (len(state[0][1]) > OBJECTS * 9 // 10, True))
                check((following.reports(AGAIN.format(first.path)), True), (following.process.poll(), None))
                status, told = following.ends(signal.SIGTERM)
                check((status, 128 + signal.SIGTERM), ("Traceback" in told, False))


def copies_in_a_folder():
    """A folder gets a log in place of the one that it has, and a server that is started on it has what the first one had."""
    with save_folder() as folder, Running() as first, Client(first.path) as store:
        os.mkdir(folder, 0o700)
        log = Path(folder, "log")
        log.write_bytes(b"tenant 7\n")
        append_to(f"{folder}/clean")
        store.tenant(100000000)
        addresses = [store.file(0, b"%d" % number * 900_000).address for number in range(4)]
        with Following(first.path, folder) as following:
            check((wait_until(lambda: log.read_bytes().endswith(b"3" * 900_000)), True), (os.listdir(folder), ["log"]))
            for address in addresses[:3]:
                store.forget(0, address)
            check((wait_until(lambda: log.stat().st_size < 1_000_000), True))
            last = store.file(0, b"last").address.encode()
            check((wait_until(lambda: last in log.read_bytes()), True))
            state = state_of(store)
            first.signal(signal.SIGKILL)
            check((following.reports(AGAIN.format(first.path)), True), (following.ends(signal.SIGINT)[0], 128 + signal.SIGINT))
        check((saved_in(folder), state))


def copies_that_are_refused():
    """A copy is left as it is if it has more tenants, or if the first server was started again; a place that is wrong is reported once, and tried again."""
    with Running() as first, Running() as second, Client(second.path) as copied:
        with Following(f"{first.path}-none", second.path) as following:
            check((following.reports(f"b3store: {first.path}-none: no such file or directory; it is tried again\n"), True))
            check((following.ends(signal.SIGINT)[1].count("\n"), 1))
        with Following(first.path, first.path) as following:
            status, told = following.ends()
            check((status, 2), (told.endswith("FROM and TO are the same\n"), True))
        copied.file(copied.tenant(50), b"only here")
        state, told = state_of(copied), [3, "b3store: the copy has 1 tenant, and the store to copy 0: it is left as it is\n"]
        with Following(first.path, second.path) as following:
            check((following.ends(), told), (state_of(copied), state))
        with save_folder() as folder:
            os.mkdir(folder, 0o700)
            Path(folder, "log").write_bytes(b"tenant 7\nlimit")
            with Following(first.path, folder) as following:
                check((following.ends(), told), (Path(folder, "log").read_bytes(), b"tenant 7\nlimit"))
    with Running() as first, Running() as second:
        with Client(second.path) as copied:
            with Following(first.path, second.path) as following, Client(first.path) as store:
                check((following.reports(f"b3store.follow: {second.path} has 0 objects and 0 tenants\n"), True))
                store.file(store.tenant(9), b"kept")
                check((_same(store, copied), True))
                state = state_of(store)
                first.kill()
                with Running(path=first.path), Client(first.path) as again:
                    again.tenant(9)
                    status, told = following.ends()
                    check((status, 3), (told.endswith("b3store: the server to copy was started again: its copy is left as it is\n"), True))
                    check((state_of(copied), state))
        check((second.end(), CLEAN))
