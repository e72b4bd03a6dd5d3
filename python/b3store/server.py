"""A store that many processes share: `python -m b3store.server --socket PATH` (docs/USE.md).

The server starts `b3store serve --at DOOR --sessions N` with a door in a private temporary folder, and listens on a socket. Each connection is one session,
which speaks the lines of `b3store serve`, through the session's own pipes if the client asks for them (relay.py). Up to N connections are served at a time;
the others wait for their turn, in the order in which they came. The store lives in memory; with `--save FOLDER` the server keeps a log of it (redo_log.py).
"""
from .programs import ENDING, OTHERS, end_at_once, exit_at_ending, handle_ending, signals_held

if __name__ == "__main__":
    end_at_once()

import _thread
import argparse
import collections
import contextlib
import functools
import math
import os
import resource
import select
import selectors
import signal
import socket
import sys
import threading
import time
from typing import Callable, Deque, List, Optional, Set, TextIO, Tuple

from .console import count_text, error_text, fault_text, number, one_line, open_standard_files, size
from .listening import Listener, ListenError, inherited, listen_at, more_time, notify
from .redo_log import RedoLog, SaveError
from .relay import Connection
from .server_store import SECONDS_OF_SILENCE, StoreProcess, status_text
from .values import MAX_SESSIONS, StoreError, half_of_memory

NAME = "b3store.server"
SECONDS_BETWEEN_WRITES = 1.0
"""How long the server waits before it appends to the log again."""
SECONDS_TO_CUT, SECONDS_FOR_LAST = 2.0, 30.0
"""How long the sessions of connections that are ended by the server may take to execute the commands that they have read; and then for the last command, once
their answers are not read any more."""
SECONDS_FOR_SAVES, SECONDS_BETWEEN_SAVES = 600.0, 1.0
"""For how long, and how often, a save that fails is tried again."""
SECONDS_FOR_LINE = 0.2
"""How long a standard stream may take to have room for a line, which is dropped then."""
SECONDS_BETWEEN_LOOKS, SECONDS_AT_REST = 0.02, 5.0
"""How long the server sleeps while it ends, and otherwise if nothing happens."""
MAX_READS, STACK = 16, 1 << 18
"""How often more is read from a client that is sent `busy`; and the stack of a thread."""
WRITING = threading.Lock()
EPILOG = """\
example:
  $ python -m b3store.server --socket /tmp/store --save /tmp/saved &
  b3store.server: listening on /tmp/store
  $ python -m b3store --socket /tmp/store put FILE

exit status: 0 after a signal; 1 it can't start; 2 usage error; 3 the store's process ended; 4 the store can't be saved
"""


def report(message: str) -> None:
    write_line(sys.stderr, message)


def write_line(stream: Optional[TextIO], message: str) -> None:
    """Writes a line to a standard stream, if it is open and has room soon: one that nobody reads holds nothing up."""
    # what one thread found room for, no other one takes
    with WRITING, contextlib.suppress(OSError):
        if stream is not None and select.select([], [stream], [], SECONDS_FOR_LINE)[1]:
            os.write(stream.fileno(), f"{NAME}: {one_line(message)}\n".encode(errors="surrogateescape"))


class Connections:
    """The connections that are open: those that are served, each by a thread, and those that wait for their turn."""

    def __init__(self, store: StoreProcess, options: argparse.Namespace) -> None:
        self._store, self._options = store, options
        self._waiting: Deque[Tuple[socket.socket, float]] = collections.deque()
        """Each with the time at which it is sent `busy`."""
        self._served: Set[Connection] = set()
        self._has_waiting = threading.Condition()
        for _ in range(options.sessions):
            _thread.start_new_thread(self._work, ())

    def count(self) -> int:
        return len(self._served) + len(self._waiting)

    def add(self, connection: socket.socket) -> None:
        """Lets a connection wait for its turn."""
        with self._has_waiting:
            self._waiting.append((connection, time.monotonic() + self._options.wait))
            self._has_waiting.notify()

    def close_waiting(self, now: float) -> float:
        """Sends `busy` to the connections that have waited until now, and returns when the next one will have."""
        with self._has_waiting:
            # the first ones don't wait: idle threads are about to serve them
            idle = self._options.sessions - len(self._served)
            while len(self._waiting) > idle and self._waiting[idle][1] <= now:
                send_busy(self._waiting[idle][0])
                del self._waiting[idle]
            return self._waiting[idle][1] if len(self._waiting) > idle else math.inf

    def end_all(self, tick: Callable[[], None]) -> None:
        """Ends all connections, and waits until the sessions have ended, but for those whose pipes clients keep: `Client` sends nothing over them any more."""
        with self._has_waiting:
            # also those that idle threads were about to serve
            while self._waiting:
                send_busy(self._waiting.popleft()[0])
            served = list(self._served)
        # a client that sent much ahead and reads nothing may have commands left
        for work, seconds in (Connection.end, SECONDS_TO_CUT), (Connection.cut, SECONDS_FOR_LAST):
            for connection in served:
                work(connection)
            end = time.monotonic() + seconds
            while self._served.intersection(served) and time.monotonic() < end:
                tick()
                time.sleep(SECONDS_BETWEEN_LOOKS)
            served = [connection for connection in served if not connection.has_pipes]

    def _work(self) -> None:
        while True:
            with contextlib.suppress(MemoryError):
                connection = self._next()
                try:
                    connection.serve()
                except (BrokenPipeError, ConnectionResetError):
                    pass  # the client has left
                except Exception as error:  # whatever it is, it ends this connection alone
                    if self._store.is_usable():
                        report(f"a connection is closed: {type(error).__name__}: {error}")
                finally:
                    self._served.discard(connection)
                    connection.socket.close()

    def _next(self) -> Connection:
        """The connection that has waited longest."""
        with self._has_waiting:
            while not self._waiting:
                self._has_waiting.wait()
            connection = Connection(self._store, self._waiting[0][0], report)
            self._served.add(connection)
            self._waiting.popleft()
            return connection


def send_busy(connection: socket.socket) -> None:
    """Sends `busy` to a client, and closes its connection, once what it has sent is read: the line could be lost otherwise."""
    with contextlib.suppress(OSError), connection:
        connection.setblocking(False)
        connection.sendall(b"busy\n")
        connection.shutdown(socket.SHUT_WR)
        for _ in range(MAX_READS):
            if not connection.recv(1 << 16):
                break


def follow(store: StoreProcess, log: RedoLog) -> None:
    """Appends to the log what clients change, until the process ends."""
    while True:
        if not log.follow(store):
            time.sleep(SECONDS_BETWEEN_WRITES)


class Server:
    """The loop that accepts connections, until a signal or the end of the store."""

    def __init__(self, store: StoreProcess, listeners: List[Listener], options: argparse.Namespace, log: Optional[RedoLog]) -> None:
        self._store, self._listeners, self._options, self._log = store, listeners, options, log
        self._loss = "everything in it is lost" + (", except for what its log has" if log else "")
        self._connections, self._more_time = Connections(store, options), more_time()
        self._deadline: Optional[float] = None
        """Once the server has begun to end: when the clients that are served are ended at the latest."""
        self._next_save, self._last_save, self._fault = -math.inf, math.inf, ""
        """When the store is saved at the earliest, since when the save that is tried is the last one, and why the one before failed."""
        self._selector = selectors.DefaultSelector()
        self._signals, self._written = socket.socketpair()
        for end in self._signals, self._written:
            end.setblocking(False)
        signal.set_wakeup_fd(self._written.fileno(), warn_on_full_buffer=False)
        signal.signal(signal.SIGCHLD, lambda *_: None)
        handle_ending(lambda *_: None)
        self._selector.register(self._signals, selectors.EVENT_READ, self._read_signals)
        for listener in listeners:
            listener.socket.setblocking(False)
            self._selector.register(listener.socket, selectors.EVENT_READ, functools.partial(self._accept, listener.socket))
        if log is not None:
            _thread.start_new_thread(follow, (store, log))

    def run(self) -> int:
        """Serves, and returns the exit status."""
        while True:
            status = self._store.status()
            if status is not None:
                report(f"the store ended with {status_text(status)}; {self._loss}")
                return 3
            now, pause = time.monotonic(), SECONDS_AT_REST
            if self._deadline is not None:
                pause = SECONDS_BETWEEN_LOOKS
                self._more_time()
                if (now >= self._deadline or not self._connections.count()) and now >= self._next_save:
                    status = self._end()
                    if status is not None:
                        return status
            for key, _ in self._selector.select(min(pause, self._connections.close_waiting(now) - now)):
                key.data()

    def _end(self) -> Optional[int]:
        """Ends the clients and the store, and returns the exit status; None if the store can't be saved yet."""
        count = self._connections.count()
        if count and not self._fault:
            report(f"the server ends while {count_text(count, 'connection')} {'is' if count == 1 else 'are'} open")
        fault = "" if self._log is None else self._save(self._log)
        if fault and self._tries_again(fault):
            return None
        status = self._store.end()
        if self._store.was_silent:
            report(f"the store did not answer for {SECONDS_OF_SILENCE:.0f} s, and was killed; {self._loss}")
        elif status:
            report(f"the store ended with {status_text(status)}")
        return 4 if fault else 3 if status else 0

    def _save(self, log: RedoLog) -> str:
        """Ends the clients, and saves the store. Returns why that failed, if it did. A signal doesn't interrupt it."""
        self._connections.end_all(self._more_time)
        try:
            with self._store.killed_if_silent(self._more_time) as tick:
                write_line(sys.stdout, f"saved {log.finish(self._store, tick)}")
            return ""
        except Exception as error:  # whatever it is, the store is kept
            return str(error) if isinstance(error, SaveError) else f"the store can't be saved: {error_text(error)}"

    def _tries_again(self, fault: str) -> bool:
        """Whether a save that failed is tried again. Reports why it failed, once, and again at the last time."""
        now = time.monotonic()
        self._last_save, self._next_save = min(self._last_save, now + SECONDS_FOR_SAVES), now + SECONDS_BETWEEN_SAVES
        does = now < self._last_save and self._store.is_usable()
        if fault != self._fault or not does:
            report(fault + (f"; it is tried again, for {SECONDS_FOR_SAVES:.0f} s or until a further signal" if does else ""))
        self._fault = fault
        return does

    def _read_signals(self) -> None:
        asked = sum(number in ENDING for number in self._signals.recv(64))
        if asked and self._deadline is None:
            self._stop()
            asked -= 1
        if asked:
            now = time.monotonic()
            self._deadline = now
            if self._fault:
                self._next_save = self._last_save = now

    def _stop(self) -> None:
        """Stops accepting connections."""
        notify("STOPPING=1")
        self._deadline = time.monotonic() + self._options.grace
        for listener in self._listeners:
            self._selector.unregister(listener.socket)
            if self._log is None:
                listener.close()
        self._connections.close_waiting(math.inf)

    def _accept(self, listening: socket.socket) -> None:
        try:
            # a signal may have come with the connection
            if self._deadline is None:
                self._connections.add(listening.accept()[0])
        except (BlockingIOError, ConnectionAbortedError):
            return
        except (OSError, MemoryError) as error:
            report(f"a connection can't be accepted: {error_text(error)}")
            time.sleep(1)


def read_words() -> argparse.Namespace:
    usage = "python -m b3store.server --socket PATH [OPTION..]"
    parser = argparse.ArgumentParser(
        prog=NAME, usage=usage, description="Serve one store to many processes, over a socket.", epilog=EPILOG,
        formatter_class=argparse.RawDescriptionHelpFormatter, allow_abbrev=False,
    )
    add = parser.add_argument
    add("--socket", metavar="PATH", help="listen on this Unix-domain socket, created with mode 0600")
    add("--sessions", metavar="N", type=number(1, MAX_SESSIONS), default=16, help="serve up to N connections at a time (1 to 64, default 16)")
    add("--program", metavar="PATH", default="b3store", help="run this b3store program (default: b3store)")
    seconds = number(0, 86400)
    add("--wait", metavar="SECONDS", type=seconds, default=10, help="send `busy` to a connection that has waited this long for its turn (default 10)")
    add("--grace", metavar="SECONDS", type=seconds, default=10, help="after SIGTERM, wait this long for open connections to end (default 10)")
    add("--save", metavar="FOLDER", help="at the start, restore the store from the log in FOLDER; append each change to it within a second")
    add("--sync", choices=("second", "no"), default="second", help="sync the log each second (default), or leave it to the system (no)")
    add("--memory", metavar="SIZE", type=size, default=half_of_memory(), help="limit the store's memory, as 512M or 4G (default: half of the machine's)")
    add("--keep-uploads", action="store_true", help="when a connection ends, leave the uploads that it began open")
    words = parser.parse_args()
    for name, value in vars(words).items():
        # as the value of an unset variable is
        if value == "":
            parser.error(f"--{name.replace('_', '-')} is empty")
    return words


def open_listeners(words: argparse.Namespace, ending: contextlib.ExitStack) -> List[Listener]:
    """The socket of the option, which is closed at the end, and those that systemd passed."""
    listeners = inherited()
    if words.socket:
        with signals_held():
            listeners.append(listen_at(words.socket))
            ending.callback(listeners[-1].close)
    if not listeners:
        raise ListenError("nothing to listen on: give --socket PATH")
    return listeners


def serve(words: argparse.Namespace) -> int:
    exit_at_ending()
    for ignored in OTHERS:
        signal.signal(ignored, signal.SIG_IGN)
    if words.socket and words.save and os.path.realpath(os.path.dirname(words.socket) or ".") == os.path.realpath(words.save):
        # the folder of a socket and that of a save are locked
        raise ListenError(f"{words.socket} can't be in the folder of --save")
    # a connection that waits has a descriptor, and one that is served has six
    with contextlib.suppress(OSError, ValueError):
        resource.setrlimit(resource.RLIMIT_NOFILE, (resource.getrlimit(resource.RLIMIT_NOFILE)[1],) * 2)
    threading.stack_size(STACK)
    with contextlib.ExitStack() as ending:
        log = RedoLog(words.save, report, words.sync != "no") if words.save else None
        listeners = open_listeners(words, ending)
        with signals_held():
            store = StoreProcess()
            ending.callback(store.close)
        store.start(words.program, words.sessions, words.memory, *["--keep-uploads"] * words.keep_uploads)
        if log is not None:
            text = log.restore(store, more_time())
            if text is not None:
                write_line(sys.stdout, f"restored {text}")
        server = Server(store, listeners, words, log)
        ending.callback(signal.set_wakeup_fd, -1)
        for listener in listeners:
            write_line(sys.stdout, f"listening on {listener.name}")
        notify("READY=1")
        return server.run()


def main() -> int:
    open_standard_files()
    words = read_words()
    try:
        return serve(words)
    except (StoreError, OSError, MemoryError, RuntimeError, ValueError) as error:
        report(fault_text(error))
        return 1
    except SystemExit:  # a signal ends it
        return 0
    finally:
        # one that comes while the interpreter ends doesn't change the status
        handle_ending(signal.SIG_IGN)


if __name__ == "__main__":
    sys.exit(main())
