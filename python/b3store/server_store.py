"""The store's process: starts it, opens a session for each connection, and sends the server's own commands."""
import contextlib
import errno
import io
import itertools
import os
import re
import resource
import select
import shutil
import signal
import subprocess
import tempfile
import threading
import time
from typing import Any, Callable, Iterator, List, NamedTuple, Optional

from .console import error_text
from .files import FolderInUse, lock_folder
from .sessions import Session, set_pipe_size
from .commands import Commands, Value
from .values import MAX_NUMBER, Ended, Refused, StoreError

SECONDS_TO_WAIT = 30.0
"""How long the program may take to answer, to open a session, and to exit once its standard input is closed."""
SECONDS_TO_ANSWER, SECONDS_OF_SILENCE = 1.0, 60.0
"""How long the server waits at its end for the answers to its own commands; and then for the next piece of an answer, before it kills the process."""
SECONDS_TO_SEE = 0.5
MAX_PIPE_BYTES, MAX_PIPES_BYTES = 1 << 20, 1 << 25
"""The maximum capacity of a pipe, and of all together. Linux grants a user 64 MiB by default."""


class Pipes(NamedTuple):
    """The server's ends of a session: requests are written to one, and answers are read from the other; and the names of the pipes."""

    requests: io.FileIO
    answers: io.FileIO
    names: List[str]

    def has_ended(self) -> bool:
        """Whether the store has closed its ends, which it does when it has ended the session. No process may have the other ends any more. Then the names are
        removed."""
        try:
            os.close(os.open(self.names[0], os.O_WRONLY | os.O_NONBLOCK))
            return False
        except OSError as error:
            if error.errno not in (errno.ENXIO, errno.ENOENT):
                return False
        for name in self.names:
            with contextlib.suppress(FileNotFoundError):
                os.remove(name)
        return True


def status_text(status: int) -> str:
    names = {-number: number.name for number in signal.Signals}
    return f"status {status}" + (f", killed by {names.get(status, f'signal {-status}')}" if status < 0 else "")


class StoreProcess(Commands):
    """A running `b3store serve --at DOOR --sessions N`. Its standard input and output are the server's own session, which the methods of a store use."""

    def __init__(self) -> None:
        """Makes the temporary folder of the door."""
        self._numbers = itertools.count(1)
        self._lock = threading.Lock()
        self._is_started = self._is_closing = self._is_behind = self.was_silent = False
        self._folder, self._locked = tempfile.mkdtemp(prefix="b3store-server-"), -1
        # what removes old files from /tmp leaves a locked folder alone
        with contextlib.suppress(OSError, FolderInUse):
            self._locked = lock_folder(self._folder)

    def start(self, program: str, sessions: int, memory: int, *options: str) -> None:
        """Starts the process, with further options. It may take up to `memory` bytes. Raises StoreError if it isn't a store."""
        self._size = min(MAX_PIPE_BYTES, MAX_PIPES_BYTES // (2 * sessions))
        self._door = os.path.join(self._folder, "door")
        os.mkfifo(self._door, 0o600)
        # also for reading, so that neither this nor a write waits for the store
        self._knocking = os.open(self._door, os.O_RDWR)
        words = [program, "serve", "--at", self._door, "--sessions", str(sessions), *options]
        try:
            # In its own session, so that an interrupt at a terminal reaches only the server.
            self._process: Any = subprocess.Popen(words, stdin=subprocess.PIPE, stdout=subprocess.PIPE, start_new_session=True)
        except OSError as error:
            raise StoreError(f"cannot start {program}: {error_text(error)}") from None
        self._commands, self._answers = self._process.stdin, self._process.stdout
        self._session, self._is_started = Session(self._commands, self._answers, "the store has ended"), True
        try:
            self._session.write(b"stat\n")
            self._expect_totals(self._answers.fileno(), "the program")
            self._limit(memory)
            for pipe in self._commands, self._answers:
                set_pipe_size(pipe, MAX_PIPE_BYTES)
        except (OSError, StoreError) as error:
            with contextlib.suppress(subprocess.TimeoutExpired):
                raise StoreError(f"{program} ended with {status_text(self._process.wait(1))} before it answered") from None
            self._process.kill()
            raise StoreError(f"{program} is not a store: {error}") from None

    @contextlib.contextmanager
    def killed_if_silent(self, tick: Callable[[], None]) -> Iterator[Callable[[], None]]:
        """Kills the process if the block makes no progress for too long, as if it is stopped by SIGSTOP. The block, in the main thread, calls the result in
        place of `tick`."""

        def progress() -> None:
            signal.setitimer(signal.ITIMER_REAL, SECONDS_OF_SILENCE)
            tick()

        def kill(*_: Any) -> None:
            # unless another process has sent the signal
            if not signal.getitimer(signal.ITIMER_REAL)[0]:
                self.was_silent = True
                self._process.kill()

        signal.signal(signal.SIGALRM, kill)
        progress()
        try:
            yield progress
        finally:
            signal.setitimer(signal.ITIMER_REAL, 0)

    def _limit(self, memory: int) -> None:
        """Limits the memory that the process may take from now on. RLIMIT_AS would count what its threads have reserved and don't use, 64 MiB for each."""
        with open(f"/proc/{self._process.pid}/status", encoding="ascii", errors="replace") as file:
            has = 1024 * int(next((line for line in file if line.startswith("VmData:")), "VmData: 0 kB").split()[1])
        hard = resource.prlimit(self._process.pid, resource.RLIMIT_DATA)[1]
        limit = min(has + memory, MAX_NUMBER >> 1 if hard == resource.RLIM_INFINITY else hard)
        resource.prlimit(self._process.pid, resource.RLIMIT_DATA, (limit, hard))

    def _expect_totals(self, answers: int, who: str) -> None:
        """Reads the answer to `stat`. No other answer is pending."""
        poll = select.poll()
        poll.register(answers, select.POLLIN)
        if not poll.poll(1000 * SECONDS_TO_WAIT):
            raise StoreError(f"{who} gave no answer within {SECONDS_TO_WAIT:.0f} s")
        answer = os.read(answers, 1024)
        if not re.fullmatch(rb"objects [0-9]+ bytes .*\n", answer):
            raise StoreError(f"{who} answered {answer[:60]!r} to stat" if answer else f"{who} closed its output")

    def open_session(self) -> Pipes:
        """Opens a session, and waits until the store serves it. The names of its pipes remain until it has ended."""
        number = next(self._numbers)
        names = [f"{self._door}.{number}.{end}" for end in ("in", "out")]
        with contextlib.ExitStack() as failing, contextlib.ExitStack() as held:
            for name in names:
                os.mkfifo(name, 0o600)
                failing.callback(os.remove, name)
                # Until the store has opened them both pipes have a reader and a writer here.
                held.callback(os.close, os.open(name, os.O_RDWR))
            pipes = Pipes(failing.enter_context(open(names[0], "wb", 0)), failing.enter_context(open(names[1], "rb", 0)), names)
            for pipe in pipes.requests, pipes.answers:
                set_pipe_size(pipe, self._size)
            os.write(self._knocking, b"%d\n" % number)
            pipes.requests.write(b"stat\n")
            self._expect_totals(pipes.answers.fileno(), "a session")
            failing.pop_all()
        return pipes

    def _in_turn(self, work: Callable[[Session], Value]) -> Value:
        """What a function returns for the session, which nothing else uses meanwhile. What an error left unread, as when memory runs out, is read next time."""
        with self._lock:
            if self._is_closing:
                raise Ended("the store has ended")
            if self._is_behind:
                self._catch_up()
            self._is_behind = True
            try:
                found = work(self._session)
            except Refused:
                self._is_behind = False
                raise
            self._is_behind = False
            return found

    def _catch_up(self) -> None:
        """Reads what is unread, up to an answer that nobody could foresee: raw bytes may look like any other."""
        line = b"redo %d 0\n" % int.from_bytes(os.urandom(8), "little")
        self._session.write(line)
        found = b""
        while not found.endswith(line):
            found = self._answers.readline()
            if not found:
                raise Ended("the store has ended")

    def status(self) -> Optional[int]:
        """The exit status of the process, or None while it runs. Only the main thread asks: two threads that ask at once may both miss the end."""
        return self._process.poll()

    def is_usable(self) -> bool:
        """Whether the process runs, and was not asked to end. If its end caused an error in this thread, it may still be ending, and is given time."""
        time.sleep(SECONDS_TO_SEE)
        with contextlib.suppress(ChildProcessError):
            # this leaves the status to the main thread
            ended = os.waitid(os.P_PID, self._process.pid, os.WEXITED | os.WNOHANG | os.WNOWAIT)
            return not self._is_closing and self._process.returncode is None and ended is None
        return False

    def close(self) -> None:
        self.end()

    def end(self) -> int:
        """Ends the process, if it was started, removes the folder, and returns the exit status. Everything in the store is lost."""
        self._is_closing = True
        status = self._wait() if self._is_started else 0
        shutil.rmtree(self._folder, ignore_errors=True)
        if self._locked >= 0:
            os.close(self._locked)
        self._locked = -1
        return status

    def _wait(self) -> int:
        # A thread that holds the lock has sent its commands, and their answers come soon.
        has_lock = self._lock.acquire(timeout=SECONDS_TO_ANSWER)
        with contextlib.suppress(OSError):
            self._commands.close()
        if has_lock:
            self._lock.release()
        with contextlib.suppress(subprocess.TimeoutExpired):
            return int(self._process.wait(SECONDS_TO_WAIT))
        self._process.kill()
        return int(self._process.wait())
