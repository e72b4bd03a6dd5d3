"""A client of a running server (`python -m b3store.server`)."""
import array
import contextlib
import itertools
import os
import queue
import socket
import threading
import time
from typing import Any, Callable, List, Optional, Sequence, Union

from .sessions import BUSY, READ_LEN, Session
from .commands import Commands, Value, opened
from .values import MAX_SESSIONS, Ended, Refused, check_number

Place = Union[str, bytes, "os.PathLike[str]"]

ASK_FOR_PIPES = b"pipes\n"
"""The line that asks a server for the two pipes of a session, and the line that they come with."""
SECONDS_BETWEEN_LOOKS = 0.25
"""While pipes are used, how often is looked whether the server has closed the connection. It waits longer for that before it saves the store."""


class PipeSession(Session):
    """A session whose pipes the server has passed. Lines and answers go through them; the socket shows whether the server lives."""

    def __init__(self, connection: socket.socket, pipes: List[int], end: str) -> None:
        super().__init__(open(pipes[0], "wb", 0), open(pipes[1], "rb", READ_LEN), end)
        self._socket, self._next_look = Session(connection, connection.makefile("rb"), end), 0.0

    def is_at_rest(self) -> bool:
        return super().is_at_rest() and self._socket.is_at_rest()

    def write(self, *pieces: Any) -> None:
        """Writes pieces one after another, unless the server has closed the connection."""
        now = time.monotonic()
        if now >= self._next_look:
            self._next_look = now + SECONDS_BETWEEN_LOOKS
            if not self._socket.is_at_rest():
                raise Ended(self._end)
        super().write(*pieces)

    def close(self) -> None:
        super().close()
        self._socket.close()

    def leave(self, nowhere: int) -> None:
        super().leave(nowhere)
        self._socket.leave(nowhere)


class Client(Commands):
    """A store that a server shares with many processes.

        with Client("/run/b3store/socket") as store:
            filed = store.upload(b"abc", tenant)

    Each connection is one session. A client opens `sessions` of them, at most as many as the server has; threads that share the client wait for a free
    one. The server passes it the sessions' pipes, so that it moves no bytes itself; where it can't, as through `ssh`, they go through the socket. When a
    connection ends, the uploads that were begun over it are aborted, unless the server was started with `--keep-uploads`."""

    def __init__(self, path: Place, *, sessions: int = 1) -> None:
        """Connects to the socket at a path, and waits for a turn. Raises OSError if there is no server, and Ended if it has no turn for this client."""
        count = check_number("sessions", sessions, 1, MAX_SESSIONS)
        self._path = os.fspath(path)
        self._end = f"{os.fsdecode(self._path)} has closed the connection"
        self._sockets: List[socket.socket] = []
        self._passes_pipes = True
        self._all: List[Session] = []
        self._free: "queue.SimpleQueue[Session]" = queue.SimpleQueue()
        """Those that no command uses."""
        self._closing, self._process_id = threading.Lock(), os.getpid()
        self._fault: Optional[Ended] = None
        """Why the sessions can't be used any more."""
        try:
            for _ in range(count):
                self._all.append(self._open_session())
        except BaseException:
            self._close_all(self._all)
            raise
        self._give_back(self._all)
        opened.add(self)

    @property
    def alive(self) -> bool:
        """Whether the client can be used, as far as it knows: no command was interrupted, and the server has not closed a connection that is free, nor
        sent anything over it."""
        return self._fault is None and self._with_all(self._free.get_nowait, lambda sessions: all(session.is_at_rest() for session in sessions))

    def close(self) -> None:
        """Closes the connections, once the commands of other threads are done; at once those of a client that can't be used any more and has no pipes."""
        with self._closing:
            for connection in self._sockets if self._fault is not None else []:
                with contextlib.suppress(OSError):
                    connection.shutdown(socket.SHUT_RDWR)
            self._with_all(self._free.get, self._close_all)

    def _close_all(self, sessions: List[Session]) -> None:
        for session in sessions:
            session.close()
        self._fault = self._fault or Ended("the client was closed")

    def _open_session(self) -> Session:
        with contextlib.ExitStack() as failing:
            try:
                connection = failing.enter_context(socket.socket(socket.AF_UNIX, socket.SOCK_STREAM))
                connection.connect(self._path)
            except OSError as fault:
                raise type(fault)(fault.errno, fault.strerror or str(fault), os.fsdecode(self._path)) from None
            connection.settimeout(None)  # a session writes by the descriptor
            pipes = self._ask_for_pipes(connection, failing) if self._passes_pipes else []
            if not pipes and self._passes_pipes:
                self._passes_pipes = False
                return self._open_session()
            failing.pop_all()
            self._sockets.append(connection)
            return PipeSession(connection, pipes, self._end) if pipes else Session(connection, connection.makefile("rb", READ_LEN), self._end)

    def _ask_for_pipes(self, connection: socket.socket, failing: contextlib.ExitStack) -> List[int]:
        """The pipes of a connection's session, which `failing` closes. None if they are lost on the way to this process, or the server knows of none."""
        answer, pipes, room = b"", array.array("i"), socket.CMSG_SPACE(2 * array.array("i").itemsize)
        failing.callback(lambda: [os.close(end) for end in pipes])
        try:
            connection.sendall(ASK_FOR_PIPES)
            while not answer.endswith(b"\n"):
                piece, others, _, _ = connection.recvmsg(len(ASK_FOR_PIPES), room, socket.MSG_CMSG_CLOEXEC)
                pipes.frombytes(b"".join(data for _, _, data in others))
                if not piece:
                    raise Ended(self._end)
                answer += piece
        except OSError as fault:
            raise fault if fault.errno is None else Ended(self._end) from None
        if (len(pipes), answer) == (2, ASK_FOR_PIPES) or not pipes and answer in (ASK_FOR_PIPES, b"bad\n"):
            return list(pipes)
        raise Ended(BUSY if answer == b"busy\n" else f"the server answers {answer[:60]!r}")

    def _with_all(self, get: Callable[[], Session], work: Callable[[List[Session]], Value]) -> Value:
        """What a function returns for the sessions that `get` takes: all of them, or those until it raises queue.Empty. They are given back in one step."""
        taken: List[Session] = []
        giving = map(self._free.put, taken)
        try:
            # no loop: from Python 3.12 on, an interrupt at its end would pass by the finally
            with contextlib.suppress(queue.Empty):
                self._take(taken, get, len(self._all))
            return work(taken)
        finally:
            list(giving)

    def _give_back(self, sessions: Sequence[Session]) -> None:
        for session in sessions:
            self._free.put(session)

    def _leave(self) -> None:
        # while another process has copies of them, what the parent closes doesn't end
        with contextlib.suppress(OSError):
            nowhere = os.open(os.devnull, os.O_RDWR)
            for session in self._all:
                session.leave(nowhere)
            os.close(nowhere)
        # here, `close` waits for no thread of the parent
        self._free, self._closing = queue.SimpleQueue(), threading.Lock()
        self._give_back(self._all)

    @staticmethod
    def _take(taken: List[Session], get: Callable[[], Session], count: int = 1) -> None:
        """Takes sessions, and adds them to a list: each in one step, so that no interrupt comes between the two."""
        taken.extend(itertools.starmap(get, itertools.repeat((), count)))

    def _in_turn(self, work: Callable[[Session], Value]) -> Value:
        """What a function returns for a free session, which it waits for. Raises Ended if they can't be used any more, or if this process has inherited them:
        both would read the same answers. The session is given back whenever an interrupt comes: one that comes when a `with` statement calls `__exit__` would
        keep it."""
        if os.getpid() != self._process_id:
            raise Ended("the connection belongs to the process that opened it: after a fork, open another one")
        taken: List[Session] = []
        try:
            self._take(taken, self._free.get)
            if self._fault is not None:
                raise Ended(*self._fault.args)
            return self._work(taken[0], work)
        finally:
            if taken:
                self._fault = self._fault or taken[0].fault
                self._free.put(taken[0])

    @staticmethod
    def _work(session: Session, work: Callable[[Session], Value]) -> Value:
        """What a function returns for a session, which is of no use after anything but a value or a refusal. Raises Ended for a wrong answer."""
        # what is raised isn't what is kept: the frames of its traceback would keep the client
        session.fault = Ended("a command was interrupted")
        try:
            found = work(session)
        except Refused:
            session.fault = None
            raise
        except Ended as fault:
            session.fault = Ended(*fault.args)
            raise
        except (ValueError, TypeError, IndexError) as fault:
            session.fault = Ended(f"the store's answer makes no sense: {fault}")
            raise Ended(*session.fault.args) from None
        except BaseException as fault:
            session.fault = Ended(f"a command was interrupted by {type(fault).__name__}")
            raise
        session.fault = None
        return found
