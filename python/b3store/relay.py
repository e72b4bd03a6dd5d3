"""Connects a client with a session of the store: passes it the session's pipes, if it asks for them, or moves its bytes to them and back."""
import array
import contextlib
import os
import socket
import threading
import time
from typing import Callable

from .client import ASK_FOR_PIPES
from .server_store import Pipes, StoreProcess

BUFFER = 1 << 18
"""The maximum number of bytes that are moved at once."""
SECONDS_BETWEEN_LOOKS, SECONDS_TO_KEEP, SECONDS_BETWEEN_CHECKS = 0.01, 5.0, 0.5
"""How often is looked whether a session has ended; and after how long it is reported that a client keeps its pipes, and looked less often."""


class Connection:
    """A client's connection, and its session."""

    def __init__(self, store: StoreProcess, connection: socket.socket, report: Callable[[str], None]) -> None:
        self.socket, self._store, self._report = connection, store, report
        self._is_cut = False
        self.has_pipes = False
        """Whether the client has the session's pipes: the session lasts until it closes them."""

    def end(self) -> None:
        """Ends the connection. The commands that have arrived are still executed."""
        with contextlib.suppress(OSError):
            self.socket.shutdown(socket.SHUT_RDWR)

    def cut(self) -> None:
        """Ends a session whose pipes the client doesn't have, after the command that is executed."""
        self._is_cut = True

    def serve(self) -> None:
        """Serves the client, until the connection and its session have ended."""
        first = self._first()
        if not first:
            return
        with contextlib.ExitStack() as ending:
            pipes = self._store.open_session()
            ending.callback(self._wait_for_end, pipes)
            if first.startswith(ASK_FOR_PIPES):
                self._pass(pipes)
            else:
                self._relay(pipes, first)
            # the session is the client's now
            while self.has_pipes and self.socket.recv(BUFFER):
                pass

    def _first(self) -> bytes:
        """The first bytes that arrive: enough of them to show whether the client asks for the pipes."""
        first = piece = self.socket.recv(BUFFER)
        while piece and len(first) < len(ASK_FOR_PIPES) and ASK_FOR_PIPES.startswith(first):
            piece = self.socket.recv(BUFFER)
            first += piece
        return first

    def _pass(self, pipes: Pipes) -> None:
        """Passes the client the session's pipes. The server has no more to do with them."""
        self.has_pipes = True
        with pipes.requests, pipes.answers:
            ends = array.array("i", [pipes.requests.fileno(), pipes.answers.fileno()])
            self.socket.sendmsg([ASK_FOR_PIPES], [(socket.SOL_SOCKET, socket.SCM_RIGHTS, ends)])

    def _relay(self, pipes: Pipes, first: bytes) -> None:
        """Moves bytes both ways until the session has ended. When the client has left, what it has sent is still executed."""
        sending, has_left = threading.Thread(target=self._send_requests, args=(pipes, first), daemon=True), False
        with pipes.requests, pipes.answers:
            sending.start()
            for piece in iter(lambda: b"" if self._is_cut else os.read(pipes.answers.fileno(), BUFFER), b""):
                try:
                    if not has_left:
                        self.socket.sendall(piece)
                except OSError:
                    has_left = True
            pipes.answers.close()
            self.end()
            sending.join()

    def _send_requests(self, pipes: Pipes, piece: bytes) -> None:
        """Moves what the client sends to its session, until one of them ends."""
        with contextlib.suppress(OSError), pipes.requests:
            while piece:
                rest = memoryview(piece)
                while rest:
                    rest = rest[os.write(pipes.requests.fileno(), rest) :]
                piece = self.socket.recv(BUFFER)

    def _wait_for_end(self, pipes: Pipes) -> None:
        start, pause = time.monotonic(), SECONDS_BETWEEN_LOOKS
        while not pipes.has_ended():
            time.sleep(pause)
            if self.has_pipes and pause < SECONDS_BETWEEN_CHECKS and time.monotonic() > start + SECONDS_TO_KEEP:
                pause = SECONDS_BETWEEN_CHECKS
                self._report("a client keeps the pipes of a connection that has ended: its session lasts until it closes them")
