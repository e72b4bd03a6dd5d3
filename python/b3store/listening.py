"""The sockets that a server listens on: its own, and those that systemd passes; and what it reports to systemd."""
import contextlib
import errno
import os
import socket
import stat
import time
from typing import Callable, List, Optional

from .console import error_text
from .files import FolderInUse, lock_folder
from .values import StoreError

BACKLOG = 1024
SECONDS_TO_LOCK, SECONDS_TO_NOTIFY = 2.0, 1.0
"""How long another server may take to replace a socket, and systemd to take a report."""
MICROSECONDS_MORE, SECONDS_BETWEEN_ASKS = 60_000_000, 5.0
"""How much more time systemd is asked for, and how often."""


class ListenError(StoreError):
    """A socket can't be listened on."""


class Listener:
    """A listening socket."""

    def __init__(self, listening: socket.socket, path: Optional[str] = None) -> None:
        self.socket = listening
        self.name = path or os.fsdecode(listening.getsockname())
        self._path, self._status = path, os.lstat(path) if path else None

    def close(self) -> None:
        """Removes the socket's file if the path still names it, and closes the socket. While it listens, no other server replaces the file."""
        with contextlib.suppress(OSError):
            if self._path and self._status and os.path.samestat(self._status, os.lstat(self._path)):
                os.unlink(self._path)
        self._path = None
        self.socket.close()


def remove_stale(path: str) -> None:
    """Removes a socket that no process listens on. Anything else at the path is an error."""
    try:
        mode = os.lstat(path).st_mode
    except FileNotFoundError:
        return
    if not stat.S_ISSOCK(mode):
        raise ListenError(f"{path} exists and is not a socket")
    with socket.socket(socket.AF_UNIX, socket.SOCK_STREAM) as probe:
        probe.setblocking(False)
        fault = probe.connect_ex(path)
    if fault != errno.ECONNREFUSED:
        raise ListenError(f"{path} is in use: another process listens on it")
    os.unlink(path)


def listen_at(path: str) -> Listener:
    """Listens on a Unix-domain socket that only this user can connect to. Its folder is locked meanwhile, so that only one server at a time replaces a stale
    socket. Other programs lock folders for as long as they run."""
    with contextlib.ExitStack() as ending, contextlib.ExitStack() as failing:
        try:
            ending.callback(os.close, lock_folder(os.path.dirname(path) or ".", SECONDS_TO_LOCK))
            remove_stale(path)
            listening = failing.enter_context(socket.socket(socket.AF_UNIX, socket.SOCK_STREAM))
            ending.callback(os.umask, os.umask(0o177))
            listening.bind(path)
            listening.listen(BACKLOG)
            listener = Listener(listening, path)
        except FolderInUse:
            raise ListenError(f"cannot listen on {path}: its folder is in use by another server or a backup") from None
        except OSError as error:
            raise ListenError(f"cannot listen on {path}: {error_text(error)}") from None
        failing.pop_all()
        return listener


def inherited() -> List[Listener]:
    """The listening sockets that systemd passes to this process, from descriptor 3 on. Programs that it starts don't see them."""
    count, owner = os.environ.pop("LISTEN_FDS", ""), os.environ.pop("LISTEN_PID", "")
    os.environ.pop("LISTEN_FDNAMES", None)
    return [passed(descriptor) for descriptor in range(3, 3 + int(count))] if count and owner == str(os.getpid()) else []


def passed(descriptor: int) -> Listener:
    with contextlib.suppress(OSError):
        os.set_inheritable(descriptor, False)
        listening = socket.socket(fileno=descriptor)
        if (listening.family, listening.type) == (socket.AF_UNIX, socket.SOCK_STREAM) and listening.getsockopt(socket.SOL_SOCKET, socket.SO_ACCEPTCONN):
            return Listener(listening)
    raise ListenError(f"the passed descriptor {descriptor} is not a listening Unix-domain socket")


def notify(state: str) -> None:
    """Reports a state to systemd, if it started the server. What it doesn't take in time is dropped."""
    path = os.environ.get("NOTIFY_SOCKET", "")
    if path[:1] not in ("/", "@"):
        return
    with contextlib.suppress(OSError), socket.socket(socket.AF_UNIX, socket.SOCK_DGRAM) as sender:
        sender.settimeout(SECONDS_TO_NOTIFY)
        sender.sendto(state.encode(), "\0" + path[1:] if path[0] == "@" else path)


def more_time() -> Callable[[], None]:
    """A function that is called while a start or a stop makes progress, and asks systemd for more time, once every few seconds."""
    due = 0.0

    def ask() -> None:
        nonlocal due
        if time.monotonic() >= due:
            notify(f"EXTEND_TIMEOUT_USEC={MICROSECONDS_MORE}")
            due = time.monotonic() + SECONDS_BETWEEN_ASKS

    return ask
