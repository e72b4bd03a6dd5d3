"""Folders that one process locks, and files in them that no link leads away from."""
import contextlib
import fcntl
import os
import time
from typing import BinaryIO, Callable, Optional

from .values import StoreError


class FolderInUse(StoreError):
    """Another process has locked a folder."""


def lock_folder(path: str, seconds: float = 0, is_shared: bool = False) -> int:
    """Opens a folder, and locks it until the descriptor is closed or the process ends; several may share it. Raises FolderInUse if it stays locked."""
    folder, end = os.open(path, os.O_RDONLY | os.O_DIRECTORY), time.monotonic() + seconds
    with contextlib.ExitStack() as failing:
        failing.callback(os.close, folder)
        while True:
            try:
                fcntl.flock(folder, (fcntl.LOCK_SH if is_shared else fcntl.LOCK_EX) | fcntl.LOCK_NB)
                failing.pop_all()
                return folder
            except BlockingIOError:
                if time.monotonic() >= end:
                    raise FolderInUse(f"{path} is in use by another process") from None
            time.sleep(0.05)


def create_anew(folder: int, name: str) -> BinaryIO:
    """Creates a file in an open folder. What has its name, such as a link or what a killed process has left, is removed, and not written to."""
    with contextlib.suppress(FileNotFoundError):
        os.unlink(name, dir_fd=folder)
    return open(name, "xb", opener=opener_in(folder))


def opener_in(folder: Optional[int]) -> Callable[[str, int], int]:
    """For the argument `opener` of `open`: opens a file of an open folder, or of the current one, by its name. It follows no link, and waits for no pipe."""
    return lambda name, flags: os.open(name, flags | os.O_NOFOLLOW | os.O_NONBLOCK, 0o600, dir_fd=folder)
