"""A folder that has a log of a store, from which the store is restored: that of a server (`--save FOLDER`), or one in this process.

The file `log` has lines of a session, as the store gives them for `redo` (docs/PROTOCOL.md): an empty store that runs them has the tenants, their limits, the
objects and their holders. What was changed since the last time is appended and synced. A log of which the store has less than half is written anew to
`log.new`, which then replaces it. The file `clean` is there if the log was finished, and has everything.

The folder must belong to this process's user, and no other user may write to it. Its files are opened by its descriptor, and no link in it is followed."""
import contextlib
import math
import os
import stat
import threading
import time
from typing import BinaryIO, Callable, Optional

from . import TYPE_CHECKING
from .console import count_text, error_text
from .files import FolderInUse, create_anew, lock_folder, opener_in
from .redo import LogError, Tick, lines_of, renew, run_lines
from .commands import Commands
from .values import MAX_REDONE, Counts, Ended, Refused, StoreError

if TYPE_CHECKING:
    from .store import Store

LOG, NEW_LOG, CLEAN = "log", "log.new", "clean"
IGNORED = {NEW_LOG, CLEAN, "lost+found"}
"""Names that a folder without a log may have: what a process that was killed leaves, and what a new file system has."""
COUNTS = (MAX_REDONE, 1 << 6, 1)
"""How many entries are redone at once: fewer if the store has no memory for more."""
LINE_LEN, SYNC_LEN, MIN_REPLACED_LEN = 88, 1 << 28, 1 << 20
"""About how long a line of a log is; how many bytes are written between two syncs; and how long a log has to be to be written anew."""
SECONDS_OF_WRITING, SECONDS_BETWEEN_TRIES = 0.5, 60.0
"""For how long a log is written anew before the old one is extended again; and how long after it couldn't be written anew this is tried again."""
ERRORS = (OSError, StoreError, MemoryError, ValueError)


class SaveError(StoreError):
    """A folder can't be used, or a store can't be saved in it or restored from it."""


class LogFile:
    """A log that is open, and up to which entry of the store it goes."""

    def __init__(self, file: BinaryIO) -> None:
        self.file = file
        self.note(0, 0)

    def note(self, length: int, entry: int) -> None:
        """Notes that so many bytes, which are synced, have what a store has up to an entry."""
        self.length, self.entry = self._synced = length, entry

    def begin(self, length: int, entry: int) -> int:
        """Goes on after bytes that have what a store has up to an entry, and removes others. Returns how many these were."""
        torn = os.fstat(self.file.fileno()).st_size - length
        if torn:
            os.ftruncate(self.file.fileno(), length)
        os.fsync(self.file.fileno())
        self.note(length, entry)
        return torn

    def extend(self, store: Commands, target: int, tick: Tick, end: float = math.inf) -> bool:
        """Appends the lines that redo the entries up to number `target`, and maybe further ones. False if there wasn't enough time. Bytes that belong to no
        answer, as after an error, are removed before."""
        if os.fstat(self.file.fileno()).st_size > self.length:
            os.ftruncate(self.file.fileno(), self.length)
        while self.entry < target and time.monotonic() < end:
            self._append(store, tick)
            if self.length - self._synced[0] >= SYNC_LEN:
                self.sync()
        return self.entry >= target

    def sync(self) -> None:
        """Syncs what was written since the last time. If that fails, it will be written again: the system may have dropped it."""
        if self._synced == (self.length, self.entry):
            return
        try:
            os.fdatasync(self.file.fileno())
        except OSError:
            self.length, self.entry = self._synced
            raise
        self._synced = self.length, self.entry

    def _append(self, store: Commands, tick: Tick) -> None:
        """Appends one answer of the store."""
        end, fault = self.length, None

        def write(piece: memoryview) -> None:
            # all pieces have to be read, as others use the session too
            nonlocal end, fault
            try:
                while fault is None and piece.nbytes:
                    count = os.pwrite(self.file.fileno(), piece, end)
                    piece, end = piece[count:], end + count
            except OSError as error:
                fault = error
            tick()

        for count in COUNTS:
            with contextlib.suppress(*[Refused] * (count > 1)):
                following = store._redo_to(write, self.entry, count)
                break
        if fault is not None:
            raise fault
        if following <= self.entry:
            raise SaveError(f"the store doesn't redo entry {self.entry}")
        self.length, self.entry = end, following


class RedoLog:
    """A folder that is locked until it is closed, and the log in it.

        log = RedoLog("folder", print)
        log.restore(store)
        while is_running:
            log.follow(store)
            time.sleep(1)
        log.finish(store)

    Without a call of `restore`, the log that the folder has is replaced by a new one. `follow`, `finish` and `renew` take turns, if threads call them; other
    threads may use the store meanwhile."""

    def __init__(self, path: str, report: Callable[[str], None], syncs: bool = True) -> None:
        """Opens a folder, which is made if there is none. Raises SaveError, and changes nothing, if another process has it, or if it has other files and no
        log. If `syncs` is false, only `finish` syncs the log, and what is long. `report` is called with a line about what goes wrong later."""
        self._path, self._report, self._syncs = path, report, syncs
        self._lock = threading.Lock()
        self._is_finished = self._is_folder_synced = self._is_restored = self._has_lost = False
        self._new: Optional[LogFile] = None
        self._next_try, self._min_len = -math.inf, MIN_REPLACED_LEN
        """When the log is written anew at the earliest, and how long it must be then."""
        self.fault = self._fault_anew = ""
        """Why the log can't be written, or not anew, as long as it can't: what was reported. Otherwise empty."""
        try:
            with contextlib.ExitStack() as failing:
                self._folder = open_folder(path)
                failing.callback(os.close, self._folder)
                self._open()
                self._ending = failing.pop_all()
        except FolderInUse as error:
            raise SaveError(str(error)) from None
        except (OSError, MemoryError) as error:
            raise SaveError(f"cannot use the folder {path}: {error_text(error)}") from None

    def _open(self) -> None:
        """Opens the log, or makes one. A folder that can't be written to is noticed here."""
        names = set(os.listdir(self._folder))
        if LOG not in names:
            if names - IGNORED:
                raise SaveError(f"{self._path} holds {min(names - IGNORED)!r} and no saved store: name a folder that is empty or doesn't exist")
            create_anew(self._folder, LOG).close()
        found = os.stat(LOG, dir_fd=self._folder, follow_symlinks=False)
        if not stat.S_ISREG(found.st_mode):
            raise SaveError(f"{self._path}/{LOG} is not a file; nothing was changed")
        self._is_clean = CLEAN in names or not found.st_size
        create_anew(self._folder, NEW_LOG).close()
        self._remove(NEW_LOG)
        self._log = LogFile(open(LOG, "r+b", 0, opener=opener_in(self._folder)))

    def restore(self, store: Commands, tick: Tick = lambda: None) -> Optional[str]:
        """Restores the store into a new one, and returns what it has; None if it has nothing. Removes an incomplete line at the log's end, and reports objects
        that are damaged, which aren't restored. Raises SaveError; then nothing in the folder was changed."""
        path = f"{self._path}/{LOG}"
        try:
            with open(LOG, "rb", opener=opener_in(self._folder)) as file:
                length = run_lines(store, file, tick, lambda error: self._report(f"{path}: {error}: this object is damaged, and not restored"))
            counts = store.counts()
            torn, self._is_restored = self._log.begin(length, counts.entries), True
            self._remove(CLEAN)
        except LogError as error:
            advice = "" if "S14" in str(error) else f"; `truncate -s {error.offset}` would keep the lines before it"
            raise SaveError(f"{path}: {error}; nothing was changed{advice}") from None
        except ERRORS as error:
            raise SaveError(f"the store that is saved in {path} can't be restored: {error_text(error)}") from None
        if torn:
            self._report(f"{path} ended within a line: its last {count_text(torn, 'byte')} {'is' if torn == 1 else 'are'} removed")
        return (counts_text(counts) + ("" if self._is_clean else "; the last process was killed")) if counts.tenants else None

    def tenants(self) -> int:
        """Returns how many tenants the log has, up to a line that is wrong."""
        count = 0
        with open(LOG, "rb", opener=opener_in(self._folder)) as file, contextlib.suppress(LogError):
            for line in lines_of(file):
                count += line.text.startswith(b"tenant ")
        return count

    def follow(self, store: Commands) -> bool:
        """Appends what was changed, and writes the log anew for half a second if that pays. What fails is reported once, unless the store has ended. Returns
        whether the log is still being written anew."""
        with self._lock:
            if self._is_finished:
                return False
            try:
                counts = self._append(store, lambda: None)
                if self.fault:
                    self._report(f"the log in {self._path} is written again")
                self.fault = ""
            except Exception as error:  # whatever it is, the store is used further
                self.fault = self._reported(f"the log in {self._path} can't be written: {error_text(error)}", self.fault, error)
                return False
            try:
                if self._new is not None or self._pays(store, counts):
                    self._write_anew(store, counts, lambda: None, time.monotonic() + SECONDS_OF_WRITING)
            except Exception as error:
                self._next_try = time.monotonic() + SECONDS_BETWEEN_TRIES
                self._fault_anew = self._reported(f"the long log in {self._path} can't be written anew: {error_text(error)}", self._fault_anew, error)
            return self._new is not None

    def _reported(self, fault: str, last: str, error: Exception) -> str:
        """Reports a fault, unless it is the last one that was reported, or the store has ended. Returns what was reported last."""
        if fault == last or isinstance(error, Ended):
            return last
        self._report(f"{fault}; it is tried again")
        return fault

    def renew(self, store: "Store") -> "Store":
        """Returns what `renew` makes of a store, and follows that. Raises what these raise. If an object can't be moved back, the log stays as it is."""
        with self._lock:
            self._drop_new()
            self._append(store, lambda: None)
            before = store.stat(), store.tenants()
            # what fails here loses nothing: the old store isn't closed yet
            self._log.begin(self._log.length, self._log.entry)
            try:
                new = renew(store)
            except BaseException:
                self._has_lost = True
                self._has_lost = (store.stat(), store.tenants()) != before
                raise
            self._log.note(self._log.length, new.counts().entries)
            return new

    def finish(self, store: Commands, tick: Tick = lambda: None) -> str:
        """Appends what was changed, syncs the log, and returns what the store has. Later calls of `follow` have no effect. Raises SaveError; then the log can
        be followed again."""
        with self._lock:
            try:
                counts = self._append(store, tick)
                self._drop_new()
                self._log.sync()
                create_anew(self._folder, CLEAN).close()
                self._sync_folder()
            except ERRORS as error:
                with contextlib.suppress(OSError):
                    self._remove(CLEAN)
                raise SaveError(f"the store can't be saved in {self._path}, which has what was saved before: {error_text(error)}") from None
            self._is_finished = True
            return counts_text(counts)

    def close(self) -> None:
        """Unlocks the folder, and saves nothing more. The end of the process does the same. A second call has no effect."""
        with self._lock:
            self._is_finished = True
            self._drop_new()
            self._log.file.close()
            self._ending.close()
            self._folder = -1

    def _append(self, store: Commands, tick: Tick) -> Counts:
        """Appends all that was changed until now, and returns what the store had then. A log that was removed, replaced or truncated, or that wasn't restored,
        is written anew."""
        counts = store.counts()
        if self._has_lost:
            raise SaveError("the store lost objects, which the log keeps, when it was to be renewed")
        if not (self._is_restored and self._is_in_place()):
            self._drop_new()
            self._write_anew(store, counts, tick)
        if not self._is_folder_synced:
            self._sync_folder()
        try:
            self._log.extend(store, counts.entries, tick)
        finally:
            if self._syncs:
                self._log.sync()
        return counts

    def _remove(self, name: str) -> None:
        with contextlib.suppress(FileNotFoundError):
            os.unlink(name, dir_fd=self._folder)

    def _is_in_place(self) -> bool:
        """Whether the log is still the one that was opened."""
        with contextlib.suppress(OSError):
            found = os.stat(LOG, dir_fd=self._folder, follow_symlinks=False)
            return os.path.samestat(found, os.fstat(self._log.file.fileno())) and found.st_size >= self._log.length
        return False

    def _pays(self, store: Commands, counts: Counts) -> bool:
        """Whether the log is more than twice as long as a new one would be, if it has a line for each object. Several may hold the same: then it has more."""
        half, lines_len = self._log.length / 2, LINE_LEN * (counts.objects + counts.tenants)
        if time.monotonic() < self._next_try or self._log.length <= self._min_len or half <= counts.bytes + lines_len:
            return False
        return half > sum(usage.used for usage in store.tenants().values()) + lines_len

    def _write_anew(self, store: Commands, counts: Counts, tick: Tick, end: float = math.inf) -> None:
        """Writes a new log until it has all that the store had, and puts it in place of the old one; or writes some of it."""
        try:
            if self._new is None:
                self._new = LogFile(create_anew(self._folder, NEW_LOG))
            if not self._new.extend(store, max(counts.entries, self._log.entry), tick, end):
                return
            self._new.sync()
            self._remove(CLEAN)
            os.replace(NEW_LOG, LOG, src_dir_fd=self._folder, dst_dir_fd=self._folder)
        except BaseException:
            self._drop_new()
            raise
        # one that didn't pay isn't repeated soon
        self._min_len = 2 * self._new.length if end < math.inf and 2 * self._new.length > self._log.length else MIN_REPLACED_LEN
        with self._log.file:
            self._log, self._new, self._fault_anew, self._is_folder_synced, self._is_restored = self._new, None, "", False, True
        self._sync_folder()

    def _sync_folder(self) -> None:
        """Syncs the folder. Until that succeeds, what is appended isn't safe: after a crash of the machine the log before may be back."""
        os.fsync(self._folder)
        self._is_folder_synced = True

    def _drop_new(self) -> None:
        """Removes a log that is being written anew."""
        if self._new is not None:
            self._new.file.close()
            self._new = None
            with contextlib.suppress(OSError):
                self._remove(NEW_LOG)


def counts_text(counts: Counts) -> str:
    return f"{count_text(counts.objects, 'object')} and {count_text(counts.tenants, 'tenant')}"


def open_folder(path: str) -> int:
    """Opens and locks a folder, which is made if there is none. Raises OSError, FolderInUse, and SaveError for one that another user could change: what is
    saved could be replaced."""
    with contextlib.suppress(FileExistsError):
        os.mkdir(path, 0o700)
        with contextlib.ExitStack() as ending:
            above = os.open(os.path.dirname(os.path.abspath(path)), os.O_RDONLY | os.O_DIRECTORY)
            ending.callback(os.close, above)
            os.fsync(above)
    folder = lock_folder(path)
    found = os.fstat(folder)
    is_own = found.st_uid == os.geteuid()
    if is_own and not found.st_mode & (stat.S_IWGRP | stat.S_IWOTH):
        return folder
    os.close(folder)
    raise SaveError(f"{path} can be written to by others: chmod go-w {path}" if is_own else f"{path} belongs to another user: name a folder of your own")
