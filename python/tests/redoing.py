"""Lines that redo what a store has done, stores that are renewed, and logs of stores in this process."""
import contextlib
import errno
import io
import itertools
import mmap
import os
import pickle
import tempfile
import typing
from pathlib import Path
from unittest import mock

from running import client_of_a_server, over_both
from shared import ABC, EMPTY, check, raised, refusal
from b3store import LogError, ObjectPage, Redone, RedoLog, Refused, SaveError, Store, Usage, redo_log, renew
from b3store.files import lock_folder

LENGTHS = (0, 1, 1023, 1024, 1 << 14, (1 << 14) + 1, 1 << 20, (1 << 20) + 1, (5 << 20) + 5)
"""Lengths of objects, some of which are sent in parts, or redone alone."""
ABC_LINES = b"tenant 5000\nfileas 0 %s 3\nabcforget 0 %s\nlimit 0 60\n" % (ABC.encode(), EMPTY.encode())


def fill(store):
    """Gives a store tenants, and objects that are shared, forgotten, filed again, and open."""
    for limit in (1 << 30, 1 << 25, 5):
        store.tenant(limit)
    for number, length in enumerate(LENGTHS):
        content = bytes([number]) * length
        address = store.upload(content, number % 2).address
        store.upload(b"%d" % number, 1)
        store.upload(content, 1 - number % 2)
        if number % 3 == 0:
            store.forget(number % 2, address)
    store.upload(bytes([3]) * LENGTHS[3], 1)
    store.limit(2, 6)
    store.begin(0, 50)


def state_of(store):
    """What a store has, but for its open uploads: the limit of each tenant, and its objects in their order."""
    return {tenant: (usage.limit, [(address, store.fetch(tenant, address)) for address in store.list(tenant)]) for tenant, usage in store.tenants().items()}


def without_order(state):
    """The same, in no order: what its first holder has forgotten may be listed later in a copy."""
    return {tenant: (limit, dict(objects)) for tenant, (limit, objects) in state.items()}


def copied(store, target, count):
    """Has another store run the lines for all entries, `count` at a time."""
    at, end = 0, store.counts().entries
    while at < end:
        at, lines = store.redo(at, count)
        target.run_lines(lines)
    return target


@over_both
def redone(store):
    fill(store)
    state = without_order(state_of(store))
    for count in 1, 7, 4096:
        with Store() as other, client_of_a_server() as client:
            check(*((without_order(state_of(copied(store, target, count))) == state, True) for target in (other, client)))
    end = store.counts().entries
    check((store.redo(end), Redone(end, b"")), (store.redo(0, 1), Redone(1, b"tenant %d\n" % (1 << 30))), (store.redo(0, 0), Redone(0, b"")))
    check(*((raised(store.redo, wrong), fault) for wrong, fault in ((-1, ValueError), ("0", TypeError), (1 << 64, ValueError))))


@over_both
def lines_that_are_run(store):
    """They are bytes or a file. An incomplete one at the end isn't run, and neither is what isn't a line of a log."""
    end = len(ABC_LINES)
    check((store.run_lines(ABC_LINES), end), (store.usage(0), Usage(3, 0, 60)), (store.run_lines(b""), 0))
    for lines, whole in (b"fileas 0 %s 3\nab" % ABC.encode(), 0), (b"limit 0 70\nlimit 0 8", 11), (bytearray(b"limit 0 80\nl"), 11), (io.BytesIO(b"limit 0 90\nfo"), 11):
        check((store.run_lines(lines), whole))
    with mmap.mmap(-1, 11) as mapped:
        mapped.write(b"limit 0 95\n")
        check((store.run_lines(mapped), 11), (store.usage(0).limit, 95))
    wrong = (
        (b"limit 0 50\nlimit 1 5\nlimit 0 40\n", 2, 11, "S1"), (b"fileas 0 %s 3\nabclimit 0 2\n" % ABC.encode(), 2, 79, "S4"),
        (b"fileas 0 %s 3\nabdlimit 0 30\n" % ABC.encode(), 1, 0, "S11"), (b"limit 0 50\nlist 0\n", 2, 11, None), (b"limit 0 50\n\nlimit 0 30\n", 2, 11, None),
        (b"limit 0 50\ntenant 99999999999999999999\n", 2, 11, None), (b"limit 0 50\nlimit 0 " + b"1" * 300, 2, 11, None), (b"kept", 1, 0, None),
        (b"tenant 5 \n", 1, 0, None), (b"fileas 0 %s %d\n" % (ABC.encode(), 1 << 50), 1, 0, None), (b"\n", 1, 0, None), (bytes(500), 1, 0, None),
        (b"limit 0 50\nfileas 0 %s 2000000\n%slimit 0 45\n" % (ABC.encode(), bytes(2_000_000)), 2, 11, "S6"),
    )
    for lines, number, offset, name in wrong:
        try:
            store.run_lines(lines)
            raise AssertionError(f"{lines[:50]!r} is run")
        except LogError as fault:
            again = pickle.loads(pickle.dumps(fault))
            check(((again.number, again.offset, again.refusal and again.refusal.number), (number, offset, name)), (str(again), str(fault)))
    check(*((raised(store.run_lines, wrong), TypeError) for wrong in (None, "limit 0 5\n", 5, [b"limit 0 5\n"])))
    check((store.list(0), {ABC: 3}), (store.stat().uploads, 0), (store.counts().tenants, 1))


@over_both
def pages_of_objects(store):
    tenant = store.tenant()
    rows = [(store.file(tenant, b"%d" % number).address, len(str(number))) for number in range(25)]
    for count in 1, 7, 25, 26, 4096:
        at, listed = 0, []
        while True:
            at, page = store.objects(tenant, at, count)
            listed += page
            if len(page) < count:
                break
        check((listed, rows))
    check((store.objects(tenant).objects, rows), (store.objects(tenant, 1 << 40, 5), ObjectPage(1 << 40, [])), (refusal(store.objects, 5), ("S1", None)))
    check((raised(store.objects, "0"), TypeError), (raised(store.objects, 0, -1), ValueError), (raised(store.objects, 0, 0, 1 << 64), ValueError))


def renewed_stores():
    """A renewed store has all that the old one had, in the same order, and a short journal; the old one is closed, unless something fails."""
    store = Store()
    fill(store)
    state, entries = state_of(store), store.counts().entries
    new = renew(store)
    check((state_of(new) == state, True), (new.counts().entries < entries, True), (new.stat().uploads, 0), (raised(store.stat), ValueError))

    class Failing(Store):
        """A store that has no memory once."""

        left = 9

        def upload(self, *given, **named):
            Failing.left -= 1
            if Failing.left == 0:
                raise Refused("S14")
            return super().upload(*given, **named)

    with Failing() as store:
        store.tenant()
        for number in range(5):
            store.upload(bytes([number]) * 20_000, 0)
        before = state_of(store)
        check((refusal(renew, store), ("S14", None)), (without_order(state_of(store)) == without_order(before), True), (store.stat().uploads, 0))
    new.close()


@contextlib.contextmanager
def save_folder():
    """The path of a folder for saves, which isn't made yet."""
    with tempfile.TemporaryDirectory(prefix="b3store-test-") as above:
        yield os.path.join(above, "saved")


class Logged(typing.NamedTuple):
    """A store, the log that follows it, and what was reported."""

    store: Store
    log: RedoLog
    told: list

    def follows(self):
        """What is reported when the log is followed until it has all."""
        before = len(self.told)
        while self.log.follow(self.store):
            pass
        return "\n".join(self.told[before:])


@contextlib.contextmanager
def logged(folder):
    """A store that is restored from a folder, and its log."""
    told = []
    with Store() as store, contextlib.closing(RedoLog(folder, told.append)) as log:
        log.restore(store)
        yield Logged(store, log, told)


def saved_in(folder):
    """What a folder's log restores."""
    with Store() as store, open(f"{folder}/log", "rb") as log:
        store.run_lines(log)
        return state_of(store)


def is_saved(folder, store):
    return saved_in(folder) == state_of(store)


def files_in(folder):
    """The names and bytes in a folder."""
    return {name: Path(folder, name).read_bytes() for name in sorted(os.listdir(folder))}


def file_some(store):
    """Files nine objects of 300,000 bytes, and one that another tenant has, too."""
    for _ in range(2):
        store.tenant(100_000_000)
    store.file(1, b"shared" * 9)
    return [store.file(0, b"%d" % number * 300_000).address for number in range(9)]


def fill_folder(folder):
    with logged(folder) as here:
        file_some(here.store)
        here.log.finish(here.store)


def append_to(path):
    """Appends bytes to a file that are no line of a log."""
    with open(path, "ab") as file:
        file.write(b"another")
    return path


def failing(number):
    """A call that fails with an error of the system."""
    return mock.Mock(side_effect=OSError(number, os.strerror(number)))


def logs_of_stores():
    """A log follows a store, is written anew if the store has less than half of it, also after a restart, follows a renewed store, and restores it."""
    with save_folder() as folder:
        path = f"{folder}/log"
        with logged(folder) as here:
            addresses = file_some(here.store)
            check((here.follows(), ""))
            inode = os.stat(path).st_ino
            here.store.file(0, b"kept")
            check((here.follows(), ""), (os.stat(path).st_ino, inode))
            for address in addresses[:7]:
                here.store.forget(0, address)
            check((here.follows(), ""), (os.stat(path).st_size < 1_400_000, True), (os.listdir(folder), ["log"]))
            entries = here.store.counts().entries
            with here.log.renew(here.store) as new:
                here = here._replace(store=new)
                new.file(0, b"late")
                check((new.counts().entries < entries, True), (here.follows(), ""), (is_saved(folder, new), True))
                check((raised(RedoLog, folder, print), SaveError), (here.log.finish(new), "5 objects and 2 tenants"), (here.log.follow(new), False))
        with open(path, "ab") as file:
            # the second of each two is refused S12
            forget = b"forget 0 %s\n" % addresses[0].encode()
            file.write((b"fileas 0 %s 300000\n%s" % (addresses[0].encode(), b"0" * 300_000) + forget + forget) * 6)
        with logged(folder) as here:
            check((here.follows(), ""), (os.stat(path).st_size < 700_000, True), (is_saved(folder, here.store), True))


def faults_of_logs():
    """If a log can't be written, synced or written anew, that is reported once, and tried again: nothing is lost, also if the system lost what wasn't synced. A
    store that has no memory to redo several entries at once is saved all the same."""
    with save_folder() as folder, logged(folder) as here:
        addresses, path, told = file_some(here.store), f"{folder}/log", f"the log in {folder}"
        redo_to = here.store._redo_to
        with mock.patch.object(here.store, "_redo_to", lambda write, first, count: redo_to(write, first, count) if count == 1 else refuse("S14")):
            check((here.follows(), ""), (is_saved(folder, here.store), True))
        for name, number in ("pwrite", errno.ENOSPC), ("fdatasync", errno.EIO), ("ftruncate", errno.EROFS):
            size = os.stat(path).st_size
            here.store.file(0, name.encode() * 9)
            if name == "ftruncate":
                append_to(path)
            with mock.patch.object(os, name, failing(number)):
                check((here.follows(), f"{told} can't be written: {os.strerror(number).lower()}; it is tried again"), (here.follows(), ""))
            if name == "fdatasync":
                os.truncate(path, size)
                os.truncate(path, size + 999)
            check((here.follows(), f"{told} is written again"), (is_saved(folder, here.store), True))
        for address in addresses[:7]:
            here.store.forget(0, address)
        with mock.patch.object(os, "replace", failing(errno.EIO)), mock.patch.object(redo_log, "SECONDS_BETWEEN_TRIES", 0.0):
            anew = f"the long log in {folder} can't be written anew: input/output error; it is tried again"
            check((here.follows(), anew), (here.follows(), ""), (is_saved(folder, here.store), True))
        check((here.follows(), ""), (os.stat(path).st_size < 1_400_000, True), (os.listdir(folder), ["log"]))
        os.unlink(path)
        with mock.patch.object(os, "fsync", failing(errno.EIO)):
            check((here.follows(), f"{told} can't be written: input/output error; it is tried again"))
        check((here.follows(), f"{told} is written again"), (is_saved(folder, here.store), True))


def refuse(number):
    raise Refused(number)


def renewals_that_fail():
    """A store whose log can't be synced isn't renewed. One that can't be moved is followed further; but what can't be moved back stays in the log, which may be
    closed twice."""
    with save_folder() as folder, logged(folder) as here:
        file_some(here.store)
        check((here.follows(), ""))
        state, upload, told = without_order(state_of(here.store)), Store.upload, []
        with mock.patch.object(os, "fsync", failing(errno.EIO)):
            check((raised(here.log.renew, here.store), OSError), (without_order(state_of(here.store)) == state, True))
        for is_moved in lambda call: call != 2, lambda call: call < 2:
            calls = itertools.count(1)
            with mock.patch.object(Store, "upload", lambda *given, calls=calls, is_moved=is_moved: upload(*given) if is_moved(next(calls)) else refuse("S14")):
                check((refusal(here.log.renew, here.store), ("S14", None)))
            told.append(here.follows())
            check((without_order(saved_in(folder)) == state, True))
        wanted = f"the log in {folder} can't be written: the store lost objects, which the log keeps, when it was to be renewed; it is tried again"
        check((told, ["", wanted]), (raised(here.log.finish, here.store), SaveError), (without_order(saved_in(folder)) == state, True))
        here.log.close()


SMALL = ABC_LINES + b"forget 0 %s\nlimit 0 7\n" % ABC.encode()
ENDS = [0, 12, 91, 165, 176, 250, 260]
"""A small log, and where its lines end."""


def torn_ends():
    """A log that ends at any byte is restored up to its last complete line. The others are removed, which is reported, and what is appended follows."""
    for length in range(len(SMALL) + 1):
        with save_folder() as folder:
            os.mkdir(folder, 0o700)
            path, whole = Path(f"{folder}/log"), max(end for end in ENDS if end <= length)
            path.write_bytes(SMALL[:length])
            with logged(folder) as here:
                told = f"{path} ended within a line: its last {length - whole} byte{'s are' if length - whole > 1 else ' is'} removed"
                check((here.told, [told] if length > whole else []), (path.read_bytes(), SMALL[:whole]))
                here.store.tenant(5)
                check((here.follows(), ""), (path.read_bytes(), SMALL[:whole] + b"tenant 5\n"))
    check((len(SMALL), ENDS[-1]))


def logs_that_are_changed():
    """A log that is removed, replaced or truncated meanwhile is written anew, and no link in its folder is followed; what another program appends is removed."""
    with save_folder() as folder:
        other = append_to(f"{folder}-other")

        def link(*names):
            for name in names:
                os.symlink(other, f"{folder}/{name}")

        os.mkdir(folder, 0o700)
        link("log.new", "clean")
        changes = os.unlink, lambda path: os.rename(append_to(f"{path}-other"), path), lambda path: os.truncate(path, 20), append_to
        with logged(folder) as here:
            file_some(here.store)
            check((here.follows(), ""))
            for change in *changes, lambda path: os.unlink(path) or link("log", "log.new", "clean"):
                change(f"{folder}/log")
                here.store.file(0, b"%d" % len(here.store.list(0)))
                check((here.follows(), ""), (is_saved(folder, here.store), True), (os.listdir(folder), ["log"]))
        check((Path(other).read_bytes(), b"another"))


def damaged(log):
    """Logs in place of one, and what the message says."""
    yield b"<html>\n" * 100, "log: line 1, at byte 0, is no line of a log; nothing was changed; `truncate -s 0`"
    yield log + b"\n", f", at byte {len(log)}, is no line of a log; nothing was changed; `truncate -s {len(log)}`"
    yield log[log.index(b"\n") + 1 :], "log: line 2, at byte 17, is refused: S1: "
    yield log + b"forget 0 " + b"0" * 64 + b"\nlimit 0 1\n", ", is refused: S4: "


def unrestored(folder):
    """Why a folder can't be used or restored."""
    try:
        with logged(folder):
            return ""
    except SaveError as error:
        return str(error)


def damaged_logs():
    """A line that is wrong or refused is named in a message, and nothing in the folder changes; nor if the log can't be read, or there is too little memory."""
    with save_folder() as folder:
        fill_folder(folder)
        path = Path(f"{folder}/log")
        for content, wanted in damaged(path.read_bytes()):
            path.write_bytes(content)
            before = files_in(folder)
            check((wanted in unrestored(folder), True), (files_in(folder), before))
        unread = f"the store that is saved in {path} can't be restored: "
        for error, wanted in (
            (OSError(errno.EIO, os.strerror(errno.EIO)), f"{unread}input/output error"), (MemoryError(), f"{unread}out of memory"),
            (LogError(1, 0, Refused("S14")), f"{path}: line 1, at byte 0, is refused: S14: out of memory; nothing was changed"),
        ):
            with mock.patch.object(redo_log, "run_lines", mock.Mock(side_effect=error)):
                check((unrestored(folder), wanted), (files_in(folder), before))


def damaged_objects():
    """An object that is damaged is reported, and all others are restored."""
    with save_folder() as folder:
        with logged(folder) as here:
            here.store.tenant()
            addresses = [here.store.upload(b"%d" % number * length, 0).address for number, length in enumerate((5, 2_000_000, 5, 70_000))]
            here.follows()
        log = bytearray(Path(f"{folder}/log").read_bytes())
        for at in log.index(b"1" * 9) + 1_500_000, log.index(b"3" * 9) + 9:
            log[at] ^= 1
        Path(f"{folder}/log").write_bytes(log)
        with logged(folder) as here:
            offsets = [log.index(addresses[at].encode()) - len("fileas 0 ") for at in (1, 3)]
            wanted = [f"{folder}/log: line {number}, at byte {offset}, is refused: S11: " for number, offset in zip((3, 5), offsets)]
            check(([*here.store.list(0)], addresses[::2]), ([line[: len(start)] for line, start in zip(here.told, wanted)], wanted))
            check(([line.endswith(": this object is damaged, and not restored") for line in here.told], [True] * 2))


def unusable(folder):
    """Folders that are none for a log, each after it was made, and what is wrong with it."""
    unsaved = "and no saved store: name a folder that is empty or doesn't exist"
    append_to(f"{folder}/notes")
    yield folder, f"{folder} holds 'notes' {unsaved}"
    yield f"{folder}/notes", f"cannot use the folder {folder}/notes: not a directory"
    yield f"{folder}/notes/a", f"cannot use the folder {folder}/notes/a: not a directory"
    yield f"{folder}/none/a", f"cannot use the folder {folder}/none/a: no such file or directory"
    yield f"{folder}" + "/a" * 3000, f"cannot use the folder {folder}{'/a' * 3000}: file name too long"
    for make in os.mkfifo, os.mkdir, lambda path: os.symlink(f"{folder}/notes", path):
        make(f"{folder}/log")
        yield folder, f"{folder}/log is not a file; nothing was changed"
        os.rename(f"{folder}/log", f"{folder}/other-{make}")
    append_to(f"{folder}/log")
    for mode in 0o775, 0o757:
        os.chmod(folder, mode)
        yield folder, f"{folder} can be written to by others: chmod go-w {folder}"
    os.chmod(folder, 0o700)
    if os.geteuid() == 0:
        os.chown(folder, 1234, -1)
        yield folder, f"{folder} belongs to another user: name a folder of your own"
        os.chown(folder, 0, -1)
    locked = lock_folder(folder)
    yield folder, f"{folder} is in use by another process"
    os.close(locked)


def folders_that_are_none():
    """A folder of something else or of others, a file, and a place where none can be made: a message, and nothing changes."""
    with save_folder() as folder:
        os.mkdir(folder, 0o700)
        for path, wanted in unusable(folder):
            before = sorted(os.listdir(folder))
            check((unrestored(path), wanted), (sorted(os.listdir(folder)), before))
