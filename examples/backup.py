#!/usr/bin/env python3
"""Backs up folders into a repository, from which each of their snapshots can be restored.

    backup.py save [--exclude PATTERN].. [--all] REPOSITORY FOLDER    save what is in FOLDER, and print the snapshot's address
    backup.py list REPOSITORY [SNAPSHOT]                              list the snapshots, or the paths of one
    backup.py restore REPOSITORY SNAPSHOT FOLDER [PATH]               restore a snapshot, or one path of it, into FOLDER
    backup.py check [--program PROGRAM] REPOSITORY                    hash all objects again, and print what can't be restored
    backup.py forget REPOSITORY [SNAPSHOT]..                          remove snapshots, and what no other one needs

A SNAPSHOT is an address, its first digits, or `latest`. A PATTERN is for names, as `*.o`, or, with a slash, for paths below FOLDER, as `build/*`.

A repository is a folder. Its files NUMBER.log are logs that redo a store (docs/PROTOCOL.md): `b3store serve < 000001.log` files their objects.
An object is a part of a file, of 1 MiB, the list of what is in a folder, or a snapshot; the last two are JSON. The file `snapshots` has the
addresses of the snapshots. A file that has changed adds the parts that are new: all of them, if bytes are put in front of it. A part that is
there already is compared, and added again if that is damaged.

Files, folders, links and hard links are saved, with mode, owner, group and time. Parts of zeros become holes. Extended attributes are not saved,
which is reported. If there is an access list, the mode is saved without the bits of the group and of others, and the status is 1. Pipes, devices
and sockets are reported and left out. A file isn't read again if its number, length and times are those of the last snapshot of FOLDER; with
--all it is.

`restore` writes each file under another name first, leaves alone what was there before, and reports what differs: after an interrupt it can be
run again. No link in FOLDER is followed. A new folder has the mode 1700 until it is complete.

While a save or a forget uses a repository, no other command does. A save that is killed changes no snapshot. `check` gives each log to the
program b3store, which needs as much memory: 64 MiB, or one object. Each command takes about 250 bytes of memory for each object, and a save
about 1,000 more for each file of the last snapshot, and for each new object until its log is written.
"""
import os
import sys

sys.path.insert(0, os.path.join(os.path.dirname(os.path.dirname(os.path.realpath(__file__))), "python"))
from b3store.programs import end_at_once

if __name__ == "__main__":
    end_at_once()

import argparse
import collections
import contextlib
import fnmatch
import itertools
import json
import re
import stat
import subprocess
import time

from b3store import MAX_LIMIT, Store, StoreError
from b3store.console import count_text, error_text, finish, one_line
from b3store.files import create_anew, lock_folder, opener_in

try:
    from b3store.hashing import blake3
except ImportError as error:
    sys.exit(f"b3store: {error}")

PART, MAX_LOG_LEN, MAX_LINE, MAX_DEPTH, MAX_TIME, NEW_FOLDER = 1 << 20, 1 << 26, 128, 400, 1 << 36, 0o1700
LINE = re.compile(rb"(?:tenant [0-9]{1,20}|fileas 0 ([0-9a-f]{64}) ([0-9]{1,14}))\n")
FILED = re.compile(rb"(?:new|known) ([0-9a-f]{64}) [0-9]{1,14}\n")
LOG, SNAPSHOTS, NEW, TENANT = re.compile("[0-9]{6,}[.]log"), "snapshots", "new", 0
KINDS = {stat.S_IFREG: "file", stat.S_IFDIR: "folder", stat.S_IFLNK: "link"}
FAULTS = OSError, StoreError, LookupError, ArithmeticError, TypeError, ValueError
"""What a restore raises, also for values that no save has made."""
CLOCK_STEP = 10**9
"""For so many nanoseconds after a change, another one may leave a file's time as it is."""


class Repository:
    """The logs and snapshots of a folder, which is locked until the process ends."""

    def __init__(self, path, is_shared=False):
        """Opens a repository, and reads where its objects are. Raises OSError, and FolderInUse if another command has it locked."""
        self.path, self.folder, self.status = path, lock_folder(path, is_shared=is_shared), 0
        self.logs, self.places = {}, {}
        """The length of each log; and the log, the offset and the length of each object."""
        self.store, self.new, self.kept = None, [], set()
        """The store of new objects that are in no log; the lengths of all new ones; and the addresses that need no comparison any more."""
        for name in sorted(filter(LOG.fullmatch, os.listdir(self.folder)), key=lambda name: int(name[:-4])):
            self.read_log(name)
        self.snapshots = []
        with contextlib.suppress(FileNotFoundError), opened(SNAPSHOTS, folder=self.folder) as file:
            # a damaged line is an address whose object is missing
            self.snapshots = [line.decode("latin-1").strip("\n") for line in file]

    def report(self, text, status=1):
        """Prints what wasn't done, or isn't as it should be."""
        print(one_line(text), flush=True)
        self.status = max(self.status, status)

    def read_log(self, name):
        """Notes where the objects of a log are."""
        with opened(name, folder=self.folder) as file:
            self.logs[name], at = os.fstat(file.fileno()).st_size, 0
            while at < self.logs[name]:
                file.seek(at)
                line = file.readline(MAX_LINE)
                found, start = LINE.fullmatch(line), at + len(line)
                at = start + int(found[2] or 0) if found else self.logs[name] + 1
                if at > self.logs[name]:
                    self.report(f"{self.path}/{name} is damaged: it has no more objects from byte {start - len(line)} on")
                elif found[1]:
                    self.places[found[1].decode()] = name, start, at - start

    def find(self, word):
        """The address of the snapshot that a word of the command line names."""
        found = self.snapshots[-1:] if word == "latest" else sorted({address for address in self.snapshots if word and address.startswith(word)})
        if len(found) != 1:
            raise StoreError(f"{self.path} has {'several snapshots' if found else 'no snapshot'} {word}")
        return found[0]

    def read(self, address):
        """The content of an object. Raises StoreError if the repository doesn't have it any more."""
        if address not in self.places:
            raise StoreError(f"object {address} is missing")
        name, offset, length = self.places[address]
        with opened(name, folder=self.folder) as file:
            file.seek(offset)
            content = file.read(length)
        if blake3(content).hexdigest() != address:
            raise StoreError(f"object {address} in {name} is damaged")
        return content

    def value(self, address, is_right):
        """The value of an object in JSON. Raises StoreError if it isn't what a save has made."""
        with contextlib.suppress(LookupError, TypeError, ValueError, RecursionError):
            value = json.loads(self.read(address))
            if is_right(value):
                return value
        raise StoreError(f"object {address} is no list or snapshot")

    def snapshot(self, address):
        """The value of a snapshot: its time, the path of the folder, and the entry of the folder."""
        return self.value(address, lambda value: abs(value["time"]) < MAX_TIME and os.fsencode(value["path"]) and is_entry(value["top"], "folder"))

    def entries(self, folder):
        """The entries of what is in a folder, which is given by its own entry."""
        return self.value(folder.get("list"), lambda value: type(value) is list and all(is_entry(entry, entry["kind"]) for entry in value))

    def paths(self, address, seen=()):
        """Yields the path and the entry of all that a snapshot has, its top first, except of what is in lists that were seen."""
        waiting = [("", self.snapshot(address)["top"])]
        while waiting:
            path, entry = waiting.pop()
            yield path, entry
            if entry["kind"] == "folder" and entry.get("list") not in seen:
                waiting += [(os.path.join(path, below["name"]), below) for below in reversed(self.entries(entry))]

    def keep_value(self, value):
        return self.keep(json.dumps(value, separators=(",", ":")).encode())

    def keep(self, content):
        """Keeps content unless it is there, and returns its address."""
        address = blake3(content).hexdigest()
        if address not in self.kept:
            try:
                self.read(address)
            except (OSError, StoreError):
                self.add(content)
            self.kept.add(address)
        return address

    def add(self, content):
        """Adds content to the store of new objects. Raises StoreError if that can't be written: an OSError would be one of the file that is saved."""
        if self.store is None:
            self.store = Store()
            self.store.tenant(MAX_LIMIT)
        self.store.file(TENANT, content)
        self.new.append(len(content))
        try:
            if self.store.stat().bytes >= MAX_LOG_LEN:
                self.write_log()
        except OSError as error:
            raise StoreError(f"cannot write to {self.path}: {error_text(error)}") from None

    def write_log(self):
        """Writes what redoes the store of new objects to a new log, which gets its name when it is complete."""
        if self.store is not None:
            name, at = f"{int(['0.log', *self.logs][-1][:-4]) + 1:06}.log", 0
            with self.replacing(name) as file:
                while at < self.store.counts().entries:
                    at, lines = self.store.redo(at)
                    file.write(lines)
            self.read_log(name)
            self.store = self.store.close()

    def set_snapshots(self, addresses):
        self.write_log()
        with self.replacing(SNAPSHOTS) as file:
            file.write("".join(f"{address}\n" for address in addresses).encode("latin-1"))

    @contextlib.contextmanager
    def replacing(self, name):
        """A new file, which gets a name in the repository when it is complete and synced."""
        with create_anew(self.folder, NEW) as file:
            yield file
            file.flush()
            os.fsync(file.fileno())
        os.rename(NEW, name, src_dir_fd=self.folder, dst_dir_fd=self.folder)
        os.fsync(self.folder)


def is_entry(entry, kind):
    """Whether a value is an entry of this kind, whose name leads nowhere else. May raise what a value of another type raises."""
    name, parts = os.fsencode(entry["name"]), entry.get("parts", None if kind == "file" else [])
    is_right = entry["kind"] == kind and kind in KINDS.values() and type(parts) is list and {*map(type, [*parts, entry.get("list", "")])} <= {str}
    return is_right and name not in (b"", b".", b"..") and not {*b"/\0"}.intersection(name)


@contextlib.contextmanager
def inside(name, path=""):
    """Lets the process work in a folder, of which it gives a descriptor, and then where it was before. The folder is no link, unless it has no path in a
    snapshot. Raises OSError."""
    if path.count("/") >= MAX_DEPTH:
        raise OSError("the folders are nested too deeply")
    flags = os.O_RDONLY | os.O_DIRECTORY | (os.O_NOFOLLOW if path else 0)
    with contextlib.ExitStack() as ending:
        numbers = []
        for path, how in (".", os.O_PATH), (name, flags):
            numbers.append(os.open(path, how))
            ending.callback(os.close, numbers[-1])
        ending.callback(os.fchdir, numbers[0])
        os.fchdir(numbers[1])
        yield numbers[1]


def opened(name, mode="rb", folder=None):
    """Opens a file of a folder, by default of the current one. No link is followed, and no pipe is waited for."""
    return open(name, mode, opener=opener_in(folder))


def state_of(file):
    """What another content of an open file would change, if it isn't written too soon after this one."""
    status = os.fstat(file.fileno())
    return status.st_ino, status.st_ctime_ns, status.st_mtime_ns, status.st_size


def parts_of(file, size):
    """The parts of an open file, up to its end or that of the size."""
    return itertools.takewhile(len, (os.pread(file.fileno(), min(PART, size - at), at) for at in range(0, size, PART)))


class Backup(Repository):
    """A repository, and a folder that is saved or restored by functions of this class, which work in the current folder."""

    def __init__(self, options):
        super().__init__(options.repository, is_shared=options.work not in (Backup.save, Backup.forget))
        self.options, self.start, self.known, self.counts, self.unsaved = options, time.time_ns(), {}, collections.Counter(), []
        """The parts of files, by their states, in the last snapshot; how many entries of each kind were saved; and the paths with attributes that weren't."""
        self.top, self.foreign, self.linked = None, 0, {}
        """The descriptor of the folder to restore into; how many owners couldn't be set; and the path and status of the first name of each file that has several."""

    def save(self):
        place = os.path.abspath(self.options.folder)
        for address in reversed(self.snapshots):
            with contextlib.suppress(StoreError, LookupError, TypeError):
                if not self.known and self.snapshot(address)["path"] == place and not self.options.all:
                    self.known.update((tuple(entry["state"]), entry["parts"]) for _, entry in self.paths(address) if "state" in entry)
        with inside(self.options.folder) as number:
            if os.path.samestat(os.fstat(number), os.fstat(self.folder)):
                raise StoreError(f"{self.options.folder} is the repository")
            top = {**self.facts("top", "folder", number, "."), "list": self.save_list("")}
        address = self.keep_value({"time": time.time(), "path": place, "top": top})
        self.set_snapshots([*self.snapshots, address])
        if self.unsaved:
            self.report(f"not saved: the extended attributes of {count_text(len(self.unsaved), 'path')}, as of {self.unsaved[0]}", 0)
        print(", ".join(count_text(self.counts[kind], kind) for kind in KINDS.values()))
        print(f"{count_text(len(self.new), 'new object')}, {count_text(sum(self.new), 'byte')}\nsnapshot {address}")

    def save_list(self, path):
        """Keeps the list of what is in the current folder, and returns its address."""
        found = []
        for name in sorted(os.listdir(".")):
            below = os.path.join(path, name)
            if not any(fnmatch.fnmatchcase(below if "/" in pattern else name, pattern) for pattern in self.options.exclude):
                try:
                    found += self.save_entry(name, below)
                except OSError as error:
                    self.report(f"left out: {below}: {error_text(error)}")
        self.counts.update(entry["kind"] for entry in found)
        return self.keep_value(found)

    def save_entry(self, name, path):
        """The entry of a name in the current folder, in a list; or an empty list for what isn't saved. Raises OSError."""
        status = os.lstat(name)
        kind = KINDS.get(stat.S_IFMT(status.st_mode))
        if kind is None or os.path.samestat(status, os.fstat(self.folder)):
            self.report(f"left out: {path}: it is {'the repository' if kind else 'a pipe, a device or a socket'}", 0 if kind else 1)
            return []
        if kind == "link":
            return [{**self.facts(name, kind, name, path), "target": os.readlink(name)}]
        if kind == "folder":
            with inside(name, path) as number:
                return [{**self.facts(name, kind, number, path), "list": self.save_list(path)}]
        with opened(name) as file:
            return [{**self.facts(name, kind, file.fileno(), path), **self.save_parts(file, path)}]

    def facts(self, name, kind, place, path):
        """The fields that all entries have, of what is open, or of a link. Notes attributes that aren't saved. Without its access list, the mode may give no one
        more."""
        how, names = {"follow_symlinks": kind != "link"}, set()
        status = os.stat(place, **how)
        with contextlib.suppress(OSError):
            names = {*os.listxattr(place, **how)} - {"security.selinux"}
        self.unsaved += [path] if names else []
        mode = stat.S_IMODE(status.st_mode)
        if "system.posix_acl_access" in names:
            self.report(f"saved without its access list: {path}")
            mode &= ~0o77
        return {"name": name, "kind": kind, "mode": mode, "uid": status.st_uid, "gid": status.st_gid, "mtime": status.st_mtime_ns, "size": status.st_size}

    def save_parts(self, file, path):
        """Keeps the content of an open file. Returns the fields that say what it is."""
        status, state = os.fstat(file.fileno()), state_of(file)
        fields = {"links": f"{status.st_dev}:{status.st_ino}"} if status.st_nlink > 1 else {}
        if state in self.known and self.places.keys() >= set(self.known[state]):
            return {**fields, "state": state, "parts": self.known[state]}
        fields.update(parts=[], size=0)
        for part in parts_of(file, status.st_size):
            fields["parts"].append(self.keep(part))
            fields["size"] += len(part)
        if state_of(file) != state or fields["size"] < status.st_size:
            self.report(f"changed while it was read: {path}")
        elif status.st_ctime_ns <= self.start - CLOCK_STEP:
            fields["state"] = state
        return fields

    def restore(self):
        top = self.snapshot(self.find(self.options.snapshot))["top"]
        os.makedirs(os.path.dirname(os.path.abspath(self.options.folder)), exist_ok=True)
        with contextlib.suppress(FileExistsError):
            os.mkdir(self.options.folder, NEW_FOLDER)
        with inside(self.options.folder) as self.top:
            try:
                self.restore_list(self.top, top, "", [name for name in (self.options.path or "").split("/") if name])
            except FAULTS as error:
                self.report(f"not restored: {self.options.folder}: {error_text(error)}")
        if self.foreign:
            self.report(f"{count_text(self.foreign, 'owner')} couldn't be set; no setuid or setgid bits are set there")

    def restore_list(self, number, folder, path, wanted):
        """Restores what is in a folder, or what has the wanted names below it, into the current one, of which a descriptor is given."""
        found = [entry for entry in self.entries(folder) if not wanted or entry["name"] == wanted[0] and (not wanted[1:] or entry["kind"] == "folder")]
        if wanted and not found:
            self.report(f"not in the snapshot: {os.path.join(path, *wanted)}")
        for entry in found:
            below = os.path.join(path, entry["name"])
            try:
                self.restore_entry(entry, below, wanted[1:])
            except FAULTS as error:
                self.report(f"not restored: {below}: {error_text(error)}")
        status = os.fstat(number)
        # a folder that was there keeps its own mode, owner and time
        if stat.S_IMODE(status.st_mode) == NEW_FOLDER and status.st_uid == os.geteuid():
            self.set_facts(number, folder)

    def restore_entry(self, entry, path, wanted):
        """Restores an entry into the current folder, unless it is there. Raises OSError, StoreError, and what values that no save has made raise."""
        name = entry["name"]
        if entry["kind"] == "folder":
            with contextlib.suppress(FileExistsError):
                os.mkdir(name, NEW_FOLDER)
            with inside(name, path) as number:
                return self.restore_list(number, entry, path, wanted)
        if os.path.lexists(name) and not is_equal(entry):
            return self.report(f"differs, and is left as it is: {path}")
        if not os.path.lexists(name) and not self.is_linked(entry):
            self.write(entry)
        if "links" in entry:
            self.linked.setdefault(entry["links"], (path, os.lstat(name)))

    def is_linked(self, entry):
        """Whether a file could become another name of the one that was restored first."""
        with contextlib.suppress(LookupError, OSError):
            path, status = self.linked[entry["links"]]
            os.link(path, entry["name"], src_dir_fd=self.top, follow_symlinks=False)
            if os.path.samestat(os.lstat(entry["name"]), status):
                return True
            os.unlink(entry["name"])
        return False

    def write(self, entry):
        """Writes a new file or link, first under another name. Raises OSError, and what `read` and values that no save has made raise."""
        aside = f".{blake3(os.fsencode(entry['name'])).hexdigest()[:16]}.restoring"
        with contextlib.suppress(FileNotFoundError):
            # an interrupted run has left it
            os.unlink(aside)
        try:
            if entry["kind"] == "link":
                os.symlink(entry["target"], aside)
                self.set_facts(aside, entry, follow_symlinks=False)
            else:
                self.write_parts(aside, entry)
            os.rename(aside, entry["name"])
        finally:
            with contextlib.suppress(FileNotFoundError):
                os.unlink(aside)

    def write_parts(self, name, entry):
        with opened(name, "xb") as file:
            for content in map(self.read, entry["parts"]):
                if content.strip(b"\0"):
                    file.write(content)
                else:
                    file.seek(len(content), os.SEEK_CUR)
            if file.tell() != entry["size"]:
                raise StoreError(f"its parts don't have {count_text(entry['size'], 'byte')}")
            file.truncate()
            self.set_facts(file.fileno(), entry)

    def set_facts(self, place, entry, **how):
        """Gives a file, folder or link its owner, mode and time."""
        mode = entry["mode"]
        try:
            os.chown(place, entry["uid"], entry["gid"], **how)
        except OSError:
            self.foreign += 1
            mode &= ~(stat.S_ISUID | stat.S_ISGID)
        if not how:
            os.chmod(place, mode)
        os.utime(place, ns=(entry["mtime"], entry["mtime"]), **how)

    def list(self):
        if self.options.snapshot is not None:
            for path, _ in itertools.islice(self.paths(self.find(self.options.snapshot)), 1, None):
                print(one_line(path))
            return
        for address in self.snapshots:
            try:
                value = self.snapshot(address)
                print(one_line(f"{address}  {time.strftime('%Y-%m-%d %H:%M:%S', time.gmtime(value['time']))}  {value['path']}"))
            except StoreError as fault:
                self.report(f"{address}  {fault}")

    def check(self):
        count, broken, whole, hashed = len(self.places), 0, set(), {}
        for name in self.logs:
            # the program compares the hash of each object with its address
            with opened(name, folder=self.folder) as log, subprocess.Popen([self.options.program, "serve"], stdin=log, stdout=subprocess.PIPE) as process:
                hashed[name] = {found[1].decode() for found in map(FILED.fullmatch, process.stdout) if found}
            if process.returncode not in (0, 1):
                raise StoreError(f"{self.options.program} ended with status {process.returncode} while it read {name}")
        for address, (name, _, _) in [*self.places.items()]:
            if address not in hashed[name]:
                self.report(f"object {address} in {name} is damaged")
                del self.places[address]
        for address in self.snapshots:
            lists, faults = set(), []
            try:
                for path, entry in self.paths(address, whole):
                    lists.add(entry.get("list"))
                    faults += [path] if set(entry.get("parts", ())) - self.places.keys() else []
            except StoreError as fault:
                faults.append(f"all: {fault}")
            for fault in faults:
                self.report(f"snapshot {address[:8]} can't restore {fault}")
            broken += bool(faults)
            whole |= lists if not faults else set()
        print(f"{count_text(count, 'object')}, {count - len(self.places)} damaged; {count_text(len(self.snapshots), 'snapshot')}, {broken} broken")

    def forget(self):
        if self.status:
            raise StoreError("nothing is removed from a repository that is damaged")
        removed, before = {self.find(word) for word in self.options.snapshot}, sum(self.logs.values())
        kept = [address for address in self.snapshots if address not in removed]
        needed = {*kept}
        for address in kept:
            needed.update(*([entry.get("list"), *entry.get("parts", ())] for _, entry in self.paths(address, needed)))
        # what is needed of the logs that have something else too is written to new ones
        emptied = {name for address, (name, _, _) in self.places.items() if address not in needed}
        for address in [address for address, place in self.places.items() if place[0] in emptied and address in needed]:
            content = self.read(address)
            del self.places[address]
            self.keep(content)
        self.set_snapshots(kept)
        for name in emptied:
            os.unlink(name, dir_fd=self.folder)
            del self.logs[name]
        print(f"{count_text(len(removed), 'snapshot')} removed, {count_text(before - sum(self.logs.values()), 'byte')} freed")


def is_equal(entry):
    """Whether what has the name of an entry in the current folder has its content, or leads to the same. Raises OSError."""
    if KINDS.get(stat.S_IFMT(os.lstat(entry["name"]).st_mode)) != entry["kind"]:
        return False
    if entry["kind"] == "link":
        return os.readlink(entry["name"]) == entry["target"]
    with opened(entry["name"]) as file:
        size = os.fstat(file.fileno()).st_size
        return size == entry["size"] and [blake3(part).hexdigest() for part in parts_of(file, size)] == entry["parts"]


def main():
    parser = argparse.ArgumentParser(description=__doc__, formatter_class=argparse.RawDescriptionHelpFormatter)
    commands = parser.add_subparsers(metavar="COMMAND", required=True)
    for work, words in (Backup.save, "FOLDER"), (Backup.list, "SNAPSHOT?"), (Backup.restore, "SNAPSHOT FOLDER PATH?"), (Backup.check, ""), (Backup.forget, "SNAPSHOT*"):
        command = commands.add_parser(work.__name__)
        command.set_defaults(work=work)
        for word in ["REPOSITORY", *words.split()]:
            name = word.rstrip("?*")
            command.add_argument(name.lower(), metavar=name, nargs=word[len(name) :] or None)
        if work is Backup.save:
            command.add_argument("--exclude", metavar="PATTERN", action="append", default=[])
            command.add_argument("--all", action="store_true")
        if work is Backup.check:
            command.add_argument("--program", metavar="PROGRAM", default="b3store")
    options = parser.parse_args()
    if options.work is Backup.save:
        os.makedirs(options.repository, 0o700, exist_ok=True)
    backup = Backup(options)
    options.work(backup)
    return backup.status


if __name__ == "__main__":
    sys.exit(finish(main))
