"""Backups by examples/backup.py."""
import contextlib
import errno
import fcntl
import io
import json
import os
import random
import re
import resource
import shutil
import stat
import struct
import subprocess
import sys
import tempfile
import time
from unittest import mock

from shared import PROGRAM, SECONDS, TOP, check, readable_by_others
from b3store.hashing import blake3
import backup
from pathlib import Path

BACKUP = [sys.executable, os.path.join(TOP, "examples", "backup.py")]
PART = backup.PART
IS_ROOT = os.geteuid() == 0


def run(*words, **how):
    """The status of a command, its lines, and those of its errors."""
    ran = subprocess.run([*BACKUP, *words], stdout=subprocess.PIPE, stderr=subprocess.PIPE, timeout=SECONDS, **how)
    return ran.returncode, ran.stdout.decode(errors="surrogateescape").splitlines(), ran.stderr.decode(errors="surrogateescape").splitlines()


def run_check(repository):
    return run("check", "--program", PROGRAM, repository)


def is_whole(repository, snapshots):
    """Checks a repository that should have so many snapshots, each of which can be restored."""
    status, lines, errors = run_check(repository)
    check((status, 0), (errors, []), (bool(re.fullmatch(f"[0-9]+ objects?, 0 damaged; {snapshots} snapshots?, 0 broken", lines[-1])), True))


def put(folder, name, content=b"abc", mode=0o644):
    path = os.path.join(folder, name)
    os.makedirs(os.path.dirname(path), exist_ok=True)
    Path(path).write_bytes(content)
    os.chmod(path, mode)
    # a file that has just changed is always read again
    os.utime(path, ns=(5, 1234567890))
    return path


def state_of(folder):
    """What is in a folder, with all that a backup keeps of it."""
    found, first = {}, {}
    for place, folders, names in os.walk(folder):
        for name in folders + names + ["."]:
            path = os.path.normpath(os.path.join(place, name))
            status = os.lstat(path)
            content = os.readlink(path) if stat.S_ISLNK(status.st_mode) else None
            if stat.S_ISREG(status.st_mode):
                content = Path(path).read_bytes()
            links = first.setdefault(status.st_ino, os.path.relpath(path, folder)) if stat.S_ISREG(status.st_mode) else None
            found[os.path.relpath(path, folder)] = status.st_mode, status.st_uid, status.st_gid, status.st_mtime_ns, content, links
    return found


def contents_of(folder):
    """The modes and contents of what is in a folder: one that a second run has completed has another time."""
    return {path: (facts[0], facts[4]) for path, facts in state_of(folder).items()}


@contextlib.contextmanager
def place_of(save=True):
    """The paths of a folder of odd things, of a repository, which has a snapshot of it, and of a folder to restore into."""
    with tempfile.TemporaryDirectory() as place:
        folder, repository, restored = (os.path.join(place, name) for name in ("folder", "repository", "restored"))
        rng = random.Random(1)
        put(folder, "large", rng.randbytes(3 * PART + 5))
        put(folder, "sub/odd\n name", b"x", 0o600)
        put(folder, os.fsdecode(b"sub/\xff\xfe"), b"", 0o4711)
        put(folder, "sub/none", b"", 0o440)
        for number in range(40):
            put(folder, f"many/{number}/file", rng.randbytes(rng.randrange(5000)))
        shutil.copy(os.path.join(folder, "large"), os.path.join(folder, "same"))
        os.link(os.path.join(folder, "large"), os.path.join(folder, "sub", "hard"))
        os.symlink("../large", os.path.join(folder, "sub", "link"))
        os.symlink(os.fsdecode(b"nowhere \xff"), os.path.join(folder, "dangling"))
        os.utime(os.path.join(folder, "dangling"), ns=(5, 77), follow_symlinks=False)
        if IS_ROOT:
            os.chown(os.path.join(folder, "sub", "odd\n name"), 1234, 4321)
            os.chown(os.path.join(folder, "dangling"), 1234, 4321, follow_symlinks=False)
        with open(os.path.join(folder, "sparse"), "wb") as file:
            file.seek(30 * PART)
            file.write(b"end")
            file.truncate(40 * PART + 7)
        os.chmod(os.path.join(folder, "many"), 0o2750)
        os.utime(os.path.join(folder, "many"), ns=(5, 99))
        if save:
            status, lines, errors = run("save", repository, folder)
            if (status, errors) != (0, []):
                raise ValueError(f"save: {status} {lines} {errors}")
        yield folder, repository, restored


def address_in(lines):
    return lines[-1].split()[1]


def new_bytes(lines):
    return int(re.fullmatch("[0-9]+ new objects?, ([0-9]+) bytes?", lines[-2])[1])


def round_trip():
    """It is restored as it was, in a small repository that only its user can read. A second snapshot adds little, and one of a file with six bytes at its end a part."""
    with place_of() as (folder, repository, restored):
        check((readable_by_others(repository), []), (run("restore", repository, "latest", restored), (0, [], [])))
        check((state_of(restored) == state_of(folder), True))
        # the log after this one has a longer number
        os.rename(os.path.join(repository, "000001.log"), os.path.join(repository, "999999.log"))
        blocks = os.stat(os.path.join(restored, "sparse")).st_blocks
        check((blocks <= 4 * PART // 512, True))
        for name, change, most in ("again", b"", 30000), ("at its end", b"abcdef", PART + 30000):
            with open(os.path.join(folder, "large"), "ab") as file:
                file.write(change)
            status, lines, _ = run("save", repository, folder)
            check(((name, status), (name, 0)), (lines[-3], "47 files, 42 folders, 2 links"), (new_bytes(lines) <= most, True))
        listed = run("list", repository)[1]
        check((len(listed), 3), (all(line.endswith("  " + folder) for line in listed), True), (run("list", repository, "latest")[1], sorted_paths(folder)))
        is_whole(repository, 3)


def sorted_paths(folder):
    """The paths in a folder as a list has them."""
    found = []
    for name in sorted(os.listdir(folder)):
        path = os.path.join(folder, name)
        below = sorted_paths(path) if os.path.isdir(path) and not os.path.islink(path) else []
        found += [name.replace("\n", "\\n"), *(os.path.join(name, line) for line in below)]
    return found


def snapshots_by_name():
    """By an address, its first digits, or as the latest one; of all or of one path; without what is excluded."""
    with place_of() as (folder, repository, restored):
        first = run("list", repository)[1][0].split()[0]
        put(folder, "sub/new.o")
        put(folder, "build/x/y")
        second = address_in(run("save", "--exclude", "*.o", "--exclude", "build/*", "--exclude", "large", repository, folder)[1])
        check((run("restore", repository, first[:9], restored)[0], 0), (os.path.exists(os.path.join(restored, "build")), False))
        check((run("list", repository, second)[1], [path for path in sorted_paths(folder) if path not in ("large", "sub/new.o", "build/x", "build/x/y")]))
        for path, wanted in ("sub/link", ["sub", "sub/link"]), ("many/7/", ["many", "many/7", "many/7/file"]), ("same", ["same"]):
            target = os.path.join(restored, "one", path.replace("/", "-"))
            check((run("restore", repository, "latest", target, path), (0, [], [])), (sorted_paths(target), wanted))
        for words, part in ((["restore", repository, "xyz", restored], "no snapshot xyz"), (["list", repository, ""], "no snapshot "), (["forget", repository, "0" * 64], "no snapshot")):
            status, lines, errors = run(*words)
            check((status, 3), (lines, []), (len(errors), 1), (part in errors[0], True))
        for path in "no/such", "large/such":
            check((run("restore", repository, first, restored + "2", path), (1, [f"not in the snapshot: {path}"], [])))
        is_whole(repository, 2)


def resumed_restores():
    """A restore that is killed at any moment leaves no file in part, and the next one does what is missing. What differs is named, and left as it is."""
    with place_of() as (folder, repository, restored):
        rng, wanted = random.Random(3), state_of(folder)
        for number in range(12):
            with subprocess.Popen([*BACKUP, "restore", repository, "latest", restored], stdout=subprocess.DEVNULL) as process:
                time.sleep(0.15 + rng.random() * 0.25)
                process.kill()
            for path, facts in state_of(restored).items() if os.path.isdir(restored) else ():
                if stat.S_ISREG(facts[0]) and ".restoring" not in path and facts[4] != wanted[path][4]:
                    raise AssertionError(f"{path} is there in part")
            if number % 3 == 2:
                check((run("restore", repository, "latest", restored), (0, [], [])), (state_of(restored) == wanted, True))
                shutil.rmtree(restored)
        run("restore", repository, "latest", restored)
        changed = put(restored, "many/3/file", b"mine")
        os.remove(os.path.join(restored, "sub", "link"))
        os.mkdir(os.path.join(restored, "sub", "link"))
        shutil.rmtree(os.path.join(restored, "many", "4"))
        os.symlink("5", os.path.join(restored, "many", "4"))
        os.remove(os.path.join(restored, "same"))
        os.chmod(restored, 0o711)
        status, lines, _ = run("restore", repository, "latest", restored)
        names = ["differs, and is left as it is: many/3/file", "not restored: many/4: not a directory", "differs, and is left as it is: sub/link"]
        check((status, 1), (lines, names), (Path(changed).read_bytes(), b"mine"), (stat.S_IMODE(os.stat(restored).st_mode), 0o711))
        check((state_of(restored)["same"] == wanted["same"], True), (os.listdir(os.path.join(restored, "many", "5")), ["file"]))


def killed_saves():
    """Whenever a save is killed, earlier snapshots are whole, and the next save adds what is missing."""
    with place_of() as (folder, repository, restored):
        rng = random.Random(4)
        for number in range(12):
            for name in range(20):
                put(folder, f"new/{name}", rng.randbytes(100000))
            with subprocess.Popen([*BACKUP, "save", repository, folder], stdout=subprocess.DEVNULL) as process:
                time.sleep(0.15 + rng.random() * 0.2)
                process.kill()
            if number % 4 == 3:
                is_whole(repository, len(run("list", repository)[1]))
        check((run("save", repository, folder)[0], 0), (run("restore", repository, "latest", restored)[0], 0), (state_of(restored) == state_of(folder), True))
        check((set(os.listdir(repository)) - {"snapshots"}, {name for name in os.listdir(repository) if re.fullmatch("[0-9]{6}[.]log", name)}))


def changed_byte(path, offset):
    with open(path, "rb+") as file:
        file.seek(offset)
        byte = file.read(1)
        file.seek(offset)
        file.write(bytes([byte[0] ^ 4]))


def damaged_objects():
    """A damaged object is named, with what it is needed for; all else is restored; and a save of what has it repairs it. So is a damaged line of a log."""
    with place_of() as (folder, repository, restored):
        log = os.path.join(repository, "000001.log")
        content = Path(log).read_bytes()
        offset = content.index(Path(os.path.join(folder, "many/7/file")).read_bytes())
        address = content[: offset - 1].split(b" ")[-2].decode()
        changed_byte(log, offset + 5)
        status, lines, _ = run_check(repository)
        short = run("list", repository)[1][0][:8]
        check((status, 1), (lines[:2], [f"object {address} in 000001.log is damaged", f"snapshot {short} can't restore many/7/file"]), (lines[2].split(", ", 1)[1], "1 damaged; 1 snapshot, 1 broken"))
        status, lines, _ = run("restore", repository, "latest", restored)
        check((status, 1), (lines, [f"not restored: many/7/file: object {address} in 000001.log is damaged"]))
        check((set(state_of(folder)) - set(state_of(restored)), {"many/7/file"}), (run("save", "--all", repository, folder)[0], 0))
        is_whole(repository, 2)
        check((run("restore", repository, short, restored), (0, [], [])), (contents_of(restored) == contents_of(folder), True))
        # a line: what follows it in the log can't be found, until a save adds it again
        changed_byte(log, offset - 1)
        status, lines, errors = run("list", repository)
        check((status, 1), (errors, []), (lines[0].startswith(f"{log} is damaged: it has no more objects from byte "), True), (len(lines), 3))
        check((run("forget", repository, "latest")[0], 3), (run("save", "--all", repository, folder)[0], 1), (run("restore", repository, "latest", restored + "2")[0], 1))
        check((state_of(restored + "2") == state_of(folder), True))


def damaged_snapshots():
    """A damaged line of the snapshots is reported, and kept by a save; nothing is removed meanwhile."""
    with place_of() as (folder, repository, restored):
        run("save", repository, folder)
        path = os.path.join(repository, "snapshots")
        damaged = b"x" + Path(path).read_bytes()[1:]
        Path(path).write_bytes(damaged)
        status, lines, _ = run("list", repository)
        line = damaged.decode().split("\n", 1)[0]
        check((status, 1), (lines[0], f"{line}  object {line} is missing"), (len(lines), 2), (run("forget", repository, "latest")[0], 3))
        check((run("save", repository, folder)[0], 0), (run_check(repository)[0], 1), (run("restore", repository, "latest", restored)[0], 0), (state_of(restored) == state_of(folder), True))
        check((Path(path).read_bytes().startswith(damaged), True))


def hostile_repositories():
    """Whatever a list has, nothing is written outside, no link is followed, and no error is unforeseen."""
    right = {"name": "f", "kind": "file", "mode": 0o644, "uid": os.geteuid(), "gid": os.getegid(), "mtime": 5, "size": 3}
    with tempfile.TemporaryDirectory() as place:
        outside, restored = os.path.join(place, "outside"), os.path.join(place, "restored")
        os.mkdir(outside)
        changes = [{"name": name} for name in ("", ".", "..", "../x", "/x", "a/b", "a\0b", "\ud800", 5, None, ["x"])] + [{"kind": kind} for kind in ("pipe", None, "folder", "link")]
        # of a wrong number it is enough that nothing unforeseen happens
        numbers = [{field: value} for field in ("mode", "uid", "gid", "mtime", "size") for value in (-1 if field != "mtime" else 1 << 63, 1 << 64, 1.5, "5", None, True)]
        changes += [{"parts": parts} for parts in ("abc", [0], [-1], [True], ["abc"], [None], 5, [[]])] + [{"kind": "link", "target": target} for target in ("a\0b", 5, None)]
        whole = [{"top": {"mode": "5"}}, {"top": {"uid": 1 << 64}}, {"snapshot": {"time": 1e300}}, {"snapshot": {"path": "\ud800"}}, {"list": []}, {"kind": "link", "parts": [[]]}]
        for change in [*changes, *numbers, *whole, {"links": []}, {"size": 4}, {"size": 2}, {"parts": [1 << 62], "size": 1 << 62}, {}]:
            repository = os.path.join(place, "repository")
            os.mkdir(repository)
            kept = backup.Repository(repository)
            entry = {**right, "parts": [kept.keep(b"abc")], **change}
            top = {**right, "name": "top", "kind": "folder", "list": kept.keep(json.dumps([entry]).encode()), **change.get("top", {})}
            address = kept.keep(json.dumps({"time": 1.5, "path": "/x", "top": top, **change.get("snapshot", {})}).encode())
            kept.set_snapshots([address])
            os.close(kept.folder)
            more = [["list", repository], ["check", "--program", PROGRAM, repository], ["forget", repository], ["save", repository, restored]]
            for words in ["restore", repository, "latest", restored], ["list", repository, "latest"], *(more if change in whole else []):
                status, lines, errors = run(*words)
                is_bad = bool(change) and "links" not in change and change not in numbers and words[0] == "restore"
                is_bad_end = len(errors) > 1 or any("Traceback" in line for line in errors) or is_bad and status == 0
                check(((change, words[0], status, lines, errors, is_bad_end), (change, words[0], status, lines, errors, False)))
            check(((change, os.listdir(outside)), (change, [])), ((change, sorted({*os.listdir(place), "restored"})), (change, ["outside", "repository", "restored"])))
            shutil.rmtree(repository)
            shutil.rmtree(restored, ignore_errors=True)


def planted_links():
    """A link that someone has put where a file or folder is restored, or where a log is written, is not followed."""
    with place_of() as (folder, repository, restored):
        outside = os.path.join(os.path.dirname(folder), "outside")
        os.mkdir(outside)
        victim = put(outside, "victim", b"victim")
        os.mkdir(restored)
        os.symlink(outside, os.path.join(restored, "many"))
        os.symlink(victim, os.path.join(restored, "large"))
        aside = f".{blake3(b'same').hexdigest()[:16]}.restoring"
        os.symlink(victim, os.path.join(restored, aside))
        os.mkdir(os.path.join(restored, "sub"))
        os.link(victim, os.path.join(restored, "sub", f".{blake3(b'none').hexdigest()[:16]}.restoring"))
        status, lines, _ = run("restore", repository, "latest", restored)
        check((status, 1), (sorted(lines), ["differs, and is left as it is: large", "not restored: many: not a directory"]))
        os.symlink(victim, os.path.join(repository, "new"))
        put(folder, "new", b"new")
        check((run("save", repository, folder)[0], 0), (os.listdir(outside), ["victim"]))
        os.symlink(victim, os.path.join(repository, "000009.log"))
        status, lines, errors = run("list", repository)
        check((status, 3), (len(errors), 1), ("000009.log" in errors[0], True))
        os.remove(os.path.join(repository, "000009.log"))
        os.mkfifo(os.path.join(repository, "000009.log"))
        check((run("list", repository)[0], 0))
        check((Path(victim).read_bytes(), b"victim"), (stat.S_IMODE(os.stat(victim).st_mode), 0o644))


def swapped(module, name, when, change):
    """A function of a module in whose place one calls `change` first, once, if `when` says so of its words."""
    original, done = getattr(module, name), []

    def call(*words, **how):
        if not done and when(*words):
            done.append(True)
            change()
        return original(*words, **how)

    return mock.patch.object(module, name, call)


def in_process(*words):
    """Runs a command in this process. Returns its status and its lines."""
    out = io.StringIO()
    # the lock would be kept until this process ends
    with mock.patch.object(sys, "argv", ["backup.py", *words]), contextlib.redirect_stdout(out), mock.patch.object(fcntl, "flock"):
        status = backup.main()
    return status, out.getvalue().splitlines()


def replaced_while_it_runs():
    """If a link or another file takes the place of a folder or a file while it is saved or restored, nothing is read or written where it leads."""
    with place_of() as (folder, repository, restored):
        outside = os.path.join(os.path.dirname(folder), "outside")
        put(outside, "secret/file", b"secret")

        def put_link(path, target):
            def change():
                os.rename(path, path + ".moved")
                os.symlink(target, path)
            return change

        for name, target in ("many", os.path.join(outside, "secret")), ("sub/odd\n name", os.path.join(outside, "secret", "file")):
            path = os.path.join(folder, name)
            with swapped(os, "open", lambda opened, *_, base=os.path.basename(name), **how: opened == base, put_link(path, target)):
                status, lines = in_process("save", repository, folder)
            check((status, 1), (len([line for line in lines if line.startswith("left out: " + name.replace("\n", "\\n"))]), 1))
            os.unlink(path)
            os.rename(path + ".moved", path)
        check((b"secret" in Path(os.path.join(repository, max(name for name in os.listdir(repository) if name.endswith(".log")))).read_bytes(), False))
        first = run("list", repository)[1][0].split()[0]
        with swapped(os, "open", lambda opened, *_, **how: opened == "many", put_link(os.path.join(restored, "many"), os.path.join(outside, "secret"))):
            status, lines = in_process("restore", repository, first, restored)
        check((status, 1), (lines, ["not restored: many: not a directory"]), (os.listdir(os.path.join(outside, "secret")), ["file"]))


def changing_files():
    """A file that changes while it is read is reported, and read again by the next save; one that has just changed is read again too."""
    with place_of() as (folder, repository, restored):
        path = os.path.join(folder, "large")
        os.utime(path, ns=(7, 7))

        def grow():
            with open(path, "ab") as file:
                file.write(b"more")

        def shrink():
            os.truncate(path, PART)

        for change in grow, shrink:
            with swapped(os, "pread", lambda number, length, at: at == PART and length == PART, change):
                status, lines = in_process("save", "--exclude", "same", repository, folder)
            check((status, 1), (lines[0] in ("changed while it was read: large", "changed while it was read: sub/hard"), True))
            status, lines, _ = run("save", repository, folder)
            check((status, 0), (run("restore", repository, "latest", restored)[0], 0), (state_of(restored) == state_of(folder), True))
            shutil.rmtree(restored)
            put(folder, "large", random.Random(9).randbytes(3 * PART))
        before = os.stat(put(folder, "quick", b"one"))
        in_process("save", repository, folder)
        put(folder, "quick", b"two")
        os.utime(os.path.join(folder, "quick"), ns=(before.st_atime_ns, before.st_mtime_ns))
        run("save", repository, folder)
        run("restore", repository, "latest", restored)
        check((Path(restored, "quick").read_bytes(), b"two"))
        is_whole(repository, len(run("list", repository)[1]))


def access_list(*entries):
    """The bytes of an access list of entries: their kinds, bits and numbers."""
    return struct.pack("<I", 2) + b"".join(struct.pack("<HHI", *entry) for entry in entries)


def attributes():
    """Attributes are not saved, which is reported; without its access list, a file gives no one more."""
    none = (1 << 32) - 1
    value = access_list((1, 6, none), (2, 6, 12345), (4, 0, none), (16, 6, none), (32, 4, none))
    with place_of() as (folder, repository, restored):
        os.setxattr(os.path.join(folder, "same"), "user.note", b"x")
        check((run("save", repository, folder)[0], 0))
        os.setxattr(os.path.join(folder, "large"), "system.posix_acl_access", value)
        status, lines, _ = run("save", repository, folder)
        check((status, 1), (sorted(lines[:2]), ["saved without its access list: large", "saved without its access list: sub/hard"]))
        check((lines[2], "not saved: the extended attributes of 3 paths, as of large"), (run("restore", repository, "latest", restored)[0], 0))
        check((stat.S_IMODE(os.stat(os.path.join(restored, "large")).st_mode), 0o600))


def owners_that_cannot_be_set():
    """Without an owner there is no setuid bit; a pipe and what can't be read are reported and left out."""
    with place_of() as (folder, repository, restored):
        os.mkfifo(os.path.join(folder, "pipe"))
        status, lines, _ = run("save", repository, folder)
        check((status, 1), (lines[0], "left out: pipe: it is a pipe, a device or a socket"))
        with mock.patch.object(os, "chown", side_effect=PermissionError(errno.EPERM, "Operation not permitted")):
            status, lines = in_process("restore", repository, "latest", restored)
        name = os.fsdecode(b"sub/\xff\xfe")
        check((status, 1), (len(lines), 1), (lines[0][2:], " owners couldn't be set; no setuid or setgid bits are set there"), (stat.S_IMODE(os.stat(os.path.join(restored, name)).st_mode), 0o711))
        with mock.patch.object(os, "link", side_effect=PermissionError(errno.EPERM, "Operation not permitted")):
            check((in_process("restore", repository, "latest", restored + "2"), (0, [])))
        check(({path: facts[:5] for path, facts in state_of(restored + "2").items()} == {path: facts[:5] for path, facts in state_of(folder).items() if path != "pipe"}, True))


def forgets():
    """What no other snapshot needs is removed, and all others are whole, whenever that is killed."""
    with place_of() as (folder, repository, restored):
        rng = random.Random(6)
        kept = state_of(folder)
        for number in range(6):
            put(folder, "changing", rng.randbytes(400000))
            put(folder, f"kept{number}", rng.randbytes(1000))
            run("save", repository, folder)
        sizes = [sum(os.path.getsize(os.path.join(repository, name)) for name in os.listdir(repository))]
        names = [line.split()[0] for line in run("list", repository)[1]]
        for name in names[1:4]:
            with subprocess.Popen([*BACKUP, "forget", repository, name], stdout=subprocess.DEVNULL) as process:
                time.sleep(0.15 + rng.random() * 0.1)
                process.kill()
            is_whole(repository, len(run("list", repository)[1]))
        # its log has something that the last snapshot needs
        check((run("forget", repository, names[4])[0], 0))
        is_whole(repository, len(run("list", repository)[1]))
        left = [line.split()[0] for line in run("list", repository)[1]]
        status, lines, _ = run("forget", repository, *[name for name in left if name in names[1:]])
        sizes.append(sum(os.path.getsize(os.path.join(repository, name)) for name in os.listdir(repository)))
        check((status, 0), (run("restore", repository, "latest", restored)[0], 0), (state_of(restored) == kept, True))
        is_whole(repository, 1)
        check((sizes[0] - sizes[1] >= 2300000, True), (run("forget", repository, "latest")[0], 0), (run("list", repository), (0, [], [])))


def full_disks():
    """A save or restore that can't write ends with a line or names what it couldn't do, and changes no earlier snapshot."""
    def limit_files():
        resource.setrlimit(resource.RLIMIT_FSIZE, (2000000, resource.RLIM_INFINITY))

    with place_of() as (folder, repository, restored):
        put(folder, "new", os.urandom(backup.MAX_LOG_LEN + 5000000))
        check((run("save", repository, folder, preexec_fn=limit_files), (3, [], [f"b3store: cannot write to {repository}: file too large"])))
        put(folder, "new", os.urandom(5000000))
        status, lines, errors = run("save", repository, folder, preexec_fn=limit_files)
        check((status, 3), (errors, ["b3store: cannot write: file too large"]))
        is_whole(repository, 1)
        status, lines, _ = run("restore", repository, "latest", restored, preexec_fn=limit_files)
        check((status, 1), ([line for line in lines if not line.endswith(": file too large")], []), (sorted(set(state_of(folder)) - set(state_of(restored))), ["large", "new", "same", "sparse", "sub/hard"]))
        check((run("save", repository, folder)[0], 0), (run("restore", repository, "latest", restored), (0, [], [])), (contents_of(restored) == contents_of(folder), True))


def deep_folders():
    """Folders in folders are saved and restored, up to some depth; deeper ones are reported."""
    with place_of() as (folder, repository, restored):
        before = os.open(".", os.O_RDONLY)
        try:
            os.chdir(folder)
            for number in range(450):
                os.mkdir("d")
                os.chdir("d")
                if number in (395, 449):
                    put(".", "file", b"deep")
        finally:
            os.fchdir(before)
            os.close(before)
        status, lines, errors = run("save", repository, folder)
        check((status, 1), (errors, []), (len(lines), 4), (lines[0][-35:], ": the folders are nested too deeply"))
        status, lines, errors = run("restore", repository, "latest", restored)
        check((status, 0), (lines, []), (errors, []), (os.path.exists(os.path.join(restored, *["d"] * 396, "file")), True))
        is_whole(repository, 2)


def locks():
    """A save keeps other commands out, and a restore lets other restores in."""
    with place_of() as (folder, repository, restored):
        for lock, statuses in (fcntl.LOCK_EX, (3, 3, 3)), (fcntl.LOCK_SH, (3, 0, 0)):
            holding = os.open(repository, os.O_RDONLY)
            fcntl.flock(holding, lock)
            got = run("save", repository, folder), run("restore", repository, "latest", restored), run_check(repository)
            os.close(holding)
            check((tuple(each[0] for each in got), statuses), (got[0][2], [f"b3store: {repository} is in use by another process"]))


def wrong_words():
    """Wrong arguments, folders and programs end a run at once, with one line that has what is wrong."""
    with place_of() as (folder, repository, restored):
        file = os.path.join(folder, "large")
        cases = (
            (["save", repository, restored], 3, restored), (["save", file, folder], 3, file), (["save", repository, file], 3, file), (["save", repository, repository], 3, repository),
            (["check", restored], 3, restored), (["check", "--program", restored, repository], 3, restored),
            (["restore", repository, "latest", file], 3, file), (["save", "", folder], 3, ""), (["restore", repository, "latest", ""], 3, ""),
            (["frob", repository], 2, "'frob'"), (["save", repository], 2, "FOLDER"), ([], 2, "COMMAND"), (["list", repository, "a", "b"], 2, "b"),
        )
        for words, status, part in cases:
            got, lines, errors = run(*words)
            check(((words, got, lines), (words, status, [])), (part in errors[-1] and (status == 2 or len(errors) == 1), True))
        within = os.path.join(folder, "within")
        status, lines, _ = run("save", within, folder)
        check((status, 0), (lines[0], "left out: within: it is the repository"))
        status, lines, errors = run("list", repository, env={**os.environ, "B3STORE_LIBRARY": "/none"})
        check((len(errors), 1), ("/none" in errors[0], True), (status, 1))


CASES = (
    round_trip, snapshots_by_name, resumed_restores, killed_saves, damaged_objects, damaged_snapshots, hostile_repositories, planted_links,
    replaced_while_it_runs, changing_files, attributes, owners_that_cannot_be_set, forgets, full_disks, deep_folders, locks, wrong_words,
)
