"""The command line, `python -m b3store`."""
import os
import resource
import signal
import stat
import subprocess
import sys
import tempfile
import time

from running import Running, environment, listen_to_signals, run, run_python
from shared import ABC, EMPTY, FOUR, SECONDS, TOP, check, wait_until
from served import server_of
from transfers import PART_LEN, content_of
import b3store
from pathlib import Path
from b3store import Client
from b3store.values import half_of_memory



def run_in_shell(line):
    """The same of a line of a shell, in which $0 is Python, without input."""
    return run([], command=["bash", "-c", line, sys.executable])


def puts_and_gets():
    with tempfile.TemporaryDirectory() as place, Running() as server:
        def client(*words, data=b""):
            return run(words, data, B3STORE_SOCKET=server.path)

        odd, large, content = os.path.join(place, "a\\b"), os.path.join(place, "large"), content_of(9 * PART_LEN + 5)
        for path, inside in (odd, b"abc"), (large, content):
            Path(path).write_bytes(inside)
        status, out, err = client("put", odd, large)
        lines = out.decode().splitlines()
        check((status, 0), (err, ""), (lines[0], "\\" + ABC + "  " + odd.replace("\\", "\\\\")), (lines[1][64:], "  " + large))
        address = lines[1][:64]
        check((client("put", "-", data=b"four"), (0, f"{FOUR}  -\n".encode(), "")), (client("put", "-"), (0, f"{EMPTY}  -\n".encode(), "")))
        check((client("get", address) == (0, content, ""), True), (client("get", ABC.upper(), "--range", "1:1"), (0, b"b", "")))
        check((client("get", ABC, "--range", "1:"), (0, b"bc", "")), (client("get", ABC, "--range", "7:5"), (0, b"", "")), (client("get", EMPTY), (0, b"", "")))
        copy = os.path.join(place, "copy")
        check((client("get", address, "-o", copy), (0, b"", "")), (open(copy, "rb").read() == content, True))
        check((client("get", ABC, "--output", copy), (0, b"", "")), (open(copy, "rb").read(), b"abc"), (client("get", ABC, "-o", "/dev/null"), (0, b"", "")), (client("get", ABC, "-o", "-"), (0, b"abc", "")))
        os.chmod(copy, 0o640)
        # only root can give a file to others
        owner = (1234, 5678) if os.geteuid() == 0 else (os.geteuid(), os.getegid())
        os.chown(copy, *owner)
        check((client("get", FOUR, "-o", copy), (0, b"", "")), (stat.S_IMODE(os.stat(copy).st_mode), 0o640))
        check(((os.stat(copy).st_uid, os.stat(copy).st_gid), owner))
        os.remove(copy)
        check((client("get", FOUR, "-o", copy), (0, b"", "")), (stat.S_IMODE(os.stat(copy).st_mode), stat.S_IMODE(os.stat(odd).st_mode)))
        nowhere = os.path.join(place, "none", "copy")
        check((client("get", ABC, "-o", nowhere), (3, b"", f"b3store: {nowhere}: no such file or directory\n")))
        check((client("get", ABC, "-o", ""), (3, b"", "b3store: '': no such file or directory\n")))
        check((client("has", ABC), (0, f"{ABC} 3\n".encode(), "")), (client("has", "0" * 64, ABC), (1, f"{ABC} 3\n".encode(), "")))
        rows = f"{ABC} 3\n{address} {len(content)}\n{FOUR} 4\n{EMPTY} 0\n"
        check((client("ls"), (0, rows.encode(), "")), (client("rm", FOUR, EMPTY), (0, b"", "")), (client("ls", "--tenant", "0"), (0, rows[: -67 - 67].encode(), "")))
        used = len(content) + 3
        check((client("stat"), (0, f"objects 2 bytes {used} uploads 0 held 0 parts 0\n".encode(), "")))
        check((client("tenants"), (0, f"tenant 0 used {used} reserved 0 limit {half_of_memory()}\n".encode(), "")))
        status, out, err = client("journal")
        check((out.splitlines()[0], f"tenant 0 {half_of_memory()}".encode()), (client("journal", "--from", "1", "--count", "2"), (0, b"\n".join(out.splitlines()[1:3]) + b"\n", "")))
        check((run(["--socket", server.path, "has", ABC])[0], 0), (run(["has", "--socket", server.path, ABC])[0], 0), (sorted(os.listdir(place)), ["a\\b", "copy", "large"]))


def tenants_and_limits():
    """Tenants are opened and limited by size, and named before or after the command."""
    with Running() as server:
        socket = ["--socket", server.path]
        for words, status, out, err in (
            (["tenant", "4K"], 0, "0\n", ""), (["tenant", "1000"], 0, "1\n", ""), (["tenant", "64T"], 0, "2\n", ""), (["tenant", "0"], 0, "3\n", ""),
            (["tenant", "65T"], 1, "", "S3"), (["-T", "1", "usage"], 0, "used 0 reserved 0 limit 1000\n", ""), (["usage", "--tenant=1"], 0, "used 0 reserved 0 limit 1000\n", ""),
            (["limit", "-T1", "2M"], 0, "", ""), (["usage", "-T", "1"], 0, f"used 0 reserved 0 limit {2 << 20}\n", ""), (["-T", "0", "usage", "-T", "3"], 0, "used 0 reserved 0 limit 0\n", ""),
            (["-T", "1", "put", __file__], 0, None, ""), (["-T", "1", "limit", "3"], 1, "", "S4"), (["put", "-T", "3", __file__], 1, "", "S6"), (["usage", "-T", "9"], 1, "", "S1"),
            (["-T", "1", "stat"], 2, "", "stat takes no --tenant"), (["stat", "-T", "1"], 2, "", "-T"), (["-T", "x", "ls"], 2, "", "not a number"), (["tenant"], 2, "", "LIMIT"),
            *((["tenant", limit], 2, "", "is not a size") for limit in ("-1", "", "x", "4k", "1.5G", "99999999999999999999", "99999999T", "\u0663", "4K\n")),
            (["--version"], 0, f"b3store-client {b3store.__version__}\n", ""), (["limit", "5T"], 0, "", ""), (["usage"], 0, f"used 0 reserved 0 limit {5 << 40}\n", ""),
        ):
            got = run([*socket, *words])
            check(((words, got[0]), (words, status)), ((words, got[1].decode() if out is not None else None), (words, out)), (err in got[2] and "Traceback" not in got[2], True))
            check((got[2] == "", err == ""))


def reserves_no_more_than_it_reads():
    """What is put from a pipe reserves nothing until it is read, and then its length; with a maximum, that is reserved, and nothing is kept beside the store."""
    with Running() as server, Client(server.path) as store, tempfile.TemporaryDirectory() as place:
        tenant, content = store.tenant(1 << 30), content_of(9 * PART_LEN + 5)
        for words, reserved in ([], 0), (["--max-len", "32M"], 32 << 20):
            command = [sys.executable, "-m", "b3store", "--socket", server.path, "put", *words, "-"]
            with subprocess.Popen(command, stdin=subprocess.PIPE, stdout=subprocess.PIPE, env=environment(TMPDIR=place)) as put:
                put.stdin.write(content[: 8 * PART_LEN])
                put.stdin.flush()
                check((wait_until(lambda: bool(store.uploads(tenant)), SECONDS if reserved else 1), reserved > 0), (store.usage(tenant).reserved, reserved), (os.listdir(place), []))
                put.stdin.write(content[8 * PART_LEN :])
                put.stdin.close()
                address = put.stdout.read().decode()[:64]
            check((put.returncode, 0), (store.fetch(tenant, address) == content, True), (store.usage(tenant).reserved, 0))
        check((run(["--socket", server.path, "put", "--max-len", "2M", "-"], content)[::2], (1, "b3store: -: F4: the part ends past the upload's bound\n")))
        store.limit(tenant, len(content) + 2000)
        check((run(["--socket", server.path, "put", "-"], bytes(3000))[::2], (1, "b3store: -: S6: the tenant has too few bytes left (free 2000)\n")))
        check((run(["--socket", server.path, "put", "--max-len", "1G", "-"], b"abc")[0], 1))
        put_from_a_pipe_that_waits(server)
        check((store.uploads(tenant), []), (len(store.list(tenant)), 1))
        keeps_on_a_full_disk(server, place)


def put_from_a_pipe_that_waits(server):
    """A pipe that is not in blocking mode has no end where it has no bytes yet."""
    reading, writing = os.pipe()
    os.set_blocking(reading, False)
    with os.fdopen(reading, "rb") as source, os.fdopen(writing, "wb", buffering=0) as target:
        target.write(b"the beginning")
        with subprocess.Popen([sys.executable, "-m", "b3store", "--socket", server.path, "put", "-"], stdin=source, stdout=-1, stderr=-1, env=environment()) as put:
            check((put.communicate(), (b"", b"b3store: -: the file has no bytes now: set it to blocking mode\n")), (put.returncode, 1))


def keeps_on_a_full_disk(server, place):
    """What doesn't fit into memory is kept in a file, for which the disk may have no room."""
    def limited():
        resource.setrlimit(resource.RLIMIT_FSIZE, (1 << 20, resource.RLIM_INFINITY))

    ran = run(["--socket", server.path, "put", "-"], bytes((64 << 20) + 1), prepare=limited, TMPDIR=place)
    check((ran, (1, b"", "b3store: -: file too large\n")), (os.listdir(place), []))


def names_of_all_bytes():
    """A line has the bytes of the name that was given, whatever encoding Python is told to write."""
    with tempfile.TemporaryDirectory() as place, Running() as server:
        path = os.path.join(os.fsencode(place), b"\xc3\xa9\xff")
        Path(os.fsdecode(path)).write_bytes(b"abc")
        for encoding in "utf-8", "latin-1", "ascii":
            check((run(["--socket", server.path, "put", path], PYTHONIOENCODING=encoding), (0, ABC.encode() + b"  " + path + b"\n", "")))


def outputs_of_all_kinds():
    """A pipe is written to, and a link is refused: what it leads to stays as it is."""
    with tempfile.TemporaryDirectory() as place, Running() as server:
        run(["--socket", server.path, "put", "-"], b"abc")
        pipe, link, kept = (os.path.join(place, name) for name in ("pipe", "link", "kept"))
        get = ["--socket", server.path, "get", ABC, "-o"]
        os.mkfifo(pipe)
        reader = subprocess.Popen(["timeout", str(SECONDS), "cat", pipe], stdout=subprocess.PIPE)
        check((run([*get, pipe]), (0, b"", "")), (reader.communicate()[0], b"abc"), (run([*get, os.devnull]), (0, b"", "")))
        Path(kept).write_bytes(b"kept")
        for target in kept, pipe, os.devnull, "/dev/stdout", "none", "link":
            os.symlink(target, link)
            check((run([*get, link]), (3, b"", f"b3store: {link}: it is a link: --follow writes to what it leads to, and - to standard output\n")))
            check((os.readlink(link), target))
            os.remove(link)
        check((open(kept, "rb").read(), b"kept"), (run([*get, "/dev/full"])[::2], (3, "b3store: /dev/full: no space left on device\n")))
        os.symlink("kept", link)
        check((run([*get, link, "--follow"]), (0, b"", "")), (os.readlink(link), "kept"), (open(kept, "rb").read(), b"abc"))
        os.remove(link)
        check((sorted(os.listdir(place)), ["kept", "pipe"]), (run([*get, place])[::2], (3, f"b3store: {place}: is a directory\n")))


def says_what_is_wrong():
    """A message of one line, a status, and never a traceback."""
    with tempfile.TemporaryDirectory() as place, Running() as server:
        none, gone = os.path.join(place, "none"), "0" * 64
        socket = ["--socket", server.path]
        cases = (
            (1, "no such file or directory", [*socket, "put", none]), (1, "is a directory", [*socket, "put", place]), (1, "/no\\nsuch: no such file or directory\n", [*socket, "put", place + "/no\nsuch"]), (1, f"b3store: {gone}: S12: ", [*socket, "get", gone]),
            (1, f"b3store: {gone}: S12: ", [*socket, "get", gone, "-o", none]), (1, "S12", [*socket, "rm", gone]), (1, "S1: there is no such tenant", [*socket, "ls", "--tenant", "7"]),
            (1, "S1", [*socket, "put", "-", "--tenant", "7"]), (3, none + ": no such file or directory", ["--socket", none, "ls"]),
            (3, "connection refused", ["--socket", __file__, "ls"]), (2, "B3STORE_SOCKET", ["ls"]), (2, "COMMAND", []), (2, "frob", [*socket, "frob"]),
            (2, "64 hexadecimal digits", [*socket, "get", "abc"]), (2, "64 hexadecimal digits", [*socket, "has", ABC + "\nforget 0 " + ABC]), (2, "FROM:LEN", [*socket, "get", ABC, "--range", "5"]),
            (2, "not a number", [*socket, "get", ABC, "--range", "x:1"]), (2, "not a number", [*socket, "ls", "--tenant", "x"]),
            (2, "localhost:80", ["--tcp", "localhost:80", "ls"]), (2, "required", [*socket, "put"]),
        )
        for status, text, words in cases:
            got, out, err = run(words)
            check(((words[-3:], got, out), (words[-3:], status, b"")), ((text, text in err, "Traceback" in err), (text, True, False)))
        status, out, err = run(["--socket", "", "stat"], B3STORE_SOCKET=server.path)
        check((status, 2), (out, b""), ("no server is named" in err, True))
        check((os.listdir(place), []), (run(["--help"])[0], 0))
        fails_to_write(server, place)


def fails_to_write(server, place):
    """An output that is full, one that is closed by its reader, and a server that ends."""
    large = os.path.join(place, "large")
    Path(large).write_bytes(content_of(4 * PART_LEN))
    address = run(["--socket", server.path, "put", large])[1].decode()[:64]
    for words in ["ls"], ["get", address]:
        status, _, err = run_in_shell(f'"$0" -m b3store --socket {server.path} {" ".join(words)} > /dev/full')
        check((status, 3), (err.endswith(": no space left on device\n"), True), (err.count("\n"), 1))
    check((run_in_shell('"$0" -m b3store --help > /dev/full'), (3, b"", "b3store: cannot write: no space left on device\n")))
    check((run_in_shell(f'"$0" -m b3store --socket {server.path} get {address} | head -c 5 | wc -c'), (0, b"5\n", "")))
    for closing, status, text in (">&-", 3, "standard output is closed\n"), ("<&-", 1, "standard input is closed\n"), ("2>&-", 1, ""):
        found, _, err = run_in_shell(f'"$0" -m b3store --socket {server.path} put - {"none" if closing[0] == "2" else ""} {closing}')
        check((found, status), (err[-len(text) :] if text else err, text))
    with server_of(b"") as path:
        check((run(["--socket", path, "ls"]), (3, b"", f"b3store: {path} has closed the connection\n")))


def ends_on_an_interrupt():
    """Without a traceback, also in the middle of an upload, which is not filed."""
    with Running() as server:
        words = [sys.executable, "-m", "b3store", "--socket", server.path, "put", "-"]
        # a shell's background job ignores interrupts, and so would its children
        with subprocess.Popen(words, stdin=-1, stdout=-1, stderr=-1, env=environment(), preexec_fn=listen_to_signals) as put:
            put.stdin.write(bytes(9 * PART_LEN))
            put.stdin.flush()
            time.sleep(0.3)
            put.send_signal(signal.SIGINT)
            out, err = put.communicate(timeout=SECONDS)
        check((put.returncode, 130), (out, b""), (err, b""), (run(["--socket", server.path, "ls"]), (0, b"", "")))


def ends_while_it_starts():
    """Ctrl-C while modules are imported ends each program without a traceback. A module that each of them imports sends it."""
    programs = [["-m", "b3store"], ["-m", "b3store.server"], ["-m", "b3store.follow"]]
    programs += [["-c", f"from b3store.programs import {name}; {name}()"] for name in ("client", "server")]
    programs += [[os.path.join(TOP, "examples", name + ".py")] for name in ("backup", "cache")]
    for module in ("argparse", *(["typing"] if starts_without("typing") else [])):
        with tempfile.TemporaryDirectory() as place:
            with open(os.path.join(place, module + ".py"), "w", encoding="ascii") as file:
                file.write("import os, signal\nos.kill(os.getpid(), signal.SIGINT)\n")
            for words in programs:
                ran = run_python(*words, prepare=listen_to_signals, PYTHONPATH=f"{place}:{os.path.join(TOP, 'python')}")
                check(((module, words, ran), (module, words, (-signal.SIGINT, b"", ""))))


def starts_without(module):
    """Whether Python runs a module without importing this one itself."""
    return run_python("-c", f"import runpy, sys; sys.exit({module!r} in sys.modules)")[0] == 0


def ends_while_it_ends():
    """A signal while the interpreter ends is no traceback either: an exit handler sends it."""
    for number in signal.SIGTERM, signal.SIGHUP, signal.SIGINT:
        text = f"import atexit, os, sys; from b3store import console, programs; programs.end_at_once(); atexit.register(os.kill, os.getpid(), {int(number)})"
        check((run_text(text + "; sys.exit(console.finish(lambda: print('done') or 0))"), (-number, b"done\n", "")))


def run_text(text):
    """The status, standard output and standard error of a program of Python, which no signal finds ignored."""
    return run_python("-c", text, prepare=listen_to_signals)
