"""Servers and other programs of the package in processes of their own, and connections to them."""
import array
import contextlib
import functools
import os
import shutil
import signal
import socket
import subprocess
import sys
import tempfile

from shared import PROGRAM, TOP, wait_until
from b3store import Client, Store
from talking import SECONDS, Closed, Talk

AS_MODULE = ["-m", "b3store.server"]
RUN_SERVER = "import runpy; runpy.run_module('b3store.server', run_name='__main__', alter_sys=True)"
CLEAN = (0, "", [])
"""The status, the report and the remains of a server that ended as it should."""
SHORTLY = 0.3
"""How long it is made sure that nothing happens."""


class Connection(Talk):
    """A connection to a server, on which lines are sent."""

    def __init__(self, path):
        self.socket = socket.socket(socket.AF_UNIX)
        self.socket.connect(path)
        super().__init__(self.socket.fileno(), self.socket.fileno())

    def __enter__(self):
        return self

    def __exit__(self, *_):
        self.close()

    def close(self):
        self.socket.close()

    def ends(self):
        """Shuts down the sending side, and returns all that is left to read."""
        self.socket.shutdown(socket.SHUT_WR)
        return self.remaining()

    def remaining(self):
        """What is left to read until the connection ends."""
        with contextlib.suppress(Closed, ConnectionResetError):
            while True:
                self.more()
        found, self.rest = bytes(self.rest), bytearray()
        return found


class Piped(Connection):
    """A connection whose lines go through its session's pipes, which are here."""

    def __init__(self, path):
        super().__init__(path)
        self.socket.sendall(b"pipes\n")
        found, others, _, _ = self.socket.recvmsg(100, 100, socket.MSG_CMSG_CLOEXEC)
        assert found == b"pipes\n", found
        self.pipes = self.sending, self.reading = array.array("i", b"".join(data for _, _, data in others))

    def close(self):
        for pipe in self.pipes:
            os.close(pipe)
        super().close()


class Program:
    """A program of the package in a process and a folder of its own, which has a socket, perhaps, and temporary files."""

    def __init__(self):
        self.folder = tempfile.mkdtemp(prefix="b3store-test-")
        self.path, self.temporary = os.path.join(self.folder, "socket"), os.path.join(self.folder, "temporary")
        os.mkdir(self.temporary)
        self.errors = open(os.path.join(self.folder, "errors"), "ab")

    def start(self, words, stdout, **variables):
        """Starts Python with these words. It has the descriptor that the variable PASSED has."""
        self.process = subprocess.Popen(
            [sys.executable, *words], stdin=subprocess.DEVNULL, stdout=stdout, stderr=self.errors, start_new_session=True,
            env=environment(TMPDIR=self.temporary, **variables), pass_fds=[int(variables["PASSED"])] if "PASSED" in variables else [],
        )

    def __enter__(self):
        return self

    def __exit__(self, *_):
        if self.process.poll() is None:
            self.process.kill()
        # this waits, and closes the pipe
        self.process.__exit__(None, None, None)
        self.errors.close()
        shutil.rmtree(self.folder)

    def reported(self):
        """What it has written to standard error."""
        with open(self.errors.name, encoding="utf-8", errors="replace") as errors:
            return errors.read()

    def reports(self, text):
        """Whether it soon has written a text."""
        return wait_until(lambda: text in self.reported())

    def signal(self, number=signal.SIGTERM):
        self.process.send_signal(number)

    def kill(self):
        """Kills it, and waits until it has ended."""
        self.signal(signal.SIGKILL)
        self.status()

    def status(self):
        """The exit status, once it has ended."""
        return self.process.wait(SECONDS)


class Running(Program):
    """A server that runs."""

    def __init__(self, *words, python=AS_MODULE, path=None, **variables):
        super().__init__()
        self.path = path or self.path
        self.start([*python, "--socket", self.path, "--program", PROGRAM, *words], subprocess.PIPE, **variables)
        self.lines = []
        """What it wrote to standard output when it began: up to the line of the socket, or until it has ended."""
        while not any(" listening on " in line for line in self.lines) and self.lines[-1:] != [""]:
            self.lines.append(self.process.stdout.readline().decode())

    def client(self):
        return Connection(self.path)

    def store(self):
        """The process id of the store, which is the only process that it has started."""
        with open(f"/proc/{self.process.pid}/task/{self.process.pid}/children", encoding="ascii") as file:
            return int(file.read())

    def sessions(self):
        """How many sessions of connections the store has."""
        return sum(name.endswith(".in") for folder in os.listdir(self.temporary) for name in os.listdir(os.path.join(self.temporary, folder)))

    def connections(self):
        """How many connections the server has: those that wait, and those whose turn hasn't ended. It has three other sockets."""
        count, at = -3, f"/proc/{self.process.pid}/fd"
        for name in os.listdir(at):
            # one may be closed meanwhile
            with contextlib.suppress(FileNotFoundError):
                count += os.readlink(os.path.join(at, name)).startswith("socket:")
        return count

    def end(self):
        """Ends the server. Returns its status, what it reported, and what it left in its folders."""
        self.signal()
        return self.status(), self.reported(), self.left()

    def left(self):
        return sorted(set(os.listdir(self.folder)) - {"temporary", "errors"}) + os.listdir(self.temporary)


def is_running(process):
    """Whether a process runs. One that has ended may wait for its parent, which need not be this process."""
    with contextlib.suppress(OSError), open(f"/proc/{process}/stat", encoding="ascii", errors="replace") as file:
        return file.read().rpartition(") ")[2][0] not in "ZX"
    return False


def is_listening(path):
    """Whether a socket is listened on. The connection that shows it is closed at once."""
    with socket.socket(socket.AF_UNIX) as probe:
        return probe.connect_ex(path) == 0


def environment(**variables):
    """The environment of a program of the package."""
    return {**os.environ, "PYTHONPATH": os.path.join(TOP, "python"), "PYTHONDONTWRITEBYTECODE": "1", **variables}


def run(words, data=b"", command=(sys.executable, "-m", "b3store"), prepare=None, **variables):
    """The status, standard output and standard error of a run."""
    ran = subprocess.run([*command, *words], input=data, capture_output=True, timeout=5 * SECONDS, env=environment(**variables), preexec_fn=prepare)
    return ran.returncode, ran.stdout, ran.stderr.decode(errors="replace")


def run_python(*words, **how):
    return run(words, command=[sys.executable], **how)


def fails(*words, **variables):
    """The status and the standard error of a server that can't start."""
    return run_python(*AS_MODULE, "--program", PROGRAM, *words, **variables)[::2]


def listen_to_signals():
    """A shell starts what is in its background with SIGINT ignored, and nohup ignores SIGHUP."""
    for number in signal.SIGHUP, signal.SIGINT, signal.SIGTERM:
        signal.signal(number, signal.SIG_DFL)


@contextlib.contextmanager
def client_of_a_server(sessions=1):
    """A client of an empty store."""
    with Running() as server, Client(server.path, sessions=sessions) as store:
        yield store


def over_both(case):
    """A case of a store in this process, and of a client."""

    @functools.wraps(case)
    def run():
        for make in Store, client_of_a_server:
            with make() as store:
                case(store)

    return run
