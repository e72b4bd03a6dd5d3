"""A server whose clients come by a door, `b3store serve --at PATH --sessions N`, and the clients' ends of their named pipes."""
import contextlib
import os
import shutil
import subprocess
import tempfile

from judging import wait_until
from talking import SECONDS, NoAnswer, Talk


def knock(at, text):
    """Writes a line to a door, which its server has open."""
    try:
        door = os.open(at, os.O_WRONLY | os.O_NONBLOCK)
    except OSError as fault:
        raise NoAnswer(f"no server has the door open: {fault.strerror}") from None
    try:
        os.write(door, text)
    finally:
        os.close(door)


def is_open(at):
    """Whether a server has a door open."""
    with contextlib.suppress(NoAnswer):
        knock(at, b"")
        return True
    return False


class Session(Talk):
    """A client's end of a session: two named pipes of its own."""

    def __init__(self, at, number, knocks=True):
        self.at, self.number = at, number
        self.paths = [f"{at}.{number}.in", f"{at}.{number}.out"]
        for path in self.paths:
            os.mkfifo(path, 0o600)
        self.opened = [os.open(path, os.O_RDWR) for path in self.paths]
        super().__init__(*self.opened)
        if knocks:
            self.knock()

    def __enter__(self):
        return self

    def __exit__(self, *_):
        self.close()

    def knock(self):
        knock(self.at, b"%d\n" % self.number)

    def close(self):
        """Closes and removes the pipes, once."""
        while self.opened:
            os.close(self.opened.pop())
        for path in self.paths:
            with contextlib.suppress(FileNotFoundError):
                os.remove(path)


class Server(Talk):
    """A server in a process of its own, with its door in a folder of its own. Standard input and output are a session too. It may keep the open uploads of
    sessions that end."""

    def __init__(self, program, sessions, keeps=False, **variables):
        self.folder = tempfile.mkdtemp()
        self.at = os.path.join(self.folder, "door")
        self.numbers = 0
        os.mkfifo(self.at, 0o600)
        self.errors = open(os.path.join(self.folder, "errors"), "ab")
        words = [*program, "serve", "--at", self.at, "--sessions", str(sessions), *["--keep-uploads"] * keeps]
        self.process = subprocess.Popen(
            words, stdin=subprocess.PIPE, stdout=subprocess.PIPE, stderr=self.errors, env={**os.environ, **variables}, **passed(variables)
        )
        super().__init__(self.process.stdin.fileno(), self.process.stdout.fileno())

    def __enter__(self):
        wait_until(lambda: is_open(self.at) or self.process.poll() is not None)
        return self

    def __exit__(self, *_):
        if self.process.poll() is None:
            self.process.kill()
        self.process.wait()
        for file in self.process.stdin, self.process.stdout, self.errors:
            with contextlib.suppress(OSError):
                file.close()
        shutil.rmtree(self.folder)

    def session(self, knocks=True):
        """A new client's session."""
        self.numbers += 1
        return Session(self.at, self.numbers, knocks)

    def reported(self):
        """What the server has written to standard error."""
        with open(self.errors.name, encoding="utf-8", errors="replace") as errors:
            return errors.read()

    def all_uploads(self):
        """The open uploads of each tenant, as that session is answered."""
        return [self.ask(f"uploads {tenant}") for tenant in range(self.ask_number("tenants"))]

    def end(self):
        """Closes standard input, and gives the exit status."""
        self.process.stdin.close()
        return self.process.wait(SECONDS)


def passed(variables):
    """The descriptors that a preloaded library writes to."""
    return {"pass_fds": [int(variables["DISTURBED"])]} if "DISTURBED" in variables else {}
