"""Caches by examples/cache.py in processes of their own, and requests to them."""
import errno
import http.client
import os
import re
import signal
import socket
import subprocess
import sys

from shared import SECONDS, TOP, wait_until

SERVER = os.path.join(TOP, "examples", "cache.py")
METRIC = re.compile(r"b3store_cache_(\w+(?:\{[^ ]*\})?) ([0-9]+)")


def altered(**constants):
    """The words of a cache some of whose constants, given as MODULE__NAME, have other values; or a function that is called with the modules before it starts."""
    before = constants.pop("before", "")
    lines = [f"import sys; sys.path[:0] = {[os.path.join(TOP, name) for name in ('examples', 'python')]!r}", "import cache, cache_content"]
    lines += [f"{name.replace('__', '.')} = {value!r}" for name, value in constants.items()]
    return ["-c", "\n".join([*lines, before, "sys.exit(cache.main())"])]


class Asked:
    """A server of HTTP at a port."""

    def ask(self, method, key, body=None, headers=()):
        """The status and the content of an answer."""
        return self.answer(method, key, body, headers)[:2]

    def answer(self, method, key, body=None, headers=()):
        """The status, the content and the headers of an answer."""
        connection = http.client.HTTPConnection("127.0.0.1", self.port, timeout=SECONDS)
        try:
            connection.request(method, key, body, dict(headers), encode_chunked=body is not None and not isinstance(body, bytes))
            answer = connection.getresponse()
            return answer.status, answer.read(), answer.headers
        finally:
            connection.close()


class Cache(Asked):
    """A cache in a process of its own, in a group of its own as a command at a terminal has."""

    def __init__(self, folder, *words, server=(SERVER,), loads=True, **how):
        self.folder, self.path = folder, folder + ".reports"
        with open(self.path, "wb") as reports:
            self.process = subprocess.Popen([sys.executable, *server, folder, "--port", "0", *words], stdout=subprocess.PIPE, stderr=reports, start_new_session=True, **how)
        if not wait_until(lambda: self.process.poll() is not None or self.found("port ([0-9]+)\n" if not loads else "loaded [0-9]+ keys?\n")):
            raise ValueError("the cache doesn't start")
        port = self.found("port ([0-9]+)\n")
        self.port = int(port[1]) if port else None

    def found(self, expression):
        return re.search(f"cache: {expression}", self.text())

    def text(self):
        with open(self.path, encoding="utf-8", errors="surrogateescape") as file:
            return file.read()

    def reports(self):
        """What it has reported beside its start."""
        return [line for line in self.text().splitlines() if not re.fullmatch("cache: (port [0-9]+|loaded [0-9]+ keys?)", line)]

    def __enter__(self):
        return self

    def __exit__(self, *_):
        self.stop(signal.SIGKILL)

    def stop(self, number=signal.SIGTERM):
        """Ends it by a signal, and returns its status, and what it wrote to standard output."""
        if self.process.poll() is None:
            self.process.send_signal(number)
        return self.process.wait(SECONDS), self.process.stdout.read()

    def put(self, key, body, **how):
        return self.ask("PUT", key, body, **how)[0]

    def get(self, key):
        """The content of a key, or the status if there is none."""
        status, content = self.ask("GET", key)
        return content if status == 200 else status

    def raw(self, request, ends=True):
        """What it answers to the bytes of a request, until it closes the connection; by default the client says that it sends no more."""
        with socket.create_connection(("127.0.0.1", self.port), timeout=SECONDS) as connection:
            try:
                connection.sendall(request)
                if ends:
                    connection.shutdown(socket.SHUT_WR)
                return b"".join(iter(lambda: connection.recv(1 << 16), b""))
            except OSError as error:
                if error.errno not in (errno.ECONNRESET, errno.EPIPE, errno.ENOTCONN):
                    raise
                return b""

    def metrics(self):
        """Its counts, by name and labels. Each name has its type before it."""
        lines = self.ask("GET", "/metrics")[1].decode().splitlines()
        values = {found[1]: int(found[2]) for found in map(METRIC.fullmatch, lines) if found}
        typed = {line.split()[2][len("b3store_cache_") :] for line in lines if line.startswith("# TYPE ")}
        if len(values) + len(typed) != len(lines) or {name.partition("{")[0] for name in values} != typed:
            raise ValueError(f"the metrics are {lines}")
        return values


def chunked(*pieces):
    """The body and the headers of a request whose body comes in chunks."""
    return iter(pieces), {"Transfer-Encoding": "chunked"}


def status_of(answer):
    """The status in the bytes of an answer; None if there is none."""
    found = re.match(rb"HTTP/1\.1 ([0-9]{3}) ", answer)
    return int(found[1]) if found else None
