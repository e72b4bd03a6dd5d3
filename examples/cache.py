#!/usr/bin/env python3
"""An HTTP cache over a store in this process: GET, HEAD, PUT and DELETE of any key.

    cache.py FOLDER [--host HOST] [--port N] [--limit SIZE] [--max-body SIZE]

A key is the path of a request, byte for byte. Content that several keys have is kept once. When the limit or the memory is reached, the least recently used keys
are evicted.

A PUT is answered when the content is in the store, which is in memory. Each second, what has changed is written to FOLDER and synced: a server that is killed
loses about the last second. A DELETE is synced before it is answered. While FOLDER can't be written to, PUT and DELETE are answered by 503. A server that is
started again answers at once, and loads what FOLDER has: until that is done, each key is a miss, and PUT and DELETE are answered by 503.

Everyone who can reach the port can read and change all keys. The header Host must be an IP address, localhost or a HOST, so that a web page whose own name leads
to this address can't use the cache. A request has a minute to arrive, and another second for each 16 KiB of its body that have arrived; an answer has as long.

`/healthz` answers 200 while PUTs are possible; `/metrics` has counts in the text format of Prometheus.
"""
import os
import sys

sys.path.insert(0, os.path.join(os.path.dirname(os.path.dirname(os.path.realpath(__file__))), "python"))
from b3store.programs import ENDING, end_at_once

if __name__ == "__main__":
    end_at_once()

import argparse
import collections
import contextlib
import ctypes
import email.utils
import functools
import http.server
import re
import resource
import signal
import socket
import socketserver
import tempfile
import threading
import time

from b3store import Refused, StoreError
from b3store import console
from b3store.console import error_text, fault_text, number, open_standard_files, size
from b3store.listening import more_time, notify
from b3store.values import half_of_memory
from cache_content import Cache, Declined

METRICS, HEALTH = "/metrics", "/healthz"
"""The paths that are no keys."""
MAX_KEY_LEN, MAX_LINE = 1 << 10, 1 << 12
MAX_CONNECTIONS, OTHER_FILES, THREADS = 450, 100, 8
"""How many connections are open at a time, with a file for the body of each; how many descriptors are for all else; and with how many threads it starts."""
SECONDS_OF_REQUEST, MIN_RATE, SECONDS_TO_LEAVE = 60, 1 << 14, 5
"""The last is how long a refused client may go on to send, so that it receives the answer."""
AT_ONCE, SHORT, PIECE, STACK = 1 << 15, 1 << 18, 1 << 18, 1 << 19
"""Up to the first, an answer is sent at once. A longer body than the second is written to a file without a name in FOLDER. Content is read in such pieces."""
NUMBER, PORT = re.compile("[0-9]{1,19}"), re.compile(":[0-9]*$")
ADDRESS = re.compile(r"[0-9.]+|\[[0-9a-f:.]+\]")
"""An IP address in the header Host: the last label of a name is never a number."""
RANGE = re.compile("bytes=([0-9]{0,19})-([0-9]{0,19})")
CHUNK = re.compile(rb"([0-9a-fA-F]{1,15})[ \t]*(?:;[^\n]*)?\r?\n")
report = functools.partial(console.report, name="cache")
date_text = functools.lru_cache(1)(functools.partial(email.utils.formatdate, usegmt=True))
send_at_once = ctypes.PyDLL(None).send
"""The system's call, which here lets no other thread run meanwhile: this one would wait for its turn longer than the call takes."""
EPILOG = "exit status: 0 after a signal; 1 the server can't start, or can't write its last changes to FOLDER; 2 usage error"


class Handler(http.server.BaseHTTPRequestHandler):
    """One connection."""

    protocol_version, disable_nagle_algorithm, has_body = "HTTP/1.1", True, False
    """The last is whether the client may still be sending a body."""

    def handle_one_request(self):
        """Answers a request by the method of its name, or by what that raises."""
        self.server.wait_for(self.connection)
        try:
            super().handle_one_request()
        except Declined as fault:
            self.answer(*fault.args)
        except (Refused, MemoryError) as fault:
            self.server.cache.free_memory()
            self.answer(503, str(fault) or "out of memory")

    def parse_request(self):
        """Refuses a head that isn't clear, and finds the length of the body, which is None if it comes in chunks."""
        self.server.idle.pop(self.connection, None)
        self.has_body = True
        if not super().parse_request():
            return False
        lengths, codings, hosts = map(self.headers.get_all, ("Content-Length", "Transfer-Encoding", "Host"), ([], [], ["localhost"]))
        # http.server takes other bytes for spaces too
        words = self.requestline.split(" ")
        if len(words) != 3 or not words[1].startswith("/") or self.headers.defects or len(lengths) + len(codings) > 1 or not all(map(NUMBER.fullmatch, lengths)):
            raise Declined(400, "malformed head")
        self.path = words[1]
        if codings and codings[0].lower() != "chunked":
            raise Declined(501, "unknown transfer coding")
        name = PORT.sub("", hosts[0].lower())
        if len(hosts) > 1 or not (name in self.server.hosts or ADDRESS.fullmatch(name)):
            raise Declined(403, "the header Host has another name: see --host")
        self.length = int(lengths[0]) if lengths else None
        self.has_body = bool(codings or self.length)
        # no bytes that a method doesn't read are taken for a request, nor is what follows chunks that a proxy of HTTP/1.0 doesn't know
        self.close_connection |= self.has_body and self.command != "PUT" or self.request_version == "HTTP/1.0"
        return True

    def handle_expect_100(self):
        # only a body that will be read is asked for
        return True

    def answer(self, status, text="", content_type="text/plain; charset=utf-8"):
        content = f"{text}\n".encode(errors="replace") if text else b""
        self.close_connection |= self.has_body
        headers = {"Content-Type": content_type, **({"Retry-After": "1"} if status == 503 else {})}
        self.send(status, headers, len(content), content if self.command != "HEAD" else b"")

    def send(self, status, headers, length, content=b""):
        """Counts an answer, and sends its head together with the first content. What can't be sent at once waits until the client reads."""
        self.server.count((self.command if hasattr(self, f"do_{self.command}") else "other", int(status)))
        headers["Date"] = date_text(int(time.time()))
        if status not in (204, 304):
            headers["Content-Length"] = length
        if self.close_connection:
            headers["Connection"] = "close"
        lines = [f"{self.protocol_version} {int(status)} {self.responses[status][0]}", *(f"{name}: {value}" for name, value in headers.items()), "", ""]
        content = "\r\n".join(lines).encode("latin-1") + content
        sent = send_at_once(self.connection.fileno(), content, len(content), socket.MSG_DONTWAIT) if len(content) <= AT_ONCE else 0
        if sent < len(content):
            self.wfile.write(content[max(0, sent) :])

    def send_error(self, code, message=None, explain=None):
        # http.server refuses by this what it can't read
        self.close_connection = True
        self.answer(code, message or "")

    def finish(self):
        """Drops what a refused client goes on to send: otherwise the system would drop the answer."""
        super().finish()
        if self.has_body:
            self.server.deadlines[self.connection] = time.monotonic() + SECONDS_TO_LEAVE
            with contextlib.suppress(OSError):
                self.connection.shutdown(socket.SHUT_WR)
                while self.connection.recv(PIECE):
                    pass

    def do_GET(self):
        cache = self.server.cache
        if self.path == METRICS:
            return self.answer(200, self.server.metrics(), "text/plain; version=0.0.4; charset=utf-8")
        if self.path == HEALTH:
            return self.answer(503 if cache.fault else 200, cache.fault or "ok")
        with cache.reading(self.path) as entry:
            self.server.count("misses" if entry is None else "hits")
            if entry is None:
                raise Declined(404, "no such key")
            headers = {"ETag": f'"{entry.address}"', "Accept-Ranges": "bytes", "Content-Type": "application/octet-stream"}
            wanted, known = self.wanted_range(headers["ETag"], entry.length), self.headers.get("If-None-Match", "")
            if headers["ETag"] in known or known.strip() == "*":
                self.send(304, headers, 0)
            elif wanted is None:
                self.give_range(entry, range(entry.length), 200, headers)
            elif not wanted:
                self.send(416, {"Content-Range": f"bytes */{entry.length}"}, 0)
            else:
                headers["Content-Range"] = f"bytes {wanted.start}-{wanted.stop - 1}/{entry.length}"
                self.give_range(entry, wanted, 206, headers)

    do_HEAD = do_GET

    def wanted_range(self, tag, length):
        """The range that the request wants of content of some length; None for all, also if it wants several."""
        found = RANGE.fullmatch(self.headers.get("Range", ""))
        first, last = found.groups() if found and self.command == "GET" and self.headers.get("If-Range", tag) == tag else ("", "")
        if first == last == "" or first and last and int(last) < int(first):
            return None
        return range(int(first), min(length, int(last or length) + 1)) if first else range(max(0, length - int(last)), length)

    def give_range(self, entry, wanted, status, headers):
        room, at = memoryview(bytearray(min(PIECE, len(wanted)) if self.command == "GET" else 0)), wanted.start
        # what the store refuses is answered before the head is sent
        self.server.cache.read(entry, room, at)
        self.send(status, headers, len(wanted), room)
        try:
            while room:
                self.progress("sent", len(room))
                at += len(room)
                room = room[: wanted.stop - at]
                if room:
                    self.server.cache.read(entry, room, at)
                    self.wfile.write(room)
        except Refused:
            # the client receives fewer bytes than Content-Length
            self.close_connection = True

    def progress(self, name, count):
        self.server.count(f"{name}_bytes", count)
        self.server.deadlines[self.connection] += count / MIN_RATE

    def do_DELETE(self):
        self.check_change()
        if not self.server.cache.delete(self.path):
            raise Declined(404, "no such key")
        self.answer(204)

    def check_change(self):
        """Refuses what would change something else than the client wants."""
        if self.path in (METRICS, HEALTH):
            raise Declined(405, "this path is no key")
        if len(self.path) > MAX_KEY_LEN:
            raise Declined(414, f"a key has at most {MAX_KEY_LEN} bytes")
        if any(name in self.headers for name in ("Content-Range", "If-Match", "If-None-Match", "If-Unmodified-Since")):
            raise Declined(501, "ranges and conditions are for GET alone")

    def do_PUT(self):
        self.check_change()
        if self.length is None and not self.has_body:
            raise Declined(411, "a body needs a length, or chunks")
        self.check_length(self.length or 0)
        self.server.cache.check()
        if self.headers.get("Expect", "").lower() == "100-continue":
            self.wfile.write(b"HTTP/1.1 100 Continue\r\n\r\n")
        with tempfile.SpooledTemporaryFile(SHORT, dir=self.server.cache.folder) as body:
            for count in self.pieces():
                self.check_length(body.tell() + count)
                self.copy(count, body)
            self.has_body = False
            self.server.cache.put(self.path, body, body.tell())
        self.answer(201)

    def check_length(self, length):
        if length > self.server.max_body:
            raise Declined(413, f"a body has at most {self.server.max_body} bytes")

    def pieces(self):
        """Yields the length of each piece of the body, which has to be read before the next one: of each chunk, or of all."""
        if self.length is not None:
            yield self.length
        count = self.length is None
        while count:
            found = CHUNK.fullmatch(self.rfile.readline(MAX_LINE))
            count = int(found[1], 16) if found else 0
            yield count
            if not found or self.rfile.readline(3) not in (b"\r\n", b"\n"):
                raise Declined(400, "malformed chunk, or a trailer")

    def copy(self, count, file):
        """Writes bytes of the body to a file."""
        room = memoryview(bytearray(min(PIECE, count)))
        while count:
            got = self.rfile.readinto(room[:count])
            if not got:
                raise Declined(408, "the body ends early, or is late")
            try:
                file.write(room[:got])
            except OSError as error:
                raise Declined(507, f"the body can't be written to the disk: {error_text(error)}") from None
            self.progress("received", got)
            count -= got


class Server(socketserver.ThreadingTCPServer):
    """Answers each connection in the thread that has taken it: to start or to wake another one takes time. Closes connections that are late."""

    allow_reuse_address, request_queue_size = True, 128

    def __init__(self, options, cache):
        self.cache, self.max_body, self.hosts = cache, min(options.max_body, options.limit), {"localhost", *map(str.lower, options.host)}
        self.max_connections = max(1, min(MAX_CONNECTIONS, (resource.getrlimit(resource.RLIMIT_NOFILE)[0] - OTHER_FILES) // 2))
        self.counts, self.lock, self.free = collections.Counter(), threading.Lock(), threading.Semaphore(THREADS - 1)
        """The last is how many threads wait for a connection, beside the one that always does."""
        self.deadlines, self.idle = {}, collections.OrderedDict()
        """When each connection must have sent its request and received the answer; and those that wait for a request, the longest waiting first."""
        self.address_family, _, _, _, address = socket.getaddrinfo(options.host[0], options.port, type=socket.SOCK_STREAM)[0]
        super().__init__(address, Handler)

    def wait_for(self, connection):
        """Notes that a connection waits for a request."""
        self.deadlines[connection] = time.monotonic() + SECONDS_OF_REQUEST
        self.idle[connection] = None

    def answer_all(self):
        """Takes connections, and answers each, while another thread takes the next one."""
        while True:
            try:
                self.process_request(*self.get_request())
            except Exception:
                # as when there are no descriptors: tried again at once, it would keep a processor busy
                time.sleep(0.1)
                self.handle_error(None, None)

    def process_request(self, request, client_address):
        """Answers a connection. If there are too many, closes the one that has waited longest for a request; if none waits, the new one."""
        if not self.free.acquire(blocking=False):
            threading.Thread(target=self.answer_all, daemon=True).start()
        try:
            with self.lock:
                if len(self.deadlines) >= self.max_connections:
                    close(self.idle.popitem(last=False)[0], socket.SHUT_RDWR)
                self.wait_for(request)
            self.process_request_thread(request, client_address)
        except KeyError:
            self.shutdown_request(request)
        self.free.release()

    def close_late(self):
        """Closes connections that are late, each half second: first for reading, so that the request can be answered."""
        while True:
            time.sleep(0.5)
            now = time.monotonic()
            for connection, deadline in list(self.deadlines.items()):
                if now > deadline:
                    close(connection, socket.SHUT_RD if now < deadline + SECONDS_TO_LEAVE else socket.SHUT_RDWR)

    def shutdown_request(self, request):
        self.idle.pop(request, None)
        self.deadlines.pop(request, None)
        super().shutdown_request(request)

    def handle_error(self, request, client_address):
        """Reports what ended a connection, unless it was the client."""
        if not isinstance(sys.exc_info()[1], OSError):
            report(f"a request failed: {sys.exc_info()[1]!r}")

    def count(self, name, count=1):
        with self.lock:
            self.counts[name] += count

    def metrics(self):
        """The counts, as a text for Prometheus."""
        cache, totals = self.cache, self.cache.store.counts()
        with self.lock:
            counts = self.counts.copy()
        values = {f"{name}_total": counts[name] for name in ("hits", "misses", "received_bytes", "sent_bytes")}
        values.update(evictions_total=cache.evictions, renewals_total=cache.renewals, keys=len(cache.keys), stored_bytes=totals.bytes, limit_bytes=cache.limit)
        values.update(journal_entries=totals.entries, connections=len(self.deadlines), is_writable=int(not cache.fault))
        lines = [f"# TYPE b3store_cache_{name} {'counter' if name.endswith('_total') else 'gauge'}\nb3store_cache_{name} {values[name]}" for name in values]
        lines.append("# TYPE b3store_cache_requests_total counter")
        for method, status in sorted(key for key in counts if isinstance(key, tuple)):
            lines.append(f'b3store_cache_requests_total{{method="{method}",status="{status}"}} {counts[method, status]}')
        return "\n".join(lines)


def close(connection, how):
    with contextlib.suppress(OSError):
        connection.shutdown(how)


def serve(options, ending):
    """Runs the server until a signal. Raises StoreError and OSError."""
    cache = Cache(options.folder, options.limit, report)
    server = Server(options, cache)
    for loop in [server.answer_all] * THREADS + [server.close_late]:
        threading.Thread(target=loop, daemon=True).start()
    report(f"port {server.server_address[1]}")
    notify("READY=1")
    report(f"loaded {cache.load(lambda: sys.exit(0) if ending & signal.sigpending() else None)}")
    while signal.sigtimedwait(ending, 1) is None:
        try:
            cache.save()
            cache.renew()
        except (StoreError, MemoryError) as fault:
            report(fault_text(fault))
    notify("STOPPING=1")
    cache.finish(more_time())


def main():
    open_standard_files()
    parser = argparse.ArgumentParser(prog="cache.py", description="Serve an HTTP cache over a store in this process.", epilog=EPILOG)
    add = parser.add_argument
    add("folder", metavar="FOLDER", help="keep the content in FOLDER, which needs up to three times the limit")
    add("--host", action="append", metavar="HOST", help="listen on this address (default: 127.0.0.1), and allow it in the header Host; others are only allowed")
    add("--port", type=number(0, 65535), default=8080, metavar="N", help="listen on this port (default: 8080); 0 is any free one")
    add("--limit", type=size, default=half_of_memory(), metavar="SIZE", help="keep up to SIZE bytes of content, such as 10G (default: half of the memory)")
    add("--max-body", type=size, default=1 << 30, metavar="SIZE", help="refuse longer content (default: 1G)")
    options = parser.parse_args()
    options.host = options.host or ["127.0.0.1"]
    threading.stack_size(STACK)
    # M_ARENA_MAX, one heap for all threads: each can use again what any of them frees
    ctypes.CDLL(None).mallopt(-8, 1)
    # nohup ignores SIGHUP, and a shell ignores SIGINT for what runs in the background
    ending = {number for number in ENDING if signal.getsignal(number) is not signal.SIG_IGN}
    signal.pthread_sigmask(signal.SIG_BLOCK, ending)
    try:
        serve(options, ending)
        return 0
    except (OSError, StoreError, MemoryError) as fault:
        report(fault_text(fault))
        return 1


if __name__ == "__main__":
    sys.exit(main())
