"""What examples/cache.py answers: keys, ranges, evictions, limits, and requests that are wrong by mistake or on purpose."""
import contextlib
import http.client
import os
import random
import resource
import socket
import tempfile
import time

from resident import resident
from servers import Cache, altered, chunked, status_of
from shared import ABC, FOUR, SECONDS, check, wait_until


@contextlib.contextmanager
def new_cache(*words, **how):
    with tempfile.TemporaryDirectory() as place, Cache(os.path.join(place, "cache"), *words, **how) as cache:
        yield cache


def keys():
    """Content of all lengths, known before or not, is given as it was stored; paths differ in any byte."""
    with new_cache() as cache:
        rng = random.Random(1)
        for number, length in enumerate([0, 1, 4096, 1 << 20, (1 << 20) + 1, 5000001]):
            content = rng.randbytes(length)
            body, headers = chunked(content[: length // 3], content[length // 3 :]) if length else chunked()
            check((cache.put(f"/k{number}", content), 201), (cache.get(f"/k{number}") == content, True))
            check((cache.put("/chunks", body, headers=headers), 201), (cache.get("/chunks") == content, True))
        for key in "/", "/a%20b", "/a%2520b", "/a?b", "/a?c", "/A", "/..", "/a/../b", "/%00", "/" + "x" * 1023:
            check((cache.put(key, key.encode()), 201))
        for key in "/", "/a%20b", "/a%2520b", "/a?b", "/a?c", "/A", "/..", "/a/../b", "/%00", "/" + "x" * 1023:
            check((cache.get(key), key.encode()))
        for byte in range(0x80, 0x100):
            raw = b"/raw" + bytes([byte])
            status = status_of(cache.raw(b"PUT %b HTTP/1.1\r\nContent-Length: 1\r\n\r\n%b" % (raw, bytes([byte]))))
            got = cache.raw(b"GET %b HTTP/1.1\r\n\r\n" % raw)
            check((status, 201), (got[-1:], bytes([byte])))
        check((cache.put("/k1", b"new"), 201), (cache.get("/k1"), b"new"), (cache.ask("HEAD", "/k1"), (200, b"")), (cache.ask("DELETE", "/k1"), (204, b"")))
        check((cache.get("/k1"), 404), (cache.ask("DELETE", "/k1")[0], 404), (cache.ask("HEAD", "/k1"), (404, b"")), (cache.put("/" + "x" * 1024, b""), 414))
        check((cache.put("/metrics", b""), 405), (cache.ask("DELETE", "/healthz")[0], 405), (cache.reports(), []))


def ranges():
    """One range of content, and all of it if the words are no range, or several."""
    with new_cache() as cache:
        content = os.urandom(1000000)
        check((cache.put("/k", content), 201), (cache.put("/none", b""), 201))
        for words, first, end in ("0-0", 0, 1), ("999990-", 999990, 1000000), ("-7", 999993, 1000000), ("100000-700000", 100000, 700001), ("999999-2000000", 999999, 1000000), ("-2000000", 0, 1000000):
            status, got, headers = cache.answer("GET", "/k", headers={"Range": f"bytes={words}"})
            check((status, 206), (got == content[first:end], True), (headers["Content-Range"], f"bytes {first}-{end - 1}/1000000"))
        for words in "bytes=5-4", "bytes=0-1,5-6", "bytes=-", "lines=0-1", "bytes=a-b", "bytes=" + "9" * 5000 + "-", "":
            status, got, headers = cache.answer("GET", "/k", headers={"Range": words})
            check((status, 200), (got == content, True), (headers["Content-Range"], None))
        for key, words, length in ("/k", "1000000-", 1000000), ("/k", "-0", 1000000), ("/none", "0-", 0), ("/none", "-5", 0):
            status, got, headers = cache.answer("GET", key, headers={"Range": f"bytes={words}"})
            check((status, 416), (got, b""), (headers["Content-Range"], f"bytes */{length}"))
        check((cache.answer("HEAD", "/k", headers={"Range": "bytes=0-5"})[2]["Content-Length"], "1000000"))
        check((cache.ask("GET", "/k", headers={"Range": "bytes=0-5", "If-Range": f'"{ABC}"'})[0], 200))


def tags():
    """A client that has the content gets no second copy; conditions of changes are refused, and not ignored."""
    with new_cache() as cache:
        check((cache.put("/k", b"abc"), 201), (cache.answer("GET", "/k")[2]["ETag"], f'"{ABC}"'))
        for method, content in ("GET", b"abc"), ("HEAD", b""):
            for known in f'"{ABC}"', f'W/"{ABC}"', f'"x", "{ABC}"', "*":
                check((cache.ask(method, "/k", headers={"If-None-Match": known}), (304, b"")))
            for known in f'"{FOUR}"', '"x"', "":
                check((cache.ask(method, "/k", headers={"If-None-Match": known}), (200, content)))
        for name, value in ("If-Match", '"x"'), ("If-None-Match", "*"), ("Content-Range", "bytes 0-2/9"):
            check((cache.ask("PUT", "/k", b"new", {name: value})[0], 501), (cache.ask("DELETE", "/k", headers={name: value})[0], 501))
        check((cache.get("/k"), b"abc"))


def evictions():
    """No more than is needed goes, and what was used least recently. A question for a key is a use of it. Keys may share content."""
    with new_cache("--limit", "3500") as cache:
        def kept():
            return "".join(name for name in "abcdef" if cache.ask("HEAD", f"/{name}")[0] == 200)

        def put(name, length, fill):
            return cache.put(f"/{name}", bytes([fill]) * length)

        check(*[(put(name, 1000, at), 201) for at, name in enumerate("abc")], (cache.ask("GET", "/a")[0], 200))
        check((put("d", 1000, 3), 201), (kept(), "acd"), (put("e", 3501, 4), 413), (kept(), "acd"))
        check((put("e", 1000, 3), 201), (kept(), "cde"), (put("f", 2000, 5), 201), (kept(), "def"))
        body, headers = chunked(bytes([9]) * 3400)
        check((cache.put("/b", body, headers=headers), 201), (kept(), "b"), (cache.get("/b"), bytes([9]) * 3400))
        # keys without content take memory too
        check(*[(cache.put(f"/none{number}", b""), 201) for number in range(1001)])
        counts = cache.metrics()
        check((counts["keys"], 1000), (cache.get("/none0"), 404), (cache.get("/none1000"), b""), (kept(), ""), (counts["evictions_total"], 8))


def begin_to_read(cache, key):
    """A connection on which an answer comes, of which the head and a little were read, and what was read. The system keeps little of what follows."""
    connection = socket.socket()
    connection.setsockopt(socket.SOL_SOCKET, socket.SO_RCVBUF, 1 << 16)
    connection.settimeout(SECONDS)
    connection.connect(("127.0.0.1", cache.port))
    connection.sendall(f"GET {key} HTTP/1.1\r\nConnection: close\r\n\r\n".encode())
    read = b""
    while b"\r\n\r\n" not in read:
        read += connection.recv(1000)
    return connection, read.partition(b"\r\n\r\n")[2]


def reads_of_what_goes():
    """Content that is being read is given whole, though its key is stored anew, deleted or evicted, or all content moves; then its room is free."""
    with new_cache("--limit", "70000000", server=altered(cache_content__MAX_ENTRIES=10)) as cache:
        large = os.urandom(32000000)
        changes = {"stored": ("PUT", "/k", b"abc"), "deleted": ("DELETE", "/k", None), "evicted": ("PUT", "/l", large[::-1] + bytes(6000000))}
        for name, change in changes.items():
            check((cache.put("/k", large), 201))
            connection, read = begin_to_read(cache, "/k")
            with connection:
                check((cache.ask(*change)[0], 204 if change[2] is None else 201))
                before = cache.metrics()["renewals_total"]
                check(((name, wait_until(lambda: [cache.put(f"/x{at}", b"x") for at in range(20)] and cache.metrics()["renewals_total"] > before)), (name, True)))
                read += b"".join(iter(lambda: connection.recv(1 << 20), b""))
            check(((name, len(read), read == large), (name, len(large), True)))
        check((wait_until(lambda: cache.put("/all", bytes(70000000)) == 201), True))


def begin_to_put(cache, length, sent):
    """A connection on which a body arrives, since the cache has asked for it."""
    connection = socket.create_connection(("127.0.0.1", cache.port), timeout=SECONDS)
    connection.sendall(b"PUT /slow HTTP/1.1\r\nExpect: 100-continue\r\nContent-Length: %d\r\n\r\n" % length)
    check((status_of(connection.recv(4096)), 100))
    connection.sendall(sent)
    return connection


def bodies_that_do_not_come():
    """A length alone evicts nothing and takes no memory; and a body that breaks off leaves nothing."""
    with new_cache("--limit", "100000000") as cache:
        check((cache.put("/k", bytes(60000000)), 201))
        before = resident(cache.process.pid)
        slow = [begin_to_put(cache, 90000000, os.urandom(30000000)) for _ in range(2)]
        check((wait_until(lambda: cache.metrics()["received_bytes_total"] >= 2 * 29000000 + 60000000), True))
        # /k may be on its way into the log, which takes memory for a moment
        check((wait_until(lambda: resident(cache.process.pid) - before <= 30000000), True))
        check((len(cache.get("/k")), 60000000), (cache.put("/big", bytes(1 << 30)), 413))
        for connection in slow:
            connection.close()
        check((wait_until(lambda: cache.metrics()["connections"] == 1), True), (cache.get("/slow"), 404), (sorted(os.listdir(cache.folder)), ["log"]))
        check((cache.metrics()["evictions_total"], 0), (cache.reports(), []))


def bodies_that_are_too_long():
    with new_cache("--max-body", "2000") as cache:
        pieces = [chunked(bytes(1500), bytes(501)), chunked(bytes(1500), bytes(500))]
        check((cache.put("/k", bytes(2001)), 413), (cache.put("/k", bytes(2000)), 201))
        check(*[(cache.put("/k", body, headers=headers), status) for (body, headers), status in zip(pieces, (413, 201))])
        # the client receives the answer though it goes on to send
        answer = cache.raw(b"PUT /k HTTP/1.1\r\nContent-Length: 9000000\r\n\r\n" + bytes(9000000))
        check((status_of(answer), 413), (cache.put("/k", bytes(1 << 20)), 413), (cache.reports(), []))


WRONG = {
    b"\r\n\r\n": None, b"x\r\n\r\n": 400, b"GET\r\n\r\n": 400, b"GET /k HTTP/2.0\r\n\r\n": 505, b"GET /k HTTP/x\r\n\r\n": 400, b"GET k HTTP/1.1\r\n\r\n": 400, b"GET /k /l HTTP/1.1\r\n\r\n": 400,
    b"GET http://localhost/k HTTP/1.1\r\n\r\n": 400, b"PATCH /k HTTP/1.1\r\n\r\n": 501, b"POST /k HTTP/1.1\r\nContent-Length: 3\r\n\r\nabc": 501, b"OPTIONS * HTTP/1.1\r\n\r\n": 400,
    b"GET /k HTTP/1.1\r\nno colon\r\n\r\n": 400, b"GET /k HTTP/1.1\r\nHost: localhost\r\nHost: a\r\n\r\n": 403, b"PUT /x HTTP/1.1\r\n\r\n": 411,
    b"GET /" + b"k" * 70000 + b" HTTP/1.1\r\n\r\n": 414, b"GET /k HTTP/1.1\r\nA: " + b"k" * 70000 + b"\r\n\r\n": 431, b"GET /k HTTP/1.1\r\n" + b"A: b\r\n" * 101 + b"\r\n": 431,
    b"PUT /x HTTP/1.1\r\nContent-Length: -1\r\n\r\n": 400, b"PUT /x HTTP/1.1\r\nContent-Length: 1_0\r\n\r\n": 400, b"PUT /x HTTP/1.1\r\nContent-Length: 3\r\nContent-Length: 4\r\n\r\nabcd": 400,
    b"PUT /x HTTP/1.1\r\nContent-Length: 3, 3\r\n\r\nabc": 400, b"PUT /x HTTP/1.1\r\nContent-Length: 3\r\nTransfer-Encoding: chunked\r\n\r\n0\r\n\r\n": 400,
    b"PUT /x HTTP/1.1\r\nTransfer-Encoding: gzip, chunked\r\n\r\n0\r\n\r\n": 501, b"PUT /x HTTP/1.1\r\nTransfer-Encoding: chunked\r\n\r\nx\r\n": 400,
    b"PUT /x HTTP/1.1\r\nTransfer-Encoding: chunked\r\n\r\n3\r\nabcd\r\n0\r\n\r\n": 400, b"PUT /x HTTP/1.1\r\nTransfer-Encoding: chunked\r\n\r\n-3\r\nabc\r\n0\r\n\r\n": 400,
    b"PUT /x HTTP/1.1\r\nTransfer-Encoding: chunked\r\n\r\n3\r\nabc\r\n0\r\n" + b"A: b\r\n" * 101: 400, b"PUT /x HTTP/1.1\r\nContent-Length: 9\r\n\r\nabc": 408,
    b"PUT /x HTTP/1.1\r\nTransfer-Encoding: chunked\r\n\r\n9\r\nabc": 408, b"PUT /x HTTP/1.1\r\nTransfer-Encoding: chunked\r\n\r\n" + b"1" * 5000: 400,
    # what follows a body that a method doesn't read is no request
    b"GET /none HTTP/1.1\r\nContent-Length: 40\r\n\r\nPUT /x HTTP/1.1\r\nContent-Length: 1\r\n\r\nx": 404,
    b"DELETE /none HTTP/1.1\r\nTransfer-Encoding: chunked\r\n\r\nPUT /x HTTP/1.1\r\nContent-Length: 1\r\n\r\nx": 404,
}


def wrong_requests():
    """Each is refused, changes nothing, and ends its connection; the cache reports none of them."""
    with new_cache() as cache:
        check((cache.put("/k", b"abc"), 201))
        for request, status in WRONG.items():
            answer = cache.raw(request)
            check(((request[:60], status_of(answer)), (request[:60], status)), ((request[:60], answer.count(b"HTTP/1.1 ")), (request[:60], int(status is not None))))
            check(((request[:60], b"Connection: close" in answer or status not in (400, 408, 414, 431)), (request[:60], True)))
        rng = random.Random(7)
        for _ in range(200):
            cache.raw(rng.randbytes(rng.randrange(300)) + b"\r\n\r\n")
        check((cache.get("/k"), b"abc"), (cache.get("/x"), 404), (cache.reports(), []))


def hosts():
    """A page of another name, which leads to the server's address, could send that name."""
    with new_cache("--host", "127.0.0.1", "--host", "Builds.example") as cache:
        def status(host):
            return cache.ask("GET", "/healthz", headers={"Host": host})[0]

        allowed = "localhost", "LOCALHOST:80", "127.0.0.1:8080", "[::1]:1", "10.0.0.1", "builds.EXAMPLE:8080"
        refused = "evil.example", "localhost.evil", "builds.example.evil:80", "", "127.0.0.1.evil", "[x]", "[::1].evil", "10.0.0.1 evil"
        check(*[(status(host), 200) for host in allowed], *[((host, status(host)), (host, 403)) for host in refused])


def slow_clients():
    """A request that arrives too slowly is ended, in its head or in its body; one that takes as long, and has more bytes, is not. So is a client that doesn't read."""
    with new_cache(server=altered(cache__SECONDS_OF_REQUEST=2, cache__MIN_RATE=1 << 18, cache__SECONDS_TO_LEAVE=0.5)) as cache:
        def sent(*pieces):
            start = time.monotonic()
            with socket.create_connection(("127.0.0.1", cache.port), timeout=SECONDS) as connection:
                with contextlib.suppress(ConnectionError):
                    for piece in pieces:
                        connection.sendall(piece)
                        time.sleep(0.2)
                    return status_of(connection.recv(4096)), time.monotonic() - start
            return None, time.monotonic() - start

        head = b"PUT /k HTTP/1.1\r\nContent-Length: %d\r\n\r\n"
        check((cache.put("/large", os.urandom(60000000)), 201), (sent(head % 2000000, *[bytes(200000)] * 10)[0], 201))
        for name, pieces in ("head", [b"GET /k HTTP/1.1\r\n", *[b"A: b\r\n"] * 300]), ("body", [head % 9000, *[bytes(10)] * 300]), ("idle", [b""]):
            status, seconds = sent(*pieces)
            check(((name, status), (name, None if name == "idle" else status)), ((name, seconds < SECONDS / 2), (name, True)))
        check((cache.get("/k") == bytes(2000000), True))
        connection, read = begin_to_read(cache, "/large")
        with connection:
            check((wait_until(lambda: cache.metrics()["connections"] == 1), True))
            with contextlib.suppress(ConnectionError):
                read += b"".join(iter(lambda: connection.recv(1 << 20), b""))
        check((len(read) < 60000000, True), (cache.reports(), []))


def many_connections():
    """If there are too many, the one that has waited longest for a request is closed; one on which a body arrives isn't."""
    with new_cache(server=altered(cache__MAX_CONNECTIONS=8)) as cache:
        slow = begin_to_put(cache, 10, b"abc")
        idle = [socket.create_connection(("127.0.0.1", cache.port), timeout=SECONDS) for _ in range(30)]
        check((cache.put("/k", b"abc"), 201), (idle[0].recv(1), b""))
        slow.sendall(b"defghij")
        check((status_of(slow.recv(4096)), 201), (cache.get("/slow"), b"abcdefghij"))
        busy = [begin_to_put(cache, 10, b"abc") for _ in range(8)]
        check((cache.raw(b"GET /k HTTP/1.1\r\n\r\n"), b""))
        for connection in [slow, *idle, *busy]:
            connection.close()
        check((wait_until(lambda: cache.raw(b"GET /k HTTP/1.1\r\n\r\n")[-3:] == b"abc"), True), (cache.reports(), []))


def connections_that_are_kept():
    """A connection serves several requests, unless it is one of HTTP/1.0; a client that waits to be asked for its body is asked, once that will be read."""
    with new_cache("--max-body", "1000") as cache:
        connection = http.client.HTTPConnection("127.0.0.1", cache.port, timeout=SECONDS)
        for method, key, body, status in ("PUT", "/k", b"abc", 201), ("GET", "/k", None, 200), ("HEAD", "/k", None, 200), ("GET", "/none", None, 404), ("DELETE", "/k", None, 204), ("GET", "/k", None, 404):
            connection.request(method, key, body)
            used = connection.sock
            answer = connection.getresponse()
            answer.read()
            check((answer.status, status), (connection.sock is used, True))
        connection.close()
        check((cache.ask("POST", "/k", b"x")[0], 501), (cache.ask("PATCH", "/k")[0], 501))
        both = cache.raw(b"PUT /a HTTP/1.1\r\nContent-Length: 1\r\n\r\naGET /a HTTP/1.1\r\n\r\n")
        check((both.count(b"HTTP/1.1 "), 2), (both[-1:], b"a"), (b"Connection: close" in cache.raw(b"GET /a HTTP/1.0\r\nConnection: keep-alive\r\n\r\n", False), True))
        asked = cache.raw(b"PUT /a HTTP/1.1\r\nContent-Length: 1\r\nExpect: 100-continue\r\n\r\nb")
        refused = cache.raw(b"PUT /a HTTP/1.1\r\nContent-Length: 1001\r\nExpect: 100-continue\r\n\r\n")
        check((status_of(asked), 100), (asked.count(b"HTTP/1.1 "), 2), (cache.get("/a"), b"b"), (status_of(refused), 413))


def counts():
    """Metrics count what was done."""
    with new_cache("--limit", "1M") as cache:
        check((cache.put("/a", b"abc"), 201), (cache.get("/a"), b"abc"), (cache.get("/b"), 404), (cache.ask("HEAD", "/a")[0], 200), (cache.ask("DELETE", "/b")[0], 404))
        check((cache.ask("GET", "/healthz"), (200, b"ok\n")))
        values = cache.metrics()
        wanted = {"hits_total": 2, "misses_total": 1, "received_bytes_total": 3, "sent_bytes_total": 3, "evictions_total": 0, "keys": 1, "limit_bytes": 1 << 20, "is_writable": 1}
        wanted.update({f'requests_total{{method="{method}",status="{status}"}}': count for method, status, count in (("PUT", 201, 1), ("GET", 200, 2), ("GET", 404, 1), ("HEAD", 200, 1), ("DELETE", 404, 1))})
        check(({name: values.get(name) for name in wanted}, wanted))


def memory_that_ends():
    """If the store gets no more memory, keys are evicted as for the limit; the cache goes on."""
    def limit_memory():
        resource.setrlimit(resource.RLIMIT_DATA, (400 << 20, 400 << 20))

    with new_cache("--limit", "4G", preexec_fn=limit_memory) as cache:
        statuses = {}
        for number in range(60):
            status = cache.put(f"/{number}", random.Random(number).randbytes(16 << 20))
            statuses[status] = statuses.get(status, 0) + 1
        counts_then = cache.metrics()
        last = [number for number in range(60) if cache.get(f"/{number}") == random.Random(number).randbytes(16 << 20)]
        check((set(statuses) <= {201, 503, 507}, True), (counts_then["evictions_total"] > 0, True), (len(last) > 2, True), (cache.put("/small", b"abc"), 201))
        check((cache.get("/small"), b"abc"), ([line for line in cache.reports() if "out of memory" not in line and "is written again" not in line], []))


CASES = (
    keys, ranges, tags, evictions, reads_of_what_goes, bodies_that_do_not_come, bodies_that_are_too_long, wrong_requests, hosts, slow_clients,
    many_connections, connections_that_are_kept, counts, memory_that_ends,
)
