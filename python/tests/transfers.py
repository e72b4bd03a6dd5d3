"""Uploads of any content, and objects as files."""
import asyncio
import gzip
import io
import mmap
import os
import random
import tempfile
import threading
from pathlib import Path

from running import over_both
from shared import ABC, EMPTY, FOUR, SECONDS, Interrupted, check, interrupt, raised, refusal
from b3store import MAX_LIMIT, MAX_UPLOAD_LEN, PART_LEN, AsyncStore, Ended, Filed, Held, Refused, Usage
from b3store.values import half_of_memory

LIMIT = 1 << 30
LENGTHS = (0, 1, 1024, PART_LEN, PART_LEN + 1, 3 * PART_LEN + 1024, 4 * PART_LEN, 4 * PART_LEN + 7, 9 * PART_LEN + 3)


def content_of(length):
    return random.Random(length).getrandbits(8 * length + 8).to_bytes(length + 1, "little")[:length]


class Reader:
    """A file that can only read, and reads little at a time."""

    def __init__(self, content, step=70001):
        self.content, self.at, self.step = content, 0, step

    def read(self, count):
        piece = self.content[self.at : self.at + min(count, self.step)]
        self.at += len(piece)
        return piece


def read_end_of_pipe(content):
    """The end of a pipe, into which a thread writes content."""
    reading, writing = os.pipe()

    def write():
        with os.fdopen(writing, "wb") as file:
            file.write(content)

    threading.Thread(target=write, daemon=True).start()
    return os.fdopen(reading, "rb", buffering=0)


def sources_of(content, place):
    """The same content, with a length or without, from all that an upload takes."""
    path = os.path.join(place, "file")
    Path(path).write_bytes(b"before" + content + b"after")
    file = open(path, "rb")
    file.seek(6)
    yield from ((bytearray(content), None), (memoryview(content), len(content)), (io.BytesIO(content), None), (Reader(content), None))
    yield from ((Reader(content + b"more"), len(content)), (file, len(content)), (read_end_of_pipe(content), None))
    yield read_end_of_pipe(content), len(content)
    if content:
        Path(path).write_bytes(content)
        with open(path, "r+b") as whole:
            yield whole, None
            yield mmap.mmap(whole.fileno(), 0), None


@over_both
def uploads_of_all_sources(store):
    with tempfile.TemporaryDirectory() as place:
        tenant = store.tenant(LIMIT)
        for length in LENGTHS:
            content = content_of(length)
            filed = store.upload(content, tenant)
            check((filed.length, length), (store.fetch(tenant, filed.address) == content, True))
            for source, given in sources_of(content, place):
                again = store.upload(source, tenant, given)
                check(((type(source).__name__, length, again), (type(source).__name__, length, filed._replace(is_new=False))))
        check((store.stat().objects, len(LENGTHS)), (store.uploads(tenant), []), (store.usage(tenant).reserved, 0))


class Failing(Reader):
    """A file that can't be read to its end."""

    def read(self, count):
        if self.at > 5 * PART_LEN:
            raise OSError("the disk is broken")
        return super().read(count)


class Lying(io.BytesIO):
    def read(self, count):
        return bytes(count + 1)


@over_both
def uploads_that_fail(store):
    """Each raises what is wrong, and leaves no upload and no reservation."""
    large = content_of(9 * PART_LEN)
    reading, writing = os.pipe()
    os.set_blocking(reading, False)
    with os.fdopen(reading, "rb", buffering=0) as waiting, os.fdopen(writing, "wb"):
        tenant = store.tenant(10 * PART_LEN)
        cases = (
            (OSError, Failing(large), None), (ValueError, io.BytesIO(large[:-1]), len(large)), (ValueError, Reader(large[:-1]), len(large)),
            (ValueError, io.BytesIO(b"abc"), 4), (ValueError, b"abc", 4), (ValueError, large, 4), (TypeError, io.StringIO("abc"), None), (TypeError, "abc", None),
            (TypeError, None, None), (ValueError, Lying(b"abc"), None), (BlockingIOError, waiting, None), (ValueError, b"abc", -1), (TypeError, b"abc", "3"),
            (ValueError, b"abc", MAX_UPLOAD_LEN + 1), (Refused, bytes(10 * PART_LEN + 1), None), (Refused, Reader(large + large), None),
            (Refused, io.BytesIO(large + large), None), (Refused, Reader(large), 10 * PART_LEN + 1),
        )
        for wanted, source, length in cases:
            check((raised(store.upload, source, tenant, length), wanted), (store.uploads(tenant), []), (store.usage(tenant).reserved, 0))
        for source in b"abc", io.BytesIO(b"abc"):
            for wanted, options in (TypeError, {"max_len": "3"}), (ValueError, {"max_len": -1}):
                check((raised(lambda: store.upload(source, tenant, **options)), wanted))
        for source in b"abc", large, io.BytesIO(large), Reader(b"abc"):
            check((raised(lambda: store.upload(source, tenant, address=FOUR)), Refused), (raised(lambda: store.upload(source, tenant, address="4")), ValueError))
        for wanted, max_len in ("F4", 1024), ("S6", 20 * PART_LEN), ("F4", PART_LEN):
            check((refusal(lambda: store.upload(io.BytesIO(large), tenant, max_len=max_len))[0], wanted))
        check((refusal(lambda: store.upload(Reader(b"abc"), tenant, max_len=2)), ("F4", None)))
        check((refusal(store.upload, b"abc", 7), ("S1", None)), (store.uploads(tenant), []), (store.usage(tenant).reserved, 0))
        check((store.upload(io.BytesIO(large), tenant).length, len(large)), (store.upload(b"abc", tenant, address=ABC).address, ABC))


@over_both
def uploads_side_by_side(store):
    """An upload whose length isn't known leaves room for others in a large tenant. In a small one, the next is refused for want of room."""
    tenant, small = store.tenant(MAX_LIMIT), store.tenant(8 * PART_LEN)
    uploads = [store.start_upload(tenant) for _ in range(63)]
    content = content_of(5 * PART_LEN)
    check((store.upload(Reader(content), tenant).length, len(content)), ({upload.bound for upload in store.uploads(tenant)}, {1 << 40}))
    store.upload(Reader(content), small)
    check((refusal(store.upload, Reader(content + b"more"), small), ("S6", 3 * PART_LEN)), (store.uploads(small), []))
    for upload in uploads:
        upload.abort()
    check((store.usage(small).reserved, 0), (store.usage(tenant).reserved, 0))


class OneWay(io.BytesIO):
    """A file that goes to its end, but not back."""

    def seek(self, offset, whence=io.SEEK_SET):
        if whence == io.SEEK_SET:
            raise io.UnsupportedOperation("it can't seek back")
        return super().seek(offset, whence)


@over_both
def files_that_go_one_way(store):
    """A file of gzip says that it can seek, also over a pipe. It isn't asked to, as it can't go back."""
    content = os.urandom(1000) * 9000
    tenant = store.tenant(LIMIT)
    with read_end_of_pipe(gzip.compress(content, 1)) as pipe, gzip.open(pipe) as file:
        address = store.upload(file, tenant).address
    check((store.fetch(tenant, address) == content, True), (store.upload(OneWay(content), tenant).address, address))
    check((store.stat().objects, 1), (store.uploads(tenant), []), (store.usage(tenant).reserved, 0))


@over_both
def writes_after_a_refusal(store):
    """Once a write was refused, it isn't known which bytes the store has: the upload is aborted, and not sealed without some of them."""
    tenant = store.tenant(LIMIT)
    upload = store.start_upload(tenant, max_len=2 * PART_LEN)
    check((upload.write(bytes(PART_LEN // 2)), PART_LEN // 2), (refusal(upload.write, bytes(3 * PART_LEN)), ("F4", None)))
    check((upload.is_open, False), (store.uploads(tenant), []), (raised(upload.write, b"a"), ValueError))
    check((refusal(upload.seal), ("S7", None)), (store.list(tenant), {}), (store.usage(tenant).reserved, 0))

    def write_on():
        with store.start_upload(tenant, max_len=PART_LEN) as upload:
            refusal(upload.write, bytes(2 * PART_LEN))

    check((refusal(write_on), ("F4", None)), (raised(write_after_an_interrupt, store, tenant), Interrupted), (store.uploads(tenant), []))
    with store.start_upload(tenant) as upload:
        upload.write(b"abc")
        upload.seal()
        check((raised(upload.write, b"d"), ValueError), (store.fetch(tenant, upload.filed.address), b"abc"))


def write_after_an_interrupt(store, tenant):
    """Writes to an upload, one of whose writes is interrupted before it sends the bytes that were kept."""
    with store.start_upload(tenant) as upload:
        upload.write(bytes(PART_LEN - 1))
        upload._send = interrupt
        raised(upload.write, b"a")
        del upload._send
        raised(upload.write, b"b")


@over_both
def uploads_with_blocks(store):
    """An upload that is left by an exception is aborted, and sealed otherwise."""
    tenant = store.tenant(LIMIT)
    try:
        with store.start_upload(tenant, 3) as upload:
            upload.write(b"a")
            raise KeyError
    except KeyError:
        check((store.uploads(tenant), []), (upload.is_open, False), (upload.filed, None))
    content = content_of(5 * PART_LEN + 5)
    for step in 1000, 700001, PART_LEN, 10 * PART_LEN:
        filed = written(store, tenant, content, step)
        check((filed.length, len(content)), (store.has(tenant, filed.address), len(content)), (store.fetch(tenant, filed.address) == content, True))
    with store.start_upload(tenant, max_len=4096) as upload:
        check((upload.write(bytes(2048)), 2048))
        check((upload.seal().length, 2048), (store.uploads(tenant), []))
    with store.start_upload(tenant) as upload:
        pass
    check((upload.filed.address, EMPTY))
    with store.start_upload(tenant, 3) as upload:
        upload.abort()
    check((upload.filed, None), (store.uploads(tenant), []))
    check((refusal(lambda: seal_wrongly(store, tenant)), ("S11", ABC)), (refusal(lambda: leave_early(store, tenant)), ("S10", 0)))
    check((raised(store.start_upload, tenant, 5, 5), ValueError), (raised(upload.write, "abc"), TypeError))
    check((store.uploads(tenant), []), (store.usage(tenant).reserved, 0), (len(store.list(tenant)), 3), (raised(close_within, store, tenant), KeyError))


def close_within(store, tenant):
    """Closes a store within the block of an upload, and raises something else there."""
    with store.start_upload(tenant):
        store.close()
        raise KeyError


def written(store, tenant, content, step):
    with store.start_upload(tenant) as upload:
        for at in range(0, len(content), step):
            upload.write(content[at : at + step])
    return upload.filed


def seal_wrongly(store, tenant):
    with store.start_upload(tenant) as upload:
        upload.write(b"abc")
        upload.seal(FOUR)


def leave_early(store, tenant):
    with store.start_upload(tenant, 3):
        pass


@over_both
def slow_files(store):
    """A file that waits keeps no session from others."""
    reading, writing = os.pipe()
    with os.fdopen(reading, "rb", buffering=0) as source:
        tenant, results = store.tenant(LIMIT), []
        thread = threading.Thread(target=lambda: results.append(store.upload(source, tenant)), daemon=True)
        thread.start()
        content, others = content_of(6 * PART_LEN), []
        with os.fdopen(writing, "wb", buffering=0) as file:
            file.write(content[: 5 * PART_LEN])
            other = threading.Thread(target=lambda: others.extend(store.stat().objects for _ in range(10)), daemon=True)
            other.start()
            other.join(SECONDS)
            check((others, [0] * 10))
            file.write(content[5 * PART_LEN :])
        thread.join(SECONDS)
        check((len(results), 1), (results and results[0].length, len(content)))


@over_both
def objects_as_files(store):
    tenant, content = store.tenant(LIMIT), content_of(3 * PART_LEN + 5)
    address = store.upload(content, tenant).address
    for buffering in 1 << 18, 100, 0:
        with store.open(tenant, address, buffering) as file:
            check((file.readable(), True), (file.seekable(), True), (file.writable(), False), (file.tell(), 0))
            check((file.read(10), content[:10]), (file.tell(), 10), (file.seek(-5, io.SEEK_END), len(content) - 5), (file.read(), content[-5:]))
            check((file.read(1), b""), (file.seek(1 << 50), 1 << 50), (file.read(), b""), (file.seek(7), 7), (file.seek(3, io.SEEK_CUR), 10))
            check((file.read() == content[10:], True), (raised(file.seek, -1), ValueError), (raised(file.seek, 0, 9), ValueError), (raised(file.write, b"a"), io.UnsupportedOperation))
            check((file.seek(0), 0), (b"".join(iter(lambda: file.read(100000), b"")) == content, True))
        check((raised(file.read), ValueError), (raised(file.read, 1), ValueError))
    lines = store.upload(b"first\nsecond\n", tenant).address
    check((list(store.open(tenant, lines)), [b"first\n", b"second\n"]), (io.TextIOWrapper(store.open(tenant, lines)).read(), "first\nsecond\n"))
    check((store.open(tenant, lines, 0).size, 13), (refusal(store.open, tenant, FOUR), ("S12", None)), (raised(store.open, tenant, "4"), ValueError))
    with store.open(tenant, lines, 0) as file:
        check((raised(file.seek, 1.5), TypeError), (raised(file.readinto, b"abc"), TypeError))
        store.forget(tenant, lines)
        check((refusal(file.read, 1), ("S12", None)))


@over_both
def reads_into_buffers(store):
    tenant = store.tenant(LIMIT)
    address, room = store.upload(b"abcdef", tenant).address, bytearray(b"......")
    check((store.fetch_into(tenant, address, room, 2), 4), (room, b"cdef.."), (store.fetch_into(tenant, address, memoryview(room)[4:], 6), 0))
    check((store.fetch_into(tenant, address, memoryview(room)[5:]), 1), (room, b"cdef.a"), (store.fetch_into(tenant, address, b""[:0] or bytearray()), 0))
    check(*((raised(store.fetch_into, tenant, address, wrong), TypeError) for wrong in (b"abc", "abc", None, 5)))


@over_both
def iterates(store):
    """Over the journal in pages."""
    tenant = store.tenant(LIMIT)
    for number in range(25):
        store.upload(b"%d" % number, tenant)
    entries = store.entries()
    for page_len in 1, 7, 76, 1000:
        check((list(store.journal(page_len=page_len)), entries), (list(store.journal(70, page_len)), entries[70:]))
    check((list(store.journal(1000)), []), *((raised(store.journal, 0, wrong), ValueError) for wrong in (0, -1)))
    half = store.journal(page_len=2)
    check((next(half), entries[0]), (store.stat().objects, 25), (next(half), entries[1]))
    check((raised(store.journal, "0"), TypeError))


@over_both
def by_asyncio(given):
    async def work(store):
        tenant = await store.tenant(LIMIT)
        contents = [content_of(length) for length in LENGTHS]
        rows = await asyncio.gather(*(store.upload(content, tenant) for content in contents))
        fetched = await asyncio.gather(*(store.fetch(tenant, row.address) for row in rows))
        pieces = [piece async for piece in store.ranges(tenant, rows[-1].address, 1 << 20)]
        upload = await store.begin_open(tenant, 4096)
        held = await store.put(upload, 0, b"abc")
        check((fetched == contents, True), (b"".join(pieces) == contents[-1], True), (held, Held(3, None)), (await store.seal_as(upload, ABC), Filed(True, ABC, 3)))
        check((await store.run(store.store.size, tenant, ABC), 3))
        check((await store.has(tenant, FOUR), None), ((await store.usage(tenant)).reserved, 0), (len(await store.list(tenant)), len(LENGTHS) + 1))
        check(((await store.stat()).uploads, 0), (await store.forget(tenant, ABC), None), (await store.entries(0, 1), [f"tenant 0 {LIMIT}"]))
        try:
            await store.begin(tenant, LIMIT + 1)
        except Refused as refused:
            check((refused.number, "S6"), (await store.tenants(), {0: await store.usage(0)}))
            check((await store.tenant(), 1), (await store.usage(1), Usage(0, 0, half_of_memory())))
        else:
            raise AssertionError("nothing is refused")

    async def run():
        async with AsyncStore(given) as store:
            await work(store)
        await store.close()
        check((raised(given.stat) in (ValueError, Ended), True), (raised(AsyncStore, "b3store"), TypeError))

    return asyncio.run(run())
