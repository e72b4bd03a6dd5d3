"""The commands of a store in this process, and of a client; and what befalls the one in this process."""
import array
import contextlib
import copy
import ctypes
import gc
import mmap
import operator
import os
import pickle
import resource
import sys
import threading

from running import client_of_a_server, over_both, run_python
from shared import ABC, EMPTY, FOUR, SECONDS, alarms, check, forked, in_threads, interrupted_calls, raised, refusal
from b3store import MAX_NUMBER, PART_LEN, Counts, Filed, Held, OpenUpload, Refused, Store, Totals, Usage
from b3store.store import SMALL_LEN
from b3store.values import half_of_memory

JOURNAL = ["tenant 0 4096", "begin 0 0 3", "put 0 0 3", f"seal 0 {ABC} new"]
SIZES = (0, 1, 1000, SMALL_LEN, SMALL_LEN + 1, PART_LEN, PART_LEN + 1)
"""Lengths of contents, which take each of the ways to file one."""


@over_both
def each_command(store):
    tenant = store.tenant(4096)
    upload = store.begin(tenant, 3)
    check(
        (tenant, 0), (upload, 0), (store.uploads(0), [OpenUpload(0, 3, 3, 0)]), (store.put(0, 0, b"abc"), Held(3, None)),
        (store.seal(0), Filed(True, ABC, 3)), (store.entries(), JOURNAL), (store.entries(2), JOURNAL[2:]), (store.entries(4), []),
        (store.entries(2, 2), JOURNAL[2:]), (store.entries(1, 1), JOURNAL[1:2]), (store.entries(1, MAX_NUMBER), JOURNAL[1:]),
        (store.entries(count=1), JOURNAL[:1]),
        (store.has(0, ABC), 3), (store.has(0, FOUR), None), (store.fetch(0, ABC), b"abc"), (store.fetch(0, ABC, 1, 1), b"b"),
        (store.fetch(0, ABC, 3), b""), (store.fetch(0, ABC, MAX_NUMBER), b""), (store.list(0), {ABC: 3}), (store.begin_open(0, 2048), 1),
        (store.put(1, 0, bytes(1024)), Held(1024, 1024)), (store.uploads(0), [OpenUpload(1, 2048, None, 1024)]), (store.usage(0), Usage(3, 2048, 4096)),
        (store.fix(1, 1024), None), (store.uploads(0), [OpenUpload(1, 2048, 1024, 1024)]), (store.limit(0, 2000), None), (store.tenant(5), 1),
        (store.tenants(), {0: Usage(3, 1024, 2000), 1: Usage(0, 0, 5)}), (store.stat(), Totals(1, 3, 1, 1024, 1)),
        (store.counts(), Counts(9, 2, 1, 3, 1, 1024, 1)), (store.abort(1), None), (store.file(1, b"abc"), Filed(False, ABC, 3)), (store.forget(0, ABC), None), (store.list(0), {}),
        (b"".join(store.ranges(1, ABC, 2)), b"abc"), (store.tenant(), 2), (store.usage(2), Usage(0, 0, half_of_memory())), (store.close(), None),
    )


@over_both
def each_refusal(store):
    store.tenant(3000)
    store.begin_open(0, 2048)
    upload = store.begin(0, 3)
    store.put(upload, 0, b"abc")
    check(
        (refusal(store.usage, 1), ("S1", None)), (refusal(store.tenant, (1 << 46) + 1), ("S3", None)), (refusal(store.limit, 0, 5), ("S4", 2051)),
        (refusal(store.begin, 0, (1 << 44) + 1), ("S5", None)), (refusal(store.begin, 0, 950), ("S6", 949)), (refusal(store.seal, 7), ("S7", None)),
        (refusal(store.file, 0, bytes(950)), ("S6", 949)), (refusal(store.file, 1, b"abc"), ("S1", None)), (refusal(store.file, 0, b"abc", FOUR), ("S11", ABC)),
        (refusal(store.put, upload, 0, b"abc"), ("S9", 0)), (refusal(store.put, 7, 0, bytes(1 << 20)), ("S7", None)),
        (refusal(store.put, 0, 0, b""), ("F2", None)), (refusal(store.put, 0, 1, b"a"), ("F3", None)), (refusal(store.put, 0, 2048, b"a"), ("F4", None)),
        (refusal(store.put, 0, 0, bytes((1 << 24) + 1)), ("F4", None)), (refusal(store.seal, 0), ("S16", None)),
        (refusal(store.seal_as, upload, FOUR), ("S11", ABC)), (refusal(store.fetch, 0, ABC), ("S12", None)), (store.put(0, 1024, b"a"), Held(1, 0)),
        (refusal(store.fix, 0, 5), ("S15", 1025)), (refusal(store.seal, 0), ("S10", 0)), (refusal(store.forget, 0, ABC), ("S12", None)),
        (store.stat(), Totals(0, 0, 2, 4, 2)),
    )


class Text(str):
    """A str whose text in a format is another."""

    def __format__(self, _):
        return f"{ABC}\nforget 0 {ABC}"


class Number:
    """An integer that is no int, or none at all."""

    def __init__(self, number=None):
        self.number = number

    def __index__(self):
        return operator.index(self.number)


@over_both
def wrong_arguments(store):
    """They raise before anything is sent: the commands after them are answered as if they had not been made."""
    tenant, upload = store.tenant(4096), store.begin(0, 8)
    check(*(
        (raised(store.put, upload, 0, part), TypeError) for part in ("settings", None, 5, [1, 2], {"a": 1}, memoryview(b"settings")[::2], object())
    ))
    check((store.put(upload, 0, array.array("I", [1, 2])), Held(8, None)), (store.seal(upload).length, 8))
    for call in store.usage, lambda number: store.file(number, b"abc"), lambda number: store.put(number, 0, b"abc"), lambda number: store.fetch(number, ABC):
        check(*((raised(call, number), TypeError) for number in ("0", 0.0, None, b"0", [0], Number(), "0\nabort 0")))
        check(*((raised(call, number), ValueError) for number in (-1, 1 << 64, 10 ** 5000)))
    filed = store.file(tenant, b"abc")
    wrong = (filed.address + "\nforget 0 " + filed.address, "", ABC[:-1], ABC + "0", "g" * 64, ABC + "\n", "\u0660" * 64, " " + ABC[1:])
    calls = lambda tenant, address: store.file(tenant, b"abc", address), lambda tenant, address: store.open(tenant, address)
    for call in (store.has, store.fetch, store.forget, *calls):
        check(*((raised(call, tenant, address), ValueError) for address in wrong))
        check(*((raised(call, tenant, address), TypeError) for address in (ABC.encode(), [], 5)))
    check((raised(store.ranges, tenant, ABC, 0), ValueError), (raised(store.file, tenant, "abc"), TypeError))
    check((store.has(tenant, Text(ABC)), 3), (store.file(tenant, array.array("I")).length, 0), (store.forget(tenant, EMPTY), None))
    check((raised(store.entries, 0, -1), ValueError), (raised(store.entries, 0, "1\nabort 0"), TypeError), (raised(Store, "b3store"), TypeError))
    check(
        (store.has(tenant, ABC.upper()), 3), (store.stat(), Totals(2, 11, 0, 0, 0)), (store.usage(Number(0)).used, 11), (store.fetch(Number(tenant), ABC, Number(1)), b"bc"),
        (store.fetch(tenant, list(store.list(tenant))[0]), array.array("I", [1, 2]).tobytes()), (len(store.entries()), 10),
    )


def refusals_are_values():
    """A refusal is the same when it was copied or pickled, and says what it carries."""
    with Store() as store:
        store.tenant(5)
        try:
            store.begin(0, 9)
        except Refused as refused:
            copies = [refused, copy.copy(refused), copy.deepcopy(refused), pickle.loads(pickle.dumps(refused))]
            told = "S6: the tenant has too few bytes left (free 5)"
            check(*(((it.number, it.value, it.label, str(it)), ("S6", 5, "free", told)) for it in copies))
        else:
            raise AssertionError("nothing was refused")


def buffers_of_all_kinds():
    """Content is taken from where it is, whatever has it: its bytes and its address are the same."""
    with Store() as store, mmap.mmap(-1, 3 * PART_LEN) as mapped:
        tenant = store.tenant()
        for size in SIZES:
            content = os.urandom(size)
            mapped[5 : 5 + size], address = content, store.file(tenant, content).address
            around = b"before" + content + b"after"
            for kind in bytearray(content), memoryview(content), memoryview(around)[6 : 6 + size], memoryview(bytearray(around))[6 : 6 + size], memoryview(mapped)[5 : 5 + size]:
                check((store.file(tenant, kind), Filed(False, address, size)), (store.upload(kind, tenant, address=address).address, address))
                if isinstance(kind, memoryview):
                    kind.release()
            room = bytearray(size + 7)
            check((store.fetch(tenant, address) == content, True), (store.fetch_into(tenant, address, memoryview(room)[7:]), size), (room[7:] == content, True))
        grown = bytearray(PART_LEN)
        store.file(tenant, grown)
        # nothing keeps it
        grown.append(1)
        # all modules share this function, and other ones have other types for its arguments
        check((store.stat().uploads, 0), (ctypes.pythonapi.PyObject_GetBuffer.argtypes, None))


def file_of_parts(store, tenant, content):
    upload = store.begin(tenant, len(content))
    for offset in range(0, len(content), 65536):
        store.put(upload, offset, memoryview(content)[offset : offset + 65536])
    return store.seal(upload).address


def share(store):
    """Each of eight threads finds what the others stored, and no two have the same upload."""
    tenant, contents = store.tenant(), [bytes([number]) * (9000 * number + 1) for number in range(8)]

    def work(number):
        for turn in range(20):
            content = contents[(number + turn) % 8]
            filed = store.file(tenant, content)
            address = file_of_parts(store, tenant, content)
            check((filed.length, len(content)), (address, filed.address), (b"".join(store.ranges(tenant, address)) == content, True))
            check((refusal(store.file, tenant, content, "0" * 64), ("S11", address)), (refusal(store.begin, 1, 5), ("S1", None)))

    check((in_threads(work, 8), [None] * 8))
    entries = store.entries()
    check((store.stat(), Totals(8, sum(map(len, contents)), 0, 0, 0)), (len([line for line in entries if line.startswith("seal")]), 320))
    check((store.entries(5, 3), entries[5:8]), (store.entries(0, 0), []), (store.entries(len(entries) - 1, 5), entries[-1:]))


def by_threads():
    with Store() as store, client_of_a_server(sessions=4) as client:
        share(store)
        share(client)
        client._give_back([client._free.get(timeout=SECONDS) for _ in range(4)])
        check((client.alive, True))


def closed_stores():
    """A closed store is said to be closed, by each command, and what an object gave stays; threads that use it meanwhile get nothing else."""
    content = os.urandom(SMALL_LEN + 1)
    calls = (
        lambda store: store.stat(), lambda store: store.file(0, b"abc"), lambda store: store.upload(content, 0), lambda store: store.put(0, 0, content),
        lambda store: store.fetch(0, ABC), lambda store: store.fetch_into(0, ABC, bytearray(3)), lambda store: store.begin(0, 3), lambda store: store.objects(0),
    )
    for call in calls:
        with Store() as store:
            store.tenant()
            store.file(0, b"abc")
            store.begin(0, len(content))
        check((raised(call, store), ValueError), (store.close(), None))
    for _ in range(20):
        store = Store()
        store.tenant()

        def work(_, store=store):
            while True:
                store.fetch(0, store.upload(content, 0).address)

        threading.Timer(0.02, store.close).start()
        check((set(in_threads(work, 4)), {ValueError}))


def stores_after_a_fork():
    """A process that was forked can't use its parent's store, and opens one of its own; the parent goes on."""
    with Store() as store:
        tenant = store.tenant()
        # a thread of the parent may have the lock
        for lock in contextlib.nullcontext(), store._lock:
            with lock, forked(lambda: use_after_fork(store)) as told:
                check((told, "ValueError True None"))
        check((store.upload(b"abc", tenant).address, ABC))


def use_after_fork(store):
    """What a store does in a new process."""
    with Store() as own:
        is_filed = own.file(own.tenant(), b"abc").address == ABC
    return f"{raised(store.stat).__name__} {is_filed} {store.close()}"


def resident():
    """How many bytes of memory this process has."""
    with open("/proc/self/statm", encoding="ascii") as file:
        return int(file.read().split()[1]) * resource.getpagesize()


def memory_that_is_freed():
    """Stores that are closed or dropped, objects that are read, and parts that are refused leave nothing."""
    content, before = os.urandom(4 * PART_LEN), 0
    gc.collect()
    gc.disable()
    try:
        for turn in range(24):
            store = Store()
            tenant, upload = store.tenant(), store.begin(0, PART_LEN)
            filed = store.upload(content, tenant)
            store.fetch(tenant, filed.address)
            refusal(store.put, upload + 5, 0, content[:PART_LEN])
            refusal(store.put, upload, 1024, content[:PART_LEN])
            if turn % 2:
                store.close()
            before = resident() if turn == 9 else before
        check((resident() - before < 5 * len(content), True))
    finally:
        gc.enable()


WITHOUT_MEMORY = """
import resource
from b3store import PART_LEN, Refused, Store
store, content, refusals, errors = Store(), bytearray(PART_LEN), 0, 0
tenant = store.tenant()
before = int(open("/proc/self/statm").read().split()[0]) * 4096
for room in range(0, 24):
    resource.setrlimit(resource.RLIMIT_AS, (before + room * PART_LEN // 4, resource.RLIM_INFINITY))
    for number in range(10):
        content[:8] = (10 * room + number).to_bytes(8, "little")
        try:
            filed = store.file(tenant, content)
            assert store.fetch(tenant, filed.address) == content
        except Refused as refused:
            assert refused.number == "S14"
            refusals += 1
        except MemoryError:
            errors += 1
    resource.setrlimit(resource.RLIMIT_AS, (resource.RLIM_INFINITY, resource.RLIM_INFINITY))
    assert store.uploads(tenant) == [], store.uploads(tenant)
assert store.usage(tenant).used == sum(store.list(tenant).values()) and store.usage(tenant).reserved == 0
print(refusals > 0, errors > 0, store.stat().objects > 0)
"""


def stores_without_memory():
    """What there is no memory for is refused, or raises MemoryError, and no upload is left of it."""
    check((run_python("-c", WITHOUT_MEMORY), (0, b"True True True\n", "")))


def interrupts_at_any_moment():
    """No interrupt keeps the lock, leaves an upload open, or loses a byte. Older versions of Python look for signals before nearly each step, also of a finally:
    there it is only rarer."""
    if sys.version_info < (3, 11):
        return []
    small, large = os.urandom(1000), os.urandom(5 * PART_LEN)
    with alarms(), Store() as store:
        tenant = store.tenant()
        address = store.file(tenant, large[:PART_LEN]).address
        calls = (
            lambda: store.file(tenant, small), lambda: store.file(tenant, large[: 1 << 16]), lambda: store.upload(large, tenant), lambda: store.stat(),
            lambda: store.fetch(tenant, address), lambda: store.fetch(tenant, address, 5, 100), lambda: store.abort(store.begin(tenant, 7)), lambda: store.entries(0, 5),
        )
        for number in range(400):
            interrupted_calls(calls[number % len(calls)], 0.0005 + number / 400000)
            if store._lock.locked():
                return ["the lock is kept"]
            opened = {upload.bound for upload in store.uploads(tenant)} - {7}
            check((opened, set()))
        held = {name: store.fetch(tenant, name) for name in store.list(tenant)}
        check((all(content in (small, large, large[: 1 << 16], large[:PART_LEN]) for content in held.values()), True))
