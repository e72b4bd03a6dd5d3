"""libb3store by ctypes, as a store that answers the lines of a session by calls: each method is that of the model, tests/second_reading/store.py,
and returns the lines that the model does or is refused as it is. Every call is checked to write what include/b3store.h says and nothing else."""
import ctypes
import itertools
from contextlib import contextmanager
from ctypes import byref, c_bool, c_size_t, c_uint8, c_uint32, c_uint64

from store import Refused

MARK = 0xA5
"""What every byte has that a call may write."""
NONE = 2**64 - 1
MAX_ROWS = 1000
"""More rows than a list of a random session has."""
NO_VALUE, IS_OPEN, TRUNCATED = 64, 65, 67
CARRIED = {4: "use", 6: "free", 9: "at", 10: "missing", 15: "end"}
WRONG_ADDRESS = 11
COUNTED = {"b3store_put", "b3store_seal", "b3store_seal_as", "b3store_file"}
KINDS = {"closed", "store", "part", "object", "text", "list", "uploads", "tenants"}
"""What a handle may keep, and none."""


def struct(*fields):
    return type("Struct", (ctypes.Structure,), {"_fields_": fields})


Handle = struct(("at", ctypes.c_void_p))
Address = struct(("bytes", c_uint8 * 32))
Why = struct(("number", c_uint64), ("address", Address))
Usage = struct(("used", c_uint64), ("reserved", c_uint64), ("limit", c_uint64))
Sealed = struct(("address", Address), ("is_new", c_uint32))
Progress = struct(("held", c_uint64), ("missing", c_uint64), ("is_whole", c_uint32))
Bound = struct(("bound", c_uint64), ("is_open", c_uint32))
ListedObject = struct(("address", Address), ("len", c_uint64))
ListedUpload = struct(("upload", c_uint64), ("bound", c_uint64), ("end", c_uint64), ("held", c_uint64), ("is_fixed", c_uint32))
Totals = struct(*((name, c_uint64) for name in ("objects", "object_bytes", "uploads", "held_bytes", "parts")))


class Wrong(Exception):
    """A call that did something else than the header says."""


def must(holds, what):
    if not holds:
        raise Wrong(what)


def marked(kind):
    """A value of which every byte has the mark."""
    value = kind()
    ctypes.memset(byref(value), MARK, ctypes.sizeof(kind))
    return value


def is_marked(value, start=0):
    return bytes(value)[start:] == bytes([MARK]) * (ctypes.sizeof(value) - start)


def text_of(address):
    return bytes(address.bytes).hex()


def address_of(text):
    return Address((c_uint8 * 32)(*bytes.fromhex(text)))


def buffer_of(data):
    """The bytes in a buffer of their own, which isn't null if there are none."""
    return (c_uint8 * max(1, len(data))).from_buffer_copy(data or b"\0")


class Library:
    """A store of the library, with limits. Some of its calls, by chance, are made before with handles that they must refuse."""

    def __init__(self, path, chance, tenants, entries):
        self.calls, self.chance, self.owners = ctypes.CDLL(path), chance, {}
        self.store, self.work, self.others = Handle(), c_uint64(), {kind: Handle() for kind in KINDS}
        must(self.calls.b3store_open(byref(self.store), c_uint64(tenants), c_uint64(entries), c_uint64(1)) == 0, "a store is opened")
        must(self.lines(b"", self.others["text"]) == 0, "no lines are answered")
        self.open_others(**{kind: byref(handle) for kind, handle in self.others.items()})
        self.misuse()

    def open_others(self, store, part, object, list, uploads, tenants, **_):
        """Fills a handle of each other kind."""
        number, why, sealed, three = c_uint64(), byref(Why()), Sealed(), (buffer_of(b"abc"), c_size_t(3))
        for name, *words in (
            ("open", store, c_uint64(1), c_uint64(9), c_uint64(1)), ("open_tenant", store, c_uint64(9), byref(number), why),
            ("file", store, c_uint64(0), *three, byref(sealed), byref(number), why, byref(number)),
            ("prepare", part, c_uint64(3), c_bool(False), c_uint64(0), *three, byref(number)),
            ("fetch", store, c_uint64(0), byref(sealed.address), object, why), ("list", store, c_uint64(0), list, why),
            ("uploads", store, c_uint64(0), uploads, why), ("tenants", store, tenants, why),
        ):
            must(getattr(self.calls, f"b3store_{name}")(*words) == 0, f"b3store_{name} is done")

    def close(self):
        for handle in self.store, *(handle for kind, handle in self.others.items() if kind != "closed"):
            must(self.calls.b3store_close(byref(handle)) == 0 and not handle.at, "a handle is closed")
            self.refuses(NO_VALUE, "close", byref(handle))

    # ---- how a call is made

    def misuse(self):
        """Makes calls with handles of other kinds than they take, and with open ones that they are to fill."""
        number, room, copied, why = marked(c_uint64), marked(c_uint8 * 16), marked(c_size_t), marked(Why)
        store, line = byref(self.store), (buffer_of(b"tenant 1\n"), c_size_t(9))
        for kind, handle in ((kind, byref(handle)) for kind, handle in self.others.items()):
            if kind not in ("text", "object"):
                self.refuses(NO_VALUE, "read", handle, c_uint64(0), byref(room), c_size_t(16), byref(copied))
                self.refuses(NO_VALUE, "len", handle, byref(number))
            for name, right, row in ("object", "list", ListedObject), ("upload", "uploads", ListedUpload), ("tenant", "tenants", Usage):
                if kind != right:
                    self.refuses(NO_VALUE, f"{name}_rows", handle, c_uint64(0), byref(marked(row * 2)), c_size_t(2), byref(copied))
            if kind != "part":
                self.refuses(NO_VALUE, "put", store, c_uint64(0), handle, byref(marked(Progress)), byref(why), byref(number))
            if kind != "closed":
                self.refuses(IS_OPEN, "open", handle, c_uint64(1), c_uint64(1), c_uint64(1))
                self.refuses(IS_OPEN, "prepare", handle, c_uint64(9), c_bool(False), c_uint64(0), *line, byref(number))
                self.refuses(IS_OPEN, "lines", store, *line, handle, byref(number))
            if kind != "store":
                self.refuses(NO_VALUE, "totals", handle, byref(marked(Totals)))
                self.refuses(NO_VALUE, "entries", handle, byref(number))
                self.refuses(NO_VALUE, "lines", handle, *line, byref(Handle()), byref(number))

    def refuses(self, wanted, name, *words):
        """Makes a call that returns this number, and changes nothing that it is passed."""
        passed = [word._obj for word in words if hasattr(word, "_obj")]
        before = [bytes(value) for value in passed]
        answer = getattr(self.calls, f"b3store_{name}")(*words)
        is_kept = [bytes(value) for value in passed] == before
        must(answer == wanted and is_kept, f"b3store_{name} returns {answer}, and not {wanted}, and changes nothing")

    def command(self, name, *given, out=()):
        """Makes a call on the store, with a `why`, and `work` if it counts. It is refused, or returns what it stored."""
        self.need_a_store(name, given, out)
        answer, why, stored = self.answer(name, self.store, given, out)
        if answer == 0:
            must(is_marked(why), f"{name} leaves why")
            return stored
        raise Refused(refusal(name, answer, why))

    def need_a_store(self, name, given, out):
        """Sometimes makes a call with handles that keep no store."""
        for kind, handle in self.others.items() if self.chance.random() < 0.05 else ():
            at = handle.at
            if kind != "store":
                answer, why, stored = self.answer(name, handle, given, out)
                is_kept = all(map(is_marked, [why, *stored])) and handle.at == at
                must(answer == NO_VALUE and is_kept, f"{name} refuses a handle that has no store: {kind}")

    def answer(self, name, store, given, out):
        """The number that a call returns, its `why`, and what it stored, which is nothing if it doesn't return 0."""
        why, stored, at, before = marked(Why), [marked(kind) for kind in out], store.at, self.work.value
        words = [byref(store), *given, *map(byref, stored), byref(why), *([byref(self.work)] if name in COUNTED else [])]
        answer = getattr(self.calls, name)(*words)
        must(store.at is not None if at else store.at is None, f"{name} leaves the handle of the store as it was")
        must(self.work.value >= before, f"{name} only adds to the count")
        must(answer == 0 or name == "b3store_file" or all(map(is_marked, stored)), f"{name} stores nothing when it returns {answer}")
        return answer, why, stored

    @contextmanager
    def kept(self, name, *given):
        """The handle that a call fills. Sometimes an open one is passed before, which has to stay."""
        if self.chance.random() < 0.05:
            for kind in KINDS - {"closed"}:
                handle = self.others[kind]
                at = handle.at
                answer, why, _ = self.answer(name, self.store, [*given, byref(handle)], ())
                must(answer == IS_OPEN and is_marked(why) and handle.at == at, f"{name} refuses an open handle")
        handle = Handle()
        try:
            self.command(name, *given, byref(handle))
            yield handle
            must(self.calls.b3store_close(byref(handle)) == 0 and not handle.at, f"what {name} made is closed")
        except Refused:
            must(not handle.at, f"{name} leaves a handle when it is refused")
            raise

    def lines(self, data, handle):
        return self.calls.b3store_lines(byref(self.store), buffer_of(data), c_size_t(len(data)), byref(handle), byref(self.work))

    def answers_of(self, data):
        """The answers to lines, and whether they end within the bytes of a `putb`."""
        handle = Handle()
        answer = self.lines(data, handle)
        must(answer in (0, TRUNCATED), f"b3store_lines returns {answer}")
        text = self.read(handle)
        must(self.calls.b3store_close(byref(handle)) == 0, "answers are closed")
        return text, answer == TRUNCATED

    def length(self, handle):
        length = c_uint64()
        must(self.calls.b3store_len(byref(handle), byref(length)) == 0, "an object or a text has a length")
        return length.value

    def read(self, handle, first=0, most=NONE):
        """Up to so many bytes of an object or a text, in pieces of some size."""
        length = self.length(handle)
        most, size = min(most, max(0, length - first) + 10), self.chance.choice((999, 1024, 5000, 100000))
        found = b""
        while True:
            room, copied = marked(c_uint8 * (min(size, most - len(found)) + 1)), c_size_t()
            words = [byref(handle), c_uint64(first + len(found)), room, c_size_t(len(room) - 1), byref(copied)]
            must(self.calls.b3store_read(*words) == 0, "an object or a text is read")
            must(copied.value < len(room) and is_marked(room, copied.value), "a read leaves the bytes after what it copies")
            found += bytes(room)[: copied.value]
            must(len(found) <= length, "a read gives no more bytes than there are")
            if copied.value == 0:
                return found

    def rows(self, name, handle, kind):
        """The rows of a list, in pages of some size, after a page of none."""
        found = []
        for size in itertools.chain((0,), itertools.repeat(self.chance.randrange(1, 5))):
            page, copied = marked(kind * (size + 1)), c_size_t()
            must(getattr(self.calls, name)(byref(handle), c_uint64(len(found)), page, c_size_t(size), byref(copied)) == 0, f"{name} gives rows")
            must(copied.value <= size and is_marked(page, copied.value * ctypes.sizeof(kind)), f"{name} leaves the rows after a page")
            found += page[: copied.value]
            must(len(found) <= MAX_ROWS, f"{name} ends")
            if copied.value < size:
                return found

    # ---- commands

    def tenant(self, limit):
        return [f"tenant {self.command('b3store_open_tenant', c_uint64(limit), out=[c_uint64])[0].value}"]

    def limit(self, tenant, limit):
        self.command("b3store_set_limit", c_uint64(tenant), c_uint64(limit))
        return ["ok"]

    def begin(self, tenant, length):
        return self.begin_as("b3store_begin", tenant, length)

    def open(self, tenant, bound):
        return self.begin_as("b3store_begin_open", tenant, bound)

    def begin_as(self, name, tenant, bound):
        number = self.command(name, c_uint64(tenant), c_uint64(bound), out=[c_uint64])[0].value
        self.owners[number] = tenant
        return [f"upload {number}"]

    def put(self, number, offset, data):
        plan = self.command("b3store_plan", c_uint64(number), out=[Bound])[0]
        return self.put_as(plan.bound, plan.is_open, number, offset, data)

    def put_as(self, bound, is_open, number, offset, data):
        """Puts a part that is prepared for such uploads."""
        part = Handle()
        words = [c_uint64(bound), c_bool(is_open), c_uint64(offset), buffer_of(data), c_size_t(len(data))]
        answer = self.calls.b3store_prepare(byref(part), *words, byref(self.work))
        must(bool(part.at) == (answer == 0), "a handle keeps the part that was prepared")
        if answer:
            raise Refused(refusal("b3store_prepare", answer, marked(Why)))
        must(self.calls.b3store_prepare(byref(part), *words, byref(self.work)) == IS_OPEN, "a part has a handle of its own")
        try:
            held = self.command("b3store_put", c_uint64(number), byref(part), out=[Progress])[0]
            must(not part.at, "a part that is put leaves its handle")
        except Refused:
            must(self.calls.b3store_close(byref(part)) == 0, "a refused part stays in its handle")
            raise
        must(held.is_whole in (0, 1) and not (held.is_whole and held.missing), "an upload that is whole misses nothing")
        return [f"held {held.held} " + ("all" if held.is_whole else f"missing {held.missing}")]

    def fix(self, number, end):
        self.command("b3store_fix", c_uint64(number), c_uint64(end))
        return ["ok"]

    def seal(self, number, address=None):
        if address is None:
            sealed = self.command("b3store_seal", c_uint64(number), out=[Sealed])[0]
        else:
            sealed = self.command("b3store_seal_as", c_uint64(number), byref(address_of(address)), out=[Sealed])[0]
        return self.sealed(self.owners[number], sealed)

    def sealed(self, tenant, sealed):
        must(sealed.is_new in (0, 1), "an object is new or not")
        address = text_of(sealed.address)
        return [f"{'new' if sealed.is_new else 'known'} {address} {self.length_of(tenant, address)}"]

    def file(self, tenant, data):
        """Files bytes in one call, and says what upload it left if its abort was refused."""
        words = [c_uint64(tenant), buffer_of(data), c_size_t(len(data))]
        self.need_a_store("b3store_file", words, [Sealed, c_uint64])
        answer, why, (sealed, left) = self.answer("b3store_file", self.store, words, [Sealed, c_uint64])
        if answer == 0:
            must(left.value == NONE and is_marked(why), "b3store_file leaves nothing")
            return self.sealed(tenant, sealed)
        must(is_marked(sealed) and is_marked(left) == (answer > 32), "b3store_file stores what is left, if it began an upload, and no address")
        found = refusal("b3store_file", answer, why)
        raise Refused(found if answer > 32 or left.value == NONE else f"{found} left {left.value}")

    def abort(self, number):
        self.command("b3store_abort", c_uint64(number))
        return ["ok"]

    def forget(self, tenant, address):
        self.command("b3store_forget", c_uint64(tenant), byref(address_of(address)))
        return ["ok"]

    # ---- questions

    def content(self, tenant, address, first=0, most=NONE):
        with self.kept("b3store_fetch", c_uint64(tenant), byref(address_of(address))) as handle:
            return self.read(handle, first, most)

    def fetch(self, tenant, address):
        content = self.content(tenant, address)
        return [f"object {len(content)} {content.hex() or '-'}"]

    def length_of(self, tenant, address):
        return self.command("b3store_has", c_uint64(tenant), byref(address_of(address)), out=[c_uint64])[0].value

    def has(self, tenant, address):
        return [f"has {self.length_of(tenant, address)}"]

    def usage(self, tenant):
        usage = self.command("b3store_usage", c_uint64(tenant), out=[Usage])[0]
        return [f"used {usage.used} reserved {usage.reserved} limit {usage.limit}"]

    def list(self, tenant):
        with self.kept("b3store_list", c_uint64(tenant)) as handle:
            rows = self.rows("b3store_object_rows", handle, ListedObject)
        return [f"list {len(rows)}"] + [f"{text_of(row.address)} {row.len}" for row in rows]

    def uploads(self, tenant):
        with self.kept("b3store_uploads", c_uint64(tenant)) as handle:
            rows = self.rows("b3store_upload_rows", handle, ListedUpload)
        return [f"uploads {len(rows)}"] + [f"{row.upload} {row.bound} {row.end if row.is_fixed else '-'} {row.held}" for row in rows]

    def tenants(self):
        with self.kept("b3store_tenants") as handle:
            rows = self.rows("b3store_tenant_rows", handle, Usage)
        return [f"tenants {len(rows)}"] + [f"{at} {row.used} {row.reserved} {row.limit}" for at, row in enumerate(rows)]

    def stat(self):
        totals = marked(Totals)
        must(self.calls.b3store_totals(byref(self.store), byref(totals)) == 0, "a store has totals")
        names = "objects {0.objects} bytes {0.object_bytes} uploads {0.uploads} held {0.held_bytes} parts {0.parts}"
        return [names.format(totals)]

    def entries(self, first=0, most=NONE):
        count = c_uint64()
        must(self.calls.b3store_entries(byref(self.store), byref(count)) == 0, "a store has entries")
        with self.kept("b3store_journal", c_uint64(first), c_uint64(most)) as handle:
            lines = self.read(handle).decode().split("\n")[:-1]
        must(len(lines) == min(most, max(0, count.value - first)), "the journal has as many entries as are counted")
        return [f"journal {len(lines)}"] + lines


def refusal(name, answer, why):
    """A refusal as the model has it. `why` has what it carries, and no more."""
    fields = {8: is_marked(why, 8), 0: bytes(why)[:8] == bytes([MARK]) * 8}
    must(fields[8] or answer == WRONG_ADDRESS, f"{name} stores an address when it returns {answer}")
    must(fields[0] or answer in CARRIED, f"{name} stores a number when it returns {answer}")
    if answer in CARRIED:
        return f"S{answer} {CARRIED[answer]} {why.number}"
    if answer == WRONG_ADDRESS:
        return f"S{answer} found {text_of(why.address)}"
    must(0 < answer <= 16 or 32 < answer <= 41, f"{name} returns {answer}")
    return f"S{answer}" if answer <= 16 else f"F{answer - 32}"
