"""The content of a cache (cache.py): keys, the objects of a store that they lead to, and a log from which a restart has both again.

The store has two tenants. One holds the content. The other holds a record for each key, which says where the key leads: an object too, so that the log of the
store (b3store.redo_log) restores everything, and an eviction or a DELETE is only something to forget.
"""
import collections
import contextlib
import re
import threading

from b3store import MAX_LIMIT, PART_LEN, Refused, Store, StoreError
from b3store.console import count_text, error_text
from b3store.redo_log import RedoLog, SaveError

CONTENT, RECORDS = 0, 1
"""The numbers of the tenants."""
MARK = b"b3store cache"
"""An object among the records that shows whose store it is."""
RECORD = re.compile(rb"([0-9a-f]{64}) (/.*)", re.DOTALL)
BYTES_OF_A_KEY, MIN_MAX_KEYS = 1 << 12, 1000
"""There may be one key for so many bytes of the limit, but always some: a key takes memory too, even without content."""
MAX_ENTRIES = 4000000
"""After so many entries of its journal, of 48 bytes each, the content moves to a new store."""

Entry = collections.namedtuple("Entry", "address length record")
"""Where a key leads: an object, and the address of the record that says so."""


class Declined(Exception):
    """Ends a request: by a status and a text, which are its arguments."""


class Cache:
    """Keys, and the store of their content. Threads can share it."""

    def __init__(self, folder, limit, report):
        """Locks the folder, which is made if there is none. Nothing is found or stored before `load`. Raises StoreError and OSError."""
        self.folder, self.limit, self.report = folder, limit, report
        self.max_keys, self.max_entries = max(MIN_MAX_KEYS, limit // BYTES_OF_A_KEY), MAX_ENTRIES
        self.log, self.store = RedoLog(folder, report), Store()
        self.keys = collections.OrderedDict()
        """The entry of each key; the most recently used keys are last."""
        self.uses, self.unused = collections.Counter(), set()
        """How many keys and readers use an object, by tenant and address; and the objects that have to be forgotten, unless one of these uses them."""
        self.evictions = self.renewals = 0
        self.fault, self.ending = "the cache is being loaded", ""
        """Why nothing can be changed now, or will be any more; or an empty text."""
        self.lock, self.saving = threading.RLock(), threading.RLock()
        """The first is held while keys and uses change, and while the content moves to a new store; the second one before that, while the log is written."""

    def load(self, tick):
        """Restores what the folder has, and returns how much that is. `tick` is called again and again meanwhile. Raises StoreError."""
        self.log.restore(self.store, tick)
        has_objects = self.store.counts().objects > 0
        while len(self.store.tenants()) <= RECORDS:
            self.store.tenant(MAX_LIMIT)
        if self.store.file(RECORDS, MARK).is_new and has_objects:
            raise SaveError(f"{self.folder} has a store that isn't a cache's")
        lengths, records = self.store.list(CONTENT), self.store.list(RECORDS)
        with self.lock:
            for record in records:
                found = RECORD.fullmatch(self.store.fetch(RECORDS, record))
                if found and found[1].decode() in lengths:
                    address = found[1].decode()
                    self.lead(found[2].decode("latin-1"), Entry(address, lengths[address], record))
            self.uses[RECORDS, self.store.file(RECORDS, MARK).address] = 1
            self.unused.update([(CONTENT, address) for address in lengths], [(RECORDS, record) for record in records])
            self.forget_unused()
            self.evict(self.store.usage(CONTENT).used - self.limit)
            self.store.limit(CONTENT, self.limit)
            self.evictions, self.fault = 0, ""
            return count_text(len(self.keys), "key")

    @contextlib.contextmanager
    def reading(self, key):
        """The entry of a key, or None. Its object stays in the store until the end of the block."""
        with self.lock:
            entry = self.keys.get(key)
            if entry is not None:
                self.keys.move_to_end(key)
                self.uses[CONTENT, entry.address] += 1
        try:
            yield entry
        finally:
            if entry is not None:
                with self.lock:
                    self.release(CONTENT, entry.address)

    def read(self, entry, room, offset):
        """Fills a writable buffer with bytes of an entry that is being read. Raises Refused, for S14."""
        while True:
            store = self.store
            try:
                return store.fetch_into(CONTENT, entry.address, room, offset)
            except (Refused, ValueError):
                # the content may have moved to a new store meanwhile
                with self.lock:
                    if store is self.store:
                        raise

    def put(self, key, file, length):
        """Stores the content of a file under a key. The least recently used keys are evicted if there is no room. Raises Declined."""
        while True:
            store = self.store
            file.seek(0)
            try:
                filed = store.upload(file.read() if length <= PART_LEN else file, CONTENT, length)
            except (Refused, ValueError) as fault:
                number = getattr(fault, "number", None)
                has_room = number == "S6" and self.evict(length - fault.value) or number == "S14" and self.free_memory()
                with self.lock:
                    if has_room or store is not self.store:
                        continue
                raise Declined(507, str(fault)) from None
            with self.lock:
                self.check()
                # the content may have moved to a new store, or the object was forgotten with another key that led to it
                if store is self.store and store.has(CONTENT, filed.address) is not None:
                    self.unused.add((CONTENT, filed.address))
                    record = store.file(RECORDS, f"{filed.address} {key}".encode("latin-1")).address
                    return self.lead(key, Entry(filed.address, filed.length, record))

    def delete(self, key):
        """Drops a key, and returns whether there was one. After a restart it isn't there either. Raises Declined."""
        with self.lock:
            self.check()
            if key not in self.keys:
                return False
            self.drop(key)
        self.save()
        self.check()
        return True

    def check(self):
        """Raises Declined if nothing can be changed now."""
        if self.fault:
            raise Declined(503, self.fault)

    def evict(self, missing):
        """Drops the least recently used keys, until that has freed so many bytes, and no key is too many. Returns whether it has freed any."""
        freed = 0
        while freed < missing or len(self.keys) > self.max_keys:
            # other requests have the lock between two keys
            with self.lock:
                if not self.keys or not self.forget_unused():
                    break
                freed += self.drop(next(iter(self.keys)))
                self.evictions += 1
        return freed > 0

    def free_memory(self):
        """Evicts an eighth of the content, after the memory has ended. Returns whether there was some."""
        return self.evict(1 + self.store.usage(CONTENT).used // 8)

    def lead(self, key, entry):
        """Lets a key lead to an object. If there are too many keys then, the least recently used one is evicted."""
        self.uses[CONTENT, entry.address] += 1
        self.uses[RECORDS, entry.record] += 1
        if key in self.keys:
            self.drop(key)
        self.keys[key] = entry
        self.evict(0)

    def drop(self, key):
        """Drops a key, and returns how many bytes of content are forgotten with it."""
        entry = self.keys.pop(key)
        self.release(RECORDS, entry.record)
        return entry.length if self.release(CONTENT, entry.address) else 0

    def release(self, *held):
        """Ends a use of an object, which is forgotten if it has no other. Returns whether it is."""
        self.uses[held] -= 1
        if self.uses[held] > 0:
            return False
        del self.uses[held]
        self.unused.add(held)
        return self.forget_unused()

    def forget_unused(self):
        """Lets the store forget what nothing uses. If it has no memory for that, returns False; the next call tries again."""
        for held in list(self.unused):
            try:
                if not self.uses[held]:
                    self.store.forget(*held)
            except Refused:
                return False
            self.unused.discard(held)
        return True

    def save(self):
        """Writes to the folder what has changed. While that isn't possible, nothing can be changed."""
        with self.saving:
            self.log.follow(self.store)
            if self.log.fault.endswith("out of memory") and self.free_memory():
                self.log.follow(self.store)
            with self.lock:
                self.forget_unused()
                self.fault = self.ending or self.log.fault

    def renew(self):
        """If the journal is long, moves the content to a new store. All requests wait for that."""
        if self.store.counts().entries > self.max_entries:
            with self.saving, self.lock:
                try:
                    self.store = self.log.renew(self.store)
                    self.renewals += 1
                except (StoreError, OSError, MemoryError) as error:
                    self.report(f"the content can't move to a new store: {error_text(error)}")
                self.max_entries = MAX_ENTRIES + 2 * self.store.counts().entries

    def finish(self, tick):
        """Writes the last changes to the folder. Nothing can be changed any more. Raises SaveError."""
        with self.lock:
            self.ending = self.fault = "the cache ends"
        self.log.finish(self.store, tick)
