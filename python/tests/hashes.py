"""b3store.hashing, by the library that B3STORE_LIBRARY names. `python3 python/tests/hashes.py` runs these cases alone."""
import copy
import gzip
import hashlib
import io
import os
import sys
import tempfile
from pathlib import Path

from shared import ABC, EMPTY, check, in_threads, raised
from judging import judged
from transfers import content_of

LENGTHS = (0, 1, 63, 64, 65, 1023, 1024, 1025, 4095, 4096, 4097, 10000, 1 << 20, (1 << 20) + 1, 3 << 20, (5 << 20) + 77)
KEY = b"whats the Elvish word for friend"
KEYED = "92b2b75604ed3c761f9d6f62392c8a9227ad0ea3f09573e783f1498a4ed60d26"
"""The keyed hash of no bytes."""


def equal_ways():
    """However bytes are given, their hash is the same."""
    from b3store.hashing import blake3, file_digest

    check((blake3(b"abc").hexdigest(), ABC), (blake3().hexdigest(), EMPTY), (blake3(key=KEY).hexdigest(), KEYED))
    with tempfile.TemporaryDirectory() as place:
        for length in LENGTHS:
            content, path = content_of(length), os.path.join(place, "file")
            Path(path).write_bytes(content)
            digest, hasher = blake3(content).digest(), blake3()
            for start in range(0, length, 1 + length // 3):
                hasher.update(content[start : start + 1 + length // 3])
            with open(path, "rb") as file, open(path, "rb", buffering=0) as raw, open(path, "rb") as later:
                later.read(1)
                files = [file_digest(file), file_digest(raw), file_digest(io.BytesIO(content)), file_digest(later)]
            ways = [hasher.digest(), blake3(bytearray(content)).digest(), blake3(memoryview(content)).digest()]
            wrong = [at for at, way in enumerate([*ways, *files[:3]]) if way != digest]
            check(((length, wrong), (length, [])), (files[3], blake3(content[1:]).digest()))
            long = blake3(content, context="context").digest(100)
            check((blake3(content, context="context").digest(30, position=70), long[70:]), (hasher.digest(0), b""))
            with gzip.open(path, "wb", 0) as file:
                file.write(content)
            with gzip.open(path) as file:
                check((file_digest(file), digest))


def copies():
    """A copy goes its own way, whether the bytes so far are few or many."""
    from b3store.hashing import blake3

    for length in 0, 10, 4096, 5000:
        first = blake3(content_of(length), key=KEY)
        second, third = first.copy(), copy.copy(first)
        second.update(b"more")
        wanted = blake3(content_of(length) + b"more", key=KEY).digest()
        check((second.digest(), wanted), (first.digest(), blake3(content_of(length), key=KEY).digest()))
        first.update(memoryview(b"more"))
        third.update(b"other")
        check((first.digest(), wanted), (first.hexdigest(), wanted.hex()), (third.digest(), blake3(content_of(length) + b"other", key=KEY).digest()))


def wrong_values():
    from b3store.hashing import blake3, file_digest

    hasher = blake3(b"abc")
    calls = [(TypeError, lambda wrong=wrong: blake3(wrong)) for wrong in ("abc", 5, None, [1])]
    calls += [(TypeError, lambda wrong=wrong: hasher.update(wrong)) for wrong in ("abc", 5, None, memoryview(b"abcd")[::2])]
    calls += [(ValueError, lambda: blake3(key=b"short")), (ValueError, lambda: blake3(key=b"")), (TypeError, lambda: blake3(key=32)), (TypeError, lambda: blake3(key="k" * 32))]
    calls += [(ValueError, lambda: blake3(key=KEY, context="c")), (TypeError, lambda: blake3(context=b"c")), (ValueError, lambda: hasher.digest(-1)), (TypeError, lambda: hasher.digest("5"))]
    calls += [(TypeError, lambda: blake3().digest(32.0)), (TypeError, lambda: blake3().digest(position=0.0))]
    calls += [(ValueError, lambda: hasher.digest(1 << 63)), (ValueError, lambda: blake3(bytes(5000)).digest((1 << 64) - 1)), (TypeError, lambda: file_digest("name"))]
    calls += [(None, lambda: blake3().digest(position=type("Number", (), {"__index__": lambda _: 5})()))]
    calls += [(ValueError, lambda: hasher.digest(5, position=-1)), (ValueError, lambda: hasher.digest(5, position=1 << 64)), (ValueError, lambda: hasher.digest(2, position=(1 << 64) - 2))]
    check(*((raised(call), wanted) for wanted, call in calls), (hasher.hexdigest(), ABC))


def files_without_bytes():
    """A file that is not in blocking mode has no end where it has no bytes yet."""
    from b3store.hashing import file_digest

    reading, writing = os.pipe()
    os.set_blocking(reading, False)
    with os.fdopen(reading, "rb", buffering=0) as file, os.fdopen(writing, "wb", buffering=0) as other:
        other.write(b"abc")
        check((raised(file_digest, file), BlockingIOError))
        other.write(b"abc")
        other.close()
        check((file_digest(file).hex(), ABC))


def small_calls():
    """Threads do not disturb each other."""
    from b3store.hashing import blake3

    def work(number):
        content = bytes([number]) * 100
        digest = blake3(content).digest()
        return all(blake3(content).digest() == digest for _ in range(3000))

    check((in_threads(work, 4), [True] * 4))


def interface_of_hashlib():
    """What is asked of an object of hashlib."""
    from b3store.hashing import blake3

    abc = blake3(b"abc")
    check(([name for name in dir(hashlib.sha256()) if not hasattr(abc, name) and not name.startswith("_")], []))
    check(((abc.name, abc.digest_size, abc.block_size, len(abc.digest())), ("blake3", 32, 64, 32)))


CASES = (equal_ways, copies, wrong_values, small_calls, interface_of_hashlib, files_without_bytes)

if __name__ == "__main__":
    sys.exit(judged((case.__name__, case) for case in CASES))
