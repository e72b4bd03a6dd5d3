"""Random uploads: by any number of workers, and in parts of any size. The journal that is written is replayed here."""
from blake3 import address_of
from journal import HEADER, audit_answer, entry_of
from script import pattern

LENGTHS = (0, 1, 1023, 1024, 1025, 2048, 3000, 4096, 5121, 8192, 9217)


def case(chance):
    data = pattern(chance.randrange(251), chance.choice(LENGTHS))
    chunks = chance.choice((1, 2, 3, 16384))
    words = ["upload", "--workers", str(chance.randrange(1, 17)), "--part-chunks", str(chunks)]
    parts = -(-len(data) // (1024 * chunks))
    reported = f"{address_of(data)}  -\naccepted {len(data)} {parts}\n".encode()
    return words + ["--journal"], data, reported, 0


def differs(reported, wanted, data):
    """Whether an output is not the wanted lines with a journal after them that leaves the object alone."""
    if not reported.startswith(wanted):
        return True
    text = reported[len(wanted) :]
    calls = wanted.split()[-1]
    left = b"objects 1 bytes %d uploads 0 held 0 parts 0\naccepted %d %s\n" % (len(data), len(data), calls)
    last = text.split(b"\n")[-2] if text.endswith(b"\n") else b""
    is_sealed = entry_of(last, 2) == ("seal", 0, address_of(data).encode(), b"new")
    return not is_sealed or not text.startswith(HEADER + b"\n") or audit_answer(text) != (left, 0)
