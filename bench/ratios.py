"""Runs the measurements several times, alternating, and prints ratios: that of the best times, and the median of the ratios of each turn."""
import os
import statistics
import subprocess
import sys
import tempfile
import time

from peak import peak_memory

TURNS = 25
KIB = [1, 2, 3, 4, 5, 6, 7, 8, 12, 16, 24, 31, 32]
MIB = int(sys.argv[1])


def inner(*words):
    """The microseconds that a program reports on standard error."""
    return int(subprocess.run(words, check=True, capture_output=True, text=True).stderr)


def whole(path, *words):
    """The microseconds of a whole process that reads a file as standard input."""
    with open(path, "rb") as file:
        start = time.monotonic()
        subprocess.run(words, check=True, stdin=file, stdout=subprocess.DEVNULL)
        return int((time.monotonic() - start) * 1e6)


def ratios(own, other):
    """How much quicker the first times are than the others: by the best ones, and by the median of the turns."""
    median = statistics.median(theirs / ours for ours, theirs in zip(own, other))
    return f"{min(other) / min(own):.2f}, median {median:.2f}"


def lengths(pairs):
    """A row for each of a few short lengths: GB/s of each program, and the ratio of each pair of them."""
    print("KiB   " + "  ".join(f"{name:>13}" for pair in pairs for name in pair))
    for kib in KIB:
        size, turns = kib << 10, 32768 // kib
        best = {}
        for _ in range(TURNS):
            for pair in pairs:
                for name, words in pair.items():
                    best[name] = min(best.get(name, 1 << 62), inner(*words, str(size), str(turns)))
        rates = "  ".join(f"{size * turns / best[name] / 1000:13.2f}" for pair in pairs for name in pair)
        quicker = "  ".join(f"{best[theirs] / best[ours]:.2f}" for ours, theirs in pairs)
        print(f"{kib:3}   {rates}   {quicker}")


def main():
    with tempfile.TemporaryDirectory() as folder:
        path = os.path.join(folder, "input")
        with open(path, "wb") as file:
            for _ in range(MIB):
                file.write(os.urandom(1 << 20))
        official = "target/official/{}/release/official"
        ours = "target/benchmarks-{}"
        runs = {
            "hash": lambda: inner(ours.format("v2"), "hash", str(MIB)),
            "portable": lambda: inner(official.format("portable"), str(MIB)),
            "make, v2": lambda: inner(ours.format("v2"), "make", str(MIB // 16)),
            "hash_wide, v2": lambda: inner(ours.format("v2"), "hash_wide", str(MIB)),
            "SSE4.1": lambda: inner(official.format("sse41"), str(MIB)),
        }
        if os.path.exists(ours.format("v3")):
            runs["make, v3"] = lambda: inner(ours.format("v3"), "make", str(MIB // 16))
            runs["hash_wide, v3"] = lambda: inner(ours.format("v3"), "hash_wide", str(MIB))
            runs["AVX2"] = lambda: inner(official.format("avx2"), str(MIB))
        runs["sum, one thread"] = lambda: whole(path, "target/b3store", "sum", "--threads", "1")
        runs["b3sum, one thread"] = lambda: whole(path, "b3sum", "--num-threads", "1")
        runs["sum"] = lambda: whole(path, "target/b3store", "sum")
        runs["b3sum"] = lambda: whole(path, "b3sum")
        runs["cat"] = lambda: whole(path, "cat")
        micros = {name: [] for name in runs}
        for _ in range(TURNS):
            for name, run in runs.items():
                micros[name].append(run())
        memory = peak_memory(path, "target/b3store", "sum")
    size = MIB << 20
    for name, turns in micros.items():
        print(f"{name:17} {size / min(turns) / 1000:6.2f} GB/s, median {size / statistics.median(turns) / 1000:.2f}")
    for name, other, goal in [
        ("hash", "portable", 1.1),
        ("hash_wide, v2", "SSE4.1", 0.75),
        ("hash_wide, v3", "AVX2", 0.97),
        ("make, v2", "hash_wide, v2", 0.95),
        ("make, v3", "hash_wide, v3", 0.95),
    ]:
        if name in micros:
            print(f"{name} / {other}: {ratios(micros[name], micros[other])}  (goal {goal})")
    print("whole processes, which read standard input; b3sum takes what the processor has, and cat reads alone:")
    for name, other, goal in [
        ("sum, one thread", "b3sum, one thread", None),
        ("sum", "b3sum", 1.0),
        ("sum", "sum, one thread", 1.0),
        ("sum", "cat", None),
    ]:
        wanted = f"  (goal {goal})" if goal else ""
        print(f"{name} / {other}: {ratios(micros[name], micros[other])}{wanted}")
    print(f"memory of sum: {memory / 2**20:.1f} MiB  (goal at most 32)")
    lengths(
        [
            {f"hash_wide, {level}": (ours.format(level), "hash_length"), form: (official.format(form.lower().replace(".", "")),)}
            for level, form in [("v2", "SSE4.1"), ("v3", "AVX2")]
            if os.path.exists(ours.format(level))
        ]
    )


main()
