"""python3 tests/memory PROGRAM: tests what no contract says about the memory of a built program.

- A seal keeps the bytes of its parts without copying them; a seal of known content and a forget, which free bytes, don't copy them either. Each
  of them allocates the same amount of memory if its parts are 64 times as long.
- An upload allocates at most 1.5 times as many bytes as its input has.
- A fetch of an object that is 64 times as long allocates no more memory, and of a line that is too long for a command no more bytes are kept
  than of the longest command.
- `sum` and `check` of a long file use the buffers of as many threads as `--threads` says, and no more than docs/USE.md says.
- What is forgotten is freed, and so are the parts of an upload that was aborted or sealed as known: a program that may take 64 MiB does
  thousands of rounds of each, with 256 MiB in all.

Each script's answers are compared too. So that it is the store's memory that is measured, the bytes that are allocated must be at least what is held.
The last line is `N passed, M failed`. A C compiler, `cc`, is needed.
"""
import functools
import os
import re
import resource
import subprocess
import sys
import tempfile

sys.dont_write_bytecode = True
HERE = os.path.dirname(os.path.abspath(__file__))
sys.path[1:1] = [os.path.join(os.path.dirname(HERE), name) for name in ("common", "second_reading")]
from blake3 import address_of
from digests import RANDOM, random_bytes
from judging import judged
from python_needed import end_where_older
from script import pattern

SECONDS = 120
PARTS = 16
PART = 65536
LITTLE_MEMORY, ROUNDS = 1 << 26, 4096
MAX_LINE = 33554481
"""The most bytes of a command's line with its line feed."""
MANY_THREADS = 16
LEAST_BUFFER, MAX_BUFFERS = 1 << 18, 22 << 20
"""The least that each thread's buffer has, and the most that all have together."""
NOTHING_LEFT = "objects 0 bytes 0 uploads 0 held 0 parts 0"


def counting(folder):
    """The library that counts."""
    library = os.path.join(folder, "counting.so")
    subprocess.run(["cc", "-O2", "-shared", "-fPIC", "-o", library, os.path.join(os.path.dirname(HERE), "common", "memory.c")], check=True)
    return library


def counted(words, library, data=b""):
    """What a program writes, and how many bytes it asks memory for."""
    reported, reports = os.pipe()
    changed = {"LD_PRELOAD": library, "COUNTED_TOLD": str(reports)}
    try:
        run = subprocess.run(
            words, input=data, stdout=subprocess.PIPE, pass_fds=[reports], env={**os.environ, **changed}, timeout=SECONDS,
        )
    finally:
        os.close(reports)
    with os.fdopen(reported, "rb") as pipe:
        count = pipe.read()
    if not re.fullmatch(rb"\d+\n", count):
        raise ValueError(f"it reported {count[:20]!r} for a count")
    return run.stdout.decode(errors="replace"), int(count)


@functools.lru_cache(maxsize=None)
def address_of_pattern(length):
    return address_of(pattern(0, length))


def sealed(number, word, part):
    """The lines that put an upload of a number of parts of one length and seal it, and their answers."""
    length = PARTS * part
    lines = [f"begin 0 {length}"] + [f"put {number} {at * part} p:{part}" for at in range(PARTS)] + [f"seal {number}"]
    held = [f"held {at * part} missing {at * part}" for at in range(1, PARTS)]
    return lines, [f"upload {number}", *held, f"held {length} all", f"{word} {address_of_pattern(length)} {length}"]


def scripts(part):
    """For a seal of new bytes, a seal of known ones and a forget: the script that ends with it, and its answers."""
    lines, answers = [f"tenant {2 * PARTS * part}"], ["tenant 0"]
    steps = [sealed(0, "new", part), sealed(1, "known", part), ([f"forget 0 {address_of_pattern(PARTS * part)}"], ["ok"])]
    for more, reported in steps:
        lines, answers = lines + more, answers + reported
        yield lines, answers


def asked_by_last(program, library, lines, answers, held):
    """How many bytes the last line of a script asks memory for, whose other lines put so many bytes."""
    counts = []
    for end in (len(lines) - 1, len(lines)):
        found, count = counted([program, "run"], library, "".join(f"{line}\n" for line in lines[:end]).encode())
        if found.splitlines() != answers[:end]:
            raise ValueError(f"it answered {found[-200:]!r}")
        counts.append(at_least(held, count))
    return counts[1] - counts[0]


def at_least(held, count):
    """The count, which must not be less than the bytes that are held."""
    if count < held:
        raise ValueError(f"it asks for {count} bytes, and holds {held}")
    return count


def more_for_long_parts(program, folder, step):
    """How much more the last line of this one of the scripts asks for where parts are long, and how much that may be."""
    library = counting(folder)
    counts = [asked_by_last(program, library, *list(scripts(part))[step], PARTS * part) for part in (PART, 1024)]
    return counts[0] - counts[1], 1024


def a_fetch_asks_for_no_digits(program, folder):
    library = counting(folder)
    counts = []
    for part in (PART, 1024):
        length = PARTS * part
        lines, answers = sealed(0, "new", part)
        lines = [f"tenant {length}", *lines, f"fetch 0 {address_of_pattern(length)}"]
        answers = ["tenant 0", *answers, f"object {length} {pattern(0, length).hex()}"]
        counts.append(asked_by_last(program, library, lines, answers, length))
    return counts[0] - counts[1], 1024


def a_line_that_is_too_long_is_not_kept(program, folder):
    """How much more a line of four times the longest asks for, and how much that may be."""
    library = counting(folder)
    counts = []
    for length in (4 * MAX_LINE, MAX_LINE + 1):
        found, count = counted([program, "run"], library, b"put 0 0 x:" + bytes(length) + b"\ntenant 5\n")
        if found != "bad\ntenant 0\n":
            raise ValueError(f"it answered {found[:200]!r}")
        counts.append(count)
    return counts[0] - counts[1], 0


def an_upload_takes_its_input_once(program, folder):
    """How much an upload of many parts asks for, and how much that may be."""
    length = PARTS * PART
    found, count = counted([program, "upload"], counting(folder), pattern(0, length))
    if found != f"{address_of_pattern(length)}  -\naccepted {length} {PARTS}\n":
        raise ValueError(f"it answered {found[:200]!r}")
    return at_least(length, count), length * 3 // 2


def threads_are_as_many_as_asked_for(program, folder):
    """How much one thread asks for that hashes a long file, and how much that may be. Many threads ask for a buffer each."""
    library, path, most = counting(folder), os.path.join(folder, "long"), 0
    with open(path, "wb") as file:
        file.write(random_bytes(1 << 25))
    line = f"{RANDOM[1 << 25].decode()}  {path}\n"
    report = f"good {path}\ngood 1 bad 0 missing 0 unreadable 0 faults 0\n"
    for words, data, wanted in (["sum", path], "", line), (["check"], line, report):
        for threads in (1, MANY_THREADS):
            found, count = counted([program, *words, "--threads", str(threads)], library, data.encode())
            if found != wanted:
                raise ValueError(f"it answered {found[:200]!r}")
            if threads > 1 and not threads * LEAST_BUFFER <= count <= MAX_BUFFERS:
                raise ValueError(f"{words[0]} by {threads} threads asks for {count} bytes")
            most = most if threads > 1 else max(most, count)
    return most, LEAST_BUFFER


def little_memory():
    resource.setrlimit(resource.RLIMIT_AS, (LITTLE_MEMORY, LITTLE_MEMORY))


def rounds_in_little_memory(program, _folder, last_lines, last_answers, left=NOTHING_LEFT):
    """Rounds of an upload whose parts have four times as many bytes together as the program may take."""
    lines, answers = [f"tenant {2 * PART}"], ["tenant 0"]
    for upload in range(ROUNDS):
        lines += [f"begin 0 {PART}", f"put {upload} 0 p:{PART}", *last_lines(upload)]
        answers += [f"upload {upload}", f"held {PART} all", *last_answers(upload)]
    text = "".join(f"{line}\n" for line in [*lines, "stat"])
    run = subprocess.run([program, "run"], input=text.encode(), stdout=subprocess.PIPE, preexec_fn=little_memory, timeout=SECONDS)
    found = run.stdout.decode(errors="replace").splitlines()
    if found != [*answers, left]:
        raise ValueError(f"it answered {found[-3:]!r}")
    return 0, 0


ADDRESS = address_of_pattern(PART)
FORGOTTEN = (lambda at: [f"seal {at}", f"forget 0 {ADDRESS}"], lambda at: [f"new {ADDRESS} {PART}", "ok"])
KNOWN = (lambda at: [f"seal {at}"], lambda at: [f"{'known' if at else 'new'} {ADDRESS} {PART}"], f"objects 1 bytes {PART} uploads 0 held 0 parts 0")
ABORTED = (lambda at: [f"abort {at}"], lambda at: ["ok"])
"""How the rounds of an upload end, and the answers to that."""


CASES = {
    "a seal shares bytes": functools.partial(more_for_long_parts, step=0),
    "a seal of what is known copies no bytes": functools.partial(more_for_long_parts, step=1),
    "a forget copies no bytes": functools.partial(more_for_long_parts, step=2),
    "a fetch asks for no digits": a_fetch_asks_for_no_digits,
    "a line that is too long is not kept": a_line_that_is_too_long_is_not_kept,
    "an upload takes its input once": an_upload_takes_its_input_once,
    "threads are as many as asked for": threads_are_as_many_as_asked_for,
    "what is forgotten is given back": lambda *words: rounds_in_little_memory(*words, *FORGOTTEN),
    "what is known is given back": lambda *words: rounds_in_little_memory(*words, *KNOWN),
    "what is aborted is given back": lambda *words: rounds_in_little_memory(*words, *ABORTED),
}
"""Each gives how many bytes more something takes, and at most how many that may be."""


def judge(name, program):
    with tempfile.TemporaryDirectory() as folder:
        more, most = CASES[name](program, folder)
    print(f"{name}: {more} bytes more, of at most {most}", flush=True)
    return [f"{more} bytes more, and at most {most}"] if more > most else []


def main():
    end_where_older()
    if len(sys.argv) != 2:
        sys.exit(__doc__)
    program = os.path.abspath(sys.argv[1])
    return judged((name, functools.partial(judge, name, program)) for name in CASES)


if __name__ == "__main__":
    sys.exit(main())
