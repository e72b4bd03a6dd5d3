"""Random inputs of `sum` in its three modes, as long as whole blocks, chunks, subtrees and reads of the program, or about so long."""
from blake3 import HASH, derived, keyed, output_of
from check_files import check_line
from checks import FILES
from script import pattern

ENDS = (0, 64, 1024, 2048, 3072, 4096, 5120, 7168, 8192, 9216, 12288, 16384, 17408)
NAMES = (b"-", b"a name", b"back\\slash", b"line\nfeed", b"return\r", "\u00e9".encode(), b"--name")
CONTEXTS = (b"", b"b3store", "\u00e9".encode(), b"x" * 64, b"y" * 1025)
LENGTHS = (1, 31, 32, 33, 63, 64, 65, 128, 1000)


def mode_of(chance):
    """The words of a mode, and the mode."""
    kind = chance.randrange(3)
    if kind == 0:
        return [], HASH
    if kind == 1:
        key = bytes(chance.randrange(256) for _ in range(32))
        digits = key.hex()
        return ["--key", digits.upper() if chance.random() < 0.5 else digits], keyed(key)
    context = chance.choice(CONTEXTS)
    return [b"--context=" + context], derived(context)


def threads_of(chance):
    """The words that say by how many threads, which change nothing that is written."""
    return ["--threads", str(chance.choice((1, 2, 3, 16)))] if chance.random() < 0.3 else []


def line_of(name, data, mode):
    """The check line of a name and its content."""
    return check_line(output_of(data, 32, mode).hex().encode(), name)


def case_of_files(chance):
    """Some of the few files that stand beside check files, by words or by a list."""
    words, mode = mode_of(chance)
    words += threads_of(chance)
    files = {name: data for name, data in FILES.items() if name != b"-"}
    names = [chance.choice(list(files)) for _ in range(chance.randrange(1, 5))]
    output = b"".join(line_of(name, files[name], mode) for name in names)
    if chance.random() < 0.5:
        return ["sum", *words, b"--", *names], b"", output, 0
    return ["sum", *words, "-0", "--files-from", "-"], b"\0".join(names) + chance.choice((b"", b"\0", b"\0\0")), output, 0


def case(chance):
    if chance.random() < 0.25:
        return case_of_files(chance)
    end = 65536 if chance.random() < 0.04 else chance.choice(ENDS)
    data = pattern(chance.randrange(251), max(0, end + chance.choice((-1, 0, 1, chance.randrange(1024)))))
    words, mode = mode_of(chance)
    words += threads_of(chance)
    if chance.random() < 0.5:
        length = chance.choice(LENGTHS)
        return ["sum", *words, "--length", str(length)], data, output_of(data, length, mode).hex().encode() + b"\n", 0
    name = chance.choice(NAMES)
    return ["sum", *words, b"--name=" + name], data, line_of(name, data, mode), 0
