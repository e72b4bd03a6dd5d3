"""Random check files over a few files."""
from blake3 import address_of
from check_files import check_answer, escaped
from explaining import check_errors

FILES = {b"f": b"abc", b"a\\b": b"", b"n\nl": b"\0" * 1025, b"r\rr": b"x" * 63, b"-": b"dash", b" s": b"s"}
DIGESTS = {name: address_of(content).encode() for name, content in FILES.items()}


def line_of(chance):
    name = chance.choice(list(FILES) + [b"none", b"\xff", b"\\q"])
    digest = DIGESTS.get(name, b"0" * 64) if chance.random() < 0.8 else DIGESTS[b"f"]
    digest = digest.upper() if chance.random() < 0.2 else digest
    text = escaped(name)
    needs = text != name
    if chance.random() < 0.1:
        needs = not needs
    line = (b"\\" if needs else b"") + digest + b"  " + text
    if chance.random() < 0.25:
        at = chance.randrange(len(line) + 1)
        line = line[:at] + chance.choice((b"", b"\\", b"\0", b"g", b" ", b"BLAKE3 (", b"*")) + line[at + chance.randrange(3) :]
    return line.replace(b"\n", b"") + b"\r" * chance.choice((0, 0, 0, 1, 2))


def case(chance):
    data = b"\n".join(line_of(chance) for _ in range(chance.randrange(8))) + chance.choice((b"", b"\n", b"\n\n"))
    is_quiet, is_silent, ignores_missing = chance.random() < 0.2, chance.random() < 0.1, chance.random() < 0.2
    reported, status = check_answer(data, DIGESTS, is_quiet, ignores_missing)
    flags = {"--quiet": is_quiet, "--status": is_silent, "--ignore-missing": ignores_missing}
    words = ["check", *(flag for flag, is_given in flags.items() if is_given)]
    words += ["--threads", str(chance.choice((1, 2, 3, 16)))] if chance.random() < 0.3 else []
    return words, data, b"" if is_silent else reported, status


def errors(data, _answer):
    return check_errors(data, DIGESTS)
