"""A second reading of check files, from docs/FORMATS.md."""
import re


def check_line_of(line):
    """The first fault of a check line, or None; its digest; its name."""
    is_escaped = line.startswith(b"\\")
    rest = line[1:] if is_escaped else line
    name = rest[66:]
    faults = [
        (b"C1", rest.startswith(b"BLAKE3 (")),
        (b"C2", len(rest) < 66),
        (b"C3", not re.match(rb"[0-9a-fA-F]{64}", rest)),
        (b"C4", rest[64:66] != b"  "),
        (b"C5", not name),
        (b"C6", is_escaped and not re.fullmatch(rb"([^\\]|\\[\\nr])*", name)),
        (b"C7", b"\0" in name),
    ]
    if is_escaped:
        name = re.sub(rb"\\(.)", lambda found: {b"n": b"\n", b"r": b"\r"}.get(found[1], found[1]), name)
    return next((fault for fault, applies in faults if applies), None), rest[:64].lower(), name


def is_text(name):
    try:
        return name.decode() is not None
    except UnicodeDecodeError:
        return False


def verdict_on(digest, name, files):
    """Of each file there is the digest, or None where it is unreadable."""
    if name not in files:
        return "missing" if is_text(name) else "unreadable"
    if files[name] is None:
        return "unreadable"
    return "good" if files[name] == digest else "bad"


def escaped(name):
    return name.replace(b"\\", b"\\\\").replace(b"\n", b"\\n").replace(b"\r", b"\\r")


def line_of(first, name):
    """A line that ends with a name."""
    text = escaped(name)
    return (b"" if text == name else b"\\") + first + text + b"\n"


def report_line(verdict, name):
    return line_of(verdict.encode() + b" ", name)


def check_line(digest, name):
    return line_of(digest + b"  ", name)


def check_answer(text, files, is_quiet=False, ignores_missing=False):
    """A second reading of check files: the report on one, and the status."""
    counts = dict.fromkeys(["good", "bad", "missing", "unreadable", "faults"], 0)
    report = b""
    for number, line in enumerate(text.split(b"\n"), 1):
        line = line.rstrip(b"\r")
        if not line:
            continue
        fault, digest, name = check_line_of(line)
        verdict = "faults" if fault else verdict_on(digest, name, files)
        counts[verdict] += 1
        if (is_quiet and verdict == "good") or (ignores_missing and verdict == "missing"):
            continue
        report += b"fault %d %s\n" % (number, fault) if fault else report_line(verdict, name)
    ignored = counts["missing"] if ignores_missing and counts["good"] else 0
    has_passed = sum(counts.values()) == counts["good"] + ignored
    totals = " ".join(f"{verdict} {count}" for verdict, count in counts.items())
    return report + (b"" if is_quiet and has_passed else totals.encode() + b"\n"), 0 if has_passed else 1
