"""Reads a script's lines as docs/PROTOCOL.md defines them, and answers them by the model."""
import re

from store import Refused, Store

NUMBER, ADDRESS = r"(0|[1-9][0-9]*)", r"([0-9a-fA-F]{64})"
FORMS = {
    "tenant": f"tenant {NUMBER}",
    "limit": f"limit {NUMBER} {NUMBER}",
    "begin": f"begin {NUMBER} {NUMBER}",
    "open": f"open {NUMBER} {NUMBER}",
    "fix": f"fix {NUMBER} {NUMBER}",
    "seal": f"seal {NUMBER}",
    "sealas": f"sealas {NUMBER} {ADDRESS}",
    "abort": f"abort {NUMBER}",
    "forget": f"forget {NUMBER} {ADDRESS}",
    "fetch": f"fetch {NUMBER} {ADDRESS}",
    "usage": f"usage {NUMBER}",
    "list": f"list {NUMBER}",
    "stat": "stat",
    "journal": "journal",
}
PUT = re.compile(f"put {NUMBER} {NUMBER} (?:x:((?:[0-9a-fA-F]{{2}})*)|p:{NUMBER})")
CALLS = {"sealas": "seal", "journal": "entries"}
PATTERN = bytes(range(251))


def pattern(first, length):
    """Bytes i mod 251, for i from the first on."""
    return (PATTERN * (length // 251 + 2))[first % 251 :][:length]


def values_of(word, fields):
    """The arguments of a command; None where a number is not below 2^64."""
    values = []
    for at, field in enumerate(fields):
        is_address = at == 1 and word in ("sealas", "forget", "fetch")
        value = field.lower() if is_address else int(field)
        if not is_address and value >= 1 << 64:
            return None
        values.append(value)
    return values


def put_values(line):
    found = PUT.fullmatch(line)
    if not found:
        return None
    number, offset = int(found[1]), int(found[2])
    if number >= 1 << 64 or offset >= 1 << 64:
        return None
    if found[4] is None and len(found[3]) > 33554432:
        return None
    if found[4] is None:
        return number, offset, bytes.fromhex(found[3])
    if int(found[4]) > 33554432:
        return None
    return number, offset, pattern(offset, int(found[4]))


def call_of(line):
    """The name of the model's call and its arguments, or None where the line is no command."""
    word = line.split(" ")[0]
    if word == "put":
        values = put_values(line)
        return ("put", values) if values else None
    found = re.fullmatch(FORMS[word], line) if word in FORMS else None
    values = values_of(word, found.groups()) if found else None
    return (CALLS.get(word, word), values) if values is not None else None


def answers_of(text):
    """The answers to a script, the exit status, and the store that it leaves."""
    store, answers, status = Store(), [], 0
    for line in text.split("\n"):
        if not line:
            continue
        call = call_of(line)
        try:
            answers += getattr(store, call[0])(*call[1]) if call else ["bad"]
        except Refused as refused:
            answers.append(f"refused {refused}")
            status = 1
        status = status if call else 1
    return answers, status, store
