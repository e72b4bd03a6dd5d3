"""A second reading of what standard error says of refused lines, from docs/PROTOCOL.md and docs/USE.md."""
from check_files import check_line_of, verdict_on
from script import FORMS, call_of

STANDARD = b"standard input"
MAX_EXPLAINED = 10
FAULTS = {
    b"C1": b"the line has the tagged form",
    b"C2": b"the line is too short for digits and two spaces",
    b"C3": b"the first 64 bytes are not all hexadecimal digits",
    b"C4": b"no two spaces follow the digits",
    b"C5": b"the name is empty",
    b"C6": b"a backslash in the name begins no escape",
    b"C7": b"the name holds a byte 0",
}
JOURNALS = {
    b"refused J2 ": (b"line", b"J2: it is not in the grammar of journals"),
    b"refused J1 ": (b"entry", b"J1: its command is refused after the entries before it"),
}
WORDS = {*FORMS, "put"}
OF_WORD, OF_FIELD = b"unknown command", b"a field is missing, wrong or extra"


class Explanations:
    """The messages on an input, of which those on refused lines are ten, and then their number."""

    def __init__(self, name):
        self.name, self.text, self.count = name, b"", 0

    def refuse(self, place, number, reason):
        self.count += 1
        if self.count <= MAX_EXPLAINED:
            self.say(b"%s %d: %s" % (place, number, reason))

    def say(self, message):
        self.text += b"b3store: %s: %s\n" % (self.name, message)

    def end(self):
        if self.count > MAX_EXPLAINED:
            self.say(b"%d more lines with faults" % (self.count - MAX_EXPLAINED))
        return self.text


def check_errors(text, files, reasons=None, name=STANDARD):
    """What is said of a check file. Of each unreadable name that is UTF-8 there is the reason."""
    found, has_lines = Explanations(name), False
    for number, line in enumerate(text.split(b"\n"), 1):
        line = line.rstrip(b"\r")
        if not line:
            continue
        has_lines = True
        fault, digest, named = check_line_of(line)
        if fault:
            found.refuse(b"line", number, fault + b": " + FAULTS[fault])
        elif verdict_on(digest, named, files) == "unreadable":
            reason = reasons[named] if reasons and named in reasons else b"the name is not UTF-8"
            found.text += b"b3store: " + named + b": " + reason + b"\n"
    if not has_lines:
        found.say(b"it has no check line")
    return found.end()


def script_errors(text):
    """What is said of a script's bad lines."""
    found = Explanations(STANDARD)
    for number, line in enumerate(text.split("\n"), 1):
        if line and not call_of(line):
            found.refuse(b"line", number, OF_FIELD if line.split(" ")[0] in WORDS else OF_WORD)
    return found.end()


def journal_errors(answer):
    """What is said of a journal that is refused with this answer."""
    found = Explanations(STANDARD)
    for front, (place, reason) in JOURNALS.items():
        if answer.startswith(front):
            found.refuse(place, int(answer[len(front) :]), reason)
    return found.end()
