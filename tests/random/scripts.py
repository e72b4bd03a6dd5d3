"""Random scripts: commands that mostly mean something, and lines that a little change has spoilt."""
from explaining import script_errors
from script import answers_of, call_of, pattern
from store import Refused, Store

LENGTHS = (0, 1, 5, 63, 64, 65, 1023, 1024, 1025, 2047, 2048, 2049, 3072, 4096, 5000)
NUMBERS = ("18446744073709551615", "18446744073709551616", "70368744177664", "70368744177665", "17592186044416", "17592186044417", "007", "-1", "+1", "")


class Writer:
    """Writes a script line by line, and keeps the store that it leaves, so that lines speak of what is there."""

    def __init__(self, chance):
        self.chance, self.store, self.lines = chance, Store(), []
        self.lengths = chance.sample(LENGTHS, 2)

    def add(self, line):
        self.lines.append(line)
        call = call_of(line)
        try:
            if call:
                getattr(self.store, call[0])(*call[1])
        except Refused:
            pass

    def tenant(self):
        tenants = len(self.store.limits)
        return self.chance.choice(list(range(tenants)) * 8 + [tenants])

    def upload(self):
        numbers = list(self.store.uploads) * 16 + [self.chance.randrange(self.store.begun + 2)]
        return self.chance.choice(numbers)

    def address(self):
        addresses = list(self.store.objects) * 3 + ["0" * 64]
        found = self.chance.choice(addresses)
        return found.upper() if self.chance.random() < 0.2 else found

    def begin(self):
        lengths = self.lengths if self.chance.random() < 0.9 else LENGTHS + (1 << 44, (1 << 44) + 1)
        word = self.chance.choice(("begin", "open"))
        return f"{word} {self.tenant()} {self.chance.choice(lengths)}"

    def fix(self):
        number = self.upload()
        upload = self.store.uploads.get(number)
        ends = list(LENGTHS)
        if upload:
            reached = upload.reached()
            ends += [reached] * 20 + [upload.bound, upload.bound + 1, reached + 1, max(1, reached) - 1, upload.missing() or 0]
        return f"fix {number} {self.chance.choice(ends)}"

    def place_in(self, upload):
        """Where a part may begin, and its length. Where the upload's length comes later, it often is in a free place and ragged."""
        if upload and upload.has_open_plan and self.chance.random() < 0.3:
            free = [offset for offset in range(0, min(upload.bound, 5120), 1024) if upload.overlap(offset, 1) is None]
            return self.chance.choice(free or [0]), self.chance.choice((1, 1000, 1023, 1024))
        length = upload.length() if upload else 2048
        offset = 1024 * self.chance.randrange(max(1, -(-length // 1024)))
        if upload and upload.missing() is not None and self.chance.random() < 0.5:
            offset = upload.missing()
        return offset, min(length - offset, 1024 * self.chance.randrange(1, 6))

    def put(self):
        number = self.upload()
        offset, most = self.place_in(self.store.uploads.get(number))
        if self.chance.random() < 0.1:
            offset = self.chance.choice((offset, self.chance.randrange(4100)))
            most = self.chance.choice(LENGTHS + (33554432, 33554433))
        if self.chance.random() < 0.8 or most > 5000:
            return f"put {number} {offset} p:{most}"
        return f"put {number} {offset} x:{pattern(offset + self.chance.choice((0, 0, 1)), most).hex()}"

    def command(self):
        kinds = {
            "tenant": lambda: f"tenant {self.chance.choice((0, 4096, 9000, 20000, 1 << 46))}",
            "limit": lambda: f"limit {self.tenant()} {self.chance.choice((0, 2048, 9000, 40000))}",
            "begin": self.begin,
            "fix": self.fix,
            "put": self.put,
            "seal": lambda: f"seal {self.upload()}",
            "sealas": lambda: f"sealas {self.upload()} {self.address()}",
            "abort": lambda: f"abort {self.upload()}",
            "forget": lambda: f"forget {self.tenant()} {self.address()}",
            "fetch": lambda: f"fetch {self.tenant()} {self.address()}",
            "usage": lambda: f"usage {self.tenant()}",
            "list": lambda: f"list {self.tenant()}",
            "stat": lambda: "stat",
            "journal": lambda: "journal",
        }
        open_now = len(self.store.uploads)
        weights = {"begin": 16 if open_now < 2 else 2, "put": 8 * min(3, open_now), "seal": 2 * open_now, "abort": 1}
        weights["fix"] = 1 + 2 * sum(upload.end is None for upload in self.store.uploads.values())
        word = self.chance.choices(list(kinds), [weights.get(kind, 2) for kind in kinds])[0]
        return kinds[word]()

    def line(self):
        line = self.command() if self.lines else "tenant 20000"
        return spoilt(self.chance, line) if self.chance.random() < 0.06 else line


def spoilt(chance, line):
    """The line with one field, one space or one byte another."""
    fields = line.split(" ")
    kind = chance.randrange(4)
    if kind == 0:
        fields[chance.randrange(len(fields))] = chance.choice(NUMBERS)
    elif kind == 1:
        fields.append(chance.choice(("", "1", "x:")))
    elif kind == 2:
        fields.pop(chance.randrange(len(fields)))
    else:
        at = chance.randrange(len(line))
        return line[:at] + chance.choice("0 9azX:-\t") + line[at + 1 :]
    return " ".join(fields)


def case(chance):
    """A script: the program's words, its input, its output and its exit status."""
    writer = Writer(chance)
    for _ in range(chance.randrange(1, 60)):
        writer.add(writer.line())
    text = "\n".join(writer.lines) + chance.choice(("\n", ""))
    answers, status, _ = answers_of(text)
    return ["run"], text.encode(), "".join(answer + "\n" for answer in answers).encode(), status


def journal_of(chance):
    """The journal that a random script leaves."""
    writer = Writer(chance)
    for _ in range(chance.randrange(1, 60)):
        writer.add(writer.line())
    return writer.store.journal


def errors(data, _answer):
    return script_errors(data.decode("latin-1"))
