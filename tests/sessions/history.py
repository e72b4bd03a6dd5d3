"""Histories of clients, and whether the journal explains them.

A history has each client's commands in order, with when they were sent and answered. Accepted commands are in the one journal, once each, in each
client's order, and each entry is some client's. Every answer is the model's at one moment, a number of entries, between the sending of its command and the
answer; and moments follow each other as the answers did. The aborts by which the server ends the uploads of a session after it are commands that nobody is
answered. The model is tests/second_reading.
"""
import bisect
import hashlib

from session import answer_of
from store import Store

LONG = 200
"""An answer of more bytes is kept as its digest."""
NEVER = float("inf")
ACCEPTED = {
    "tenant": (b"tenant",), "limit": (b"ok",), "begin": (b"upload",), "open": (b"upload",), "fix": (b"ok",), "put": (b"held",), "putb": (b"held",),
    "seal": (b"new", b"known"), "sealas": (b"new", b"known"), "abort": (b"ok",), "forget": (b"ok",),
}
"""How the answer to an accepted command begins."""
ONCE = ("tenant", "begin", "open", "put", "seal", "abort")
"""The kinds of entries that a journal has once at most with the same text."""
MAY_LACK_MEMORY = ("journal", "entries")
MAX_TRIES = 50000
MAX_FAULTS = 5
MAX_CHOICES = 10
"""So many choices of a client for an entry are tried otherwise."""


def digest(answer):
    return b"#" + hashlib.blake2b(answer, digest_size=16).digest()


def shortened(answer):
    """What is kept of an answer."""
    return answer if len(answer) <= LONG else digest(answer)


class Op:
    """A command of a client's: when it was sent and answered, the line, the byte that follows it and how often, and the answer, if there was one."""

    __slots__ = ("client", "begun", "ended", "line", "taken", "answer", "entry", "place", "before", "least", "most", "is_done")

    def __init__(self, client, begun, line, taken, ended=NEVER, answer=None):
        self.client, self.begun, self.ended, self.line, self.taken, self.answer = client, begun, ended, line, taken, answer
        self.entry = self.place = self.before = None
        self.least, self.most, self.is_done = 0, 0, False

    def __str__(self):
        return f"client {self.client}: {self.line[:80]!r} answered {self.answer!r}"

    def content(self):
        fill, length = self.taken
        return bytes([fill]) * length

    def is_answer(self, given):
        return self.answer == given or len(given) > LONG and self.answer == digest(given)


def part_length(op, words):
    """How many bytes a part has."""
    if words[0] == "putb":
        return int(words[3])
    return (len(words[3]) - 2) // 2 if words[3].startswith("x:") else int(words[3][2:])


def entry_of(op):
    """The text of an accepted command's entry; None of another line."""
    words, answers = op.line.split(" "), op.answer.split()
    if not answers or answers[0] not in ACCEPTED.get(words[0], ()):
        return None
    if words[0] == "tenant":
        return f"tenant {answers[1].decode()} {words[1]}"
    if words[0] in ("begin", "open"):
        return f"{words[0]} {answers[1].decode()} {words[1]} {words[2]}"
    if words[0] in ("put", "putb"):
        return f"put {words[1]} {words[2]} {part_length(op, words)}"
    if words[0] in ("seal", "sealas"):
        return f"seal {words[1]} {answers[1].decode()} {answers[0].decode()}"
    return op.line.lower()


def kinds_of_entry(entry):
    """What of an entry is known before its command is answered: of a seal it may be the address."""
    fields = entry.split(" ")
    if fields[0] in ("tenant", "begin", "open"):
        return ((fields[0], *fields[2:]),)
    return (tuple(fields[:2]), tuple(fields[:3])) if fields[0] == "seal" else (tuple(fields),)


def kind_of_command(op):
    """The same of a command whose answer isn't known."""
    words = op.line.lower().split(" ")
    if words[0] in ("put", "putb"):
        return "put", words[1], words[2], str(part_length(op, words))
    return ("seal", *words[1:]) if words[0] == "sealas" else tuple(words)


class Claims:
    """Gives each entry of a journal to a client's next accepted command, or to one of a dead client's whose answer isn't known. Where several could have
    it, each is tried."""

    def __init__(self, journal, histories, preferred):
        self.journal, self.preferred = journal, preferred
        """Which client is tried first, by the entry's place."""
        self.queues = [[op for op in history if op.entry is not None] for history in histories]
        self.answered = {op.entry for queue in self.queues for op in queue if op.entry.split(" ")[0] in ONCE}
        self.unknown = {}
        for history in histories:
            for op in history:
                if op.answer is None and op.line.split(" ")[0] in ACCEPTED:
                    self.unknown.setdefault(kind_of_command(op), []).append(op)
        for pool in self.unknown.values():
            pool.sort(key=lambda op: op.begun)
        self.heads = [0] * len(histories)
        self.waiting = {}
        for client in range(len(histories)):
            self.wait(client)
        self.trail, self.tries, self.deepest = [], 0, 0

    def head(self, client):
        at, queue = self.heads[client], self.queues[client]
        return queue[at] if at < len(queue) else None

    def wait(self, client):
        """Notes which entry a client's next command has."""
        op = self.head(client)
        if op is not None:
            self.waiting.setdefault(op.entry, set()).add(client)

    def leave(self, client):
        op = self.head(client)
        if op is not None:
            self.waiting[op.entry].discard(client)

    def candidates(self, entry, latest):
        """The commands that could have an entry, the likeliest last. None was answered before one with an earlier entry was sent."""
        found = [self.head(client) for client in self.waiting.get(entry, ())]
        if entry not in self.answered:
            for kind in kinds_of_entry(entry):
                found += self.unknown.get(kind, ())[:1]
        first = self.preferred.get(len(self.trail))
        return sorted((op for op in found if op.ended >= latest), key=lambda op: (op.client == first, -op.ended))

    def claim(self, op, latest, others):
        """Gives the next entry to a command. Those whose answers aren't known are claimed in any order."""
        self.trail.append((op, latest, others))
        if op.answer is None:
            self.unknown[kind_of_command(op)].remove(op)
        else:
            self.move(op.client, 1)
        return max(latest, op.begun)

    def move(self, client, by):
        self.leave(client)
        self.heads[client] += by
        self.wait(client)

    def back(self):
        """Undoes claims until one has another candidate, and gives that and the time before it. None: there is none."""
        while self.trail and self.tries < MAX_TRIES:
            op, latest, others = self.trail.pop()
            if op.answer is None:
                self.unknown[kind_of_command(op)].insert(0, op)
            else:
                self.move(op.client, -1)
            if others:
                self.tries += 1
                return others, latest
        return None

    def find(self):
        """Gives each claimed command its place. What is wrong where not all have one."""
        latest, fault = 0, None
        others = None
        while len(self.trail) < len(self.journal) or self.left():
            if others is None and len(self.trail) < len(self.journal):
                others = self.candidates(self.journal[len(self.trail)], latest)
            if others:
                latest, others = self.claim(others[-1], latest, others[:-1]), None
                continue
            if fault is None or len(self.trail) > self.deepest:
                self.deepest, fault = len(self.trail), self.fault()
            found = self.back()
            if found is None:
                return fault
            others, latest = found
        for place, (op, _, _) in enumerate(self.trail):
            op.place = place
        return None

    def other_choice(self, op):
        """For an answer that holds nowhere, another choice of whose an entry is: the place and the client. Either another client's command has the entry
        that the answer has to be before, or the command whose entry it has to be after has an earlier one of the same text."""
        if op.most < len(self.trail) and op.most not in self.preferred and self.trail[op.most][2]:
            return {op.most: self.trail[op.most][2][-1].client}
        bounding = self.trail[op.least - 1][0] if op.least else None
        for place in reversed(range(op.least - 1)):
            if place not in self.preferred and bounding in self.trail[place][2]:
                return {place: bounding.client}
        return None

    def left(self):
        return any(head < len(queue) for head, queue in zip(self.heads, self.queues))

    def fault(self):
        place = len(self.trail)
        if place == len(self.journal):
            return "no entry is left for " + "; ".join(str(self.head(client)) for client in range(len(self.queues)) if self.head(client))[:400]
        heads = "; ".join(str(self.head(client)) for client in range(len(self.queues)) if self.head(client))
        return f"entry {place}, {self.journal[place]!r}, is no client's; next are {heads[:600]}"


class WouldAccept(Exception):
    """A command that was refused would be accepted."""


class Watched(Store):
    """The model, which can be asked what it would refuse: then no command is accepted."""

    def __init__(self):
        super().__init__()
        self.is_asked = False

    def keep(self, *fields):
        if self.is_asked:
            raise WouldAccept
        super().keep(*fields)

    def would_answer(self, op):
        self.is_asked = True
        try:
            return answer_of(self, op.line, op.content())
        except WouldAccept:
            return b"(accepted)"
        finally:
            self.is_asked = False


def bound_views(histories):
    """The commands without an entry, each with the least and the greatest number of entries at which its answer may hold."""
    placed = [op for history in histories for op in history if op.place is not None]
    ends = sorted((op.ended, op.place) for op in placed)
    begins = sorted((op.begun, op.place) for op in placed)
    latest, earliest = [0], [NEVER]
    for _, place in ends:
        latest.append(max(latest[-1], place + 1))
    for _, place in reversed(begins):
        earliest.append(min(earliest[-1], place))
    views = []
    for history in histories:
        own, before = 0, None
        for op in history:
            if op.place is not None:
                own = op.place + 1
            elif op.answer is not None:
                op.least = max(own, latest[bisect.bisect_left(ends, (op.begun, -1))])
                op.most = earliest[len(begins) - bisect.bisect_right(begins, (op.ended, NEVER))]
                op.before, before = before, op
                views.append(op)
        following = NEVER
        for op in reversed(history):
            if op.place is not None:
                following = op.place
            elif op.answer is not None:
                op.most = min(op.most, following)
    return sorted(views, key=lambda op: op.least)


class Replay:
    """Goes through a journal with the model, and looks for the moment of each answer."""

    def __init__(self, journal, histories):
        self.journal, self.store, self.faults, self.failed = journal, Watched(), [], []
        self.commands = {op.place: op for history in histories for op in history if op.place is not None}
        self.views, self.next, self.active = bound_views(histories), 0, []

    def holds(self, op, moment):
        """Whether an answer is the model's now. An answer that can be the model's no more is a fault, and is looked for no longer."""
        given = self.store.would_answer(op)
        if op.is_answer(given) or op.answer == b"refused S14\n" and op.line.split(" ")[0] in MAY_LACK_MEMORY:
            return True
        if moment < min(op.most, len(self.journal)):
            return False
        self.failed.append(op)
        self.faults.append(f"{op}, never so from entry {op.least} to {min(op.most, len(self.journal))}; the model answers {given[:80]!r} at the last")
        return True

    def look(self, moment):
        """Finds the answers that hold at a moment, none before another that was there before it was asked."""
        while self.next < len(self.views) and self.views[self.next].least <= moment:
            bisect.insort(self.active, (self.views[self.next].begun, self.next, self.views[self.next]))
            self.next += 1
        left, first_end = [], NEVER
        for row in self.active:
            op = row[2]
            may_be = op.begun <= first_end and (op.before is None or op.before.is_done)
            if may_be and self.holds(op, moment):
                op.is_done = True
            elif not may_be and moment >= min(op.most, len(self.journal)):
                op.is_done = True
                self.failed.append(op)
                self.faults.append(f"{op}, holds at no moment after what was answered before it")
            else:
                left.append(row)
                first_end = min(first_end, op.ended)
        self.active = left

    def step(self, place):
        """Takes an entry. Whether its command was answered as by the model."""
        op = self.commands[place]
        given = answer_of(self.store, op.line, op.content())
        if self.store.journal[place:] != [self.journal[place]]:
            self.faults.append(f"entry {place} is {self.journal[place]!r}; the model keeps {self.store.journal[place:]} and answers {given!r} to {op}")
            return False
        if op.answer is not None and not op.is_answer(given):
            self.faults.append(f"{op}, and the model answers {given!r} at its entry {place}")
        return True

    def run(self):
        for moment in range(len(self.journal) + 1):
            self.look(moment)
            if len(self.faults) >= MAX_FAULTS or moment == len(self.journal) or not self.step(moment):
                break
        return self.faults


def faults_of(journal, histories):
    """What the journal doesn't explain of the histories. Where two clients sent the same, and an answer shows that their entries were given to the wrong
    ones, the other choice is tried."""
    preferred = {}
    for client, history in enumerate(histories):
        for op in history:
            op.client, op.entry = client, entry_of(op) if op.answer is not None else None
    while True:
        for op in (op for history in histories for op in history):
            op.place, op.before, op.is_done = None, None, False
        claims = Claims(journal, histories, preferred)
        fault = claims.find()
        if fault:
            return [fault]
        replay = Replay(journal, histories)
        faults = replay.run()
        choice = claims.other_choice(replay.failed[0]) if replay.failed and len(preferred) < MAX_CHOICES else None
        if choice is None:
            return faults
        preferred.update(choice)
