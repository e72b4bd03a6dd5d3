"""A second store that follows a first one by the lines of `redo`, while clients of the first one work."""
import random
import threading

from judging import differences
from session import requests_of

COUNTS = (0, 1, 2, 7, 60, 5000)
"""How many entries are asked for at a time."""
MAX_FOUND = 5


def run_lines(second, lines):
    """What the second store refuses of such lines. It may refuse a forget of what it doesn't hold."""
    found = []
    for line, taken in requests_of(lines):
        answer = second.ask(line, taken) if taken is not None else b"cut off"
        is_gone = line.startswith("forget ") and answer == b"refused S12\n"
        if not (is_gone or answer.startswith((b"tenant ", b"ok\n", b"new ", b"known "))):
            found.append(f"{line[:100]}: {answer!r}")
    return found


def follow(first, second, chance, is_over):
    """Runs the lines of `redo` in pieces of random size, up to the journal's end after the clients' work is over. Gives what is refused."""
    found, at = [], 0
    while len(found) < MAX_FOUND:
        is_last = is_over()
        count = 5000 if is_last else chance.choice(COUNTS)
        answer = first.ask(f"redo {at} {count}")
        head, _, lines = answer.partition(b"\n")
        if len(head.split()) != 3:
            return found + [f"redo {at} {count}: {answer[:100]!r}"]
        _, following, length = head.split()
        found += differences((int(length), len(lines))) + run_lines(second, lines)
        if is_last and int(following) == at:
            break
        at = int(following)
    return found


def contents_of(session):
    """What each tenant may use and uses, and the objects that it holds."""
    found = []
    for tenant in range(int(session.ask("tenants").split()[1])):
        words = session.ask(f"usage {tenant}").split()
        addresses = sorted(line.split()[0].decode() for line in session.ask(f"list {tenant}").splitlines()[1:])
        found.append((words[1], words[5], [(address, session.ask(f"fetchb {tenant} {address}")) for address in addresses]))
    return found


class Following:
    """A thread in which a store follows another. It uses one session of each."""

    def __init__(self, first, second, seed):
        self.first, self.second, self.found, self.ended = first, second, ["it did not end"], threading.Event()
        self.thread = threading.Thread(target=self.run, args=(random.Random(seed),), daemon=True)
        self.thread.start()

    def run(self, chance):
        try:
            self.found = follow(self.first, self.second, chance, self.ended.is_set)
        except Exception as fault:  # pylint: disable=broad-except
            self.found = [repr(fault)]

    def end(self):
        """What was refused, and what differs when the clients' work is over."""
        self.ended.set()
        self.thread.join()
        return self.found or differences((contents_of(self.second), contents_of(self.first)))
