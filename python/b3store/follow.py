"""`python -m b3store.follow FROM TO`: keeps a copy of a server's store, on another server or in a folder (docs/USE.md)."""
from .programs import end_at_once

if __name__ == "__main__":
    end_at_once()

import argparse
import os
import sys
import tempfile
import time

from .client import Client
from .console import count_text, fault_text, finish, report
from .redo_log import RedoLog, counts_text
from .values import MAX_REDONE, Counts, StoreError

SECONDS_BETWEEN_LOOKS, SECONDS_BETWEEN_TRIES = 0.1, 1.0
"""How long nothing is asked for once the copy has everything, and after a failure."""
MAX_IN_MEMORY = 1 << 23
"""How many bytes of an answer are kept in memory. More are kept in a temporary file."""
EPILOG = """\
examples:
  python -m b3store.follow /run/first/socket /run/second/socket
  python -m b3store.follow /run/first/socket /var/lib/copy/

exit status: 2 usage error; 3 the copy can't be made, and is left as it is; otherwise it runs until a signal ends it
"""


class Unlike(StoreError):
    """A copy is of another store, and left as it is."""


class Journal:
    """An entry of the journal of the store that is copied, by which it is known again."""

    _number, _entry = 0, [""]

    def check(self, store: Client) -> None:
        """Raises Unlike if the entry that was noted is another now: a server that was started again may have lost what its copy still has."""
        if self._entry not in ([""], store.entries(self._number, 1)):
            raise Unlike("the server to copy was started again: its copy is left as it is")
        self.note(store)

    def note(self, store: Client) -> None:
        """Notes the last entry, if there is one."""
        last = store.counts().entries - 1
        if last >= 0:
            self._number, self._entry = last, store.entries(last, 1)


def follow_to_server(source: Client, path: str, journal: Journal) -> None:
    """Keeps the store of another server the same, until a connection ends, which raises Ended."""
    with Client(path) as target:
        at, is_told = make_same(source, target), False
        while True:
            with tempfile.SpooledTemporaryFile(MAX_IN_MEMORY) as lines:
                following = source._redo_to(lines.write, at, MAX_REDONE)  # type: ignore[arg-type]
                # before the copy has any of it
                journal.note(source)
                target.run_lines(lines)
            if following == at and not is_told:
                is_told = True
                print(f"b3store.follow: {path} has {counts_text(target.counts())}", flush=True)
            if following == at:
                time.sleep(SECONDS_BETWEEN_LOOKS)
            at = following


def counts_above(source: Client, has: int) -> Counts:
    """Returns what a store has. Raises Unlike if it has fewer tenants than its copy."""
    counts = source.counts()
    if has > counts.tenants:
        raise Unlike(f"the copy has {count_text(has, 'tenant')}, and the store to copy {counts.tenants}: it is left as it is")
    return counts


def make_same(source: Client, target: Client) -> int:
    """Gives a store what another one has, unless it is empty. Returns the number of the entry from which it goes on."""
    has = target.counts().tenants
    counts = counts_above(source, has)
    for tenant in range(counts.tenants if has else 0):
        limit, wanted = source.usage(tenant).limit, source.list(tenant)
        if tenant >= has:
            target.tenant(limit)
        held = target.list(tenant)
        target.run_lines(b"".join(b"forget %d %s\n" % (tenant, address.encode()) for address in held if address not in wanted))
        target.limit(tenant, limit)
        for address in wanted:
            # what is forgotten meanwhile is redone later
            if address not in held and source.has(tenant, address) is not None:
                target.upload(source.open(tenant, address), tenant, wanted[address], address=address)
    return counts.entries if has else 0


def follow_to_folder(source: Client, log: RedoLog, has: int, journal: Journal) -> None:
    """Keeps a log of the store, in place of one that had a number of tenants, until the connection ends, which raises Ended."""
    counts_above(source, has)
    while True:
        journal.note(source)
        if not log.follow(source):
            time.sleep(SECONDS_BETWEEN_TRIES)


def run() -> int:
    """Runs the program, and lets exceptions pass."""
    parser = argparse.ArgumentParser(
        "b3store.follow", description="Keep a copy of a server's store.", epilog=EPILOG, formatter_class=argparse.RawDescriptionHelpFormatter
    )
    parser.add_argument("source", metavar="FROM", help="the socket of the server to copy")
    parser.add_argument("target", metavar="TO", help="the socket of another server; or a folder for a log: one that exists, or a path that ends with /")
    words = parser.parse_args()
    if os.path.exists(words.target) and os.path.exists(words.source) and os.path.samefile(words.source, words.target):
        # a copy of itself would grow without end
        parser.error("FROM and TO are the same")
    log = RedoLog(words.target, report) if words.target.endswith("/") or os.path.isdir(words.target) else None
    has, journal, told = log.tenants() if log else 0, Journal(), ""
    while True:
        try:
            with Client(words.source) as source:
                journal.check(source)
                if log is None:
                    follow_to_server(source, words.target, journal)
                else:
                    follow_to_folder(source, log, has, journal)
        except Unlike:
            raise
        except (OSError, StoreError, MemoryError) as fault:
            if fault_text(fault) != told:
                told = fault_text(fault)
                report(f"{told}; it is tried again")
        time.sleep(SECONDS_BETWEEN_TRIES)


if __name__ == "__main__":
    sys.exit(finish(run))
