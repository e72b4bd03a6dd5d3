"""Random commands of several clients through a server, by the clients and the checker of tests/sessions: the journal has to explain every answer."""
import os
import sys
import tempfile
import time
import types

from judging import check
from running import Connection, Running
from shared import TOP

sys.path[1:1] = [os.path.join(TOP, "tests", name) for name in ("second_reading", "sessions")]
import clients
from deaths import asked
from history import Op, faults_of

CLIENTS, SESSIONS = 6, 4
COMMANDS = 6000
SECONDS = 240
TENANTS = 3


def _storm(*words):
    with Running("--sessions", str(SESSIONS), "--wait", "60", *words) as server, tempfile.TemporaryDirectory() as folder:
        clients.Session = lambda path, _: Connection(path)
        with server.client() as first:
            began = time.monotonic_ns()
            setup = [asked(first, "tenant 30000") for _ in range(TENANTS)]
        started = clients.start_clients(types.SimpleNamespace(folder=folder, at=server.path), 1, CLIENTS, COMMANDS)
        found = clients.join_clients(started, SECONDS)
        histories = [setup] + [clients.read_log(path, number) for number, (_, path) in enumerate(started, 1)]
        with server.client() as last:
            journal = last.ask("journal").decode().splitlines()[1:]
            open_uploads = [last.uploads(tenant) for tenant in range(TENANTS)]
        aborts = _aborts_of_server(journal, histories, began)
        check((found, []), (faults_of(journal, [*histories, aborts])[:3], []), (server.end()[:2], (0, "")))
        check((aborts, []) if words else (open_uploads, [[]] * TENANTS))


def _aborts_of_server(journal, histories, began):
    """The aborts that no client did, as commands of one more client, at any time."""
    done = {op.line for history in histories for op in history if op.line.startswith("abort ") and op.answer == b"ok\n"}
    ended = time.monotonic_ns()
    return [Op(0, began, entry, (0, 0), ended, b"ok\n") for entry in journal if entry.startswith("abort ") and entry not in done]


def storm():
    """What sessions left open is aborted, and nothing else is done."""
    _storm()


def storm_with_kept_uploads():
    """The same where nothing is aborted."""
    _storm("--keep-uploads")
