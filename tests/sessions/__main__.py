"""python3 tests/sessions PROGRAM [--commands N] [--minutes M] [--seed S] [--program-alone] [CASE..]: tests clients of one store, which
`b3store serve --at PATH --sessions N` serves.

Four and then sixteen clients, each in its own process, send N random commands in all (default 100,000) about a few tenants, uploads and contents. The
journal must explain every answer, by the model of tests/second_reading (history.py says how). Clients are killed for M minutes (default 0.1) while others
work; some clients don't read their answers, many come at once, and some connect in a wrong way; and growths of memory fail while two clients work. The
same checks must find each mistake of plain_server.py, a slow server that is made from the second implementation and breaks promises. The last line is
`N passed, M failed`. With CASEs only these are run.
"""
import argparse
import functools
import os
import sys

sys.dont_write_bytecode = True
TESTS = os.path.dirname(os.path.dirname(os.path.abspath(__file__)))
sys.path[1:1] = [os.path.join(TESTS, name) for name in ("common", "second_reading")]
from clients import join_clients, read_log, start_clients
from deaths import asked, deaths, left_open
from door import NoAnswer, Server, Session
from following import Following
from history import faults_of
from judging import judged
from lone import LONE_CASES
from memory import refused_growths
from plain_server import WRONG
from python_needed import end_where_older

PLAIN = os.path.join(TESTS, "sessions", "plain_server.py")
SECONDS_PER_COMMAND = 0.02
MAX_SHOWN = 3
OF_LONE = {"half": "halves of commands", "lags": "answers before it waits", "waits": "a client that never reads", "trips": "bad lines at the door"}
"""The cases that find the mistakes that no history of clients shows."""
COMMANDS_TO_FIND, MINUTES_TO_FIND = 4000, 0.05
TENANTS = 3
FOLLOWER = 100
"""The number of a client that is none of those that work."""


def storm(program, clients, commands, seed, sessions=None):
    """What is wrong with the answers to a number of clients that send a number of commands at the same time."""
    with Server(program, sessions or clients) as server:
        first = [asked(server, "tenant 30000") for _ in range(TENANTS)]
        started = start_clients(server, seed, clients, commands)
        found = join_clients(started, 60 + commands * SECONDS_PER_COMMAND) + left_open(server)
        ends = []
        histories = [first] + [read_log(path, number, ends=ends) for number, (_, path) in enumerate(started, 1)]
        if found:
            return found + [server.reported()[-300:]]
        last = [asked(server, line) for line in ("stat", "tenants", "list 0", "uploads 1")]
        journal = server.ask("journal").decode().splitlines()[1:]
        histories[0] += last
        histories += [ends]
        found = faults_of(journal, histories)
        status, reported = server.end(), server.reported()
        found += [f"the server ended with {status} and {reported[-300:]!r}"] if (status, reported) != (0, "") else []
    count = sum(map(len, histories))
    print(f"{clients} clients: {count} commands, {len(journal)} entries", flush=True)
    return found[:MAX_SHOWN]


def followed(program, commands, seed):
    """What is wrong with a second store that follows the first one while four clients send commands."""
    with Server(program, 5) as server, Server(program, 1) as second:
        for _ in range(TENANTS):
            asked(server, "tenant 30000")
        following = Following(Session(server.at, FOLLOWER), Session(second.at, FOLLOWER), seed)
        found = join_clients(start_clients(server, seed, 4, commands), 60 + commands * SECONDS_PER_COMMAND)
        return (following.end() + found)[:MAX_SHOWN]


def finds(mistake, seed):
    """Whether the checks find a mistake of the plain server."""
    program = [sys.executable, PLAIN, "--wrong", mistake]
    try:
        if mistake == "keeps":
            found = deaths(program, MINUTES_TO_FIND, seed)
        else:
            found = LONE_CASES[OF_LONE[mistake]](program) if mistake in OF_LONE else storm(program, 4, COMMANDS_TO_FIND, seed)
    except (NoAnswer, AssertionError) as fault:
        found = [str(fault)]
    print(f"{mistake}: {found[:1]}"[:300], flush=True)
    return [] if found else ["it is not found"]


def cases(program, options):
    half = options.commands // 2
    if not options.program_alone:
        yield "the plain server", lambda: storm([sys.executable, PLAIN], 4, COMMANDS_TO_FIND, options.seed)
        for mistake in WRONG:
            yield f"the mistake {mistake}", functools.partial(finds, mistake, options.seed)
    yield "four clients", lambda: storm(program, 4, half, options.seed)
    yield "sixteen clients", lambda: storm(program, 16, half, options.seed + 1)
    yield "sixteen clients of four sessions", lambda: storm(program, 16, half // 10, options.seed + 2, 4)
    yield "a store that follows", lambda: followed(program, half // 5, options.seed + 3)
    yield "clients that are killed", lambda: deaths(program, options.minutes, options.seed)
    for name, case in LONE_CASES.items():
        yield name, functools.partial(case, program)
    yield "refused growths", lambda: refused_growths(program)


def main():
    end_where_older()
    parser = argparse.ArgumentParser(description=__doc__.split("\n\n")[0])
    parser.add_argument("program")
    parser.add_argument("--commands", type=int, default=100_000)
    parser.add_argument("--minutes", type=float, default=0.1)
    parser.add_argument("--seed", type=int, default=1)
    parser.add_argument("--program-alone", action="store_true", help="leave the plain server out")
    parser.add_argument("cases", nargs="*", metavar="CASE")
    options = parser.parse_intermixed_args()
    found = [(name, case) for name, case in cases([os.path.abspath(options.program)], options)]
    if unknown := set(options.cases) - {name for name, _ in found}:
        parser.error(f"no case is named {', '.join(sorted(unknown))}")
    return judged((name, case) for name, case in found if not options.cases or name in options.cases)


if __name__ == "__main__":
    sys.exit(main())
