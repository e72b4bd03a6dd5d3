"""python3 tests/failures PROGRAM: runs each subcommand again and again, and lets one of its writes or reads fail each time: the first, the second,
and so on, until a run has none that could fail. Each call moves one byte, and the calls after the failed one would succeed.

After a failed write to standard output, the output must be exactly the bytes before it: nothing more is written, and the status is 3. A failed
write to standard error must change neither the output nor the status. After a failed read of standard input or of a list, the output must be the
answers to all that was completely read before it, and the status 3. After a failed read of a file, that file must be unreadable or read again,
and the other files must be read.

The last line is `N passed, M failed`. A small preloaded library (failing.c) makes the calls fail, so a C compiler, `cc`, is needed.
"""
import os
import subprocess
import sys
import tempfile
from concurrent.futures import ThreadPoolExecutor

sys.dont_write_bytecode = True
TESTS = os.path.dirname(os.path.dirname(os.path.abspath(__file__)))
sys.path[1:1] = [os.path.join(TESTS, name) for name in ("common", "failures", "second_reading")]
from commands import FILES, Answer, cases
from judging import judged
from preloaded import CannotPreload, Preloaded
from python_needed import end_where_older

FAILING = os.path.join(TESTS, "failures", "failing.c")
MAX_CALLS = 5000
MAX_TOLD = 5
CANNOT_WRITE = b"b3store: cannot write\n"


def ending(run):
    return Answer(run.returncode, run.stdout, run.stderr)


def after_write(whole, number):
    """How a run may end whose write of this number to standard output fails: standard error has what it had by then, and the cause."""
    lines = whole.stderr.splitlines(keepends=True)
    reported = [b"".join(lines[:count]) for count in range(len(lines) + 1)]
    return [Answer(3, whole.stdout[: number - 1], before + CANNOT_WRITE) for before in reported]


def failures_of(failing, case, kind, may_end, **variables):
    """What is wrong of the runs in which one call of a kind fails in turn; `may_end` gives the ways in which each may end."""
    found = []
    for number in range(1, MAX_CALLS):
        run, was_failed = failing.run(case.words, case.data, FAILING_CALL=kind, FAILING_NUMBER=str(number), **variables)
        wanted = may_end(number) if was_failed else [case.answer]
        if ending(run) not in wanted:
            found.append(f"{kind} {number}: ended {tuple(ending(run))!r}, not {tuple(wanted[0])!r}")
        if number == 1 and not was_failed and (kind == "read" or case.answer.stdout):
            found.append(f"no {kind} was failed, as of a program that is linked statically")
        if not was_failed or len(found) >= MAX_TOLD:
            return found
    return [f"it makes more than {MAX_CALLS} calls to {kind}"]


def failed_writes(failing, case):
    return failures_of(failing, case, "write", lambda number: after_write(case.answer, number), FAILING_DESCRIPTOR="1")


def failed_messages(failing, case):
    """The same of standard error, where the messages after the failed write may be written."""
    found = []
    for number in range(1, len(case.answer.stderr) + 1):
        variables = {"FAILING_CALL": "write", "FAILING_NUMBER": str(number), "FAILING_DESCRIPTOR": "2"}
        run, was_failed = failing.run(case.words, case.data, **variables)
        if not was_failed or (run.returncode, run.stdout) != case.answer[:2]:
            found.append(f"message {number}: ended {tuple(ending(run))!r}")
    return found[:MAX_TOLD]


def failed_reads(failing, case):
    return failures_of(failing, case, "read", case.after_read)


def trials(failing, program):
    """Each trial's name, and what finds its faults."""
    for case in cases(program):
        name = " ".join([os.path.basename(case.words[0]), *case.words[1:]])
        if case.after_read:
            yield f"{name}: reads", failed_reads, case
        if case.answer.stdout:
            yield f"{name}: writes", failed_writes, case
        if case.answer.stderr:
            yield f"{name}: messages", failed_messages, case


def tried(program, folder):
    try:
        failing = Preloaded(folder, FAILING)
    except CannotPreload as fault:
        return judged([("all", lambda: [str(fault)])])
    for name, content in FILES.items():
        with open(os.path.join(folder, name), "wb") as file:
            file.write(content)
    with ThreadPoolExecutor(os.cpu_count()) as pool:
        waiting = [(name, pool.submit(find, failing, case)) for name, find, case in trials(failing, program)]
        return judged([(name, found.result) for name, found in waiting])


def main():
    end_where_older()
    if len(sys.argv) != 2:
        print(__doc__.split("\n\n")[0], file=sys.stderr)
        return 2
    with tempfile.TemporaryDirectory() as folder:
        return tried(os.path.abspath(sys.argv[1]), folder)


if __name__ == "__main__":
    sys.exit(main())
