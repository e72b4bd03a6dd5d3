"""python3 tests/growths PROGRAM [--program-alone] [--crates FOLDER]: runs the program again and again, and lets one growth of its
memory fail each time: the first, the second, and so on, until a run has no growth that could fail.

If no growth fails, the answer must be that of the second implementation. Otherwise each run must end by itself, with the same
answer, or with status 3 and `b3store: out of memory`. In the latter case, an engine that writes at its end must have written nothing,
except that `upload` may have reported its refusal; and `run` must have answered as the model does, except for commands that it refused
with S14, which changed nothing. `serve` must continue like this to the end, unless there was no memory to begin. Some run of `run`, of
`serve` and of `upload` must report such a refusal.

Then the same is done to each test in a module `growths` of the crates' sources, by the test program crates/NAME/out/NAME_tests that
`rt ci` or `rt test` has built: each run must pass. `--crates` names another folder instead of `crates`, and `--program-alone` omits
these tests. Each command and each test must have at least one growth that fails. The last line is `N passed, M failed`.

A small preloaded library (tests/common/memory.c) makes the growths fail, so a C compiler, `cc`, is needed.
"""
import argparse
import functools
import os
import subprocess
import sys
import tempfile

sys.dont_write_bytecode = True
TESTS = os.path.dirname(os.path.dirname(os.path.abspath(__file__)))
sys.path[1:1] = [os.path.join(TESTS, "common"), os.path.join(TESTS, "second_reading")]
from commands import DOOR, FILES, cases
from judging import judged
from preloaded import CannotPreload, Preloaded
from python_needed import end_where_older
from test_programs import CRATES, tests

REFUSING = os.path.join(TESTS, "common", "memory.c")
MAX_GROWTHS = 5000
TELLS = b"b3store: out of memory\n"


def ending(run):
    return run.returncode, run.stdout, run.stderr


def is_answer(run, answer):
    begins = run.stderr.startswith(answer.stderr) if answer.stderr else not run.stderr
    return begins and (run.returncode, run.stdout) == (answer.status, answer.stdout)


def may_end(run, whole, case):
    """Whether a run of which a growth was refused may end so, which without that ends as the whole does."""
    if ending(run) == whole:
        return True
    status, _, stderr = whole
    if (run.returncode, run.stderr) == (status, stderr) and case.may_answer(run.stdout):
        return True
    return run.returncode == 3 and run.stderr == TELLS and case.may_have_written(run.stdout) or case.may_end(run)


def growths_of(refusing, case):
    """What is wrong with the runs of a case in which each growth is refused in turn."""
    undisturbed, _ = refusing.run(case.words, case.data)
    whole = ending(undisturbed)
    if not is_answer(undisturbed, case.answer):
        return [f"where no growth is refused it ended {whole!r}, not {tuple(case.answer)!r}"]
    ended, failed, is_refused = 0, [], not case.refusal
    for growth in range(1, MAX_GROWTHS):
        try:
            run, met = refusing.run(case.words, case.data, GROWTH=str(growth))
        except subprocess.TimeoutExpired:
            failed.append(f"growth {growth}: it did not end")
            continue
        if growth == 1 and not met:
            return ["no growth was refused, as of a program that is linked statically"]
        is_refused, ended = is_refused or case.refusal in run.stdout, ended + (run.returncode == 3)
        failed += [] if may_end(run, whole, case) else [f"growth {growth}: ended {ending(run)!r}"]
        if not met:
            print(f"{name_of(case)}: {growth} runs, of which {ended} ended when out of memory")
            return failed if is_refused else [*failed, f"no run reports {case.refusal!r}"]
    return [*failed, f"it grows more than {MAX_GROWTHS} times"]


def name_of(case):
    return " ".join([os.path.basename(case.words[0]), *case.words[1:]])


def trials(options, folder):
    """Each command and each test, with what finds its faults."""
    try:
        refusing = Preloaded(folder, REFUSING)
        found, faults = ([], []) if options.program_alone else tests(options.crates)
    except CannotPreload as fault:
        yield "all", lambda why=str(fault): [why]
        return
    for name, content in FILES.items():
        with open(os.path.join(folder, name), "wb") as file:
            file.write(content)
    os.mkfifo(os.path.join(folder, DOOR))
    for case in [*cases(os.path.abspath(options.program)), *found]:
        yield name_of(case), functools.partial(growths_of, refusing, case)
    for name, why in faults:
        yield name, lambda why=why: [why]


def main():
    end_where_older()
    parser = argparse.ArgumentParser(description=__doc__.split("\n\n")[0])
    parser.add_argument("program", metavar="PROGRAM")
    parser.add_argument("--program-alone", action="store_true", help="leave the tests in modules growths out")
    parser.add_argument("--crates", default=CRATES, metavar="FOLDER", help="use the test programs FOLDER/NAME/out/NAME_tests")
    options = parser.parse_args()
    with tempfile.TemporaryDirectory() as folder:
        return judged(trials(options, folder))


if __name__ == "__main__":
    sys.exit(main())
