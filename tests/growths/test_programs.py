"""The tests in modules `growths` of the crates, by the built programs that are to run them."""
import glob
import os
import subprocess

from commands import Answer, Case

CRATES = os.path.join(os.path.dirname(os.path.dirname(os.path.dirname(os.path.abspath(__file__)))), "crates")
SECONDS = 60
PASSED = Answer(0, b"\ntest result: ok\n", b"")


def crates_with_growths():
    """The crates whose sources have such a module."""
    return sorted({os.path.relpath(path, CRATES).split(os.sep)[0] for path in glob.glob(os.path.join(CRATES, "*", "src", "**", "growths.rt"), recursive=True)})


def listed_by(program):
    """The tests of these modules that a test program has, and why there are none."""
    try:
        reported = subprocess.run([program, "--list"], stdout=subprocess.PIPE, timeout=SECONDS).stdout.decode(errors="replace")
    except (OSError, subprocess.TimeoutExpired) as fault:
        return [], f"its program can't be run ({fault}); `rt test` in the crate's folder builds it"
    return [name for name, mark, rest in (line.rpartition(": test") for line in reported.splitlines()) if mark and not rest and "growths::" in name], "it lists no test"


def tests(crates):
    """The cases of the tests whose programs are below this folder, and the crates that have none, each with the reason."""
    cases, faults = [], []
    for crate in crates_with_growths():
        program = os.path.join(os.path.abspath(crates), crate, "out", f"{crate}_tests")
        names, why = listed_by(program)
        cases += [Case([program, name], b"", PASSED, lambda _: False) for name in names]
        faults += [] if names else [(f"{crate}_tests", why)]
    return cases, faults or ([] if cases else [("tests", "no crate has a module growths")])
