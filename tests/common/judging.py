"""Runs the cases of a test, and counts them; and what cases need to judge by."""
import os
import time

SECONDS_TO_WAIT = 60
"""How long something is waited for that nothing holds up, on a machine that may be slow."""
SECONDS_BETWEEN_LOOKS = 0.02


def judged(cases):
    """Runs each case, which gives what is not as wanted, and prints the failures and the line of the counts. It gives the exit status."""
    # users' shells don't set it, and what a program couldn't write would not be left to its end
    os.environ.pop("PYTHONUNBUFFERED", None)
    passed = failed = 0
    for name, case in cases:
        try:
            found = case()
        except Exception as fault:
            found = [str(fault) if isinstance(fault, AssertionError) else f"{type(fault).__name__}: {fault}"]
        if found:
            failed += 1
            print(f"FAILED {name}: " + "; ".join(found))
        else:
            passed += 1
    print(f"{passed} passed, {failed} failed")
    return 1 if failed else 0


def differences(*pairs):
    """The differences between values and those that are wanted."""
    return [f"{found!r}"[:300] + f", not {wanted!r}"[:300] for found, wanted in pairs if found != wanted]


def check(*pairs):
    """Raises AssertionError unless the first value of each pair is the second one."""
    found = differences(*pairs)
    if found:
        raise AssertionError("; ".join(found))


def wait_until(holds, seconds=SECONDS_TO_WAIT):
    """Whether something becomes true in time."""
    end = time.monotonic() + seconds
    while not holds():
        if time.monotonic() > end:
            return False
        time.sleep(SECONDS_BETWEEN_LOOKS)
    return True
