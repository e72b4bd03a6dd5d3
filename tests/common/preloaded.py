"""Runs programs with a small C library preloaded, which disturbs one call of theirs."""
import os
import select
import subprocess

SECONDS = 60


class CannotPreload(Exception):
    """The library can't be built."""


class Preloaded:
    """Runs programs in a folder, which has the library too. When the library disturbs the call that was asked for, it writes a byte to the
    file descriptor in the environment variable DISTURBED."""

    def __init__(self, folder, source):
        self.folder = folder
        self.library = os.path.join(folder, os.path.basename(source) + ".so")
        words = ["cc", "-O2", "-shared", "-fPIC", "-o", self.library, source]
        try:
            built = subprocess.run(words, stderr=subprocess.PIPE)
        except OSError as fault:
            raise CannotPreload(f"there is no C compiler for {os.path.basename(source)}: {fault}") from None
        if built.returncode != 0:
            raise CannotPreload(f"the C compiler reports {built.stderr.decode(errors='replace')!r}")

    def run(self, words, data, **variables):
        """The finished run, and whether the call was disturbed."""
        seen, reported = os.pipe()
        changed = {"LD_PRELOAD": self.library, "DISTURBED": str(reported), **variables}
        try:
            run = subprocess.run(
                words, input=data, capture_output=True, cwd=self.folder, timeout=SECONDS, pass_fds=[reported],
                env={**os.environ, **changed},
            )
            return run, bool(select.select([seen], [], [], 0)[0]) and os.read(seen, 1) == b"x"
        finally:
            os.close(reported)
            os.close(seen)
