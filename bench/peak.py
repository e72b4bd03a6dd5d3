"""The memory of a process, for the benchmarks."""
import subprocess
import tempfile


def peak_memory(path, *words):
    """The greatest resident size, in bytes, of a process that reads a file as standard input. Debian's package time starts it: what the system reports of
    a child of Python includes the memory of Python at the fork."""
    with open(path, "rb") as file, tempfile.NamedTemporaryFile("r") as report:
        subprocess.run(["time", "-f", "%M", "-o", report.name, *words], check=True, stdin=file, stdout=subprocess.DEVNULL)
        return int(report.read().split()[-1]) * 1024
