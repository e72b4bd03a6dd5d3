"""How a crate of the repository is proved and built by the toolchain's own command, `rattle build`: over libraries that hold statements and no
proofs, as `rt ci` builds them, so that a crate doesn't load the proofs below it."""
import os
import re
import shutil
import subprocess
import typing

TOP = os.path.dirname(os.path.dirname(os.path.abspath(__file__)))
GIB_PER_JOB = 4
TARGET = "x86_64-unknown-linux-gnu"


class Crate(typing.NamedTuple):
    """A crate's name, the crates that it uses, the kit's among them, and whether it is a static library."""

    name: str
    uses: list
    is_static: bool

    @property
    def folder(self):
        return os.path.join(TOP, "crates", self.name)

    @property
    def root(self):
        """The root file, from the crate's folder. A program's is `main.rt`."""
        return "src/main.rt" if os.path.exists(os.path.join(self.folder, "src", "main.rt")) else "src/lib.rt"

    @property
    def is_library(self):
        """Whether it is a library for the crates above it."""
        return not self.is_static and self.root == "src/lib.rt"


def read_crates():
    """The repository's crates, by name."""
    crates = {}
    with open(os.path.join(TOP, "crates.txt"), encoding="utf-8") as lines:
        for line in lines:
            found = re.match(r"([a-z][a-z0-9_]*)([^:]*):(.*)", line)
            if found:
                crates[found[1]] = Crate(found[1], found[3].split(), "staticlib" in found[2].split())
    return crates


def below(crates, name):
    """The names of the repository's crates below one, each after those that it uses."""
    found = {}
    for used in crates[name].uses:
        if used in crates:
            found.update(dict.fromkeys([*below(crates, used), used]))
    return list(found)


def find_rt():
    """The toolchain's command."""
    found = shutil.which("rt")
    if found is None:
        raise FileNotFoundError("there is no command rt: install the Rattle kit, or put its folder bin on PATH")
    return found


def kit():
    """The toolchain's folder."""
    reported = subprocess.run([find_rt(), "doc"], stdout=subprocess.PIPE, check=True)
    return os.path.dirname(os.path.realpath(reported.stdout.decode().strip()))


def processors():
    """How many jobs may run side by side: one a processor, with 4 GiB of memory for each."""
    with open("/proc/meminfo", encoding="ascii") as lines:
        free = next(int(line.split()[1]) for line in lines if line.startswith("MemAvailable:"))
    return max(1, min(len(os.sched_getaffinity(0)), free // (GIB_PER_JOB << 20)))


def check_words(kit_folder, crates, crate, library, jobs):
    """The command that proves a crate in its folder. `library` gives where the library of a crate below it is."""
    words = [f"{kit_folder}/bin/rattle", "check", "--crate-name", crate.name, crate.root, "--jobs", str(jobs)]
    words += ["--antt-project", f"{kit_folder}/rattle/logic/antt-project.json", "--logic-built", f"{kit_folder}/logic_built"]
    words += ["-L", f"dependency={kit_folder}/rlibs"]
    for name in below(crates, crate.name):
        words += ["-L", f"dependency={os.path.dirname(library(name))}"]
    for name in ["std", *crate.uses]:
        words += ["--extern", f"{name}={library(name) if name in crates else f'{kit_folder}/rlibs/{name}.rlib'}"]
    return [*words, "--crate-type", "staticlib"] if crate.is_static else words


def build_words(kit_folder, crates, crate, library, made, jobs, cpu):
    """The command that proves and builds a crate in its folder. `made` is what it writes: a library, a static library, or a program's object
    file for that processor."""
    words = check_words(kit_folder, crates, crate, library, jobs)
    words[1] = "build"
    if crate.is_library:
        return [*words, "--statements", "-o", made]
    return [*words, "--toolchain", f"{kit_folder}/toolchain", "--backend", "llvm", "--cpu", cpu, "-o", made]


def left_library(name):
    """Where `rt ci` leaves a crate's library."""
    return os.path.join(TOP, "crates", name, "out", "rlib", f"{name}.rlib")


def link_words(kit_folder, object_file, program):
    """The command that links a program's object file."""
    words = [f"{kit_folder}/bin/rattle-link", "--target", TARGET, "--toolchain", f"{kit_folder}/toolchain", "-o", program, object_file]
    return [*words, f"{kit_folder}/c/libos_c.a", f"{kit_folder}/c/liblibc_c.a"]
