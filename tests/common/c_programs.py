"""What the tests of the libraries for C share: counts, and programs that are built with a library and run."""
import os
import re
import shutil
import subprocess

TOP = os.path.dirname(os.path.dirname(os.path.dirname(os.path.abspath(__file__))))
INCLUDE = os.path.join(TOP, "include")
WARNINGS = ["-D_GNU_SOURCE", "-Wall", "-Wextra", "-Wpedantic", "-Werror", "-O2", "-I", INCLUDE]
C11 = ["cc", "-std=c11", *WARNINGS]
SANITIZERS = ["-g", "-fsanitize=address,undefined", "-fno-sanitize-recover=all"]
SECONDS = 300
MAX_TEXT = 4000

counts = {True: 0, False: 0}


def shows(holds, name):
    counts[bool(holds)] += 1
    if not holds:
        print("FAILED", name)


def finish():
    """Prints the line of the counts, and returns the exit status."""
    print(f"{counts[True]} passed, {counts[False]} failed")
    return counts[False] != 0


def run(*words, **how):
    return subprocess.run(words, stdout=subprocess.PIPE, stderr=subprocess.STDOUT, timeout=SECONDS, **how)


def is_here(program, what):
    """Whether a program is there; else a line says what is skipped."""
    if shutil.which(program):
        return True
    print(f"skipped: {what}, as {program} is not here")
    return False


def read(path):
    with open(path, encoding="utf-8") as file:
        return file.read()


def write(folder, name, data):
    path = os.path.join(folder, name)
    with open(path, "wb") as file:
        file.write(data)
    return path


def shows_output(name, ran, wanted):
    """Whether a program succeeded, and wrote what is wanted."""
    found = ran.stdout.decode(errors="replace")
    shows(not ran.returncode and re.fullmatch(wanted, found), f"{name} ended with {ran.returncode}: {found[-MAX_TEXT:]}")


def runs_twice(name, source, libraries, program, *words, **how):
    """Builds a program in C as it is, and under the sanitizers. Yields a name, and the finished run, or the build that failed."""
    for kind, flags in ("", []), (" under the sanitizers", SANITIZERS):
        built = run(*C11, *flags, source, *libraries, "-o", program)
        if built.returncode and flags:
            print(f"skipped: {name}{kind}, which do not link here: {built.stdout[:200].decode(errors='replace')!r}")
            continue
        yield name + kind, built if built.returncode else run(program, *words, **how)


def header_code(folder, code, archive, wanted):
    """The code at the head of a header, in C and in C++: what it writes."""
    source, program = write(folder, "opening.c", code), os.path.join(folder, "opening")
    for compiler in C11, ["c++", "-std=c++17", *WARNINGS, "-x", "c++"]:
        if is_here(compiler[0], "the header's code in C++"):
            built = run(*compiler, source, "-x", "none", archive, "-o", program)
            shows((built.stdout or run(program).stdout) == wanted, f"the header's code by {compiler[0]}")


def examples(name, library, folder):
    """Builds an example in C, Rust and Go with a library in a folder. Yields the compiler's name and the program."""
    program, source, archive = (os.path.join(*words) for words in ((folder, name), (TOP, "examples"), (folder, f"lib{library}.a")))
    # by pkg-config Go finds the library
    lines = [f"Name: {library}", "Description: a library", "Version: 1", f"Cflags: -I{INCLUDE}", f"Libs: -L{folder} -l{library}"]
    write(folder, f"{library}.pc", "".join(f"{line}\n" for line in lines).encode())
    places = {"PKG_CONFIG_PATH": folder, "GOCACHE": os.path.join(folder, "go"), "GO111MODULE": "off"}
    for words in (
        [*C11, os.path.join(source, "c", f"{name}.c"), archive, "-pthread", "-o", program],
        ["rustc", "-O", os.path.join(source, f"{name}.rs"), "-l", f"static={library}", "-L", folder, "-o", program],
        ["go", "build", "-o", program, os.path.join(source, "go", f"{name}.go")],
    ):
        if is_here(words[0], f"the example {name} by {words[0]}"):
            built = run(*words, env={**os.environ, **places})
            shows(not built.returncode, f"the example {name} by {words[0]} is built: {built.stdout.decode(errors='replace')}")
            if not built.returncode:
                yield words[0], program


def exports(folder, library, *headers):
    """Whether a shared library's names are those of the functions of headers."""
    declared = set(re.findall(r"(?m)^uint32_t (b3\w+)\(", "".join(read(os.path.join(INCLUDE, header)) for header in headers)))
    defined = {line.split()[-1] for line in run("nm", "-D", "--defined-only", os.path.join(folder, library)).stdout.decode().splitlines()}
    shows(declared == defined, f"the shared library exports the headers' functions: {sorted(declared ^ defined)} are in one of them")
