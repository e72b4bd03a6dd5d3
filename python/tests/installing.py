"""The package, installed by pip."""
import importlib.util
import os
import shutil
import tempfile

from running import run_python
from shared import TOP, check, raised
import b3store
from b3store import library, store

PIP = "-m pip install --no-index --no-build-isolation --no-deps --no-cache-dir --disable-pip-version-check --quiet --target".split()


def installs():
    """Without a network and other packages, with its programs, py.typed and the library; nothing is left beside the sources."""
    if importlib.util.find_spec("pip") is None:
        print("skipped: the package installed by pip, as there is no pip")
        return
    source = os.path.join(TOP, "python")
    before = sorted(os.listdir(source))
    with tempfile.TemporaryDirectory() as place:
        target = os.path.join(place, "target")
        check((run_python(*PIP, target, source, PIP_ROOT_USER_ACTION="ignore")[::2], (0, "")))
        names = [name for name in os.listdir(os.path.join(source, "b3store")) if name.endswith(".py") or name == "py.typed"]
        wanted = sorted([*names, library.FILE])
        check((sorted(name for name in os.listdir(os.path.join(target, "b3store")) if name != "__pycache__"), wanted), (sorted(os.listdir(source)), before))
        check((os.path.isdir(os.path.join(target, f"b3store-{b3store.__version__}.dist-info")), True))
        status, out, _ = run_python(os.path.join(target, "bin", "b3store-client"), "--help", PYTHONPATH=target)
        check((status, 0), (out[:20], b"usage: b3store-clien"))
        words = "import b3store; print(b3store.Store().tenant(), b3store.store.loaded()[0]._name)"
        wanted = f"0 {os.path.realpath(target)}/b3store/{library.FILE}\n".encode()
        check((run_python("-c", words, PYTHONPATH=target, B3STORE_LIBRARY=""), (0, wanted, "")))


def names():
    """All that the package offers is there, and what isn't raises as usual."""
    check(([name for name in b3store.__all__ if not hasattr(b3store, name)], []), (raised(lambda: b3store.frob), AttributeError))


def without_library():
    """What needs the library says where it was looked for, also where it is another one, and nothing else needs it."""
    told = "install it by `./install`, or set B3STORE_LIBRARY to its path\n"
    for path in "/none/libb3store.so.1", "libc.so.6":
        check((run_python("-c", "from b3store import AsyncStore, Client, Store, server", B3STORE_LIBRARY=path), (0, b"", "")))
        for words in "import b3store.hashing", "import b3store; b3store.Store()":
            status, _, err = run_python("-c", words, B3STORE_LIBRARY=path)
            check((status, 1), (err.endswith(told), True), (path in err, True))


def places_of_the_library():
    """It is found in the package, below the package's prefix, at the level of the processors, and in a clone; not where another user could put one."""
    def found(package):
        program = "from b3store import library; print(library.load(['b3store_open'])[0]._name)"
        return run_python("-c", program, PYTHONPATH=os.path.dirname(package), B3STORE_LIBRARY="")[1].decode()

    for folder, others in PLACES:
        with tempfile.TemporaryDirectory() as place:
            package = os.path.join(place, folder, "b3store")
            shutil.copytree(os.path.join(TOP, "python", "b3store"), package)
            if "tmp" in folder:
                os.chmod(os.path.join(place, "tmp"), 0o1777)
            for at, other in enumerate(others):
                path = os.path.join(place, other, library.FILE)
                os.makedirs(os.path.dirname(path), exist_ok=True)
                os.symlink(store.loaded()[0]._name, path)
                if "tmp" not in folder and (library.LEVEL not in other or library.has_level()):
                    check(((folder, at, found(package)), (folder, at, os.path.realpath(os.path.dirname(path)) + f"/{library.FILE}\n")))
            check(("tmp" in folder and place in found(package), False))


PLACES = (
    ("share/doc/b3store/python", ["lib", f"lib/glibc-hwcaps/{library.LEVEL}", "share/doc/b3store/python/b3store"]),
    ("lib/python3.11/site-packages", ["lib", f"lib/glibc-hwcaps/{library.LEVEL}", "lib/python3.11/site-packages/b3store"]),
    ("clone/python", ["clone/target", "clone/python/b3store"]),
    ("tmp/python", ["tmp/target"]),
    ("tmp/share/doc/b3store/python", ["tmp/lib"]),
)
"""Where the package may be, and where the library may be then: each place goes before the one before it."""
