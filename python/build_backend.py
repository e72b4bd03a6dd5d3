"""The build backend of pyproject.toml: it writes the package's wheel by Python's standard library alone.

So `pip install` works without a network on a machine whose Python has no `wheel` and no `setuptools`, or old ones.
"""
import base64
import hashlib
import os
import re
import tarfile
import zipfile
from typing import Any, Dict, List, Optional

NAME = "b3store"
HERE = os.path.dirname(os.path.abspath(__file__))
with open(os.path.join(HERE, NAME, "__init__.py"), encoding="utf-8") as source:
    VERSION = re.findall('(?m)^__version__ = "(.*)"$', source.read())[0]
INFO = f"{NAME}-{VERSION}.dist-info"
METADATA = f"""\
Metadata-Version: 2.1
Name: {NAME}
Version: {VERSION}
Summary: A content-addressed store in memory, from Python: in the process, clients of a server, BLAKE3
Requires-Python: >=3.8
Classifier: Operating System :: POSIX :: Linux
Classifier: Programming Language :: Python :: 3
Classifier: Typing :: Typed
"""
WHEEL = f"Wheel-Version: 1.0\nGenerator: {NAME}\nRoot-Is-Purelib: {{}}\nTag: {{}}\n"
ENTRY_POINTS = "[console_scripts]\nb3store-client = b3store.programs:client\nb3store-server = b3store.programs:server\n"
TIME = (1980, 1, 1, 0, 0, 0)
"""The time of every file, so that a wheel depends only on what is in it."""

Settings = Optional[Dict[str, Any]]


def build_wheel(wheel_directory: str, config_settings: Settings = None, metadata_directory: Optional[str] = None) -> str:
    """Writes the wheel into a folder, and returns its name. The wheel has the library libb3store, if that is where the package looks for it."""
    from b3store.library import FILE, paths

    files = {path: read(path) for path in package_files()}
    found = [path for path in paths() if os.path.isabs(path) and os.path.exists(path)]
    return write_wheel(wheel_directory, {**files, f"{NAME}/{FILE}": read(found[0])} if found else files, "linux_x86_64" if found else "any")


def build_editable(wheel_directory: str, config_settings: Settings = None, metadata_directory: Optional[str] = None) -> str:
    """Writes a wheel that uses the package where it is, and returns its name."""
    return write_wheel(wheel_directory, {f"{NAME}.pth": (HERE + "\n").encode()})


def build_sdist(sdist_directory: str, config_settings: Settings = None) -> str:
    """Writes the source archive into a folder, and returns its name."""
    root = f"{NAME}-{VERSION}"
    with tarfile.open(os.path.join(sdist_directory, root + ".tar.gz"), "w:gz", format=tarfile.PAX_FORMAT) as archive:
        for path in ["pyproject.toml", "build_backend.py", *package_files()]:
            archive.add(os.path.join(HERE, path), f"{root}/{path}")
    return root + ".tar.gz"


def package_files() -> List[str]:
    """The paths of the package's files."""
    found: List[str] = []
    for folder, folders, names in os.walk(os.path.join(HERE, NAME)):
        folders[:] = sorted(name for name in folders if name != "__pycache__")
        found += [os.path.relpath(os.path.join(folder, name), HERE) for name in sorted(names) if name.endswith((".py", "py.typed"))]
    return found


def read(path: str) -> bytes:
    """A file's bytes."""
    with open(os.path.join(HERE, path), "rb") as file:
        return file.read()


def write_wheel(folder: str, files: Dict[str, bytes], platform: str = "any") -> str:
    """Writes a wheel of files, and returns its name."""
    tag = f"py3-none-{platform}"
    texts = {"METADATA": METADATA, "WHEEL": WHEEL.format(str(platform == "any").lower(), tag), "entry_points.txt": ENTRY_POINTS}
    files = {**files, **{f"{INFO}/{name}": text.encode() for name, text in texts.items()}}
    record = "".join(f"{path},sha256={digest_of(content)},{len(content)}\n" for path, content in files.items()) + f"{INFO}/RECORD,,\n"
    name = f"{NAME}-{VERSION}-{tag}.whl"
    with zipfile.ZipFile(os.path.join(folder, name), "w", zipfile.ZIP_DEFLATED) as wheel:
        for path, content in [*files.items(), (f"{INFO}/RECORD", record.encode())]:
            entry = zipfile.ZipInfo(path, TIME)
            entry.external_attr = 0o644 << 16
            entry.compress_type = zipfile.ZIP_DEFLATED
            wheel.writestr(entry, content)
    return name


def digest_of(content: bytes) -> str:
    """The hash of a wheel's record."""
    return base64.urlsafe_b64encode(hashlib.sha256(content).digest()).rstrip(b"=").decode()
