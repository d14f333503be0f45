"""Makes the wheel of the package, with the library in it, by Python's own library alone and without network. pip calls it
(pyproject.toml), and it works by itself:

    python3 bindings/python/make_wheel.py FOLDER

The library is the one that PST_LIBRARY names, else built/libpst.so.0 of this repository.
"""

from __future__ import annotations

import base64
import hashlib
import os
import re
import sys
import zipfile
from pathlib import Path
from typing import Any

OWN = Path(__file__).resolve().parent
ROOT = OWN.parent.parent
LICENCES = ("LICENSE-MIT", "LICENSE-APACHE", "NOTICE")
# The library asks for glibc 2.14 at most, and for nothing else.
TAG = "py3-none-manylinux_2_17_x86_64"
TIME = (1980, 1, 1, 0, 0, 0)


def project() -> dict[str, str]:
    """The texts of the table [project] of pyproject.toml."""
    text = (OWN / "pyproject.toml").read_text(encoding="utf-8")
    table = text.partition("[project]\n")[2].partition("\n[")[0]
    return dict(re.findall(r'(?m)^([a-z-]+) = "(.*)"$', table))


def library() -> Path:
    """The shared library that the wheel has in it."""
    return Path(os.environ.get("PST_LIBRARY") or ROOT / "built" / "libpst.so.0")


def metadata(told: dict[str, str]) -> str:
    lines = [
        "Metadata-Version: 2.1",
        f"Name: {told['name']}",
        f"Version: {told['version']}",
        f"Summary: {told['description']}",
        f"License: {told['license']}",
        f"Requires-Python: {told['requires-python']}",
        *(f"License-File: {name}" for name in LICENCES),
    ]
    return "".join(f"{line}\n" for line in lines)


def contents(told: dict[str, str], about: str) -> dict[str, bytes]:
    """The files of the wheel, but for the list of them."""
    package = sorted((OWN / "pst").glob("*.py")) + [OWN / "pst" / "py.typed"]
    files = {f"pst/{it.name}": it.read_bytes() for it in package}
    files["pst/libpst.so.0"] = library().read_bytes()
    files.update((f"{about}/licenses/{it}", (ROOT / it).read_bytes()) for it in LICENCES)
    files[f"{about}/METADATA"] = metadata(told).encode()
    wheel = f"Wheel-Version: 1.0\nGenerator: make_wheel\nRoot-Is-Purelib: false\nTag: {TAG}\n"
    files[f"{about}/WHEEL"] = wheel.encode()
    return files


def record(files: dict[str, bytes], about: str) -> bytes:
    """The list of the files, with their digests."""
    lines = []
    for name, data in files.items():
        digest = base64.urlsafe_b64encode(hashlib.sha256(data).digest()).rstrip(b"=")
        lines.append(f"{name},sha256={digest.decode()},{len(data)}\n")
    return "".join([*lines, f"{about}/RECORD,,\n"]).encode()


def build_wheel(wheel_directory: str, config_settings: Any = None, metadata_directory: Any = None) -> str:
    """Writes the wheel into a folder, and gives its name."""
    told = project()
    stem = f"{told['name'].replace('-', '_')}-{told['version']}"
    about = f"{stem}.dist-info"
    files = contents(told, about)
    files[f"{about}/RECORD"] = record(files, about)
    name = f"{stem}-{TAG}.whl"
    with zipfile.ZipFile(Path(wheel_directory, name), "w") as wheel:
        for path, data in files.items():
            entry = zipfile.ZipInfo(path, TIME)
            entry.compress_type = zipfile.ZIP_DEFLATED
            entry.external_attr = 0o100644 << 16
            wheel.writestr(entry, data)
    return name


def build_sdist(sdist_directory: str, config_settings: Any = None) -> str:
    """There is none: the sources of the library are the repository."""
    raise NotImplementedError("a wheel alone is made, of the repository")


def main() -> int:
    if len(sys.argv) != 2:
        print("usage: python3 make_wheel.py FOLDER", file=sys.stderr)
        return 2
    os.makedirs(sys.argv[1], exist_ok=True)
    print(os.path.join(sys.argv[1], build_wheel(sys.argv[1])))
    return 0


if __name__ == "__main__":
    sys.exit(main())
