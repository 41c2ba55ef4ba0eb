"""Makes the client and the shell a package, as `pip install ./clients/python` asks for it (PEP 517). The same sources give the same
file, byte by byte."""

from __future__ import annotations

import base64
import hashlib
import pathlib
import zipfile
from collections.abc import Mapping
from typing import Dict, Optional

VERSION = "0.1"
MODULES = ("ifdb.py", "ifdb_csv.py", "ifdb_shell.py")
METADATA = f"""\
Metadata-Version: 2.1
Name: ifdb
Version: {VERSION}
Summary: A client by PEP 249, and a shell, for ifdb, a database server with information flow control
Requires-Python: >=3.9
"""
WHEEL = """\
Wheel-Version: 1.0
Generator: make_wheel
Root-Is-Purelib: true
Tag: py3-none-any
"""
ENTRY_POINTS = """\
[console_scripts]
ifdb-shell = ifdb_shell:main
"""


def build_wheel(
    wheel_directory: str, config_settings: Optional[Mapping[str, object]] = None, metadata_directory: Optional[str] = None
) -> str:
    """Makes the wheel in a folder, and returns the name of its file. Nothing can be configured."""
    here, told = pathlib.Path(__file__).parent, f"ifdb-{VERSION}.dist-info"
    files = {module: (here / module).read_bytes() for module in MODULES}
    for part, text in {"METADATA": METADATA, "WHEEL": WHEEL, "entry_points.txt": ENTRY_POINTS}.items():
        files[f"{told}/{part}"] = text.encode()
    files[f"{told}/RECORD"] = _record(files, f"{told}/RECORD")
    wheel = f"ifdb-{VERSION}-py3-none-any.whl"
    with zipfile.ZipFile(pathlib.Path(wheel_directory, wheel), "w") as archive:
        for path, content in files.items():
            entry = zipfile.ZipInfo(path)  # (whose time is always the same)
            entry.external_attr = 0o644 << 16
            archive.writestr(entry, content, zipfile.ZIP_DEFLATED)
    return wheel


def _record(files: Dict[str, bytes], record: str) -> bytes:
    """A line for each file, with its sum and its length; the record has none for itself."""
    sums = {path: base64.urlsafe_b64encode(hashlib.sha256(content).digest()).decode() for path, content in files.items()}
    lines = [f"{path},sha256={sums[path].rstrip('=')},{len(content)}\n" for path, content in files.items()]
    return "".join([*lines, f"{record},,\n"]).encode()
