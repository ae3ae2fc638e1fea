"""Builds the package for `pip`, by the standard library alone (PEP 517)."""

import base64
import glob
import hashlib
import os
import tarfile
import zipfile

NAME, VERSION = "tmem", "1.0.0"
METADATA = f"""\
Metadata-Version: 2.1
Name: {NAME}
Version: {VERSION}
Summary: Durable transactional memory with checked invariants: transactions as plain functions, with retry and or_else
Requires-Python: >=3.8
"""
WHEEL = """\
Wheel-Version: 1.0
Generator: tmem
Root-Is-Purelib: true
Tag: py3-none-any
"""


def record_line(name: str, data: bytes) -> str:
    digest = base64.urlsafe_b64encode(hashlib.sha256(data).digest()).rstrip(b"=").decode()
    return f"{name},sha256={digest},{len(data)}\n"


def build_wheel(wheel_directory, config_settings=None, metadata_directory=None):
    info = f"{NAME}-{VERSION}.dist-info"
    files = {}
    for path in sorted(glob.glob(f"{NAME}/*.py")):
        with open(path, "rb") as file:
            files[path.replace(os.sep, "/")] = file.read()
    files[f"{info}/METADATA"], files[f"{info}/WHEEL"] = METADATA.encode(), WHEEL.encode()
    record = "".join(record_line(name, data) for name, data in files.items()) + f"{info}/RECORD,,\n"
    wheel = f"{NAME}-{VERSION}-py3-none-any.whl"
    with zipfile.ZipFile(os.path.join(wheel_directory, wheel), "w", zipfile.ZIP_DEFLATED) as out:
        for name, data in [*files.items(), (f"{info}/RECORD", record.encode())]:
            out.writestr(name, data)
    return wheel


def build_sdist(sdist_directory, config_settings=None):
    top = f"{NAME}-{VERSION}"
    with tarfile.open(os.path.join(sdist_directory, f"{top}.tar.gz"), "w:gz") as out:
        for path in ["pyproject.toml", "backend.py", *sorted(glob.glob(f"{NAME}/*.py"))]:
            out.add(path, f"{top}/{path}")
    return f"{top}.tar.gz"
