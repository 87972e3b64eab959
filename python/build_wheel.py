"""Makes the wheel of the package pcc for pip, without setuptools: a zip of its one file."""
from __future__ import annotations

import base64
import hashlib
import os
import re
import zipfile
from typing import Any, Dict, Optional

HERE = os.path.dirname(os.path.abspath(__file__))
SOURCE = "pcc/__init__.py"


def read(name: str) -> str:
    with open(os.path.join(HERE, name), encoding="utf-8") as file:
        return file.read()


def field(name: str) -> str:
    """Returns a field of pyproject.toml."""
    return re.findall(r'^%s = "(.*)"$' % name, read("pyproject.toml"), re.M)[0]


def row(path: str, text: str) -> str:
    """Returns the line of a file in RECORD."""
    data = text.encode()
    digest = base64.urlsafe_b64encode(hashlib.sha256(data).digest()).decode().rstrip("=")
    return "%s,sha256=%s,%d\n" % (path, digest, len(data))


def build_wheel(wheel_directory: str, config_settings: Optional[Dict[str, Any]] = None,
                metadata_directory: Optional[str] = None) -> str:
    """Writes the wheel into a folder and returns its name, as pip asks of a build backend."""
    name, version = field("name"), field("version")
    info = "%s-%s.dist-info/" % (name, version)
    files = {
        SOURCE: read(SOURCE),
        info + "METADATA": "Metadata-Version: 2.1\nName: %s\nVersion: %s\nSummary: %s\nRequires-Python: %s\n"
        % (name, version, field("description"), field("requires-python")),
        info + "WHEEL": "Wheel-Version: 1.0\nGenerator: build_wheel\nRoot-Is-Purelib: true\nTag: py3-none-any\n",
    }
    record = "".join(row(path, text) for path, text in files.items()) + info + "RECORD,,\n"
    wheel = "%s-%s-py3-none-any.whl" % (name, version)
    with zipfile.ZipFile(os.path.join(wheel_directory, wheel), "w") as archive:
        for path, text in [*files.items(), (info + "RECORD", record)]:
            archive.writestr(zipfile.ZipInfo(path, (2020, 1, 1, 0, 0, 0)), text)
    return wheel
