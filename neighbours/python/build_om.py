"""build_om.py: makes the package om-workbench of om.py, for pip and other programs that build packages (PEP 517).

The package has the module om, with its types (PEP 561), and the licences; its version is that of the file VERSION. The
files are taken from the repository that this folder is in, or from this folder, as they lie in an archive of sources.
Python's standard library alone.
"""
import base64
import hashlib
import io
import os
import tarfile
import zipfile
from typing import Any, Mapping, Optional

Settings = Optional[Mapping[str, Any]]  # what pip was told behind --config-settings, none of which is looked at

HERE = os.path.dirname(os.path.abspath(__file__))
SOURCES = {"om.py": "../om.py", "VERSION": "../../VERSION", "LICENSE-MIT": "../../LICENSE-MIT",
           "LICENSE-APACHE": "../../LICENSE-APACHE"}
METADATA = """Metadata-Version: 2.1
Name: om-workbench
Version: %s
Summary: Oriented matroids as plain Python values, answered by the program om
License: MIT OR Apache-2.0
Classifier: Operating System :: POSIX :: Linux
Classifier: Programming Language :: Python :: 3
Classifier: Topic :: Scientific/Engineering :: Mathematics
Classifier: Typing :: Typed
Requires-Python: >=3.8
Description-Content-Type: text/plain

The module om asks the program om_each, which this package doesn't hold. It is the one that OM_EACH in the environment
names, or om-each on the path.
"""
WHEEL = "Wheel-Version: 1.0\nGenerator: build_om\nRoot-Is-Purelib: true\nTag: py3-none-any\n"


def source(name: str) -> bytes:
    """The bytes of a file of the package."""
    beside = os.path.join(HERE, name)
    with open(beside if os.path.exists(beside) else os.path.join(HERE, SOURCES[name]), "rb") as file:
        return file.read()


def version() -> str:
    return source("VERSION").decode().strip()


def build_wheel(wheel_directory: str, config_settings: Settings = None,
                metadata_directory: Optional[str] = None) -> str:
    """Writes the package in the form that is installed, and returns its file's name."""
    about = "om_workbench-%s.dist-info/" % version()
    files = {"om/__init__.py": source("om.py"), "om/py.typed": b"", about + "METADATA": (METADATA % version()).encode(),
             about + "WHEEL": WHEEL.encode()}
    files.update((about + name, source(name)) for name in SOURCES if name.startswith("LICENSE"))
    record = ""
    for path, data in files.items():
        digest = base64.urlsafe_b64encode(hashlib.sha256(data).digest()).decode().rstrip("=")
        record += "%s,sha256=%s,%d\n" % (path, digest, len(data))
    files[about + "RECORD"] = (record + about + "RECORD,,\n").encode()
    name = "om_workbench-%s-py3-none-any.whl" % version()
    with zipfile.ZipFile(os.path.join(wheel_directory, name), "w", zipfile.ZIP_DEFLATED) as wheel:
        for path, data in files.items():
            entry = zipfile.ZipInfo(path)
            entry.external_attr = 0o644 << 16
            wheel.writestr(entry, data, zipfile.ZIP_DEFLATED)
    return name


def build_sdist(sdist_directory: str, config_settings: Settings = None) -> str:
    """Writes an archive of the sources, from which the package can be built elsewhere, and returns its file's name."""
    name = "om_workbench-%s" % version()
    files = {it: source(it) for it in ("pyproject.toml", "build_om.py", *SOURCES)}
    files["PKG-INFO"] = (METADATA % version()).encode()
    with tarfile.open(os.path.join(sdist_directory, name + ".tar.gz"), "w:gz") as archive:
        for path, data in files.items():
            entry = tarfile.TarInfo("%s/%s" % (name, path))
            entry.size = len(data)
            archive.addfile(entry, io.BytesIO(data))
    return name + ".tar.gz"
