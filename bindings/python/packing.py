"""Packs the module, with the library that `./library` left, into a wheel; pip calls it by pyproject.toml."""

import base64
import hashlib
import os
import pathlib
import re
import zipfile

HERE = pathlib.Path(__file__).resolve().parent
PROJECT = dict(re.findall(r'^([\w-]+) = "(.*)"$', (HERE / "pyproject.toml").read_text(), flags=re.M))
VERSION = re.search(r'^__version__ = "(.*)"$', (HERE / "jorumrain" / "__init__.py").read_text(), flags=re.M)[1]

# The library is a program of x86-64 Linux; the module goes with any Python 3.
TAG = "py3-none-linux_x86_64"

METADATA = f"""Metadata-Version: 2.1
Name: {PROJECT["name"]}
Version: {VERSION}
Summary: {PROJECT["description"]}
Requires-Python: {PROJECT["requires-python"]}
"""

WHEEL = f"""Wheel-Version: 1.0
Generator: jorumrain
Root-Is-Purelib: false
Tag: {TAG}
"""


def library():
    """The library's file: the one that JORUMRAIN_LIBRARY names, or that of the repository."""
    name = "libjorumrain.so." + VERSION.split(".")[0]
    built = HERE.parents[1] / "target" / "jorumrain" / name
    file = pathlib.Path(os.environ.get("JORUMRAIN_LIBRARY") or built)
    if not file.exists():
        raise SystemExit(f"{file} is missing: run ./library first, at the repository's root")
    return name, file.read_bytes()


def files():
    """The files of the wheel by their names, but for the list of them."""
    name, content = library()
    about = f"jorumrain-{VERSION}.dist-info"
    found = {f"jorumrain/{part}": (HERE / "jorumrain" / part).read_bytes() for part in ("__init__.py", "py.typed")}
    found[f"jorumrain/{name}"] = content
    found[f"{about}/METADATA"] = METADATA.encode()
    found[f"{about}/WHEEL"] = WHEEL.encode()
    return found, f"{about}/RECORD"


def digest(content):
    return base64.urlsafe_b64encode(hashlib.sha256(content).digest()).rstrip(b"=").decode()


def build_wheel(wheel_directory, config_settings=None, metadata_directory=None):
    """What pip asks for (PEP 517): the wheel written into a folder, and its name."""
    found, record = files()
    lines = [f"{name},sha256={digest(content)},{len(content)}\n" for name, content in found.items()]
    found[record] = "".join([*lines, f"{record},,\n"]).encode()
    wheel = f"jorumrain-{VERSION}-{TAG}.whl"
    with zipfile.ZipFile(pathlib.Path(wheel_directory) / wheel, "w") as packed:
        for name, content in found.items():
            # With no time of its own, so that the same files give the same wheel.
            entry = zipfile.ZipInfo(name)
            entry.external_attr = 0o644 << 16
            packed.writestr(entry, content, zipfile.ZIP_DEFLATED)
    return wheel


def build_sdist(sdist_directory, config_settings=None):
    raise SystemExit("the library is proved and built from the whole repository, so there is no source package")
