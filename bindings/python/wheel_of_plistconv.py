"""Builds the wheel and the source archive of plistconv, for `pip install`: without setuptools,
so without a network.

The hooks are those of PEP 517 and, for `pip install -e`, of PEP 660. The version
is the module's own.
"""
import base64
import hashlib
import io
import os
import re
import tarfile
import zipfile

HERE = os.path.dirname(os.path.abspath(__file__))
FILES = ["plistconv/__init__.py", "plistconv/py.typed"]
SOURCES = ["pyproject.toml", "wheel_of_plistconv.py", *FILES]
TIME = (1980, 1, 1, 0, 0, 0)


def read(name):
    with open(os.path.join(HERE, name), "rb") as file:
        return file.read()


VERSION = re.findall(rb'__version__ = "(.*)"', read(FILES[0]))[0].decode()
METADATA = f"""Metadata-Version: 2.1
Name: plistconv
Version: {VERSION}
Summary: Apple property lists in their canonical form, by the C library libplistconv
Requires-Python: >=3.8
""".encode()


INFO = f"plistconv-{VERSION}.dist-info"
WHEEL = b"Wheel-Version: 1.0\nGenerator: plistconv\nRoot-Is-Purelib: true\nTag: py3-none-any\n"


def prepare_metadata_for_build_wheel(metadata_directory, config_settings=None):
    """Writes the folder that names the package to pip, which a distribution puts beside it."""
    os.makedirs(os.path.join(metadata_directory, INFO), exist_ok=True)
    for name, octets in [("METADATA", METADATA), ("WHEEL", WHEEL)]:
        with open(os.path.join(metadata_directory, INFO, name), "wb") as file:
            file.write(octets)
    return INFO


prepare_metadata_for_build_editable = prepare_metadata_for_build_wheel


def write_wheel(wheel_directory, contents):
    """Writes a wheel of these files, and returns its name."""
    name = f"plistconv-{VERSION}-py3-none-any.whl"
    contents = {**contents, f"{INFO}/METADATA": METADATA, f"{INFO}/WHEEL": WHEEL}
    rows = []
    for file, octets in contents.items():
        digest = base64.urlsafe_b64encode(hashlib.sha256(octets).digest()).rstrip(b"=").decode()
        rows.append(f"{file},sha256={digest},{len(octets)}\n")
    contents[f"{INFO}/RECORD"] = "".join([*rows, f"{INFO}/RECORD,,\n"]).encode()
    with zipfile.ZipFile(os.path.join(wheel_directory, name), "w", zipfile.ZIP_DEFLATED) as wheel:
        for file, octets in contents.items():
            entry = zipfile.ZipInfo(file, TIME)
            entry.external_attr, entry.compress_type = 0o644 << 16, zipfile.ZIP_DEFLATED
            wheel.writestr(entry, octets)
    return name


def build_wheel(wheel_directory, config_settings=None, metadata_directory=None):
    return write_wheel(wheel_directory, {file: read(file) for file in FILES})


def build_editable(wheel_directory, config_settings=None, metadata_directory=None):
    """Builds a wheel that has Python import the module from this folder."""
    return write_wheel(wheel_directory, {"plistconv.pth": HERE.encode() + b"\n"})


def build_sdist(sdist_directory, config_settings=None):
    folder = f"plistconv-{VERSION}"
    with tarfile.open(
        os.path.join(sdist_directory, f"{folder}.tar.gz"), "w:gz", format=tarfile.PAX_FORMAT
    ) as archive:
        for file, octets in [("PKG-INFO", METADATA), *((file, read(file)) for file in SOURCES)]:
            entry = tarfile.TarInfo(f"{folder}/{file}")
            entry.size = len(octets)
            archive.addfile(entry, io.BytesIO(octets))
    return f"{folder}.tar.gz"
