"""Builds what pip installs from this folder. It uses only the standard library, so that an install needs no network and writes nothing here."""
import base64
import hashlib
import os
import zipfile

HERE = os.path.dirname(os.path.abspath(__file__))
NAME, VERSION = "paklour_points", "2.0"
NOTES = f"{NAME}-{VERSION}.dist-info"
METADATA = f"Metadata-Version: 2.1\nName: paklour-points\nVersion: {VERSION}\nRequires-Python: >=3.8\n"
WHEEL = "Wheel-Version: 1.0\nGenerator: paklour\nRoot-Is-Purelib: true\nTag: py3-none-any\n"


def _files():
    """The files of the wheel by their names."""
    package = os.path.join(HERE, "src", NAME)
    for name in sorted(os.listdir(package)):
        if name.endswith(".py"):
            with open(os.path.join(package, name), "rb") as file:
                yield f"{NAME}/{name}", file.read()
    yield f"{NOTES}/METADATA", METADATA.encode()
    yield f"{NOTES}/WHEEL", WHEEL.encode()


def build_wheel(folder, config_settings=None, metadata_directory=None):
    wheel = f"{NAME}-{VERSION}-py3-none-any.whl"
    record = []
    with zipfile.ZipFile(os.path.join(folder, wheel), "w", zipfile.ZIP_DEFLATED) as archive:
        for name, content in _files():
            archive.writestr(name, content)
            digest = base64.urlsafe_b64encode(hashlib.sha256(content).digest()).rstrip(b"=").decode()
            record.append(f"{name},sha256={digest},{len(content)}\n")
        archive.writestr(f"{NOTES}/RECORD", "".join(record) + f"{NOTES}/RECORD,,\n")
    return wheel
