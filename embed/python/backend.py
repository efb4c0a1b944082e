"""Packs the package with its library into a wheel, by the standard library alone, so that `pip install .` asks no network.

The library is the one that `embed/build.sh` makes, where the toolchain is here, or the one that it has made. In a copy of this
folder by itself it lies beside the package.
"""
import base64
import hashlib
import os
import shutil
import subprocess
import zipfile

HERE = os.path.dirname(os.path.abspath(__file__))
BUILD = os.path.join(os.path.dirname(HERE), "build.sh")
LIBRARY = os.path.join(HERE, "dine", "libdine.so")
NAME, VERSION, TAG = "dine", "1.0", "py3-none-linux_x86_64"
METADATA = f"Metadata-Version: 2.1\nName: {NAME}\nVersion: {VERSION}\nRequires-Python: >=3.8\n"
WHEEL = f"Wheel-Version: 1.0\nGenerator: {NAME}\nRoot-Is-Purelib: false\nTag: {TAG}\n"


def bring_library():
    """Puts the library beside the package."""
    if not os.path.exists(BUILD):
        return
    if shutil.which("rt"):
        subprocess.run(["bash", BUILD], check=True)
    shutil.copy(os.path.join(os.path.dirname(BUILD), "build", "libdine.so"), LIBRARY)


def build_wheel(wheel_directory, config_settings=None, metadata_directory=None):
    """Writes the wheel, and answers its name: what pip calls."""
    folder = f"{NAME}-{VERSION}.dist-info"
    files = {}
    bring_library()
    for name in sorted(os.listdir(os.path.join(HERE, NAME))):
        path = os.path.join(HERE, NAME, name)
        if os.path.isfile(path):
            with open(path, "rb") as file:
                files[f"{NAME}/{name}"] = file.read()
    files[f"{folder}/METADATA"] = METADATA.encode()
    files[f"{folder}/WHEEL"] = WHEEL.encode()
    record = ""
    for name, data in files.items():
        digest = base64.urlsafe_b64encode(hashlib.sha256(data).digest()).rstrip(b"=").decode()
        record += f"{name},sha256={digest},{len(data)}\n"
    files[f"{folder}/RECORD"] = (record + f"{folder}/RECORD,,\n").encode()
    wheel = f"{NAME}-{VERSION}-{TAG}.whl"
    with zipfile.ZipFile(os.path.join(wheel_directory, wheel), "w", zipfile.ZIP_DEFLATED) as packed:
        for name, data in files.items():
            packed.writestr(name, data)
    return wheel
