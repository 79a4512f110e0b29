"""Makes the package's wheel with Python alone, so that `pip install` wants no network; pyproject.toml names it.

Where HOISKEND_LIB names a folder, its shared object goes into the wheel, and the package wants nothing beside itself.
"""
import base64
import hashlib
import os
import re
import sysconfig
import zipfile
from pathlib import Path

TOP = Path(__file__).resolve().parent
OBJECT = "libhoiskend.so.0"


def project(key):
    """A string of the project's table."""
    return re.search(rf'^{key} = "(.*)"$', (TOP / "pyproject.toml").read_text(), re.M)[1]


def metadata():
    fields = {"Metadata-Version": "2.1", "Name": project("name"), "Version": project("version")}
    fields.update({"Summary": project("description"), "Requires-Python": project("requires-python")})
    return "".join(f"{name}: {value}\n" for name, value in fields.items())


def record(files, path):
    """The list of a wheel's files with their digests."""
    rows = []
    for name, data in files.items():
        digest = base64.urlsafe_b64encode(hashlib.sha256(data).digest()).rstrip(b"=").decode()
        rows.append(f"{name},sha256={digest},{len(data)}\n")
    return "".join(rows) + f"{path},,\n"


def build_wheel(folder, config_settings=None, metadata_directory=None):
    package = sorted((TOP / "hoiskend").iterdir())
    files = {f"hoiskend/{path.name}": path.read_bytes() for path in package if path.suffix in (".py", ".typed")}
    tag, along = "py3-none-any", os.environ.get("HOISKEND_LIB")
    if along is not None:
        if not Path(along).is_absolute():
            raise ValueError(f"HOISKEND_LIB is to be a whole path, and is {along}")
        files[f"hoiskend/{OBJECT}"] = Path(along, OBJECT).read_bytes()
        tag = "py3-none-" + re.sub("[-.]", "_", sysconfig.get_platform())
    name = f"hoiskend-{project('version')}"
    info = f"{name}.dist-info"
    is_pure = str(tag.endswith("any")).lower()
    about = f"Wheel-Version: 1.0\nGenerator: hoiskend\nRoot-Is-Purelib: {is_pure}\nTag: {tag}\n"
    files.update({f"{info}/METADATA": metadata().encode(), f"{info}/WHEEL": about.encode()})
    files[f"{info}/RECORD"] = record(files, f"{info}/RECORD").encode()
    with zipfile.ZipFile(Path(folder, f"{name}-{tag}.whl"), "w", zipfile.ZIP_DEFLATED) as wheel:
        for path, data in files.items():
            wheel.writestr(path, data)
    return f"{name}-{tag}.whl"
