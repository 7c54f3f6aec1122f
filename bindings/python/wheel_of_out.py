# SPDX-License-Identifier: Apache-2.0
"""Makes the package for pip: the module, and the shared object that `bindings/build.py` has linked.

It needs the standard library alone, so that `pip install ./bindings/python` downloads nothing. The
shared object is that of `bindings/out`, or of the folder that `SCION_LIB` names."""
import base64
import hashlib
import os
import re
import zipfile

HERE = os.path.dirname(os.path.realpath(__file__))
TAG = "py3-none-linux_x86_64"


def named(key):
    """A value of `pyproject.toml`."""
    with open(os.path.join(HERE, "pyproject.toml"), encoding="utf-8") as it:
        return re.search(rf'^{key} = "(.*)"$', it.read(), re.M)[1]


def shared_object():
    folder = os.environ.get("SCION_LIB", os.path.join(HERE, os.pardir, "out"))
    path = os.path.join(folder, "libscion.so")
    if not os.path.exists(path):
        raise FileNotFoundError(f"{path}: python3 bindings/build.py --paths makes it")
    return path


def row(name, data):
    """A line of the wheel's list of files."""
    digest = base64.urlsafe_b64encode(hashlib.sha256(data).digest()).rstrip(b"=").decode()
    return f"{name},sha256={digest},{len(data)}\n"


def contents(front):
    """Each file of the wheel but its list, and what is in it."""
    paths = {f"scion/{it}": os.path.join(HERE, "scion", it) for it in ("__init__.py", "py.typed")}
    for name, path in {**paths, "scion/libscion.so": shared_object()}.items():
        with open(path, "rb") as it:
            yield name, it.read()
    about = {"Metadata-Version": "2.1", "Name": named("name"), "Version": named("version")}
    about.update({"Summary": named("description"), "Requires-Python": named("requires-python")})
    wheel = {"Wheel-Version": "1.0", "Generator": "wheel_of_out", "Root-Is-Purelib": "false"}
    for name, fields in (("METADATA", about), ("WHEEL", {**wheel, "Tag": TAG})):
        text = "".join(f"{key}: {value}\n" for key, value in fields.items())
        yield f"{front}.dist-info/{name}", text.encode()


def build_wheel(wheel_directory, config_settings=None, metadata_directory=None):
    """The hook that pip calls; it returns the name of the wheel."""
    front = f"{named('name')}-{named('version')}"
    files = dict(contents(front))
    listed = "".join(row(*it) for it in files.items()) + f"{front}.dist-info/RECORD,,\n"
    with zipfile.ZipFile(os.path.join(wheel_directory, f"{front}-{TAG}.whl"), "w") as wheel:
        for name, data in {**files, f"{front}.dist-info/RECORD": listed.encode()}.items():
            wheel.writestr(name, data)
    return f"{front}-{TAG}.whl"
