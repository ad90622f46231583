"""Builds the wheel of this package, with the library in it, by the standard library alone: `pip wheel .` calls it (PEP 517),
and `python3 wheels.py FOLDER` does without pip.

The library is taken from the folder that CAMP_LIB_DIR names, or from where clients/build puts it.
"""

import base64
import hashlib
import os
import re
import sys
import zipfile

HERE = os.path.dirname(os.path.abspath(__file__))
TAG = "py3-none-linux_x86_64"
# The same files make the same wheel: each has the earliest time that a zip archive can say.
TIME = (1980, 1, 1, 0, 0, 0)


def project():
    """The fields of pyproject.toml that the wheel tells."""
    with open(os.path.join(HERE, "pyproject.toml"), encoding="utf-8") as file:
        return dict(re.findall(r'^([a-z-]+) = "(.*)"$', file.read(), re.M))


def library():
    folder = os.environ.get("CAMP_LIB_DIR") or os.path.join(HERE, "..", "..", "out", "clients")
    path = os.path.join(folder, "libcamp.so")
    if not os.path.exists(path):
        raise FileNotFoundError("{} does not exist: run clients/build, or set CAMP_LIB_DIR to the folder of libcamp.so".format(path))
    return path


def contents():
    """The files of the package, by their paths in the wheel."""
    found = {"camp/libcamp.so": library()}
    for folder, _, names in os.walk(os.path.join(HERE, "camp")):
        for name in names:
            if name.endswith((".py", ".typed")):
                path = os.path.join(folder, name)
                found[os.path.relpath(path, HERE)] = path
    return {place: read(path) for place, path in sorted(found.items())}


def read(path):
    with open(path, "rb") as file:
        return file.read()


def metadata(fields):
    lines = ["Metadata-Version: 2.1", "Name: " + fields["name"], "Version: " + fields["version"], "Summary: " + fields["description"],
             "Requires-Python: " + fields["requires-python"], "Description-Content-Type: text/markdown", ""]
    return "\n".join(lines).encode() + b"\n" + read(os.path.join(HERE, "README.md"))


def build_wheel(wheel_directory, config_settings=None, metadata_directory=None):
    fields = project()
    name = "{}-{}".format(fields["name"], fields["version"])
    wheel, about = "{}-{}.whl".format(name, TAG), name + ".dist-info/"
    files = contents()
    files[about + "METADATA"] = metadata(fields)
    files[about + "WHEEL"] = "Wheel-Version: 1.0\nGenerator: camp\nRoot-Is-Purelib: false\nTag: {}\n".format(TAG).encode()
    files[about + "RECORD"] = record(files, about + "RECORD")
    with zipfile.ZipFile(os.path.join(wheel_directory, wheel), "w", zipfile.ZIP_DEFLATED) as archive:
        for place, data in files.items():
            entry = zipfile.ZipInfo(place, TIME)
            entry.compress_type, entry.external_attr = zipfile.ZIP_DEFLATED, 0o644 << 16
            archive.writestr(entry, data)
    return wheel


def record(files, own):
    """The digest and length of each file, but for the record itself."""
    lines = []
    for place, data in files.items():
        digest = base64.urlsafe_b64encode(hashlib.sha256(data).digest()).rstrip(b"=").decode()
        lines.append("{},sha256={},{}\n".format(place, digest, len(data)))
    return "".join([*lines, own + ",,\n"]).encode()


if __name__ == "__main__":
    print(os.path.join(sys.argv[1], build_wheel(sys.argv[1])))
