"""Builds the wheel of campvc for `pip install` (PEP 517), as clients/python/wheels.py builds that of camp, without a download."""

import os
import re
import zipfile

HERE = os.path.dirname(os.path.abspath(__file__))
with open(os.path.join(HERE, "pyproject.toml"), encoding="utf-8") as file:
    VERSION = re.findall(r'^version = "(.*)"$', file.read(), re.M)[0]
ABOUT = f"campvc-{VERSION}.dist-info/"
METADATA = f"""Metadata-Version: 2.1
Name: campvc
Version: {VERSION}
Summary: A small version control system over camp
Requires-Python: >=3.11
Requires-Dist: camp
Provides-Extra: web
Requires-Dist: aiohttp; extra == "web"
Requires-Dist: jinja2; extra == "web"
"""
WHEEL = "Wheel-Version: 1.0\nGenerator: campvc\nRoot-Is-Purelib: true\nTag: py3-none-any\n"


def build_wheel(wheel_directory, config_settings=None, metadata_directory=None):
    name = f"campvc-{VERSION}-py3-none-any.whl"
    texts = {ABOUT + "METADATA": METADATA, ABOUT + "WHEEL": WHEEL,
             ABOUT + "entry_points.txt": "[console_scripts]\ncampvc = campvc.__main__:main\n"}
    for folder, _, files in os.walk(os.path.join(HERE, "campvc")):
        for file in files:
            if file.endswith((".py", ".html", ".css")):
                path = os.path.join(folder, file)
                with open(path, encoding="utf-8") as opened:
                    texts[os.path.relpath(path, HERE)] = opened.read()
    texts[ABOUT + "RECORD"] = "".join("{},,\n".format(place) for place in [*texts, ABOUT + "RECORD"])
    with zipfile.ZipFile(os.path.join(wheel_directory, name), "w", zipfile.ZIP_DEFLATED) as archive:
        for place, text in texts.items():
            archive.writestr(zipfile.ZipInfo(place, (1980, 1, 1, 0, 0, 0)), text)
    return name
