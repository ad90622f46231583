"""The wheel: it is the same each time, and is imported in a virtual environment of its own, with the library in it."""

import importlib.util
import os
import subprocess
import sys
import tempfile
import unittest
import venv

import wheels

PROGRAM = """
import camp
with camp.Repository() as repository:
    repository.record_text("main", "start", "notes", None, "hello")
    print(repository.tree("main"), camp.__file__.startswith({folder!r}))
"""


class Wheel(unittest.TestCase):
    @unittest.skipUnless(importlib.util.find_spec("ensurepip"), "this Python makes no virtual environment with pip")
    def test_the_wheel_is_installed_and_imported(self):
        with tempfile.TemporaryDirectory() as folder:
            wheel = os.path.join(folder, wheels.build_wheel(folder))
            with open(wheel, "rb") as file:
                first = file.read()
            wheels.build_wheel(folder)
            with open(wheel, "rb") as file:
                self.assertEqual(file.read(), first)
            venv.create(os.path.join(folder, "venv"), with_pip=True)
            python = os.path.join(folder, "venv", "bin", "python")
            subprocess.run([python, "-m", "pip", "install", "--quiet", "--no-index", "--disable-pip-version-check", wheel], check=True)
            environment = {name: value for name, value in os.environ.items() if name not in ("CAMP_LIB_DIR", "PYTHONPATH")}
            program = PROGRAM.format(folder=os.path.join(folder, "venv"))
            done = subprocess.run([python, "-c", program], cwd=folder, env=environment, stdout=subprocess.PIPE, text=True, check=True)
            self.assertEqual(done.stdout, "{'notes': [b'hello']} True\n")

    def test_the_version_is_that_of_the_package(self):
        sys.path.insert(0, wheels.HERE)
        import camp
        self.assertEqual(wheels.project()["version"], camp.__version__)


if __name__ == "__main__":
    unittest.main()
