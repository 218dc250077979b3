#!/usr/bin/env python3
"""Builds the wheel without the network, installs it in a fresh environment, and tests it there."""

import os
import pathlib
import shutil
import subprocess
import sys
import tempfile
import unittest
import zipfile

from places import PYTHON, TEST, TOP

SECONDS = 600
# the tests that the installed package passes, which need nothing but it; its modules are those that all tests try
TESTS = (("test_calls", "Runs.test_examples", "Runs.test_words", "Runs.test_version"), ("test_readers", "Entries", "Reports", "Studies"),
         ("test_traces", "Settings"))


def called(*words, **more):
    return subprocess.run(words, stdout=subprocess.PIPE, stderr=subprocess.STDOUT, text=True, timeout=SECONDS, **more)


def builder():
    """A Python that has what builds a wheel, and pip."""
    for python in (sys.executable, "/usr/bin/python3"):
        if os.path.exists(python) and called(python, "-c", "import setuptools, wheel, pip, venv, ensurepip").returncode == 0:
            return python
    return None


def clean_environment():
    """An environment that names no library and no folder of modules."""
    return {name: value for name, value in os.environ.items() if name not in ("NEQYSBAR_LIBRARY", "PYTHONPATH")}


class Wheel(unittest.TestCase):
    @classmethod
    def setUpClass(cls):
        cls.python = builder()
        if not cls.python:
            raise unittest.SkipTest("the wheel: no python3 has setuptools, wheel, pip and venv")
        cls.folder = pathlib.Path(tempfile.mkdtemp())
        cls.addClassCleanup(shutil.rmtree, cls.folder)
        source = cls.folder / "source"
        shutil.copytree(PYTHON, source / "python", ignore=shutil.ignore_patterns("__pycache__", "build", "dist", "*.egg-info"))
        shutil.copy(TOP / "VERSION", source)
        (source / "release").mkdir()
        shutil.copy(os.environ.get("NEQYSBAR_LIBRARY") or TOP / "release" / "libneqysbar.so", source / "release" / "libneqysbar.so")
        cls.source = source / "python"
        done = called(cls.python, "-m", "pip", "wheel", "--no-index", "--no-deps", "--no-build-isolation",
                      "--wheel-dir", str(cls.folder), str(cls.source), env=clean_environment())
        wheels = list(cls.folder.glob("*.whl"))
        assert done.returncode == 0 and len(wheels) == 1, done.stdout
        cls.wheel = wheels[0]

    def test_content(self):
        """It has the modules, the library and the version, and is tagged for this platform and any Python."""
        version = (TOP / "VERSION").read_text().strip()
        name = f"neqysbar-{version}-py3-none-linux_{os.uname().machine}.whl"
        self.assertEqual(self.wheel.name, name)
        with zipfile.ZipFile(self.wheel) as wheel:
            names = {path.split("/", 1)[1] for path in wheel.namelist() if path.startswith("neqysbar/")}
            self.assertEqual(wheel.read("neqysbar/VERSION").decode().strip(), version)
            library = os.environ.get("NEQYSBAR_LIBRARY") or TOP / "release" / "libneqysbar.so"
            self.assertEqual(wheel.read("neqysbar/libneqysbar.so"), pathlib.Path(library).read_bytes())
            for path in (PYTHON / "neqysbar").glob("*.py"):
                self.assertEqual(wheel.read(f"neqysbar/{path.name}"), path.read_bytes())
        self.assertEqual(names, {path.name for path in (PYTHON / "neqysbar").glob("*.py")} |
                         {"py.typed", "libneqysbar.so", "VERSION"})

    def test_installed(self):
        """In a fresh environment it is found, runs, and passes the tests, without the repository's folder."""
        fresh = self.folder / "fresh"
        done = called(self.python, "-m", "venv", "--without-pip", str(fresh), env=clean_environment())
        self.assertEqual(done.returncode, 0, done.stdout)
        python = str(fresh / "bin" / "python")
        place = called(python, "-c", "import sysconfig; print(sysconfig.get_path('purelib'))").stdout.strip()
        done = called(self.python, "-m", "pip", "install", "--no-index", "--target", place, str(self.wheel), env=clean_environment())
        self.assertEqual(done.returncode, 0, done.stdout)
        done = called(python, "-c", "import neqysbar; print(neqysbar.__version__, neqysbar.library_path())",
                      cwd=self.folder, env=clean_environment())
        version, path = done.stdout.split()
        self.assertEqual(version, (TOP / "VERSION").read_text().strip())
        self.assertTrue(path.startswith(str(fresh)), path)
        for name, *parts in TESTS:
            done = called(python, str(TEST / f"{name}.py"), *parts, cwd=self.folder,
                          env={**clean_environment(), "NEQYSBAR_TEST_INSTALLED": "1"})
            self.assertEqual(done.returncode, 0, done.stdout)
        trace = str(TOP / "examples" / "first-run.trace")
        done = called(python, "-m", "neqysbar.sweep", trace, "--command", "serial", "--frames", "8,16", "--output", "t.csv",
                      cwd=self.folder, env=clean_environment())
        self.assertEqual(done.returncode, 0, done.stdout)

    def test_source_distribution(self):
        """A source distribution has what the wheel is built of: the wheel made of it is the same."""
        done = called(self.python, "setup.py", "-q", "sdist", "--dist-dir", str(self.folder / "dist"), cwd=self.source,
                      env=clean_environment())
        self.assertEqual(done.returncode, 0, done.stdout)
        made = next((self.folder / "dist").glob("*.tar.gz"))
        done = called(self.python, "-m", "pip", "wheel", "--no-index", "--no-deps", "--no-build-isolation",
                      "--wheel-dir", str(self.folder / "again"), str(made), env=clean_environment())
        self.assertEqual(done.returncode, 0, done.stdout)
        with zipfile.ZipFile(self.wheel) as first, zipfile.ZipFile(next((self.folder / "again").glob("*.whl"))) as second:
            self.assertEqual({name: first.read(name) for name in first.namelist()},
                             {name: second.read(name) for name in second.namelist()})


if __name__ == "__main__":
    unittest.main()
