"""Builds the wheel: the package, the version and the shared library that release/ has for this machine. No compiler is needed."""

import pathlib
import platform
import shutil

from setuptools import Distribution, setup
from setuptools.command.build_py import build_py
from setuptools.command.sdist import sdist
from wheel.bdist_wheel import bdist_wheel

HERE = pathlib.Path(__file__).resolve().parent
PACKAGE = "neqysbar"
RELEASE = HERE.parent / "release" / ("aarch64" if platform.machine() == "aarch64" else "")
# what the package has from outside of this folder; a source distribution has it in the package
OUTSIDE = {"libneqysbar.so": RELEASE, "VERSION": HERE.parent}


def source_of(name):
    """Where a file from outside of this folder is."""
    for place in (HERE / PACKAGE / name, OUTSIDE[name] / name):
        if place.is_file():
            return place
    raise SystemExit(f"neqysbar: there is no {OUTSIDE[name] / name}")


def copy_outside(folder):
    for name in OUTSIDE:
        shutil.copyfile(source_of(name), pathlib.Path(folder) / name)


class BuildWithLibrary(build_py):
    def run(self):
        super().run()
        copy_outside(pathlib.Path(self.build_lib) / PACKAGE)


class SourcesWithLibrary(sdist):
    def make_release_tree(self, base_dir, files):
        super().make_release_tree(base_dir, files)
        copy_outside(pathlib.Path(base_dir) / PACKAGE)


class WithLibrary(Distribution):
    """What is built is of one platform, as the library is."""

    def has_ext_modules(self):
        return True


class PlatformWheel(bdist_wheel):
    """The Python is of any version."""

    def get_tag(self):
        return "py3", "none", super().get_tag()[2]


setup(version=source_of("VERSION").read_text(encoding="ascii").strip(), distclass=WithLibrary,
      cmdclass={"build_py": BuildWithLibrary, "sdist": SourcesWithLibrary, "bdist_wheel": PlatformWheel})
