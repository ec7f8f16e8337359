"""Adds the library that bindings/build makes to the package, and names its wheels after the platforms on which it works."""

import pathlib
import shutil

from setuptools import Distribution, setup
from setuptools.command.build_py import build_py

try:
    from setuptools.command.bdist_wheel import bdist_wheel
except ImportError:  # before setuptools 70.1
    from wheel.bdist_wheel import bdist_wheel

HERE = pathlib.Path(__file__).resolve().parent
# The library asks for no newer C library, which bindings/package checks.
PLATFORM = "manylinux_2_17_x86_64"


class WithLibrary(build_py):
    """Copies the library next to the modules."""

    def run(self):
        library = HERE.parent / "out" / "librnix.so"
        if not library.is_file():
            raise SystemExit(f"{library} is missing: run bindings/build first")
        super().run()
        shutil.copy(library, pathlib.Path(self.build_lib) / "rnix" / "librnix.so")


class EveryPython(bdist_wheel):
    """A wheel for every Python 3: its machine code is a library that knows nothing of Python."""

    def get_tag(self):
        return "py3", "none", PLATFORM


class PlatformDistribution(Distribution):
    """A package that contains machine code."""

    def has_ext_modules(self):
        return True


setup(cmdclass={"build_py": WithLibrary, "bdist_wheel": EveryPython}, distclass=PlatformDistribution)
