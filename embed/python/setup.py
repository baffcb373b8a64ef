"""Builds the shared library beside the module, from the packed C file of this checkout: pip install ./embed/python needs a C compiler alone."""
import subprocess
import sys
from pathlib import Path

from setuptools import Distribution, setup
from setuptools.command.build_py import build_py

PORTABLE = Path(__file__).resolve().parent.parent.parent / "portable"


class BuildWithLibrary(build_py):
    def run(self) -> None:
        super().run()
        obstacle = subprocess.run([PORTABLE / "obstacle.sh", "checktestdata"], stdout=subprocess.PIPE, text=True, check=True).stdout
        if obstacle:
            sys.exit(obstacle.rstrip())
        subprocess.run([PORTABLE / "library.sh", self.build_lib], check=True)
        (Path(self.build_lib) / "libchecktestdata.a").unlink()


class WithLibrary(Distribution):
    """A package that is built for one system."""

    def has_ext_modules(self) -> bool:
        return True


setup(cmdclass={"build_py": BuildWithLibrary}, distclass=WithLibrary)
