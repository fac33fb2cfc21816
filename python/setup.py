"""Builds the package with the shared library inside, which `make` links from the proved objects."""
import shutil
import subprocess
from pathlib import Path

from setuptools import Distribution, setup
from setuptools.command.build_py import build_py
from wheel.bdist_wheel import bdist_wheel

HERE = Path(__file__).resolve().parent
LIBRARY = "libwedgepetal.so.0"


class Build(build_py):
    def run(self):
        super().run()
        subprocess.run(["make", "--silent"], cwd=HERE.parent, check=True)
        package = Path(self.build_lib) / "wedgepetal"
        package.mkdir(parents=True, exist_ok=True)
        shutil.copyfile(HERE.parent / "target" / "lib" / LIBRARY, package / LIBRARY)


class Wheel(bdist_wheel):
    """For any Python 3 on this kind of machine."""

    def get_tag(self):
        return "py3", "none", super().get_tag()[2]


class WithLibrary(Distribution):
    def has_ext_modules(self):
        return True


setup(cmdclass={"build_py": Build, "bdist_wheel": Wheel}, distclass=WithLibrary)
