"""The one thing that pyproject.toml cannot say: the wheel's tag. Its machine code is the library's, and none of it is Python's own.

bindings/python/wheel puts the library into the package before this runs, and names the platform in THRESHCINCH_PLATFORM.
"""
import os

from setuptools import Distribution, setup
from wheel.bdist_wheel import bdist_wheel


class LibraryDistribution(Distribution):
    """Not for every machine, so that it is installed where compiled modules are."""

    def has_ext_modules(self):
        return True


class LibraryWheel(bdist_wheel):
    def get_tag(self):
        return "py3", "none", os.environ["THRESHCINCH_PLATFORM"]


setup(distclass=LibraryDistribution, cmdclass={"bdist_wheel": LibraryWheel})
