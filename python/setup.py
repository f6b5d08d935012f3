"""Sets the tag of the wheel, which pyproject.toml can't set: one system, because of the shared object, and any Python 3."""

from setuptools import setup
from wheel.bdist_wheel import bdist_wheel


class BinaryWheel(bdist_wheel):
    """A wheel with the system in its name, but no Python version, because ctypes loads the shared object."""

    def finalize_options(self) -> None:
        super().finalize_options()
        self.root_is_pure = False

    def get_tag(self) -> "tuple[str, str, str]":
        return "py3", "none", super().get_tag()[2]


setup(cmdclass={"bdist_wheel": BinaryWheel})
