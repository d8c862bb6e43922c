"""The module of the library for C holds the library: its archive is named by TALMUIGA_ARCHIVE, and its header's folder by
TALMUIGA_INCLUDE. It is built against Python's stable interface, so that one wheel serves each Python from 3.10 on."""
import os

from setuptools import Extension, setup
from wheel.bdist_wheel import bdist_wheel


class OfEachPython(bdist_wheel):
    """A wheel that names the oldest Python that it serves."""

    def get_tag(self):
        return "cp310", "abi3", super().get_tag()[2]


setup(
    ext_modules=[
        Extension(
            "talmuiga._library",
            ["src/talmuiga/_library.c"],
            include_dirs=[os.environ.get("TALMUIGA_INCLUDE", "../include")],
            extra_compile_args=["-O2", "-Wall", "-Wextra", "-Werror"],
            extra_objects=[os.environ.get("TALMUIGA_ARCHIVE", "../lib/libtalmuiga.a")],
            py_limited_api=True,
        )
    ],
    cmdclass={"bdist_wheel": OfEachPython},
)
