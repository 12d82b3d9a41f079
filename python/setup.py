"""Builds the package over $CURLEW_ARCHIVE and the header in $CURLEW_INCLUDE, else those of the repository."""
import os
import re
from glob import glob

from setuptools import Extension, setup

ROOT = os.path.join(os.path.dirname(os.path.abspath(__file__)), "..")
ARCHIVE = os.environ.get("CURLEW_ARCHIVE", os.path.join(ROOT, "target", "staticlib", "libcurlew.a"))
INCLUDE = os.environ.get("CURLEW_INCLUDE", os.path.join(ROOT, "include"))

with open(os.path.join(INCLUDE, "curlew.h"), encoding="utf-8") as header:
    VERSION = re.search(r'^#define CURLEW_VERSION "(.*)"$', header.read(), re.MULTILINE).group(1)

core = Extension(
    "curlew._core",
    sources=sorted(glob("src/*.c")),
    depends=["src/core.h"],
    include_dirs=[INCLUDE],
    extra_objects=[ARCHIVE],
    extra_compile_args=["-std=c99", "-O2", "-g0", "-fvisibility=hidden"],
    extra_link_args=["-s", "-Wl,--exclude-libs,ALL,-z,relro,-z,now"],
    py_limited_api=True,
)

setup(version=VERSION, ext_modules=[core], options={"bdist_wheel": {"py_limited_api": "cp39"}})
