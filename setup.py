"""Builds what pyproject.toml cannot express: a package with the library and mars.h, which any Python calls by cffi, and
with the built site.

The library is that in `build`, which dev/library proves and builds. `make wheels` gives one for another system as
MARS_NATIVE, in a folder that has the name of the wheel's tags. A source archive (`make dist`) has portable/libmars.c
instead, which the system's C compiler compiles.
"""
from __future__ import annotations

import os
import re
import runpy
import shutil
import sys
import sysconfig
from pathlib import Path
from typing import Any

import cffi
from setuptools import Distribution, setup
from setuptools.command.build_py import build_py
from wheel.bdist_wheel import bdist_wheel

INCLUDE, SOURCE = "crates/mars_c/include", "portable/libmars.c"
HEADER = INCLUDE + "/mars.h"
SITE = "build/site"
READER: dict[str, Any] = runpy.run_path("python/corewar/model/header.py")
BUILT = Path(os.environ.get("MARS_NATIVE") or Path("build", READER["LIBRARY"]))
# The tags of the library in `build`, which requires glibc 2.14.
HERE = "manylinux_2_17_x86_64.manylinux2014_x86_64"
# The files for editors, which `make editors` writes.
SHARE = Path("build/share")
# Without -g, which Python's own options have, and with which GCC takes five times as long.
GCC_OPTIONS = ["-O2", "-g0", "-w", "-fvisibility=hidden"]


def write_types(header: str, path: Path) -> None:
    """Writes the types of the header as a module, so that the package parses no header when it starts."""
    ffi = cffi.FFI()
    ffi.set_source("corewar.engine.declared", None)
    ffi.cdef(READER["declarations"](Path(header).read_text()))
    ffi.emit_python_code(str(path))


def compile_library(target: Path, temp: str) -> None:
    """Compiles the portable source with this system's C compiler; its object files go to the folder `temp`."""
    # Python 3.12 no longer has distutils itself.
    from setuptools._distutils.ccompiler import new_compiler
    from setuptools._distutils.sysconfig import customize_compiler

    compiler = new_compiler()
    customize_compiler(compiler)
    is_windows, is_msvc = sys.platform == "win32", compiler.compiler_type == "msvc"
    options = ["/O2", "/w"] if is_msvc else GCC_OPTIONS + ([] if is_windows else ["-fPIC"])
    exported = "__declspec(dllexport)" if is_windows else '__attribute__((visibility("default")))'
    print(f"compiling {SOURCE}, which takes some minutes", flush=True)
    objects = compiler.compile(
        [SOURCE], output_dir=temp, macros=[("MARS_CALL", exported)], include_dirs=[INCLUDE], extra_postargs=options
    )
    compiler.link_shared_object(objects, str(target))


class BuildPackage(build_py):
    """Puts the library, its header and the site into the package."""

    def run(self) -> None:
        super().run()
        engine = Path(self.build_lib, "corewar", "engine")
        if not Path(SITE, "one.html").is_file():
            raise SystemExit(f"{SITE} is not built; run make site")
        if BUILT.is_file():
            shutil.copy(BUILT, engine)
        elif Path(SOURCE).is_file():
            compile_library(engine / BUILT.name, self.get_finalized_command("build").build_temp)
        else:
            raise SystemExit(f"{BUILT} is not built; dev/library proves and builds it")
        shutil.copy(HEADER, engine)
        shutil.copytree(SITE, Path(self.build_lib, "corewar", "pages", "site"), dirs_exist_ok=True)
        write_types(HEADER, engine / "declared.py")


class Wheel(bdist_wheel):
    """Tags the wheel by the library, which requires no particular Python."""

    def get_tag(self) -> tuple[str, str, str]:
        system = re.sub(r"\W", "_", sysconfig.get_platform())
        if BUILT.is_file():
            system = BUILT.parent.name if "MARS_NATIVE" in os.environ else HERE
        return "py3", "none", system


class Binary(Distribution):
    """A package with compiled content."""

    def has_ext_modules(self) -> bool:
        return True


setup(
    cmdclass={"build_py": BuildPackage, "bdist_wheel": Wheel},
    distclass=Binary,
    data_files=[
        (str("share" / path.parent.relative_to(SHARE)), [str(path)])
        for path in sorted(SHARE.rglob("*.*"))
        if path.is_file()
    ],
)
