"""Keeps the LLVM module of the program: a folder of tools whose `clang` copies the module that it is given."""
import os
import pathlib

NAMES = ("llvm-ar", "ld.lld")


def lay_out_tools(toolchain: str, room: pathlib.Path, module: pathlib.Path) -> None:
    """The tools of a toolchain in a folder; its clang copies the module to a file and does nothing else."""
    (room / "bin").mkdir(parents=True)
    (room / "lib").symlink_to(f"{toolchain}/lib")
    for name in os.listdir(f"{toolchain}/bin"):
        if name != "clang":
            (room / "bin" / name).symlink_to(f"{toolchain}/bin/{'clang' if name in NAMES else name}")
    clang = room / "bin" / "clang"
    clang.write_text(f"#!/bin/sh\ncp module.bc {module}.new && mv {module}.new {module}\nexit 1\n")
    clang.chmod(0o755)
