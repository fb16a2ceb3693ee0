"""Machines for which the library for programs in C is built: this one, and others for which the kit makes code."""

import dataclasses
import shutil
import subprocess

# A header that each program includes, and how a compiler is asked for it.
HEADER = "stdio.h"
ASKED = ("-fsyntax-only", "-x", "c", "-include", HEADER, "/dev/null")


@dataclasses.dataclass(frozen=True)
class Target:
    """A machine, by its name in the kit; this one's is empty. Tests of its library compile with `compiler`, run what
    that made behind the words of `runner`, and read archives with `reader`."""

    name: str = ""
    compiler: tuple = ()
    runner: tuple = ()
    reader: tuple = ("nm",)

    def folder(self, above):
        """Where a folder with the library of this machine has that of the target."""
        return f"{above}/{self.name}" if self.name else above

    def missing(self):
        """What this machine lacks of the programs by which the target's library is tested."""
        programs = (self.compiler, self.runner, self.reader)
        return [it[0] for it in programs if not shutil.which(it[0])] or self.missing_of_library(self.compiler)

    @staticmethod
    def missing_of_library(compiler):
        """What a compiler doesn't find of a C library, as a package of its own may have this."""
        ran = subprocess.run([*compiler, *ASKED], capture_output=True, check=False)
        return [HEADER] if ran.returncode else []


HERE = Target()
AARCH64 = Target(
    "aarch64-unknown-linux-gnu",
    compiler=("aarch64-linux-gnu-gcc",),
    runner=("qemu-aarch64", "-L", "/usr/aarch64-linux-gnu"),
    reader=("aarch64-linux-gnu-nm",),
)
OTHERS = {it.name: it for it in (AARCH64,)}
ALL = (HERE, *OTHERS.values())
