#!/usr/bin/env python3
"""Builds crates/radixvm_c/out/libradixvm-kernel.a, the library for kernels: it uses no register of floating point, MMX or SSE, and no red zone, and calls
no C library. Its code is compiled from the module that the prover hands its clang, as that of libradixvm.a is. `./radixvm --build-library` starts it.
It reads the kit's parts, and may have to change with them. Usage: bindings/freestanding.py
"""
import pathlib
import re
import subprocess
import tempfile

from tsan import CLANG, CRATE, module

ATTRIBUTES = 'noredzone "target-features"="-mmx,-sse,-sse2,-x87,+soft-float"'
WORDS = ["--target=x86_64-unknown-linux-gnu", "-O3", "-fPIC", "-ffunction-sections", "-fdata-sections", "-Wno-override-module", "-c", "-x", "ir"]
# What it may call. include/radixvm.h says what the last three do.
CALLED = {"memcpy", "memmove", "memset", "rattle_alloc", "rattle_dealloc", "rattle_realloc"}


def called(file):
    """The names that a file needs and doesn't have."""
    lines = subprocess.run(["nm", "--undefined-only", file], check=True, capture_output=True, text=True).stdout.split("\n")
    return {line.split()[1] for line in lines if line.startswith(" ") and len(line.split()) == 2}


def main():
    with tempfile.TemporaryDirectory() as folder:
        work = pathlib.Path(folder)
        text, changed = re.subn(r"^(attributes #\d+ = \{)", rf"\1 {ATTRIBUTES}", module(work), flags=re.M)
        (work / "lib.ll").write_text(text)
        made = work / "radixvm.o"
        subprocess.run([CLANG, *WORDS, work / "lib.ll", "-o", made], check=True)
        code = subprocess.run(["objdump", "-d", made], check=True, capture_output=True, text=True).stdout
        if not changed or called(made) - CALLED or re.search(r"%[xyz]?mm\d", code):
            raise SystemExit(f"bindings/freestanding.py: {changed} attributes; calls {sorted(called(made) - CALLED)}; or registers of SSE are used")
        out = CRATE / "out/libradixvm-kernel.a"
        out.unlink(missing_ok=True)
        subprocess.run(["ar", "qcs", out, made], check=True)
    print(f"built {out}")


if __name__ == "__main__":
    main()
