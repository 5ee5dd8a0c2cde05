#!/usr/bin/env python3
"""Builds libradixvm.a for ThreadSanitizer, from the module that the prover hands its clang: as it is, each function instrumented, to
crates/radixvm_c/out/tsan, and to crates/radixvm_c/out/relaxed with the steps on words made relaxed, of which a race has to be reported. bindings/test.sh
runs both where they are there. The libraries below radixvm_c have to be built (`./radixvm --build-library` builds them), and radixvm_c is proved again.
It reads the kit's parts, and may have to change with them. Usage: bindings/tsan.py
"""
import pathlib
import re
import shutil
import subprocess
import sys
import tempfile

TOP = pathlib.Path(__file__).resolve().parent.parent
KIT = pathlib.Path(subprocess.run(["rt", "doc"], capture_output=True, check=True, text=True).stdout.split("\n")[0]).parent
CLANG = KIT / "toolchain/bin/clang"
CRATE = TOP / "crates/radixvm_c"

# The compiler that the build is given: it keeps each module, and compiles it.
KEEPER = """#!/bin/sh
for word in "$@"; do
    case $word in *.bc) cp "$word" "{kept}" ;; esac
done
exec {clang} "$@"
"""


def command(toolchain, out):
    """The build of the static library over the libraries that are built."""
    lines = (TOP / "crates.txt").read_text().split("\n")
    below = {line.split(":")[0].split()[0]: line.split(":")[1].split() for line in lines if line and line[0] != "#"}
    words = ["rattle", "build", "--crate-name", CRATE.name, "src/lib.rt", "--crate-type", "staticlib", "--toolchain", toolchain, "-o", out]
    for name in ["std", *below[CRATE.name]]:
        words += ["--extern", f"{name}={TOP / 'crates' / name / 'out/rlib' if name in below else KIT / 'rlibs'}/{name}.rlib"]
    for folder in [KIT / "rlibs", *sorted((TOP / "crates").glob("*/out/rlib"))]:
        words += ["-L", f"dependency={folder}"]
    words += ["--antt-project", f"{KIT}/rattle/logic/antt-project.json", "--logic-built", f"{KIT}/logic_built", "--links", f"{CRATE.name}="]
    kept = CRATE / "out/incremental"
    return [*words, *(["--incremental", kept] if kept.is_dir() else [])]


def module(work):
    """The module of the library, as text."""
    toolchain = work / "toolchain"
    shutil.copytree(KIT / "toolchain", toolchain, symlinks=True)
    keeper = toolchain / "bin/clang"
    keeper.unlink()
    keeper.write_text(KEEPER.replace("{kept}", str(work / "module.bc")).replace("{clang}", str(CLANG)))
    keeper.chmod(0o755)
    # The kit's other tools are links to its clang, and stay those.
    for link in [link for link in keeper.parent.iterdir() if link.is_symlink()]:
        link.unlink()
        link.symlink_to(KIT / "toolchain/bin" / link.name)
    subprocess.run(command(toolchain, work / "libradixvm.a"), cwd=CRATE, check=True, stdout=subprocess.DEVNULL)
    text = work / "module.ll"
    subprocess.run([CLANG, "-S", "-emit-llvm", "-O0", "-Xclang", "-disable-llvm-passes", "-x", "ir", work / "module.bc", "-o", text], check=True)
    return text.read_text()


def archive(text, kind, work):
    """The library of an instrumented module, with the kit's allocator."""
    out = CRATE / "out" / kind
    shutil.rmtree(out, ignore_errors=True)
    out.mkdir()
    (work / "lib.ll").write_text(re.sub(r"^(define .*\)[^\n{]*)\{", r"\1sanitize_thread {", text, flags=re.M))
    words = ["--target=x86_64-unknown-linux-gnu", "-fsanitize=thread", "-O1", "-fPIC", "-Wno-override-module", "-c", "-x", "ir"]
    subprocess.run([CLANG, *words, work / "lib.ll", "-o", out / "radixvm.o"], check=True)
    subprocess.run(["ar", "x", KIT / "c/liblibc_c.a"], cwd=out, check=True)
    objects = sorted(out.glob("*.o"))
    subprocess.run(["ar", "qcs", out / "libradixvm.a", *objects], check=True)
    for made in objects:
        made.unlink()


def main():
    if len(sys.argv) != 1:
        sys.exit(__doc__)
    with tempfile.TemporaryDirectory() as folder:
        work = pathlib.Path(folder)
        text = module(work)
        archive(text, "tsan", work)
        relaxed, exchanges = re.subn(r"(cmpxchg .*?) seq_cst seq_cst", r"\1 monotonic monotonic", text)
        relaxed, stores = re.subn(r"(store atomic .*?) seq_cst", r"\1 monotonic", relaxed)
        if not exchanges or not stores:
            sys.exit(f"bindings/tsan.py: {exchanges} exchanges and {stores} stores were relaxed; the module has others now")
        archive(relaxed, "relaxed", work)
    print(f"{CRATE / 'out/tsan'} and {CRATE / 'out/relaxed'}: {exchanges} exchanges and {stores} stores are relaxed in the second")


if __name__ == "__main__":
    main()
