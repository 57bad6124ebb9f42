#!/usr/bin/env python3
"""Makes the library for C, crates/comfy_c/out/libcomfy_c.a, from the libraries that `rt ci` has proved and kept in crates/*/out.

    tools/make/c_library.py [TARGET]

With these libraries, only the crate comfy_c is proved again. If a library is missing, or older than one of its sources, a line
says so. Then `rt lib` makes the file. It uses no result of `rt ci`, so it proves all crates again.

Two more files are put beside the library. module.bc is the LLVM module that the toolchain compiled. module.words has the arguments
with which the toolchain called clang. tools/make/targets.py compiles the module for targets that the toolchain doesn't have.

TARGET is another target that the toolchain has, aarch64-unknown-linux-gnu. The library for this target is put into out/TARGET. It
can be built only with the libraries of `rt ci`.
"""
import os
import shutil
import subprocess
import sys
import tempfile
from pathlib import Path

import keeper

TOP = Path(__file__).resolve().parents[2]
KIT = Path(keeper.KIT)
HOST = "x86_64-unknown-linux-gnu"
CRATE = "comfy_c"


def libraries_of(crate):
    """The libraries that a crate uses, as crates.txt lists them."""
    for line in (TOP / "crates.txt").read_text().splitlines():
        names, _, libraries = line.partition("#")[0].partition(":")
        if names.split()[:1] == [crate]:
            return libraries.split()
    sys.exit(f"crates.txt has no crate {crate}")


def folder_of(crate):
    return TOP / "crates" / crate


def is_ours(crate):
    """True for a crate of this project, and False for one of the toolchain."""
    return folder_of(crate).is_dir()


def all_below(crate):
    """The libraries of this project that a crate uses, directly or through others."""
    found = set()
    for library in filter(is_ours, libraries_of(crate)):
        found |= {library} | all_below(library)
    return found


def library_at(crate):
    """The folder of a built library, in the project or in the toolchain."""
    return (folder_of(crate) / "out/rlib" if is_ours(crate) else KIT / "rlibs") / f"{crate}.rlib"


def missing(crate):
    """The reason why a built library can't be used, or None. It must be newer than its sources and than the libraries that it
    uses."""
    built = library_at(crate) / "format"
    if not built.exists():
        return f"{built.parent} is missing"
    parts = [folder_of(crate) / part for part in ("src", "specs", "proofs")]
    sources = [it for part in parts for it in part.rglob("*") if it.is_file()]
    used = [library_at(it) / "format" for it in filter(is_ours, libraries_of(crate))]
    newer = [it for it in [*sources, *used] if it.exists() and it.stat().st_mtime > built.stat().st_mtime]
    return f"{newer[0]} is newer than {built.parent}" if newer else None


def words_for(below, target, toolchain, file):
    """The arguments of a build for a target. It links these libraries, and writes to the file."""
    words = ["--crate-name", CRATE, "src/lib.rt", "--crate-type", "staticlib", "--links", f"{CRATE}="]
    for library in ["std", *libraries_of(CRATE)]:
        words += ["--extern", f"{library}={library_at(library)}"]
    for place in [*(library_at(library).parent for library in below), KIT / "rlibs"]:
        words += ["-L", f"dependency={place}"]
    words += ["--antt-project", KIT / "rattle/logic/antt-project.json", "--logic-built", KIT / "logic_built"]
    words += ["--target", target, "--incremental", "out/incremental"]
    return [*words, "--toolchain", toolchain, "-o", file, "--jobs", "2"]


def build(target):
    """Builds the library for a target, with a toolchain that keeps the module in a folder, and returns the status."""
    below = sorted(all_below(CRATE))
    lacks = next(filter(None, map(missing, below)), None)
    folder = Path("out" if target == HOST else f"out/{target}")
    with tempfile.TemporaryDirectory() as at:
        kit = keeper.copied_kit(at)
        words = [KIT / "bin/rattle", "build", *words_for(below, target, f"{kit}/toolchain", folder / f"lib{CRATE}.a")]
        if lacks and target != HOST:
            sys.exit(f"{lacks}; run rt ci first")
        if lacks:
            print(f"{lacks}, so all crates are proved again", file=sys.stderr)
            words = [sys.executable, f"{kit}/bin/rt", "lib"]
        folder.mkdir(parents=True, exist_ok=True)
        if target == HOST:
            # The files for other targets are made from the same sources, so they have to be made again.
            for made in [*Path("out").glob("*/*comfy_c.*"), *Path("out").glob("*/csvtable.wasm")]:
                made.unlink()
        status = subprocess.call(words)
        if status:
            print(f"the build for {target} ended with {status}; a number below 0 is that of a signal", file=sys.stderr)
        if status == 0 and target == HOST:
            shutil.copy(f"{at}/module.bc", "out/module.bc")
            shutil.copy(f"{at}/words", "out/module.words")
    return status


def main():
    if len(sys.argv) > 2 or "-h" in sys.argv:
        sys.exit(__doc__)
    os.chdir(folder_of(CRATE))
    sys.exit(build(sys.argv[1] if len(sys.argv) == 2 else HOST))


if __name__ == "__main__":
    main()
