#!/usr/bin/env python3
"""Makes the library for C for other targets than Linux on x86-64, and the module of the page csvtable.html.

    tools/make/targets.py TARGET

TARGET is one of the targets in OWN_TARGETS and TRIPLES, by its name in Rust. The files are written into crates/comfy_c/out/TARGET.

The Rattle toolchain itself can compile for Linux on aarch64. For this target, tools/make/c_library.py makes the library.

For any other target, this program takes the LLVM module that the toolchain makes for Linux on x86-64. It replaces the module's
triple and layout by those of the target. Then the toolchain's own clang compiles the module, with the arguments that the toolchain
passes. It isn't proved that the module has the same meaning on such a target. tools/try/other_targets.sh tests this.
"""
import os
import re
import subprocess
import sys
import tempfile
from pathlib import Path

import keeper

TOP = Path(__file__).resolve().parents[2]
OUT = TOP / "crates/comfy_c/out"
HOST = "x86_64-unknown-linux-gnu"
OWN_TARGETS = ["aarch64-unknown-linux-gnu"]  # the targets that the toolchain has
SHUFFLE = "llvm.x86.ssse3.pshuf.b.128"

# LLVM's names (triples) of the other targets.
TRIPLES = {
    "aarch64-apple-darwin": "arm64-apple-macosx11.0.0",
    "x86_64-apple-darwin": "x86_64-apple-macosx11.0.0",
    "x86_64-pc-windows-gnu": "x86_64-pc-windows-gnu",
    "x86_64-pc-windows-msvc": "x86_64-pc-windows-msvc",
    "wasm64-unknown-unknown": "wasm64-unknown-unknown",
}

# The features of WebAssembly that a module uses, by their names in the tools of binaryen.
FEATURES = "memory64 bulk-memory sign-ext nontrapping-float-to-int mutable-globals multivalue".split()


class Compiler:
    """The toolchain's clang for a triple, with the arguments that the toolchain itself passes."""

    def __init__(self, triple, words):
        self.clang = keeper.CLANG
        self.triple = triple
        self.words = [f"--target={triple}", *kept_words(words)]
        if triple.startswith("wasm64"):
            self.words.append("-mcpu=lime1")
        elif triple.startswith("x86_64"):
            self.words.append("-march=x86-64")
        else:
            # The toolchain passes these for Linux on aarch64.
            self.words += ["-mllvm", "-aarch64-load-store-renaming=false"]
        if "linux" in triple:
            self.words.append("-fPIC")

    def run(self, *words, **options):
        return subprocess.run([self.clang, *words], check=True, **options)

    def tool(self, name, *words):
        """Runs a program of LLVM. The toolchain's clang acts as this program if it is called by the program's name."""
        with tempfile.TemporaryDirectory() as at:
            os.symlink(self.clang, f"{at}/{name}")
            subprocess.run([f"{at}/{name}", *words], check=True)

    def header(self):
        """The lines that name the layout and the triple in a module for this triple."""
        words = [f"--target={self.triple}", "-x", "c", "-S", "-emit-llvm", "-", "-o", "-"]
        text = self.run(*words, input="int x;", stdout=subprocess.PIPE, text=True).stdout
        return dict(re.findall(r"^target (datalayout|triple) = (.*)$", text, re.MULTILINE))

    def retarget(self, module, out):
        """Compiles a module for Linux on x86-64 to an object of the triple."""
        words = ["-x", "ir", module, "-S", "-emit-llvm", "-O0", "-Xclang", "-disable-llvm-passes", "-o", "-"]
        text = self.run(*words, stdout=subprocess.PIPE, stderr=subprocess.DEVNULL, encoding="utf-8").stdout
        header = self.header()
        is_x86 = self.triple.startswith("x86_64")
        with open(f"{out}.ll", "w", encoding="utf-8") as written:
            for line in text.splitlines(keepends=True):
                if line.startswith("target "):
                    name = line.split()[1]
                    line = f"target {name} = {header[name]}\n"
                elif line.startswith("attributes #"):
                    line = self.attributes(line)
                elif SHUFFLE in line and not is_x86:
                    line = "" if line.startswith("declare") else line.replace(f"@{SHUFFLE}", "@shuffled_bytes")
                written.write(line)
            if SHUFFLE in text and not is_x86:
                written.write(shuffle_for(self.triple))
        self.run(*self.words, "-c", "-x", "ir", f"{out}.ll", "-o", out)
        os.remove(f"{out}.ll")

    def attributes(self, line):
        """A line with attributes of functions, changed for the triple. The result has the triple's own processor, and the
        triple's way to probe the stack."""
        dropped = ["target-features", "tune-cpu"]
        if not self.triple.startswith("x86_64"):
            dropped.append("target-cpu")
        # On Windows, LLVM itself inserts the probes. In WebAssembly none are needed, because the end of the stack is the end of
        # the memory.
        if "windows" in self.triple or self.triple.startswith("wasm64"):
            dropped += ["probe-stack", "stack-probe-size"]
        return re.sub(rf' *"(?:{"|".join(dropped)})"="[^"]*"', "", line)


def kept_words(words):
    """The arguments of a call of clang that don't depend on the target or on files."""
    dropped = ("--target=", "--sysroot=", "-march=", "-fPIC", "-Werror")
    text = re.sub(r"\n-c\n-x\nir\n.*\n-o\n.*", "", "\n".join(words))
    return [word for word in text.split("\n") if word and not word.startswith(dropped)]


def shuffle_for(triple):
    """The x86 instruction PSHUFB, in instructions of the target. A byte of %m below 128 chooses a byte of %a by its low four bits.
    Any other byte of %m gives 0."""
    table = "declare <16 x i8> @llvm.aarch64.neon.tbl1.v16i8(<16 x i8>, <16 x i8>)\n"
    lines = [
        "  %k = and <16 x i8> %m, splat (i8 -113)",
        "  %v15 = call <16 x i8> @llvm.aarch64.neon.tbl1.v16i8(<16 x i8> %a, <16 x i8> %k)",
    ]
    if not triple.startswith("arm64"):
        table, lines = "", []
        for at in range(16):
            before = f"%v{at - 1}" if at else "zeroinitializer"
            lines += [
                f"  %m{at} = extractelement <16 x i8> %m, i32 {at}",
                f"  %i{at} = and i8 %m{at}, 15",
                f"  %e{at} = extractelement <16 x i8> %a, i8 %i{at}",
                f"  %n{at} = icmp slt i8 %m{at}, 0",
                f"  %s{at} = select i1 %n{at}, i8 0, i8 %e{at}",
                f"  %v{at} = insertelement <16 x i8> {before}, i8 %s{at}, i32 {at}",
            ]
    head = "define internal <16 x i8> @shuffled_bytes(<16 x i8> %a, <16 x i8> %m) alwaysinline {"
    return "\n".join([head, *lines, "  ret <16 x i8> %v15", "}", table])


def library(compiler, code, heap, out):
    """Makes the two static libraries, and for macOS and Windows the shared library for Python."""
    for name, made in (("comfy_c", code), ("libc_c", heap)):
        archive = out / (f"{name}.lib" if compiler.triple.endswith("msvc") else f"lib{name}.a")
        archive.unlink(missing_ok=True)
        compiler.tool("llvm-ar", "rcsD", archive, made)
    if "macosx" in compiler.triple:
        shared = out / "libcomfy_table.dylib"
        words = ["-arch", compiler.triple.split("-")[0], "-platform_version", "macos", "11.0", "11.0", "-fixup_chains"]
        words += ["-dylib", "-dead_strip", "-undefined", "dynamic_lookup", "-install_name", f"@rpath/{shared.name}"]
        compiler.tool("ld64.lld", *words, "-o", shared, code, heap)
    elif compiler.triple.endswith("windows-gnu"):
        words = ["-shared", "-s", "-static-libgcc", "-Wl,--no-insert-timestamp", "-o", out / "comfy_table.dll"]
        subprocess.run(["x86_64-w64-mingw32-gcc", *words, code, heap], check=True)


def page_module(compiler, code, heap, out):
    """Makes csvtable.wasm. Its memory has 32-bit addresses, because some browsers have no larger ones."""
    objects = [code, heap]
    for name in ("memory", "wide"):
        objects.append(code.with_name(f"{name}.o"))
        words = [f"--target={compiler.triple}", "-mcpu=lime1", "-O2", "-ffreestanding", "-fno-builtin"]
        compiler.run(*words, "-c", TOP / f"packages/browser/{name}.c", "-o", objects[-1])
    words = ["-mwasm64", "--no-entry", "--gc-sections", "--strip-all", "--stack-first", "-z", "stack-size=1048576"]
    compiler.tool("wasm-ld", *words, "--export=comfy_csv_draw", *objects, "-o", code.with_name("linked.wasm"))
    linked = code.with_name("linked.wasm")
    linked.write_bytes(with_short_table(linked.read_bytes()))
    words = [*(f"--enable-{name}" for name in FEATURES), "--memory64-lowering", linked, "-o", out / "csvtable.wasm"]
    subprocess.run(["wasm-opt", *words], check=True)


def with_short_table(module):
    """A module of WebAssembly whose table, which no call uses, has indices of 32 bits, because wasm-opt 108 refuses those of 64.

    The bytes of the section say: section number 4, five bytes, one table of functions, 64-bit indices with a greatest size, and 1
    as the least and the greatest size.
    """
    section = bytes([4, 5, 1, 0x70, 5, 1, 1])
    assert module.count(section) == 1
    return module.replace(section, bytes([4, 5, 1, 0x70, 1, 1, 1]))


def make_by_module(triple, out):
    """Compiles the module of the library for a triple, and in the same way the functions for memory."""
    if not (OUT / "module.bc").exists():
        subprocess.run([TOP / "tools/make/c_library.py"], check=True)
    compiler = Compiler(triple, (OUT / "module.words").read_text().split("\n"))
    with tempfile.TemporaryDirectory() as at:
        module, code, heap = (Path(at) / name for name in ("heap.bc", "comfy_c.o", "heap.o"))
        words = [f"--target={HOST}", "-ffreestanding", "-O1", "-emit-llvm"]
        compiler.run(*words, "-c", TOP / "packages/c/heap.c", "-o", module)
        compiler.retarget(module, heap)
        compiler.retarget(OUT / "module.bc", code)
        (page_module if triple.startswith("wasm64") else library)(compiler, code, heap, out)


def make_by_toolchain(target, out):
    """The library of a target that the toolchain has, and the functions for memory, which the toolchain lacks for it."""
    subprocess.run([TOP / "tools/make/c_library.py", target], check=True)
    compiler = Compiler(target, [])
    with tempfile.TemporaryDirectory() as at:
        made = f"{at}/heap.o"
        compiler.run(f"--target={target}", "-ffreestanding", "-O2", "-fPIC", "-c", TOP / "packages/c/heap.c", "-o", made)
        (out / "liblibc_c.a").unlink(missing_ok=True)
        compiler.tool("llvm-ar", "rcsD", out / "liblibc_c.a", made)


def main():
    target = sys.argv[1] if len(sys.argv) == 2 else None
    if target not in (*OWN_TARGETS, *TRIPLES):
        sys.exit(f"{__doc__}\nTargets: {', '.join([*OWN_TARGETS, *TRIPLES])}")
    out = OUT / target
    out.mkdir(parents=True, exist_ok=True)
    if target in OWN_TARGETS:
        make_by_toolchain(target, out)
    else:
        make_by_module(TRIPLES[target], out)


if __name__ == "__main__":
    main()
