#!/usr/bin/env python3
"""Builds a program in a minute, without proving it. So two versions can be compared before either of them is proved.

    tools/measure/unproved.py CRATE OUT

CRATE is the folder of a program, for example crates/ctable. OUT is the file to write. `rt try` compiles a program with checks
between its instructions. This tool takes the LLVM module of `rt try` and removes these checks. It gives each function the hint on
inlining that its source has. Then it compiles the module with -O3.

Compare the number of instructions of such a program only with that of another such program. On ASCII it differs by at most 4 %
from the number for the program that `rt ci` builds. On other texts it is up to 28 % higher.
"""
import os
import re
import subprocess
import sys
import tempfile

sys.path.insert(0, os.path.join(os.path.dirname(__file__), "../make"))
from keeper import CLANG, KIT, copied_kit

def hints_in(folder, crate):
    """The hints on inlining in a crate's sources, by the names of their functions in the module."""
    hints = {}
    for root, _, files in os.walk(folder):
        for file in files:
            if file.endswith(".rt"):
                path = os.path.relpath(os.path.join(root, file), folder)[:-3].split("/")
                modules = [crate, *(name for name in path if name not in ("lib", "main", "mod"))]
                hints.update(hints_of(os.path.join(root, file), modules))
    return hints


def hints_of(file, modules):
    hints, hint, owner = {}, None, None
    for line in open(file, encoding="utf-8", errors="replace"):
        if found := re.match(r"\s*#\[inline\((always|never)\)\]", line):
            hint = found[1]
        elif found := re.match(r"impl(?:<[^{]*?>)?\s+(?:([\w:]+)(?:<[^{]*?>)?\s+for\s+)?(?:&\s*)?(\w+)", line):
            owner = found[2] + (found[1].split("::")[-1] if found[1] else "")
        elif line.startswith("}"):
            owner = None
        elif found := re.match(r"(\s*)(?:pub(?:\([^)]*\))? )?(?:const )?(?:unsafe )?fn (\w+)", line):
            if hint:
                hints["::".join([*modules, *([owner] if owner and found[1] else []), found[2]])] = hint
            hint = None
        elif line.strip() and not line.strip().startswith(("#", "//")):
            hint = None
    return hints


def is_check(line):
    """True if a line of the module belongs to the checks of `rt try`."""
    if "call void @llvm.trap()" in line or 'call void @"rattle-llvm-checks::' in line:
        return True
    filled = re.search(r"call void @llvm\.memset\.p0\.i64\(ptr %[^,]*, i8 (-86|0), i64 (\d+),", line)
    # The program itself fills larger blocks with zeros.
    return bool(filled) and (filled[1] == "-86" or int(filled[2]) <= 32)


def without_checks(text, hints):
    lines = []
    for line in text:
        if is_check(line):
            continue
        if line.startswith("attributes #"):
            line = line.replace(" sanitize_address", "").replace(' "frame-pointer"="all"', "")
            line = re.sub(r"= \{\s*\}", "= { nounwind }", line)
        elif line.startswith("define "):
            name = re.search(r'@"?([^"(]+)"?\(', line)[1]
            hint = hints.get(name) or hints.get(re.sub(r"(?:::)?<.*>", "", name))
            if hint:
                word = "alwaysinline" if hint == "always" else "noinline"
                line = re.sub(r"\) (?=#\d+ \{)", f") {word} ", line, count=1)
        lines.append(line)
    return "".join(lines)


def main():
    if len(sys.argv) != 3:
        sys.exit(__doc__)
    crate, out = os.path.abspath(sys.argv[1]), os.path.abspath(sys.argv[2])
    with tempfile.TemporaryDirectory() as at:
        kit = copied_kit(at)
        tried = [sys.executable, f"{kit}/bin/rt", "try", "--", "--help"]
        reported = subprocess.run(tried, cwd=crate, stdin=subprocess.DEVNULL, capture_output=True, text=True)
        if not os.path.exists(f"{at}/module.bc"):
            sys.exit(reported.stdout + reported.stderr)
        read = ["-x", "ir", "module.bc", "-S", "-emit-llvm", "-O0", "-Xclang", "-disable-llvm-passes", "-o", "module.ll"]
        subprocess.check_call([CLANG, *read], cwd=at)
        hints = {}
        for folder in (os.path.dirname(crate), f"{KIT}/rattle"):
            for name in os.listdir(folder):
                hints.update(hints_in(f"{folder}/{name}/src", name))
        with open(f"{at}/module.ll", encoding="utf-8") as text, open(f"{at}/plain.ll", "w", encoding="utf-8") as plain:
            plain.write(without_checks(text, hints))
        words = open(f"{at}/words").read().split("\n")
        flags = words[: words.index("module.bc")]
        flags = [it for it in flags if not it.startswith(("-O", "-fsanitize", "-Werror"))]
        subprocess.check_call([CLANG, *flags, "plain.ll", "-fPIE", "-O3", "-o", "plain.o"], cwd=at)
        link = ["--target", "x86_64-unknown-linux-gnu", "--toolchain", f"{KIT}/toolchain", "-o", out, f"{at}/plain.o"]
        subprocess.check_call([f"{KIT}/bin/rattle-link", *link, f"{KIT}/c/libos_c.a", f"{KIT}/c/liblibc_c.a"])


if __name__ == "__main__":
    main()
