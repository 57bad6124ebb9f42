"""A copy of the Rattle toolchain that keeps the LLVM module which it compiles, and the arguments with which it calls clang."""
import os
import shutil
import subprocess

KIT = os.path.dirname(subprocess.check_output(["rt", "doc"], text=True).strip())
CLANG = f"{KIT}/toolchain/bin/clang"

# The program that takes the place of clang. It keeps the module and the arguments that it is called with, and then calls clang.
KEEPER = """#!/usr/bin/env python3
import os, shutil, sys
if "module.bc" in sys.argv:
    shutil.copyfile("module.bc", {at!r} + "/module.bc")
    open({at!r} + "/words", "w").write("\\n".join(sys.argv[1:]))
os.execv({clang!r}, [{clang!r}, *sys.argv[1:]])
"""


def copied_kit(at):
    """Makes a folder with all files of the toolchain, but with the keeper in place of clang."""
    kit = f"{at}/kit"
    os.makedirs(f"{kit}/toolchain/bin")
    for name in os.listdir(KIT):
        if name not in ("bin", "toolchain"):
            os.symlink(f"{KIT}/{name}", f"{kit}/{name}")
    # `rt` finds the toolchain by the path of its own file. So this has to be a copy, and no link.
    shutil.copytree(f"{KIT}/bin", f"{kit}/bin")
    os.symlink(f"{KIT}/toolchain/lib", f"{kit}/toolchain/lib")
    for name in os.listdir(f"{KIT}/toolchain/bin"):
        if name != "clang":
            os.symlink(f"{KIT}/toolchain/bin/{name}", f"{kit}/toolchain/bin/{name}")
    with open(f"{kit}/toolchain/bin/clang", "w") as keeper:
        keeper.write(KEEPER.format(at=at, clang=CLANG))
    os.chmod(f"{kit}/toolchain/bin/clang", 0o755)
    return kit
