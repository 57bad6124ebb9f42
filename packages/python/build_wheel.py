"""Writes the package's wheel. This is a build backend of PEP 517, in the same folder.

It needs no other package and no network.

setuptools would mark a wheel with a shared library as one for a single version of Python. Python calls this library by ctypes, so
that one wheel serves each version.
"""

import base64
import hashlib
import re
import sys
import tomllib
import zipfile
from pathlib import Path

_HERE = Path(__file__).parent
_LIBRARIES = (".so", ".dylib", ".dll")


def build_wheel(wheel_directory, config_settings=None, metadata_directory=None):
    """Writes the wheel to a folder, and returns its name.

    Before this, tools/package.sh puts the library, the pages and the licence into the package's folder.
    """
    project = tomllib.loads((_HERE / "pyproject.toml").read_text())["project"]
    name = f"{project['name']}-{project['version']}"
    files = _package(project["name"])
    tag = _tag(next(data for path, data in files.items() if path.endswith(_LIBRARIES)))
    files[f"{name}.dist-info/LICENSE"] = (_HERE / "LICENSE").read_bytes()
    files[f"{name}.dist-info/METADATA"] = _metadata(project).encode()
    files[f"{name}.dist-info/WHEEL"] = _lines([("Wheel-Version", "1.0"), ("Generator", "build_wheel"), ("Root-Is-Purelib", "false"), *_tags(tag)]).encode()
    record = f"{name}.dist-info/RECORD"
    files[record] = ("".join(f"{path},{_digest(data)},{len(data)}\n" for path, data in files.items()) + f"{record},,\n").encode()
    with zipfile.ZipFile(Path(wheel_directory) / f"{name}-{tag}.whl", "w", zipfile.ZIP_DEFLATED) as wheel:
        for path, data in files.items():
            # The time is the same in each wheel, so that equal files give equal wheels.
            wheel.writestr(zipfile.ZipInfo(path, (1980, 1, 1, 0, 0, 0)), data, zipfile.ZIP_DEFLATED)
    return f"{name}-{tag}.whl"


def build_sdist(sdist_directory, config_settings=None):
    """Refuses to write a source package.

    Only the Rattle toolchain can build the library, and no package index has this toolchain.
    """
    raise RuntimeError("comfy_table_proved has wheels alone: building its library takes the Rattle toolchain")


def _tag(library):
    """The tag of the systems on which the shared library with these bytes runs."""
    number = lambda at, size: int.from_bytes(library[at : at + size], "little")
    if library.startswith(b"MZ"):
        return "py3-none-win_amd64"
    if library.startswith(b"\xcf\xfa\xed\xfe"):
        return "py3-none-macosx_11_0_" + {0x0100000C: "arm64", 0x01000007: "x86_64"}[number(4, 4)]
    processor = {183: "aarch64", 62: "x86_64"}[number(18, 2)]
    versions = [(int(major), int(minor)) for major, minor in re.findall(rb"GLIBC_(\d+)\.(\d+)", library)]
    # 2.17 is the oldest version of glibc that installers know in this form of a tag. A library that needs no version of glibc also
    # runs with musl, which was tried on x86_64.
    major, minor = max(versions + [(2, 17)])
    is_for_musl = not versions and processor == "x86_64"
    return f"py3-none-manylinux_{major}_{minor}_{processor}" + (f".musllinux_1_2_{processor}" if is_for_musl else "")


def _tags(tag):
    """A header `Tag` for each of the systems in a tag."""
    python, abi, systems = tag.split("-")
    return [("Tag", f"{python}-{abi}-{system}") for system in systems.split(".")]


def _package(name):
    """The files of the package by their paths in the wheel."""
    source = _HERE / "src"
    paths = [path for path in sorted((source / name).rglob("*")) if path.is_file() and path.name.endswith((".py", ".typed", ".md", *_LIBRARIES))]
    if not any(path.name.endswith(_LIBRARIES) for path in paths):
        sys.exit("the shared library isn't there; tools/package.sh puts it into the package's folder")
    return {path.relative_to(source).as_posix(): path.read_bytes() for path in paths}


def _metadata(project):
    headers = [
        ("Metadata-Version", "2.1"),
        ("Name", project["name"]),
        ("Version", project["version"]),
        ("Summary", project["description"]),
        ("License", project["license"]),
        ("Keywords", ",".join(project["keywords"])),
        *[("Classifier", classifier) for classifier in project["classifiers"]],
        ("Requires-Python", project["requires-python"]),
        ("Description-Content-Type", "text/markdown"),
    ]
    return f"{_lines(headers)}\n{(_HERE / project['readme']).read_text()}"


def _lines(headers):
    return "".join(f"{name}: {value}\n" for name, value in headers)


def _digest(data):
    return "sha256=" + base64.urlsafe_b64encode(hashlib.sha256(data).digest()).rstrip(b"=").decode()


if __name__ == "__main__":
    print(build_wheel(sys.argv[1]))
