#!/usr/bin/env python3
"""Unpacks packages, and finds dead links in their pages: links to files or headings that the package doesn't have. It also finds
names of pages that the package doesn't have, unless the text says that they are in the sources.

    tools/try/package_links.py FOLDER

FOLDER has the packages that tools/package.sh makes. tools/try/package_test.sh calls this.
"""
import glob
import gzip
import io
import os
import re
import subprocess
import sys
import tarfile
import tempfile
import zipfile

sys.path.append(os.path.join(os.path.dirname(os.path.realpath(__file__)), "../make"))
from pages import dead_links

PACKAGES = (".tar.gz", ".crate", ".deb", ".whl")
PAGES = (".md", "/METADATA")
TEXTS = (*PAGES, ".1", ".1.gz", ".h", ".c", ".py", ".rs", ".toml")


def unpack(package, folder):
    if package.endswith(".whl"):
        zipfile.ZipFile(package).extractall(folder)
    elif package.endswith(".deb"):
        data = subprocess.run(["ar", "p", package, "data.tar.xz"], stdout=subprocess.PIPE, check=True).stdout
        tarfile.open(fileobj=io.BytesIO(data)).extractall(folder, filter="data")
    else:
        tarfile.open(package).extractall(folder, filter="data")


def words_of(path):
    """The words of a text, without the marks of comments and code, and without the man page's marks for fonts."""
    with (gzip.open if path.endswith(".gz") else open)(path, "rb") as file:
        text = file.read().decode()
    return " ".join(re.sub(r"\\f[BR]|`|^[ \t]*(?:\*|//[/!]?|#) ?", "", text, flags=re.M).split())


def missing_pages(path, files):
    """The pages that a text names, if the package doesn't have them, and if the text nowhere says that they are in the sources."""
    words, there = words_of(path), {os.path.basename(it) for it in files}
    named = dict.fromkeys(re.findall(r"\b[A-Z_]+\.md\b", words))
    return [it for it in named if it not in there and f"{it} of the sources" not in words]


def faults(package):
    with tempfile.TemporaryDirectory() as folder:
        unpack(package, folder)
        files = [it for it in glob.glob("**", root_dir=folder, recursive=True) if os.path.isfile(f"{folder}/{it}")]
        pages = [it for it in files if f"/{it}".endswith(PAGES)]
        for page in pages:
            yield from (f"{page} links to {link}, which {fault}" for link, fault in dead_links(page, folder))
        for path in (it for it in files if f"/{it}".endswith(TEXTS)):
            yield from (f"{path} names {page}, which isn't there" for page in missing_pages(f"{folder}/{path}", files))
        if not pages:
            yield "no page"


def main():
    if len(sys.argv) != 2:
        sys.exit(__doc__)
    packages = sorted(it for it in glob.glob(f"{sys.argv[1]}/*") if it.endswith(PACKAGES))
    found = [f"{os.path.basename(package)}: {fault}" for package in packages for fault in faults(package)]
    print("\n".join(found) or f"no link of {len(packages)} packages is dead")
    return 1 if found or not packages else 0


if __name__ == "__main__":
    sys.exit(main())
