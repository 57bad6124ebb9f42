#!/usr/bin/env python3
"""Writes pages of this repository into the folder of a package, so that no link of them is dead.

    tools/make/pages.py FOLDER SOURCE=PLACE..

SOURCE is a path of this repository, and PLACE its path in FOLDER. Pages are written there, and their paths are printed. The caller
puts other files and folders there. A link to one of these paths leads to its place. In place of any other link, the page says that
the file is in the sources.
"""
import os
import posixpath
import re
import sys

from project import text_of

LINK = r"\[([^\[\]\n]*)\]\(([^)\s]+)\)"


def anchor_of(heading):
    """The name of a heading in a link."""
    return re.sub(r"[^\w\- ]", "", heading.lower()).replace(" ", "-")


def dead_links(page, folder):
    """The links of a page to files or headings that a folder doesn't have, and what is wrong with each."""
    with open(f"{folder}/{page}", encoding="utf-8") as file:
        text = file.read()
    for link in re.findall(r"\]\(([^)\s]+)\)", text):
        path, _, anchor = link.partition("#")
        target = posixpath.normpath(posixpath.join(posixpath.dirname(page), path)) if path else page
        if link.startswith("https://"):
            continue
        if target.startswith("../") or not os.path.exists(f"{folder}/{target}"):
            yield link, "doesn't exist"
        elif anchor:
            with open(f"{folder}/{target}", encoding="utf-8") as file:
                if anchor not in map(anchor_of, re.findall(r"^#+ (.*)$", file.read(), re.M)):
                    yield link, "isn't a heading"


def in_words(text, path, whose="", before=""):
    """The words of a page in place of a link: the link's text, the path, and the words `whose` on the owner of the file. The path
    is in parentheses, unless the text `before` has an open parenthesis on its last line."""
    name, line = f"`{path}`{whose}", before.rpartition("\n")[2]
    if path.removesuffix(".md").endswith(text.strip("`").removesuffix(".md")):
        return name
    return f"{text}: {name}" if line.count("(") > line.count(")") else f"{text} ({name})"


def with_links(page, link_to):
    """A page of the sources with other links. `link_to(path, anchor, text)` returns a link, or None for a missing file."""
    whole = text_of(page)

    def replaced(found):
        text, (path, _, anchor) = found[1], found[2].partition("#")
        if found[2].startswith("https://"):
            return found[0]
        path = posixpath.normpath(posixpath.join(posixpath.dirname(page), path)) if path else page
        return link_to(path, anchor, text) or in_words(text, path, " of the sources", whole[: found.start()])

    return re.sub(LINK, replaced, whole)


def page_in(page, places):
    """A page as a package has it. `places` has the paths of sources in the package."""

    def link_to(path, anchor, text):
        for source, place in places.items():
            if path == source or path.startswith(f"{source}/"):
                target = posixpath.relpath(place + path[len(source) :], posixpath.dirname(places[page]) or ".")
                return f"[{text}]({'' if path == page else target}{'#' + anchor if anchor else ''})"

    return with_links(page, link_to)


def main():
    if len(sys.argv) < 3:
        sys.exit(__doc__)
    folder, places = sys.argv[1], dict(it.split("=") for it in sys.argv[2:])
    for page, place in places.items():
        if page.endswith(".md"):
            path = os.path.join(folder, place)
            os.makedirs(os.path.dirname(path), exist_ok=True)
            with open(path, "w", encoding="utf-8") as file:
                file.write(page_in(page, places))
            os.chmod(path, 0o644)
            print(path)


if __name__ == "__main__":
    main()
