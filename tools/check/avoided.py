#!/usr/bin/env python3
"""Counts words that comments and pages avoid, because there usually is a plainer or clearer word.

    tools/check/avoided.py           prints how many of 1,000 words they are, in each kind of file
    tools/check/avoided.py --list    prints each line that has one

Names in backquotes don't count, and neither do the code blocks of pages. tools/check/check_proved.py fails if a kind of file has
more than LIMITS.
"""
import ast
import glob
import io
import re
import sys
import tokenize

from definitions import TOP, text_of

AVOIDED = re.compile(r"\b(?:stands?|standing|behind|told|said|asked|so many|where)\b", re.I)
WORD = re.compile(r"[A-Za-z][A-Za-z']*")
# The kinds of files, each with the patterns of its files' paths.
KINDS = {
    "src": ["crates/*/src/**/*.rt"],
    "specs": ["crates/*/specs/**/*.antt"],
    "packages": ["packages/**/*", "crates/comfy_c/tests/*"],
    "tools": ["tools/**/*"],
    "pages": ["*.md", "docs/*.md", "crates/*/*.md", "packages/*/*.md"],
}
LIMITS = {"src": 0.3, "specs": 0.3, "packages": 0.1, "tools": 0.1, "pages": 0.8}
# Patterns for the comments of a language, by the ending of a file's name. Python's own parser finds the comments of Python.
SLASHES = r"(?:^|(?<=\s))//[/!]?(.*)$"
STARS = r"/\*(?s:(.*?))\*/"
HASHES = r"(?:^|(?<=\s))#(.*)$"
COMMENTS = {
    "rt": [SLASHES], "rs": [SLASHES], "antt": [r"(?:^|(?<=\s))--(.*)$"],
    "c": [SLASHES, STARS], "h": [SLASHES, STARS], "js": [SLASHES, STARS], "css": [STARS], "html": [r"<!--(?s:(.*?))-->"],
    "sh": [HASHES], "toml": [HASHES], "pc": [HASHES],
}


def documented(tree):
    """The docstrings of a Python program, each with the number of its line."""
    for node in ast.walk(tree):
        if isinstance(node, (ast.Module, ast.ClassDef, ast.FunctionDef)) and ast.get_docstring(node, clean=False):
            yield node.body[0].lineno, ast.get_docstring(node, clean=False)


def comments_in(path, text):
    """The comments of a file, each with the number of its line. The comments of a page are its lines outside of code blocks."""
    ending = path.split(".")[-1]
    if ending == "md":
        # only the line feeds of a code block stay, so that later lines keep their numbers
        yield 1, re.sub(r"^ *```.*?^ *```", lambda block: "\n" * block[0].count("\n"), text, flags=re.M | re.S)
    if ending == "py":
        tokens = tokenize.generate_tokens(io.StringIO(text).readline)
        yield from ((it.start[0], it.string) for it in tokens if it.type == tokenize.COMMENT)
        yield from documented(ast.parse(text))
    for pattern in COMMENTS.get(ending, []):
        for comment in re.finditer(pattern, text, re.M):
            yield text.count("\n", 0, comment.start()) + 1, comment[1]


def lines_of(kind):
    """The lines of comments or pages in a kind of files, without names in backquotes. Each has its path and its number."""
    for path in sorted({it for pattern in KINDS[kind] for it in glob.glob(pattern, root_dir=TOP, recursive=True)}):
        if path.endswith(".md") and kind != "pages" or path.split(".")[-1] not in ("md", "py", *COMMENTS):
            continue
        for first, comment in comments_in(path, text_of(path)):
            for number, line in enumerate(re.sub(r"`[^`\n]*`", "", comment).split("\n"), first):
                yield path, number, line


def densities():
    """For each kind of files, how many of 1,000 words are avoided words."""
    found = {}
    for kind in KINDS:
        lines = [line for _, _, line in lines_of(kind)]
        avoided = sum(len(AVOIDED.findall(it)) for it in lines)
        found[kind] = 1000 * avoided / sum(len(WORD.findall(it)) for it in lines)
    return found


def too_many():
    """A line for each kind of files that has more avoided words than its limit."""
    return [
        f"{kind} have {density:.2f} of the words that tools/check/avoided.py lists in 1,000 words, more than {LIMITS[kind]}"
        for kind, density in densities().items()
        if density > LIMITS[kind]
    ]


def summary():
    return "avoided words in 1,000: " + ", ".join(f"{kind} {density:.2f}" for kind, density in densities().items())


if __name__ == "__main__":
    if sys.argv[1:] == ["--list"]:
        for kind in KINDS:
            for path, number, line in lines_of(kind):
                if AVOIDED.search(line):
                    print(f"{path}:{number}: {line.strip()}")
    print(summary())
