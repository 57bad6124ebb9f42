#!/usr/bin/env python3
"""Writes docs/GALLERY.md: commands and programs, each with its drawing.

    tools/make/gallery.py

The drawings are stored outputs, cases of test_csv_cases, and the first comments of the packages' examples.
tools/try/package_test.sh compares these comments with the output of the examples. tools/check/check_proved.py names the page if it
differs from the output of this program.
"""
import re
import shlex

from project import TOP, text_of

CASES = "crates/test_csv_cases/stdin"
PAGE = "docs/GALLERY.md"

# The names of the styles, each with a remark.
STYLES = {
    "rounded": "the style if `-s` isn't given. It has lines between rows if a row has several lines",
    "box": "the same, with square corners",
    "grid": "lines between all rows",
    "ascii": "the same, with ASCII characters",
    "plain": "no lines",
    "markdown": "as `--markdown`",
    "ASCII_FULL": "a preset of comfy-table, as those below",
    "ASCII_FULL_CONDENSED": "",
    "ASCII_NO_BORDERS": "",
    "ASCII_BORDERS_ONLY": "",
    "ASCII_BORDERS_ONLY_CONDENSED": "",
    "ASCII_HORIZONTAL_ONLY": "",
    "UTF8_FULL": "",
    "UTF8_FULL_CONDENSED": "",
    "UTF8_NO_BORDERS": "",
    "UTF8_BORDERS_ONLY": "",
    "UTF8_HORIZONTAL_ONLY": "",
    "NOTHING": "",
}

# Further cases, each with a heading.
CASES_SHOWN = {
    "expanded": "Each record as names and fields",
    "a-wide-file": "A file that is too wide",
    "names-in-eight-scripts": "Names in eight scripts",
    "gallery-decimals": "Decimal points below each other",
    "gallery-one-line": "One line for each record",
    "gallery-markdown-fields": "Markdown",
}

# The examples of the packages: the language, the mark before each line of the first comment, the file, and a remark.
EXAMPLES = {
    "Rust": ("rust", r"//! ?", "packages/rust/examples/boats.rs", "The word `yes` is red in a terminal."),
    "Python": ("python", "", "packages/python/examples/report.py", "Names are bold in a terminal, and results green or red."),
    "C": ("c", r" \* ?", "packages/c/examples/rows.c", ""),
}


def unwritten(text):
    """A text of a case, in which some characters are written with a backslash."""
    marks = {"n": "\n", "t": "\t", "r": "\r", "e": "\x1b", "\\": "\\"}
    hexadecimal = re.sub(r"\\u\{([0-9a-f]+)\}", lambda it: chr(int(it[1], 16)), text)
    return re.sub(r"\\([ntre\\])", lambda it: marks[it[1]], hexadecimal)


def case_of(name):
    """The arguments, the input and the drawing of a case."""
    lines = re.search(rf"^case\t{name}\n(.*?)^end$", text_of(CASES), re.M | re.S)[1].splitlines()
    arguments = [it.split("\t")[1:] for it in lines if it.startswith("arguments\t")]
    given = [unwritten(it[len("input\t"):]) for it in lines if it.startswith("input\t")]
    return arguments[0] if arguments else [], given, [unwritten(it[1:]).rstrip() for it in lines if it.startswith("=")]


def block(lines, language="text"):
    return "\n".join([f"```{language}", *lines, "```", ""])


def typed(arguments, file):
    return " ".join(["csvtable", *map(shlex.quote, arguments), file])


def styles():
    _, given, _ = case_of("gallery-rounded")
    yield f"`prices.csv` has these lines:\n\n{block(given)}"
    for name, meaning in STYLES.items():
        arguments, _, drawn = case_of(f"gallery-{name}")
        yield f"`{typed(arguments, 'prices.csv')}`{': ' + meaning + '.' if meaning else ''}\n\n{block(drawn)}"


def cases():
    for name, heading in CASES_SHOWN.items():
        arguments, given, drawn = case_of(name)
        yield f"### {heading}\n\n`{typed(arguments, 'FILE')}` with this file:\n\n{block(given)}\n{block(drawn)}"


def examples():
    for name, (language, mark, path, note) in EXAMPLES.items():
        comment, code = re.match(r'(/\*\n.*? \*/\n|"""[^\n]*\n.*?"""\n|(?://![^\n]*\n)+)\n?(.*)', text_of(path), re.S).groups()
        drawn = [re.sub(f"^{mark}", "", it) for it in comment.splitlines() if re.match(rf"{mark}[╭│╞├╰+|]", it)]
        yield f"### {name}\n\n[`{path}`](../{path}):\n\n{block(code.rstrip().splitlines(), language)}\n{block(drawn)}{note and chr(10) + note + chr(10)}"


def page():
    """The text of the page."""
    ledger = block(text_of("crates/csvtable/stdout").splitlines())
    return f"""# Gallery

Each drawing on this page is stored, and a test compares it with what is drawn. `tools/make/gallery.py` makes the page.

## A ledger

`csvtable -w 60 ledger.csv` draws [this file](../crates/csvtable/data/ledger.csv):

{ledger}
## Styles

{chr(10).join(styles())}
## More drawings

{chr(10).join(cases())}
## The same in programs

{chr(10).join(examples())}
In Rattle, [`example_report`](../crates/example_report/src/main.rt) draws test results with colours by value:

![A table of test results, with colours by value](images/report.svg)
"""


def is_wrong():
    """True if the page differs from the stored outputs."""
    return text_of(PAGE) != page()


if __name__ == "__main__":
    with open(f"{TOP}/{PAGE}", "w", encoding="utf-8") as file:
        file.write(page())
