"""Draws a CSV file or standard input, as the program csvtable does.

python -m comfy_table_proved [OPTIONS] [FILE]
"""

from __future__ import annotations

import os
import re
import shutil
import sys

from ._library import draw_csv


def main(arguments: list[str]) -> int:
    try:
        file = _file_of(arguments)
        data = b"" if _asks_for_text(arguments) else sys.stdin.buffer.read() if file == "-" else _read(file)
        drawing = draw_csv(data, [*_of_terminal(arguments), *arguments])
    except (OSError, ValueError) as error:
        sys.stderr.write(f"{error}\n")
        return 1
    except MemoryError:
        sys.stderr.write("out of memory\n")
        return 1
    sys.stdout.buffer.write(drawing.encode())
    return 0


def _read(file: str) -> bytes:
    with open(file, "rb") as source:
        return source.read()


def _is_option(argument: str) -> bool:
    return argument.startswith("-") and argument != "-"


def _file_of(arguments: list[str]) -> str:
    """The first argument that is neither an option nor an option's value.

    If there is no such argument, the result is "-". csvtable refuses a second such argument.
    """
    valued = _with_values()
    words = iter(arguments)
    for word in words:
        if word == "--":
            return next(words, "-")
        if not _is_option(word):
            return word
        if _takes_the_next(word, valued):
            next(words, None)
    return "-"


def _takes_the_next(option: str, valued: set[str]) -> bool:
    """True if the next argument is the option's value.

    This is so after `--width` and `-w`, but not after `--width=60` and `-w60`.
    """
    if option.startswith("--"):
        return option in valued
    letters = [f"-{letter}" for letter in option[1:]]
    first = next((place for place, letter in enumerate(letters) if letter in valued), None)
    return first == len(letters) - 1


def _with_values() -> set[str]:
    """The names of csvtable's options that take values.

    The names are read from csvtable's help, which has these options in the form `-w, --width <N>`.
    """
    try:
        text = draw_csv(b"", ["-h"])
    except ValueError as error:
        text = str(error)
    return {name for names in re.findall(r"^ +(?:(-\w), )?(--[\w-]+) <", text, re.M) for name in names if name}


def _asks_for_text(arguments: list[str]) -> bool:
    return any(it in ("-h", "--help", "-V", "--version") for it in arguments)


def _of_terminal(arguments: list[str]) -> list[str]:
    """Options that make csvtable draw as it does in a terminal.

    One option is --width with the terminal's width, unless the arguments set a width or request Markdown. The other option is
    --color=always, unless the arguments have --color, or NO_COLOR is set and not empty. The list is empty if standard output isn't
    a terminal.
    """
    if not sys.stdout.isatty():
        return []
    names = {it.split("=")[0] for it in arguments}
    added = []
    if not any(it[:2] == "-w" or it == "--width" or it == "--markdown" for it in names):
        added += [f"--width={shutil.get_terminal_size().columns}"]
    if "--color" not in names and not os.environ.get("NO_COLOR"):
        added += ["--color=always"]
    return added


if __name__ == "__main__":
    sys.exit(main(sys.argv[1:]))
