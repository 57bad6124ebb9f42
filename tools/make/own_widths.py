#!/usr/bin/env python3
"""Writes crates/comfy_parts/src/content_split/own_width/table.rt: the width in terminal columns of each character that doesn't
join others.

usage: tools/make/own_widths.py UNICODE_WIDTH

UNICODE_WIDTH is the folder with the sources of the crate unicode_width. The widths come from that crate's table of kinds of
characters. The characters that join others are the `joining_characters` of specs/Columns.antt. `rt check` refuses a table with a
wrong value. Run this program after a change of Unicode's version or of these characters.
"""
import re
import sys
from pathlib import Path

from project import TOP

BITS, WORDS_OF_BLOCK = 2, 4
SLOTS = 64 // BITS
SPAN = WORDS_OF_BLOCK * SLOTS
# the number of runs at the end of Unicode that aren't in the blocks
RUNS = 8
JOINS = 3
# the columns of each kind, by its number: zero, narrow, wide, ambiguous and emoji
COLUMNS = {0: 0, 1: 1, 2: 2, 3: 1, 10: 2}


def numbers(source, name):
    """The numbers of the table with this name in a source."""
    found = re.search(rf"{name}: \[\w+; \d+\] = \[(.*?)\];", source, re.S)
    return [int(number, 16) for number in re.findall(r"0x(\w+)", found[1])]


def kinds(source):
    """The number of each character's kind. The table has blocks of 64 characters, 16 of them in a word, and runs after these."""
    index, words, tail = (numbers(source, f"KIND_{part}") for part in ("INDEX", "WORDS", "TAIL"))
    for block in index:
        for word in words[block * 4 : block * 4 + 4]:
            yield from (word >> 4 * place & 15 for place in range(16))
    start = len(index) * 64
    for run in tail:
        yield from [run % 2048] * (run // 2048 - start)
        start = run // 2048


def own_widths(kinds_of, joining):
    """The value of each character in the table: its columns, or JOINS."""
    joins = {code for first, last in joining for code in range(int(first, 16), int(last, 16) + 1)}
    for code, kind in enumerate(kinds_of):
        if 0x20 <= code <= 0x7E:
            yield 1
        elif code < 0xA0 or code in joins:
            yield JOINS
        else:
            yield COLUMNS[kind]


def packed(values):
    """The index, the words of its blocks, and the runs after these."""
    ends = [end for end in range(1, len(values)) if values[end] != values[end - 1]] + [len(values)]
    blocks, index = {}, []
    for start in range(0, ends[-RUNS - 1], SPAN):
        block = tuple(values[start : start + SPAN])
        index.append(blocks.setdefault(block, len(blocks)))
    words = [
        sum(value << BITS * place for place, value in enumerate(block[start : start + SLOTS]))
        for block in blocks
        for start in range(0, SPAN, SLOTS)
    ]
    tail = [end * 2048 + values[end - 1] for end in ends if end > len(index) * SPAN]
    return index, words, tail


def table(name, element, digits, in_line, values):
    """The source of a table."""
    lines = [f"#[rattlefmt::skip]\npub(super) static {name}: [{element}; {len(values)}] = ["]
    for start in range(0, len(values), in_line):
        lines.append("    " + " ".join(f"0x{value:0{digits}X}," for value in values[start : start + in_line]))
    return "\n".join(lines + ["];\n"])


def main():
    if len(sys.argv) != 2:
        sys.exit(__doc__)
    source = (Path(sys.argv[1]) / "src/tables/kind.rt").read_text()
    folder = Path(TOP) / "crates/comfy_parts/src/content_split"
    joining = re.findall(r"\(0x(\w+), 0x(\w+)\)", (folder / "../../specs/Columns.antt").read_text())
    index, words, tail = packed(list(own_widths(kinds(source), joining)))
    parts = [
        "//! The width in terminal columns of each character that joins no other. The entry 3 marks a\n"
        "//! character that joins others. `tools/make/own_widths.py` writes this file.\n",
        table("INDEX", "u8", 2, 16, index),
        table("WORDS", "u64", 16, 4, words),
        table("TAIL", "u32", 8, 8, tail),
    ]
    (folder / "own_width").mkdir(exist_ok=True)
    (folder / "own_width/table.rt").write_text("\n".join(parts))


main()
