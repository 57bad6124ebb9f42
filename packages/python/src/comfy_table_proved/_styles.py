"""Frames: their names, their numbers in comfy_table.h, their characters."""

from __future__ import annotations

import re
from typing import NamedTuple, Optional, Sequence, Union

Style = Union[str, Sequence[str], None]

# The conditions for lines between rows, in comfy_table.h: always, only if a drawn row has several lines, never.
EVERYWHERE, WHERE_NEEDED, NOWHERE = range(3)

# The presets in the order of their numbers, and after them the rounded frame. Each has six lines: above the table, in the header,
# below the header, in a row, between rows, and below the table. Each line has four characters: at the left end, along each column
# (the fill), between columns, and at the right end. A space means no character.
_PRESETS = {
    "ASCII_FULL": ("+-++", "| ||", "+==+", "| ||", "|-+|", "+-++"),
    "ASCII_FULL_CONDENSED": ("+-++", "| ||", "+==+", "| ||", "    ", "+-++"),
    "ASCII_NO_BORDERS": ("    ", "  | ", " == ", "  | ", " -+ ", "    "),
    "ASCII_BORDERS_ONLY": ("+--+", "|  |", "+==+", "|  |", "|  |", "+--+"),
    "ASCII_BORDERS_ONLY_CONDENSED": ("+--+", "|  |", "+==+", "|  |", "    ", "+--+"),
    "ASCII_HORIZONTAL_ONLY": (" -- ", "    ", " == ", "    ", " -- ", " -- "),
    "ASCII_MARKDOWN": ("    ", "| ||", "|-||", "| ||", "    ", "    "),
    "UTF8_FULL": ("┌─┬┐", "│ ┆│", "╞═╪╡", "│ ┆│", "├╌┼┤", "└─┴┘"),
    "UTF8_FULL_CONDENSED": ("┌─┬┐", "│ ┆│", "╞═╪╡", "│ ┆│", "    ", "└─┴┘"),
    "UTF8_NO_BORDERS": ("    ", "  ┆ ", " ═╪ ", "  ┆ ", " ╌┼ ", "    "),
    "UTF8_BORDERS_ONLY": ("┌──┐", "│  │", "╞══╡", "│  │", "    ", "└──┘"),
    "UTF8_HORIZONTAL_ONLY": (" ── ", "    ", " ══ ", "    ", " ── ", " ── "),
    "NOTHING": ("    ",) * 6,
    "": ("╭─┬╮", "│ ┆│", "╞═╪╡", "│ ┆│", "├╌┼┤", "╰─┴╯"),
}
_NUMBERS = {name: number for number, name in enumerate(_PRESETS)}


# A frame with gaps has two spaces between columns. While the library draws, this character is in place of the two spaces. If a text
# has this character, another character is used.
GAP = "\ue000"


class Frame(NamedTuple):
    """The characters of a frame, and the rules for drawing it.

    `lines` has the characters of the frame's six lines. `number` is the frame's number in comfy_table.h, or None if it has no
    number there. `row_lines` is the condition for lines between rows.
    """

    lines: tuple[str, ...]
    number: Optional[int] = None
    row_lines: int = EVERYWHERE
    # The lines for a table without a header, or None if these lines are the same as `lines`.
    headless: Optional[tuple[str, ...]] = None
    is_markdown: bool = False
    # In Markdown, the line below the header has a colon for left-aligned columns too.
    has_colons: bool = False
    # Two spaces separate the columns, which have no padding.
    has_gaps: bool = False
    # Lines have no spaces at their ends.
    is_trimmed: bool = False
    # Columns are centred if no setting aligns them.
    is_centered: bool = False
    # An empty text in the first column is written as two points. Without them, reStructuredText takes the row as a part of the row
    # above.
    marks_empty: bool = False

    def numbers(self) -> tuple[tuple[int, ...], ...]:
        """The characters as numbers of comfy_table.h.

        0 means no character. A line of texts has three numbers, because it has no fill. Any other line has four.
        """
        lines = [tuple(0 if it == " " else ord(it) for it in line or "    ") for line in self.lines]
        return tuple(line if at not in (1, 3) else (line[0], *line[2:]) for at, line in enumerate(lines))

    def for_table(self, has_header: bool, texts: Sequence[Sequence[str]]) -> Frame:
        """The frame for a table of these texts.

        The frame of a table without a header has the lines `headless`, if they aren't None. The frame's character for gaps is a
        character that no text has.
        """
        lines = self.lines if has_header or self.headless is None else self.headless
        if not self.has_gaps:
            return self._replace(lines=lines)
        used = {character for row in texts for text in row for character in text}
        gap = next(it for it in map(chr, range(ord(GAP), 0xF900)) if it not in used)
        return self._replace(lines=tuple(line.replace(GAP, gap) for line in lines))

    def finished(self, drawing: str) -> str:
        """The drawing with two spaces in each gap.

        If the frame is trimmed, spaces at the ends of lines are removed.
        """
        if self.has_gaps:
            drawing = drawing.replace(self.lines[1][2], "  ")
        return re.sub(" +$", "", drawing, flags=re.MULTILINE) if self.is_trimmed else drawing


def _preset(name: str, row_lines: int = EVERYWHERE) -> Frame:
    return Frame(_PRESETS[name], _NUMBERS[name], row_lines)


MARKDOWN = Frame(_PRESETS["ASCII_MARKDOWN"], _NUMBERS["ASCII_MARKDOWN"], is_markdown=True)
_STYLES = {
    "rounded": _preset("", WHERE_NEEDED),
    "box": _preset("UTF8_FULL", WHERE_NEEDED),
    "grid": _preset(""),
    "ascii": _preset("ASCII_FULL"),
    "plain": _preset("NOTHING"),
    "markdown": MARKDOWN,
}
_STYLES.update({name.lower(): _preset(name) for name in _PRESETS if name})


def _grid(above: str, texts: str, below_header: str, between: str, below: str) -> Frame:
    return Frame((above, texts, below_header, texts, between, below))


def _outline(frame: Frame) -> Frame:
    """A frame without lines between rows."""
    return frame._replace(row_lines=NOWHERE)


def _gaps(above: str, below_header: str, below: str, headless: tuple[str, str] = ("", "")) -> Frame:
    """A frame with these lines, and with gaps between columns.

    `headless` has the lines above and below a table without a header.
    """

    def lines(above: str, below: str) -> tuple[str, ...]:
        return tuple(f" {fill}{GAP} " if fill else "" for fill in (above, " ", below_header, " ", "", below))

    return Frame(lines(above, below), row_lines=NOWHERE, headless=lines(*headless), has_gaps=True, is_trimmed=True)


# Frames of the package tabulate, with the names and characters that they have there.
_GRIDS = {
    "grid": _grid("+-++", "| ||", "+=++", "+-++", "+-++"),
    "simple_grid": _grid("┌─┬┐", "│ ││", "├─┼┤", "├─┼┤", "└─┴┘"),
    "rounded_grid": _grid("╭─┬╮", "│ ││", "├─┼┤", "├─┼┤", "╰─┴╯"),
    "heavy_grid": _grid("┏━┳┓", "┃ ┃┃", "┣━╋┫", "┣━╋┫", "┗━┻┛"),
    "mixed_grid": _grid("┍━┯┑", "│ ││", "┝━┿┥", "├─┼┤", "┕━┷┙"),
    "double_grid": _grid("╔═╦╗", "║ ║║", "╠═╬╣", "╠═╬╣", "╚═╩╝"),
    "fancy_grid": _grid("╒═╤╕", "│ ││", "╞═╪╡", "├─┼┤", "╘═╧╛"),
}
_TABLEFMTS = {
    **_GRIDS,
    "outline": _outline(_GRIDS["grid"]),
    **{name.replace("_grid", "_outline"): _outline(frame) for name, frame in _GRIDS.items() if name != "grid"},
    "psql": _outline(_grid("+-++", "| ||", "|-+|", "    ", "+-++")),
    "pretty": _outline(_grid("+-++", "| ||", "+-++", "    ", "+-++"))._replace(is_centered=True),
    "presto": _outline(_grid("    ", "  | ", " -+ ", "    ", "    "))._replace(is_trimmed=True),
    "orgtbl": _outline(_grid("    ", "| ||", "|-+|", "    ", "    ")),
    "plain": _gaps("", "", ""),
    "simple": _gaps("", "-", "", headless=("-", "-")),
    "rst": _gaps("=", "=", "=", headless=("=", "="))._replace(marks_empty=True),
    "github": MARKDOWN,
    "pipe": MARKDOWN._replace(has_colons=True),
}
# For each format of tabulate that isn't here, another way to get it.
_CONVERTED = "html unsafehtml latex latex_raw latex_booktabs latex_longtable mediawiki jira textile asciidoc"
_INSTEAD = {
    **{name: 'pandoc, which reads tablefmt="grid"' for name in _CONVERTED.split()},
    "tsv": "Python's module csv",
    "colon_grid": 'tablefmt="pipe", which has colons too',
}


def frame_of(style: Style, tablefmt: object) -> Frame:
    """The frame with a name, or with lines of your own.

    If `style` and `tablefmt` are None, the frame is "rounded". ValueError is raised if no frame has the name, if the lines are
    wrong, or if neither `style` nor `tablefmt` is None.
    """
    if tablefmt is not None:
        if style is not None:
            raise ValueError("style and tablefmt both set the frame; pass one of them")
        return _frame_of_tablefmt(tablefmt)
    name = "rounded" if style is None else style
    if isinstance(name, (list, tuple)):
        return _frame_of_lines(name)
    if isinstance(name, str) and name.lower() in _STYLES:
        return _STYLES[name.lower()]
    hint = f"; tablefmt={name!r} is one" if name in _TABLEFMTS else ""
    raise ValueError(
        f'style takes rounded, box, grid, ascii, plain, markdown or a preset such as "UTF8_FULL", not {name!r}{hint}'
    )


def _frame_of_lines(given: Sequence[object]) -> Frame:
    lines = [line if line else "    " for line in given]
    if len(lines) != 6 or not all(isinstance(line, str) and len(line) == 4 and line.isprintable() for line in lines):
        raise ValueError(f"a frame has six lines, each of four printable characters or none, not {given!r}")
    for at in 1, 3:
        if str(lines[at])[1] != " ":
            raise ValueError(f"a line of texts has no fill, so the second character of {lines[at]!r} must be a space")
    return Frame(tuple(map(str, lines)))


def _frame_of_tablefmt(name: object) -> Frame:
    if isinstance(name, str) and name in _TABLEFMTS:
        return _TABLEFMTS[name]
    if isinstance(name, str) and name in _INSTEAD:
        raise ValueError(f"no tablefmt {name!r}; use {_INSTEAD[name]}")
    raise ValueError(f"tablefmt takes {', '.join(_TABLEFMTS)}, not {name!r}; style has other frames")
