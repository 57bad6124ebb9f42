"""Words for colours and attributes, and cells with their own colours."""

from __future__ import annotations

import functools
import os
import re
import sys
from typing import Any, Optional

from ._library import Look

_COLORS = ("black", "red", "green", "yellow", "blue", "magenta", "cyan", "white")
# The first 16 of a terminal's 256 colours.
_NUMBERS = {name: number for number, name in enumerate([*_COLORS, *(f"bright_{color}" for color in _COLORS)])}
# The SGR parameter of each attribute, and its bit in comfy_table.h.
_ATTRIBUTES = {
    "bold": (1, 1 << 1),
    "dim": (2, 1 << 2),
    "italic": (3, 1 << 3),
    "underline": (4, 1 << 4),
    "blink": (5, 1 << 9),
    "reverse": (7, 1 << 11),
    "crossed_out": (9, 1 << 13),
    "overline": (53, 1 << 25),
}
PLAIN = Look()

# The numbers of alignments in comfy_table.h. 0 means the alignment of the column.
_SIDES = {None: 0, "left": 1, "right": 2, "center": 3}

# The numbers of a colour in comfy_table.h: kind, number, red, green and blue.
Color = tuple[int, ...]


class Cell:
    """A value with its own colours and alignment, in a row or a header.

    value: the value to draw.
    colors: words as the setting `colors` of a table takes them, such as "red", "bold bright_green" or "white on_#204080". They
        apply to the text and to the spaces beside it. None means no colours.
    align: "left", "right", "center", or None for the alignment of the column.

    ValueError is raised if `colors` or `align` has other words.
    """

    __slots__ = ("value", "colors", "align")

    def __init__(self, value: object, colors: Optional[str] = None, align: Optional[str] = None) -> None:
        paint_of(colors)
        if align not in _SIDES:
            raise ValueError(f'align takes "left", "right", "center" or None, not {align!r}')
        self.value, self.colors, self.align = value, colors, align

    def __repr__(self) -> str:
        return f"Cell({self.value!r}, {self.colors!r}, {self.align!r})"


def value_of(value: Any) -> Any:
    """The value in a `Cell`. Any other value is returned unchanged."""
    return value.value if isinstance(value, Cell) else value


def writes_colors(wanted: str) -> bool:
    """True if colours are written.

    "always" always writes colours. "auto" writes colours if standard output is a terminal, and NO_COLOR isn't set or is empty.
    "never" writes none. ValueError is raised for any other word.
    """
    if wanted not in ("auto", "always", "never"):
        raise ValueError(f'color takes "auto", "always" or "never", not {wanted!r}')
    return wanted == "always" or wanted == "auto" and not os.environ.get("NO_COLOR") and _is_terminal(sys.stdout)


def _is_terminal(output: Any) -> bool:
    """True if an output is a terminal.

    A closed or missing output isn't a terminal.
    """
    try:
        return bool(output.isatty())
    except (AttributeError, ValueError):
        return False


def look_of(value: object, has_colors: bool) -> Look:
    """The look of a `Cell`, with its colours if `has_colors` is true.

    The look of any other value has no settings.
    """
    if not isinstance(value, Cell):
        return PLAIN
    paint = paint_of(value.colors) if has_colors else PLAIN
    return paint._replace(alignment=_SIDES[value.align])


@functools.lru_cache(maxsize=256)
def paint_of(words: Optional[str]) -> Look:
    """The look that words describe.

    The look has no settings for None and for a text without words. ValueError is raised for an unknown word.
    """
    paint = PLAIN
    for word in (words or "").split():
        ground, color = _color_of(word)
        if color is None:
            paint = paint._replace(attributes=paint.attributes | _ATTRIBUTES[word][1])
        elif ground == "on_":
            paint = paint._replace(background=color)
        else:
            paint = paint._replace(foreground=color)
    return paint


@functools.lru_cache(maxsize=256)
def sequence_of(words: str) -> str:
    """The SGR sequence that words describe, in the order of the words.

    ValueError is raised for an unknown word.
    """
    return f"\x1b[{';'.join(map(_parameters, words.split()))}m"


def _parameters(word: str) -> str:
    ground, color = _color_of(word)
    if color is None:
        return str(_ATTRIBUTES[word][0])
    first = 40 if ground else 30
    kind, number, *parts = color
    if kind == 3:
        return f"{first + 8};2;{';'.join(map(str, parts))}"
    return str(first + number if number < 8 else first + 52 + number)


def _color_of(word: str) -> tuple[str, Optional[Color]]:
    """The prefix and the colour of a word.

    The prefix is "on_" for a colour of the background, and otherwise "". The colour is None if the word is an attribute. ValueError
    is raised for an unknown word.
    """
    if word in _ATTRIBUTES:
        return "", None
    ground, name = ("on_", word[3:]) if word.startswith("on_") else ("", word)
    if name in _NUMBERS:
        return ground, (2, _NUMBERS[name], 0, 0, 0)
    if re.fullmatch("#[0-9A-Fa-f]{6}", name):
        return ground, (3, 0, *bytes.fromhex(name[1:]))
    known = ", ".join([*_ATTRIBUTES, *_NUMBERS])
    raise ValueError(f"no colour {word!r}; there are {known} and #rrggbb, and each colour after on_ for the background")
