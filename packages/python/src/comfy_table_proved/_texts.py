"""The texts of cells, made from values."""

from __future__ import annotations

import decimal
import numbers
from typing import Any, Callable, Iterable, Optional, Sequence, Union

from ._paints import sequence_of

Column = Union[str, int]
# The arguments are the position of the row, the name of the column (or its position if it has no name), and the value. For type
# checkers, the second argument has the type Any, so that a function may take only names or only positions.
Colors = Callable[[int, Any, Any], Optional[str]]
Texts = Union[str, Sequence[Optional[str]], None]

_ESCAPE = "\x1b"
_REPLACEMENT = "\ufffd"


class Writer:
    """Writes values as texts.

    Each of the settings `floatfmt`, `intfmt` and `missingval` is one text for all columns, or a list of texts for the first
    columns.

    The function `colors` is called even if colours aren't written, so that an unknown word always raises ValueError.
    """

    def __init__(
        self, floatfmt: Texts, intfmt: Texts, missingval: Texts, colors: Optional[Colors], has_colors: bool, ansi: bool
    ) -> None:
        self._floatfmt, self._intfmt, self._missingval, self._colors = floatfmt, intfmt, missingval, colors
        self._has_colors, self._ansi = has_colors, ansi
        self._of_floats: set[int] = set()

    def rows_of(self, rows: list[list[Any]], names: list[str]) -> list[list[str]]:
        """The texts of rows whose columns have these names.

        ValueError is raised if `colors` returns an unknown word. An empty row gets one empty text, so that there is a column.
        """
        if self._floatfmt is not None:
            self._of_floats = {at for row in rows for at, value in enumerate(row) if _is_float(value)}
        return [self._texts_of(position, row, names) or [""] for position, row in enumerate(rows)]

    def header_of(self, header: list[Any]) -> list[str]:
        return [self._plain("" if name is None else _text(name)) for name in header]

    def _texts_of(self, position: int, row: list[Any], names: list[str]) -> list[str]:
        """The texts of the row at a position, with escape sequences for colours.

        `names` are the names of the columns.
        """
        texts = [self._text_of(at, value) for at, value in enumerate(row)]
        if self._colors is None:
            return texts
        columns: Iterable[Column] = [names[at] if at < len(names) else at for at in range(len(row))]
        words = [self._colors(position, column, value) for column, value in zip(columns, row)]
        painted = [_painted(text, it) for text, it in zip(texts, words)]
        return painted if self._has_colors else texts

    def _text_of(self, at: int, value: Any) -> str:
        if value is None:
            return self._plain(_at(self._missingval, at) or "")
        if isinstance(value, str):
            return self._plain(str(value))
        wanted = None
        if _is_float(value) or at in self._of_floats and _is_int(value):
            wanted = _at(self._floatfmt, at)
        elif _is_int(value):
            wanted = _at(self._intfmt, at)
        return self._plain(format(value, wanted) if wanted else _text(value))

    def _plain(self, text: str) -> str:
        # If `colors` makes sequences, the library keeps all sequences. Without `ansi`, it must not keep those that are in values,
        # so they are replaced here.
        return text if self._colors is None or self._ansi else text.replace(_ESCAPE, _REPLACEMENT)


def _is_float(value: object) -> bool:
    """True for a float, a float of numpy, and a Decimal."""
    # Common types are checked first, because checks of abstract classes are much slower.
    if isinstance(value, (float, int, str)):
        return isinstance(value, float)
    return isinstance(value, (numbers.Real, decimal.Decimal)) and not isinstance(value, numbers.Rational)


def _is_int(value: object) -> bool:
    if isinstance(value, (float, int, str)):
        return isinstance(value, int) and not isinstance(value, bool)
    return isinstance(value, numbers.Integral)


def _text(value: object) -> str:
    """The text of a value: what `str` returns.

    For bytes in UTF-8 it is the text that they encode.
    """
    if isinstance(value, bytes):
        try:
            return value.decode()
        except UnicodeDecodeError:
            pass
    return str(value)


def _painted(text: str, words: str | None) -> str:
    """A text between the SGR sequence of some words and a reset.

    The text is returned alone if `words` is None or empty.
    """
    return f"{sequence_of(words)}{text}{_ESCAPE}[0m" if words else text


def _at(setting: Texts, at: int) -> str | None:
    """The value of a setting for the column at a position.

    The value is None if the setting has none for this column.
    """
    if setting is None or isinstance(setting, str):
        return setting
    return setting[at] if at < len(setting) else None
