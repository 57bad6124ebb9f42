"""Columns by name or position, and their settings."""

from __future__ import annotations

from collections.abc import Mapping
from typing import Any, Iterable, Optional, Sequence, Union

from ._library import ColumnNumbers
from ._texts import Column

Columns = Union[Column, Iterable[Column], None]
Widths = Union[int, Sequence[Optional[int]], Mapping[Column, int], None]
Padding = Union[int, tuple[int, int], Mapping[Column, Union[int, tuple[int, int]]]]

# The numbers of a column's sides in comfy_table.h: by its contents, left, right, center. The number 3 hides a column.
BY_CONTENTS, LEFT, RIGHT, CENTER = 0, 1, 2, 4
_SIDES = {None: BY_CONTENTS, "left": LEFT, "right": RIGHT, "decimal": RIGHT, "center": CENTER}


class Layout:
    """The number of a table's columns, and the names of the columns.

    The list of names is empty if the table has no header.
    """

    def __init__(self, names: list[str], count: int) -> None:
        self._names, self._count = names, count

    def positions_of(self, columns: Columns) -> list[int]:
        """The positions of a column or of several columns, counted from 0.

        The list is empty for None. ValueError is raised if the table has no such column, or if the header has its name
        twice.
        """
        if columns is None:
            return []
        return [self._position_of(it) for it in ([columns] if isinstance(columns, (str, int)) else columns)]

    def chosen(self, columns: Columns, hidden: Columns) -> list[int]:
        """The positions of the columns that are drawn, in the order of drawing.

        All columns are drawn if `columns` is None or empty. The columns in `hidden` are left out. ValueError is raised if no column
        is left, and for the reasons that `positions_of` has.
        """
        left_out = set(self.positions_of(hidden))
        positions = [it for it in self.positions_of(columns) or range(self._count) if it not in left_out]
        if not positions:
            raise ValueError("no column is left that isn't hidden")
        return positions

    def numbers(self, sides: list[int], padding: Padding, widths: tuple[Widths, Widths, Widths]) -> list[ColumnNumbers]:
        """The settings of each column.

        `widths` has three settings: the exact, the least and the greatest widths. ValueError is raised for a wrong padding or a
        wrong width.
        """
        columns = zip(self._paddings(padding), sides, self._limits(*widths))
        return [ColumnNumbers(*pair, side, *limits) for pair, side, limits in columns]

    def sides(
        self, left: Columns, right: Columns, center: Columns, colalign: Optional[Sequence[Optional[str]]], otherwise: int
    ) -> list[int]:
        """The side of each column, as a number of comfy_table.h.

        A column that no setting aligns has the side `otherwise`. ValueError is raised if two settings align a column differently.
        """
        sides = [side or otherwise for side in self._aligned(colalign)]
        wanted: dict[int, int] = {}
        for side, columns in (LEFT, left), (RIGHT, right), (CENTER, center):
            for position in self.positions_of(columns):
                other = wanted.setdefault(position, side)
                if other != side:
                    raise ValueError(f"the column at position {position} is in both {_SETTINGS[other]} and {_SETTINGS[side]}")
                sides[position] = side
        return sides

    def _limits(self, colwidths: Widths, mincolwidths: Widths, maxcolwidths: Widths) -> list[tuple[int, int]]:
        """The least and the greatest width of each column's texts.

        Widths are in terminal columns, and 0 means no limit. A column with an exact width has this width as its least and as its
        greatest width. ValueError is raised if an exact width isn't the only one, or if a least width is above the greatest width.
        """
        fixed, least = self._widths(colwidths, "colwidths"), self._widths(mincolwidths, "mincolwidths")
        limits: list[tuple[int, int]] = []
        for position, (width, low, high) in enumerate(zip(fixed, least, self._widths(maxcolwidths, "maxcolwidths"))):
            if width and (low or high):
                raise ValueError(f"the column at position {position} has an exact width, so it can't have another")
            if low and high and low > high:
                raise ValueError(f"the column at position {position} has a least width above its greatest width")
            limits.append((width, width) if width else (low, high))
        return limits

    def _widths(self, setting: Widths, name: str) -> list[int]:
        """The width that a setting has for each column.

        Widths are in terminal columns, and 0 means that the setting has no width for the column. `name` is the setting's name, for
        the message of the ValueError that a wrong width raises.
        """
        widths = self._for_each(setting)
        for width in widths:
            if width is not None and not is_whole(width, 1, 65533):
                raise ValueError(f"{name} takes whole numbers from 1 to 65533, not {width!r}")
        return [0 if width is None else int(width) for width in widths]

    def _paddings(self, padding: Padding) -> list[tuple[int, int]]:
        """The left and the right padding of each column.

        Paddings are in terminal columns. A column without a padding in `padding` has a padding of 1 on each side.
        """
        wanted = self._for_each(padding) if isinstance(padding, Mapping) else [padding] * self._count
        return [(1, 1) if it is None else _pair_of(it) for it in wanted]

    def _for_each(self, setting: Any) -> list[Any]:
        """The value of a setting for each column.

        The value is None for a column without a value. A setting is one value for all columns, a list of values for the first
        columns, or a dict of values by column.
        """
        if isinstance(setting, Mapping):
            found = {self._position_of(column): value for column, value in setting.items()}
            return [found.get(position) for position in range(self._count)]
        if isinstance(setting, Sequence) and not isinstance(setting, str):
            return [*setting[: self._count], *[None] * (self._count - len(setting))]
        return [setting] * self._count

    def _aligned(self, colalign: Optional[Sequence[Optional[str]]]) -> list[int]:
        sides = [BY_CONTENTS] * self._count
        for position, side in enumerate(colalign or ()):
            if side not in _SIDES:
                raise ValueError(f'colalign takes "left", "right", "center", "decimal" or None for each column, not {side!r}')
            if position < self._count:
                sides[position] = _SIDES[side]
        return sides

    def _position_of(self, column: Column) -> int:
        if isinstance(column, str):
            found = [at for at, name in enumerate(self._names) if name == column]
            if len(found) > 1:
                raise ValueError(f"the header has {column!r} twice; give the column's position")
            if not found:
                raise ValueError(f"no column {column!r}")
            return found[0]
        if not -self._count <= column < self._count:
            raise ValueError(f"no column {column}")
        return column % self._count


_SETTINGS = {LEFT: "left", RIGHT: "right", CENTER: "center"}


def is_whole(number: Any, least: int, greatest: int) -> bool:
    return not isinstance(number, bool) and hasattr(number, "__index__") and least <= number <= greatest


def _pair_of(padding: Any) -> tuple[int, int]:
    pair = (padding, padding) if not isinstance(padding, (list, tuple)) else tuple(padding)
    if len(pair) != 2 or not all(is_whole(it, 0, 65535) for it in pair):
        wanted = "a whole number from 0 to 65535, a pair of them for left and right, or a dict"
        raise ValueError(f"padding takes {wanted}, not {padding!r}")
    return int(pair[0]), int(pair[1])
