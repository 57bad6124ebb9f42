"""Tables of rows."""

from __future__ import annotations

import dataclasses
import html
import inspect
import re
import shutil
from typing import Any, Iterable, NamedTuple, NoReturn, Optional, Sequence, TypeVar, Union

from ._columns import BY_CONTENTS, CENTER, LEFT, Columns, Layout, Padding, Widths, is_whole
from ._library import NO_LIMIT, NO_WIDTH, OWN_STYLE, ColumnNumbers, Look, RowsSettings, draw_rows
from ._paints import PLAIN, Cell, look_of, value_of, writes_colors
from ._rows import Headers, ShowIndex, Values, kept, values_of
from ._styles import EVERYWHERE, NOWHERE, Frame, Style, frame_of
from ._texts import Colors, Texts, Writer

_Item = TypeVar("_Item")
Width = Union[int, str, None]
Heights = Union[int, Sequence[Optional[int]], None]

# The conditions for expanding rows in comfy_table.h: never, only if the width has no room for all columns, always.
NEVER, AUTO, ALWAYS = range(3)
# A pattern for a sequence of colours or attributes (SGR) that the library keeps.
_SEQUENCE = "\x1b\\[[0-9;:]*m"

# Hints for settings that only the package tabulate has.
_INSTEAD = {
    "numalign": "use left, right and align_decimals",
    "stralign": "use left, right and center",
    "colglobalalign": "use left, right, center and colalign",
    "headersalign": "use Cell",
    "headersglobalalign": "use Cell",
    "rowalign": "use Cell",
    "disable_numparse": "use left",
    "maxheadercolwidths": "use maxcolwidths",
    "preserve_whitespace": "spaces are always kept",
}


def tabulate(
    rows: Any,
    headers: Headers = None,
    tablefmt: Optional[str] = None,
    floatfmt: Texts = None,
    *,
    intfmt: Texts = None,
    missingval: Texts = None,
    showindex: ShowIndex = "default",
    left: Columns = None,
    right: Columns = None,
    center: Columns = None,
    colalign: Optional[Sequence[Optional[str]]] = None,
    align_decimals: bool = True,
    columns: Columns = None,
    hidden: Columns = None,
    width: Width = None,
    full: bool = False,
    colwidths: Widths = None,
    mincolwidths: Widths = None,
    maxcolwidths: Widths = None,
    padding: Padding = 1,
    max_height: Heights = None,
    limit: Optional[int] = None,
    style: Style = None,
    row_lines: Optional[bool] = None,
    expanded: Union[bool, str] = False,
    markdown: bool = False,
    bold_header: bool = False,
    colors: Optional[Colors] = None,
    color: str = "auto",
    ansi: bool = False,
    **others: NoReturn,
) -> str:
    """Draws rows as a table, and returns it without a line feed at its end.

    rows: a list of rows. A row is a list or another iterable, or has keys, as a dict, a dataclass, a named tuple and a
        sqlite3.Row do. Instead of a list of rows you can pass a dict of columns, a cursor, a DataFrame, a Series or an array.
        Rows may have different lengths. `None` is drawn as an empty cell. Other values are drawn as `str` returns them. A `Cell`
        is a value with its own colours and alignment. A `Cell` can be in a row or in `headers`.

    headers: the names of the columns:
        - "keys": the keys of the rows
        - "firstrow": the first row
        - a list of keys: these keys, and only the columns with these keys are drawn
        - another list: names for the columns in order. If rows are dicts, this raises ValueError, because their columns have no
          order. If the list has fewer names than the first row has columns, the first columns have no name
        - a dict: a new name for each key of the dict. Any other key of the rows is the name of its own column
        - None: there is no header
    tablefmt: a frame of the package tabulate, with its name and characters there:
        - "plain", "simple", "grid", "outline", "psql", "pretty", "presto", "orgtbl", "rst", "github" or "pipe"
        - "simple_grid", "rounded_grid", "heavy_grid", "mixed_grid", "double_grid" or "fancy_grid"
        - one of these six names with "_outline" in place of "_grid"
        "pretty" centres its columns.
    style: another frame:
        - "rounded", which is the default, "box", "grid", "ascii" or "plain"
        - a preset, such as "UTF8_FULL"
        - "markdown", which is the same as `markdown=True`
        - a frame of your own: six lines of four characters, such as ("╭─┬╮", "│ ┆│", "╞═╪╡", "│ ┆│", "├╌┼┤", "╰─┴╯")
        The six lines are above the table, in the header, below the header, in a row, between rows, and below the table. The four
        characters are at the left end, along each column (the fill), between columns, and at the right end. A space means no
        character. "" means no line.
    floatfmt, intfmt: the formats of floats and ints, such as ".2f" and ",". Each is one format for all columns, or a list with a
        format for each column. `floatfmt` also applies to Decimals, and to ints in a column that has floats. None means no format.
    missingval: the text for `None`: one text for all columns, or a list with a text for each column. None means an empty
        text. A column of numbers stays a column of numbers if this text is "", "-", "n/a", "na", "null", "nan" or "inf". With
        another text it becomes a column of texts.
    showindex: whether an index is added as the first column:
        - True: the index of a DataFrame, or else the number of each row, counted from 0
        - a list: its values
        - "default": the index, if rows have one
        - False: no index
        "always" is the same as True, and "never" the same as False.

    left, right, center, columns, hidden: a column, or a list of columns. A column is given by its name in the header or by its
        position. Positions count from 0. -1 is the last column. `left`, `right` and `center` align columns. A column of numbers or
        amounts of money that isn't among them is right-aligned. `columns` chooses the columns to draw, and their order. `hidden`
        leaves columns out.
    colalign: the alignments of the first columns, such as ("left", "right", "center"). "decimal" is the same as "right". A column
        with None is aligned by its values.
    align_decimals: True puts the decimal points of a column of numbers below each other.
    width: the table's greatest width in terminal columns. "terminal" means the width of the terminal. None and 0 mean no limit. The
        table is wider if the width has no room for the frame, the paddings and one terminal column for each column.
    full: True widens a narrower table to `width`. Without `width` it has no effect. Columns with their own widths are widened only
        if all columns have such widths.
    colwidths, mincolwidths, maxcolwidths: the exact, least and greatest widths of columns' texts, in terminal columns. Each is a
        number for all columns, a list with a number or None for each column, or a dict of numbers by name or position. None means
        no such width.
    padding: the number of free terminal columns beside texts. It is a number for both sides, a pair for left and right, or a dict
        of numbers or pairs by name or position.
    max_height: the greatest number of lines that are drawn of a row, or a list with a number or None for each row. The header has
        no limit. None means no limit. 0 counts as 1.
    limit: the greatest number of rows to draw below the header. If there are more, a line below the table says so. None means no
        limit. 0 draws only the header, and raises ValueError if there is no header.
    row_lines: True draws lines between rows in each style that has such lines. False draws no lines between rows. With None the
        style decides.
    expanded: True draws each row as a table of its own. In that table each line has a column's name and the row's value. "auto"
        does so if `width` is too small for all columns.
    markdown: True draws a table for Markdown, whose texts are never wrapped. For a centred column, the line below the header has
        two colons.
    bold_header: True writes the header in bold.
    colors: a function that is called for each value. Its arguments are the position of the row, the name of the column (or its
        position if it has no name), and the value. It returns None, or words such as "red", "bold bright_green" or
        "black on_#ffcc00". These are the words:
        - colours: "black", "red", "green", "yellow", "blue", "magenta", "cyan", "white", each of these after "bright_", and
          colours such as "#ffcc00"
        - colours of the background: each of these colours after "on_"
        - attributes: "bold", "dim", "italic", "underline", "blink", "reverse", "crossed_out", "overline"
    color: whether colours and a bold header are written. "auto" writes them if standard output is a terminal, and the environment
        variable NO_COLOR isn't set or is empty. "always" always writes them, and "never" never. Set one of these two if you write
        the drawing to another place than standard output.
    ansi: True keeps sequences of colours and attributes (SGR) that are in values, wherever the drawing is written. Such sequences
        take no terminal columns.

    Some settings don't go together:
        - A table for Markdown and expanded rows can't have `Cell`, `colwidths`, `mincolwidths`, `maxcolwidths`, `padding` or a list
          as `max_height`.
        - A table for Markdown also has no colours, and no frame of your own.
        - Expanded rows also have no `center`.
        - With `expanded="auto"`, `Cell` and `center` are allowed. If rows are expanded, they show only the value of a `Cell`. A
          centred column is then aligned by its values.

    Without `ansi`, control characters are drawn as U+FFFD. TABs are drawn as spaces. Line breaks are kept. A value of bytes in
    UTF-8 is drawn as the text that they encode.

    ValueError is raised if a setting names a column that the table doesn't have, or a name that the header has twice. It is also
    raised if a setting has an unknown value, if settings don't go together, or if a text has a lone surrogate. TypeError is raised
    if `rows` has something else than rows, or if a setting doesn't exist. MemoryError is raised if memory runs out.
    """
    for name in others:
        hint = f"; {_INSTEAD[name]}" if name in _INSTEAD else ""
        raise TypeError(f"tabulate has no setting {name!r}{hint}")
    return str(
        Table(
            rows,
            headers,
            tablefmt,
            floatfmt,
            intfmt=intfmt,
            missingval=missingval,
            showindex=showindex,
            left=left,
            right=right,
            center=center,
            colalign=colalign,
            align_decimals=align_decimals,
            columns=columns,
            hidden=hidden,
            width=width,
            full=full,
            colwidths=colwidths,
            mincolwidths=mincolwidths,
            maxcolwidths=maxcolwidths,
            padding=padding,
            max_height=max_height,
            limit=limit,
            style=style,
            row_lines=row_lines,
            expanded=expanded,
            markdown=markdown,
            bold_header=bold_header,
            colors=colors,
            color=color,
            ansi=ansi,
        )
    )


def _shorten_help() -> None:
    """Gives `tabulate` and `Table` shorter signatures.

    Without them, the first line of `help` would list all settings. Type checkers read the definitions, and not these signatures.
    """
    names = {"headers": None, "tablefmt": None, "floatfmt": None}
    kind = inspect.Parameter.POSITIONAL_OR_KEYWORD
    parameters = [inspect.Parameter(name, kind, default=value) for name, value in names.items()]
    settings = inspect.Parameter("settings", inspect.Parameter.VAR_KEYWORD)
    rows = inspect.Parameter("rows", kind)
    setattr(tabulate, "__signature__", inspect.Signature([rows, *parameters, settings], return_annotation=str))
    setattr(Table, "__signature__", inspect.Signature([rows.replace(default=()), *parameters, settings]))


@dataclasses.dataclass(repr=False, eq=False)
class Table:
    """Rows, headers and settings, as `tabulate` takes them.

    The rows, the headers and each setting are attributes, which can be changed. `str` and `repr` draw the table, and raise the
    errors that `tabulate` raises. A notebook shows the table without colours.

    >>> table = Table(headers=["name", "price"], style="ascii")
    >>> table.add_row(["oats", 3])
    >>> table
    +------+-------+
    | name | price |
    +==============+
    | oats |     3 |
    +------+-------+
    """

    rows: Any = ()
    headers: Headers = None
    tablefmt: Optional[str] = None
    floatfmt: Texts = None
    intfmt: Texts = None
    missingval: Texts = None
    showindex: ShowIndex = "default"
    left: Columns = None
    right: Columns = None
    colalign: Optional[Sequence[Optional[str]]] = None
    align_decimals: bool = True
    columns: Columns = None
    width: Width = None
    full: bool = False
    maxcolwidths: Widths = None
    max_height: Heights = None
    limit: Optional[int] = None
    style: Style = None
    row_lines: Optional[bool] = None
    expanded: Union[bool, str] = False
    markdown: bool = False
    bold_header: bool = False
    colors: Optional[Colors] = None
    center: Columns = None
    hidden: Columns = None
    colwidths: Widths = None
    mincolwidths: Widths = None
    padding: Padding = 1
    color: str = "auto"
    ansi: bool = False

    def __post_init__(self) -> None:
        self.rows = kept(self.rows)

    def add_row(self, row: object) -> None:
        """Adds a row below the others.

        TypeError is raised if the attribute `rows` isn't a list. `Table` copies a list, a tuple or an iterator to a new list.
        """
        if not isinstance(self.rows, list):
            raise TypeError(f"no row can be added to rows of the type {type(self.rows).__name__}; pass a list")
        self.rows.append(row)

    def __len__(self) -> int:
        return len(self.rows)

    def __str__(self) -> str:
        return _drawing(self)

    __repr__ = __str__

    def _repr_html_(self) -> str:
        plain = dataclasses.replace(self, color="never")
        # A browser drops a line feed at the beginning.
        return f"<pre>\n{html.escape(re.sub(_SEQUENCE, '', str(plain)))}</pre>"


_shorten_help()


class _Contents(NamedTuple):
    """The texts of a table with their looks, and the columns.

    `records` has the header, if there is one, and then the rows. `looks` has a look for each text, or is empty if no value is a
    `Cell`.
    """

    records: list[list[str]]
    looks: list[list[Look]]
    columns: list[ColumnNumbers]

    def chosen(self, positions: list[int]) -> _Contents:
        records = [_chosen(record, positions, "") for record in self.records]
        looks = [_chosen(row, positions, PLAIN) for row in self.looks]
        return _Contents(records, looks, [self.columns[position] for position in positions])

    def without_sequences(self) -> _Contents:
        return self._replace(records=[[re.sub(_SEQUENCE, "", text) for text in record] for record in self.records])


def _drawing(table: Table) -> str:
    values = values_of(table.rows, table.headers, table.showindex)
    if values.header is None and not values.rows:
        return ""
    frame = frame_of(table.style, table.tablefmt)
    is_markdown = frame.is_markdown or bool(table.markdown)
    _refuse_settings(table, values, is_markdown)
    has_colors = writes_colors(table.color) and not is_markdown
    contents = _contents_of(table, values, frame, has_colors)
    if is_markdown and table.ansi:
        contents = contents.without_sequences()
    headers = 0 if values.header is None else 1
    frame = frame.for_table(headers == 1, contents.records)
    settings = _settings_of(table, has_colors, headers == 1, is_markdown, frame, len(contents.columns))
    drawing = _drawn(contents, _heights_of(table.max_height, headers, len(values.rows)), settings)[:-1]
    if is_markdown:
        drawing = _with_colons(drawing, [column.side for column in contents.columns], frame.has_colons)
    return frame.finished(drawing)


def _contents_of(table: Table, values: Values, frame: Frame, has_colors: bool) -> _Contents:
    looks = _looks_of(values, has_colors)
    if looks:
        values = _without_cells(values)
    writer = Writer(table.floatfmt, table.intfmt, table.missingval, table.colors, has_colors, bool(table.ansi))
    # An empty row gets one empty cell, so that there is a column.
    names = [] if values.header is None else writer.header_of(values.header) or [""]
    records = ([] if values.header is None else [names]) + writer.rows_of(values.rows, names)
    layout = Layout(names, max(map(len, records)))
    sides = layout.sides(table.left, table.right, table.center, table.colalign, CENTER if frame.is_centered else BY_CONTENTS)
    padding = 0 if frame.has_gaps and table.padding == 1 else table.padding
    columns = layout.numbers(sides, padding, (table.colwidths, table.mincolwidths, table.maxcolwidths))
    contents = _Contents(records, looks, columns)
    if table.columns is not None or table.hidden is not None:
        contents = contents.chosen(layout.chosen(table.columns, table.hidden))
    if frame.marks_empty and not table.expanded:
        marked = [[record[0] if record[0].strip() else "..", *record[1:]] for record in contents.records]
        return contents._replace(records=marked)
    return contents


def _drawn(contents: _Contents, heights: list[int], settings: RowsSettings) -> str:
    """Draws a table by the library, and returns the drawing.

    `heights` has the greatest number of lines of each row, or is empty. In Markdown and in expanded rows, the only setting of a
    column is its side.
    """
    records, looks, columns = contents
    if settings.is_markdown:
        return draw_rows(records, [], [], [_plain(column.side, LEFT) for column in columns], settings)
    plain = [_plain(column.side, BY_CONTENTS) for column in columns]
    if settings.expansion == ALWAYS:
        return draw_rows(records, [], [], plain, settings)
    if settings.expansion == AUTO and (looks or columns != plain):
        # If rows may be expanded, the library refuses looks and other settings of columns. So the rows are drawn twice without
        # these settings: if the drawings differ, the rows are expanded.
        expanded = draw_rows(records, [], [], plain, settings)
        settings.expansion = NEVER
        if expanded != draw_rows(records, [], [], plain, settings):
            return expanded
    return draw_rows(records, [look for row in looks for look in row], heights, columns, settings)


def _plain(side: int, centered: int) -> ColumnNumbers:
    """A column whose only setting is its side.

    A centred column gets the side `centered`.
    """
    return ColumnNumbers(1, 1, centered if side == CENTER else side, 0, 0)


def _with_colons(drawing: str, sides: list[int], has_all: bool) -> str:
    """Adds the colons of centred columns to a table for Markdown.

    If `has_all` is true, left-aligned columns get a colon too.
    """
    header, line, *rows = drawing.split("\n")
    cells = zip(line[1:-1].split("|"), sides)
    return "\n".join([header, f"|{'|'.join(_colons(cell, side, has_all) for cell, side in cells)}|", *rows])


def _colons(cell: str, side: int, has_all: bool) -> str:
    if side == CENTER:
        return f":{cell[1:-1]}:"
    return f":{cell[1:]}" if has_all and not cell.endswith(":") else cell


def _refuse_settings(table: Table, values: Values, is_markdown: bool) -> None:
    """Raises ValueError for settings that Markdown or expansion refuses."""
    if not is_markdown and not table.expanded:
        return
    is_expanded = not is_markdown and table.expanded != "auto"
    wanted = {
        "center": is_expanded and (table.center is not None or "center" in (table.colalign or ())),
        "colwidths": table.colwidths is not None,
        "mincolwidths": table.mincolwidths is not None,
        "maxcolwidths": table.maxcolwidths is not None,
        "padding": table.padding != 1,
        "frame of your own": is_markdown and not isinstance(table.style, (str, type(None))),
        "list as max_height": isinstance(table.max_height, (list, tuple)),
        "Cell": (is_markdown or is_expanded) and _has_cells(values),
    }
    for name, is_wanted in wanted.items():
        if is_wanted:
            raise ValueError(f"{'a table for Markdown has' if is_markdown else 'expanded rows have'} no {name}")


def _looks_of(values: Values, has_colors: bool) -> list[list[Look]]:
    """The looks of all values, with colours if `has_colors` is true.

    There is a list for the header and for each row. The result is empty if no value is a `Cell`.
    """
    rows = [*([] if values.header is None else [values.header]), *values.rows]
    if not _has_cells(values):
        return []
    return [[look_of(value, has_colors) for value in row or [None]] for row in rows]


def _has_cells(values: Values) -> bool:
    return any(isinstance(value, Cell) for row in [values.header or [], *values.rows] for value in row)


def _without_cells(values: Values) -> Values:
    """The values, with each `Cell` replaced by the value in it."""
    header = None if values.header is None else [value_of(value) for value in values.header]
    return Values(header, [[value_of(value) for value in row] for row in values.rows])


def _chosen(items: list[_Item], positions: Iterable[int], otherwise: _Item) -> list[_Item]:
    return [items[position] if position < len(items) else otherwise for position in positions]


def _settings_of(
    table: Table, has_colors: bool, has_header: bool, is_markdown: bool, frame: Frame, columns: int
) -> RowsSettings:
    height = None if isinstance(table.max_height, (list, tuple)) else _whole(table.max_height, "max_height")
    limit = _limit_of(table, has_header)
    expansion = _expansion_of(table.expanded)
    width = _width_of(table.width)
    if width != NO_WIDTH and frame.has_gaps:
        # A gap takes two terminal columns, but the library counts one. An expanded row has two columns.
        width = max(1, width - (2 if expansion == ALWAYS else columns) + 1)
    return RowsSettings(
        max_height=NO_LIMIT if height is None else height,
        limit=NO_LIMIT if limit is None else limit,
        style=OWN_STYLE if frame.number is None else frame.number,
        width=width,
        fills_width=bool(table.full),
        row_lines=_row_lines_of(table, frame),
        expansion=NEVER if expansion == AUTO and width == NO_WIDTH else expansion,
        has_header=has_header,
        has_bold_header=bool(table.bold_header) and has_colors,
        is_numbered=False,
        aligns_decimals=bool(table.align_decimals),
        has_sequences=bool(table.ansi) or table.colors is not None and has_colors,
        is_markdown=is_markdown,
        frame=frame.numbers(),
    )


def _heights_of(heights: Heights, headers: int, rows: int) -> list[int]:
    """The greatest heights of the header and of each row.

    The result is empty if `heights` isn't a list. In the result, 0 means no limit. In `heights`, None means no limit, and 0 counts
    as 1.
    """
    if not isinstance(heights, (list, tuple)):
        return []
    wholes = [_whole(height, "max_height") for height in heights]
    found = [0 if height is None else max(1, height) for height in wholes]
    return [0] * headers + found[:rows] + [0] * (rows - len(found))


def _limit_of(table: Table, has_header: bool) -> Optional[int]:
    limit = _whole(table.limit, "limit")
    if limit == 0 and not has_header:
        raise ValueError("limit=0 without a header leaves nothing to draw")
    return limit


def _row_lines_of(table: Table, frame: Frame) -> int:
    return frame.row_lines if table.row_lines is None else EVERYWHERE if table.row_lines else NOWHERE


def _whole(number: Any, name: str, otherwise: str = " or None", greatest: int = NO_LIMIT - 1) -> Optional[int]:
    if number is None:
        return None
    if not is_whole(number, 0, greatest):
        upward = f"from 0 to {greatest}" if greatest < NO_LIMIT - 1 else "from 0 on"
        raise ValueError(f"{name} takes a whole number {upward}{otherwise}, not {number!r}")
    return int(number)


def _width_of(width: Width) -> int:
    if width == "terminal":
        return shutil.get_terminal_size().columns
    number = _whole(width, "width", ', "terminal" or None', 65535)
    # As in csvtable, 0 means no width.
    return number or NO_WIDTH


def _expansion_of(wanted: bool | str) -> int:
    if wanted is False or wanted is None:
        return NEVER
    if wanted == "auto":
        return AUTO
    if wanted is True:
        return ALWAYS
    raise ValueError(f'expanded takes True, False or "auto", not {wanted!r}')
