"""Reads rows from lists, dicts, cursors, DataFrames and others."""

from __future__ import annotations

import dataclasses
from collections.abc import Mapping
from typing import Any, Iterable, NamedTuple, Optional, Union

from ._paints import value_of

Headers = Union[str, Mapping[Any, object], Iterable[object], None]
ShowIndex = Union[bool, str, Iterable[object]]


class Values(NamedTuple):
    """The values of a table's header and rows.

    `header` is None if the table has no header.
    """

    header: Optional[list[Any]]
    rows: list[list[Any]]


class _Read(NamedTuple):
    """Rows, the names of their columns, and an index.

    `keys` are the names of the columns, or None if the columns have no names. `labels` are the index, with a label for each row, or
    None if there is no index. `labels_name` is the name of the index, or None.
    """

    rows: list[list[Any]]
    keys: Optional[list[Any]]
    labels: Optional[list[Any]] = None
    labels_name: object = None
    # True if the rows are dicts. A row's values are then found by their keys, and not by their order.
    are_dicts: bool = False


class _Fetched(list):  # type: ignore[type-arg]
    """The rows of a cursor, with the cursor's description of its columns."""

    description: Any = None


def kept(data: Any) -> Any:
    """The rows of `data`, in a form that can be read more than once.

    A list, a tuple or an iterator is copied to a new list, to which rows can be added. The rows of a cursor are fetched. Other data
    are returned unchanged.
    """
    if getattr(data, "description", None) and hasattr(data, "fetchone"):
        fetched = _Fetched(data)
        fetched.description = data.description
        return fetched
    return list(data) if hasattr(data, "__next__") or isinstance(data, (list, tuple)) and not hasattr(data, "dtype") else data


def values_of(data: Any, headers: Headers, showindex: ShowIndex) -> Values:
    """The header and the rows of a table with these settings.

    If the settings require an index, it is the first column. ValueError is raised if a setting has a wrong value.
    """
    read = _read(data)
    if isinstance(headers, str) and headers == "firstrow":
        header = read.rows[0] if read.rows else None
        read = read._replace(rows=read.rows[1:], labels=None if read.labels is None else read.labels[1:])
    else:
        header = _header_of(headers, read)
        if not isinstance(headers, (str, Mapping)):
            read = _chosen_by(header, read)
    rows = read.rows
    if header and rows:
        # If there are fewer names than columns, the first columns have no name, as in tabulate.
        header = [""] * (len(rows[0]) - len(header)) + header
    index = _index_of(showindex, read, len(rows))
    if index is None:
        return Values(header, rows)
    name = "" if read.labels_name is None else read.labels_name
    return Values(None if header is None else [name, *header], [[it, *row] for it, row in zip(index, rows)])


def _read(data: Any) -> _Read:
    """Reads the rows of `data`.

    The attributes of `data` show its kind, so that this package needs to import neither pandas nor numpy. TypeError is raised if
    `data` is a text or bytes, or if one of its rows isn't a row.
    """
    names = getattr(getattr(data, "dtype", None), "names", None)
    if names:
        return _Read([[row[name] for name in names] for row in data], list(names))
    if hasattr(data, "itertuples") and hasattr(data, "columns"):
        rows = [list(row) for row in data.itertuples(index=False, name=None)]
        return _Read(rows, list(data.columns), list(data.index), data.index.name)
    if hasattr(data, "index") and hasattr(data, "items") and hasattr(data, "dtype"):
        name = "" if data.name is None else data.name
        return _Read([[value] for value in data], [name], list(data.index), data.index.name)
    if isinstance(data, Mapping):
        return _columns_of(data)
    if isinstance(data, _Fetched):
        return _Read([list(row) for row in data], [column[0] for column in data.description])
    if isinstance(data, (str, bytes)):
        raise TypeError(f"rows must be a list of rows, not {data!r}")
    return _rows_of(list(data))


def _columns_of(data: Mapping[Any, Any]) -> _Read:
    """Reads a column for each key of a mapping.

    Shorter columns are filled with None.
    """
    columns = [_cells_of(column) for column in data.values()]
    count = max(map(len, columns), default=0)
    filled = [column + [None] * (count - len(column)) for column in columns]
    return _Read([list(row) for row in zip(*filled)], list(data))


def _rows_of(data: list[Any]) -> _Read:
    """Reads a column for each key that a row has, in order of first use.

    A row that lacks a key has None in its column.
    """
    records = [_record(row) for row in data]
    found = list(dict.fromkeys(key for record in records if isinstance(record, dict) for key in record))
    rows = [[record.get(key) for key in found] if isinstance(record, dict) else record for record in records]
    have_keys = bool(records) and all(isinstance(record, dict) for record in records)
    return _Read(rows, found if have_keys else None, are_dicts=have_keys and all(isinstance(row, Mapping) for row in data))


def _record(row: Any) -> dict[Any, Any] | list[Any]:
    """The values of a row: a dict by key, or a list if the row has no keys."""
    if dataclasses.is_dataclass(row) and not isinstance(row, type):
        return {field.name: getattr(row, field.name) for field in dataclasses.fields(row)}
    if hasattr(row, "_fields"):
        return dict(zip(row._fields, row))
    if hasattr(row, "keys"):
        keys = _without_twins(list(row.keys()))
        return {key: row[key] for key in keys}
    return _cells_of(row)


def _cells_of(cells: Any) -> list[Any]:
    if isinstance(cells, (str, bytes)) or not hasattr(cells, "__iter__"):
        raise TypeError(f"a row must be a list of cells, not {cells!r}; for one column pass [[value], ..]")
    return list(cells)


def _without_twins(keys: list[Any]) -> list[Any]:
    if len(set(keys)) < len(keys):
        raise ValueError("a row has a key twice; pass tuple(row) and a list of headers")
    return keys


def _header_of(headers: Headers, read: _Read) -> Optional[list[Any]]:
    if headers is None:
        return None
    if isinstance(headers, str):
        if headers != "keys":
            raise ValueError(f'headers takes "keys", "firstrow", a list, a dict of keys or None, not {headers!r}')
        if read.keys is None and read.rows:
            raise ValueError('headers="keys" needs rows with keys')
        return read.keys
    if isinstance(headers, Mapping):
        if read.keys is None and read.rows:
            raise ValueError("a dict of headers needs rows with keys")
        return [headers.get(key, key) for key in read.keys or []] or None
    return list(headers) or None


def _chosen_by(header: Optional[list[Any]], read: _Read) -> _Read:
    """Rows with only the columns that a header names.

    Columns are left out only if each name of the header is a key of the rows. Otherwise the header's names are new names, and all
    columns stay. If the rows are dicts, ValueError is raised for a name that isn't a key.
    """
    names = [value_of(name) for name in header or []]
    if read.keys is None or names == read.keys or not names:
        return read
    unknown = [name for name in names if name not in read.keys]
    if unknown and read.are_dicts:
        raise ValueError(f"no row has the key {unknown[0]!r}; a dict of headers, {{key: name}}, renames keys")
    if unknown:
        return read
    positions = [read.keys.index(name) for name in names]
    return read._replace(rows=[[row[position] for position in positions] for row in read.rows], keys=names)


def _index_of(wanted: ShowIndex, read: _Read, count: int) -> Optional[list[Any]]:
    """The index: a label for each row, or None for no index.

    `count` is the number of rows. ValueError is raised if `wanted` is an unknown word, or a list of another length.
    """
    if isinstance(wanted, str):
        if wanted not in ("default", "always", "never"):
            raise ValueError(f'showindex takes "default", "always", "never", True, False or a list, not {wanted!r}')
        shows, given = wanted != "never", wanted == "always"
    elif isinstance(wanted, Iterable):
        index = list(wanted)
        if len(index) != count:
            raise ValueError(f"showindex has {len(index)} values for {count} rows")
        return index
    else:
        shows, given = bool(wanted), bool(wanted)
    if shows and read.labels is not None:
        return read.labels
    return list(range(count)) if given else None
