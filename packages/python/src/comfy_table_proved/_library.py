"""The functions of the library for C.

The library is in the folder of this file.
"""

from __future__ import annotations

import array
import ctypes
import functools
import platform
import sys
from pathlib import Path
from typing import Any, Callable, NamedTuple, Sequence

_FILES = {"darwin": "libcomfy_table.dylib", "win32": "comfy_table.dll"}


def _load() -> ctypes.CDLL:
    """Loads the library of this wheel.

    ImportError is raised if the library can't be loaded, for example because the wheel is for another system.
    """
    file = Path(__file__).with_name(_FILES.get(sys.platform, "libcomfy_table.so"))
    try:
        return ctypes.CDLL(str(file))
    except OSError as error:
        wheels = "Linux on x86_64 and aarch64, macOS on arm64 and x86_64, Windows on AMD64"
        system = f"{sys.platform} on {platform.machine()}"
        raise ImportError(f"no library here is for {system}; there are wheels for {wheels}: {error}") from error


_LIBRARY = _load()

# Two results of the library's functions. 0 means that the table was drawn. Any other result means that an argument was refused.
_ROOM_TOO_SMALL = 1
_OUT_OF_MEMORY = 3

_SIZE = ctypes.c_size_t
_NUMBER = ctypes.c_uint32

# In comfy_table.h this number means no limit.
NO_LIMIT = 2**64 - 1
# In comfy_table.h this number means no width, and so does each number above 65535.
NO_WIDTH = 2**32 - 1
# The number of the style that has a frame of one's own.
OWN_STYLE = 2**32 - 1


class _Line(ctypes.Structure):
    _fields_ = [(name, _NUMBER) for name in ("left", "fill", "junction", "right")]


class _ContentLine(ctypes.Structure):
    _fields_ = [(name, _NUMBER) for name in ("left", "junction", "right")]


class _Frame(ctypes.Structure):
    _fields_ = [
        ("top_border", _Line),
        ("header_lines", _ContentLine),
        ("header_separator", _Line),
        ("content_lines", _ContentLine),
        ("row_separator", _Line),
        ("bottom_border", _Line),
    ]


class RowsSettings(ctypes.Structure):
    """The settings of a table of rows, in the order of comfy_table.h."""

    _fields_ = [
        ("max_height", _SIZE),
        ("limit", _SIZE),
        ("style", _NUMBER),
        ("width", _NUMBER),
        ("fills_width", _NUMBER),
        ("row_lines", _NUMBER),
        ("expansion", _NUMBER),
        ("has_header", _NUMBER),
        ("has_bold_header", _NUMBER),
        ("is_numbered", _NUMBER),
        ("aligns_decimals", _NUMBER),
        ("has_sequences", _NUMBER),
        ("is_markdown", _NUMBER),
        ("frame", _Frame),
    ]


class _Color(ctypes.Structure):
    _fields_ = [(name, ctypes.c_uint8) for name in ("kind", "number", "red", "green", "blue")]


class _Look(ctypes.Structure):
    _fields_ = [("alignment", _NUMBER), ("attributes", _NUMBER), ("foreground", _Color), ("background", _Color)]


class _Column(ctypes.Structure):
    _fields_ = [
        ("left_padding", ctypes.c_uint16),
        ("right_padding", ctypes.c_uint16),
        ("side", _NUMBER),
        ("least", ctypes.c_uint16),
        ("greatest", ctypes.c_uint16),
    ]


class Look(NamedTuple):
    """The look of a text, in numbers of comfy_table.h.

    A colour is five numbers: kind, number, red, green and blue. 0 means that a setting isn't set.
    """

    alignment: int = 0
    attributes: int = 0
    foreground: tuple[int, ...] = (0,) * 5
    background: tuple[int, ...] = (0,) * 5


class ColumnNumbers(NamedTuple):
    """The settings of a column: `struct comfy_rows_column` of comfy_table.h.

    Paddings and widths are in terminal columns. `least` and `greatest` are the least and the greatest width, without paddings. If
    one of these two is 0, there is no such limit.
    """

    left_padding: int
    right_padding: int
    side: int
    least: int
    greatest: int


def _declared(name: str, arguments: list[Any]) -> Callable[..., int]:
    """The function of comfy_table.h with this name.

    `arguments` are the types of its arguments before its output. Nothing checks that they match the function in the library.
    """
    function = _LIBRARY[name]
    function.restype = _NUMBER
    function.argtypes = [*arguments, ctypes.c_char_p, _SIZE, ctypes.POINTER(_SIZE)]
    return function


_BYTES = [ctypes.c_char_p, _SIZE]
_SIZES = [ctypes.c_void_p, _SIZE]
_CSV_DRAW = _declared("comfy_csv_draw", _BYTES * 2)
_ROWS_DRAW = _declared("comfy_rows_draw", [*_BYTES, *_SIZES * 5, ctypes.POINTER(RowsSettings)])


def draw_csv(data: str | bytes, arguments: Sequence[str] = ()) -> str:
    """Draws CSV with arguments of the program csvtable.

    data: the CSV. A str is passed as UTF-8. Bytes may be in another encoding, which the option "-e" names or csvtable recognises.
    arguments: the arguments, for example ["-r", "price", "-w", "60"]. No file is opened. A file name among them names the input in
        messages. TABs separate the fields if this name ends with .tsv or .tab, no argument sets a delimiter, and the first line
        isn't "sep=" with another delimiter. The table has a greatest width only if "-w" sets one.

    The drawing is returned. It ends with a line feed, or is empty if the CSV has no records.

    ValueError is raised with csvtable's message if the arguments or the CSV are refused, or if the arguments ask for help or the
    version. MemoryError is raised if memory runs out.
    """
    given = data.encode() if isinstance(data, str) else data
    if any("\0" in argument for argument in arguments):
        raise ValueError("an argument holds a zero byte")
    joined = b"".join(argument.encode() + b"\0" for argument in arguments)
    status, text = _written(_CSV_DRAW, len(given), given, len(given), joined, len(joined))
    if status:
        raise ValueError(text.rstrip("\n"))
    return text


def draw_rows(
    rows: Sequence[Sequence[str]],
    looks: Sequence[Look],
    heights: Sequence[int],
    columns: Sequence[ColumnNumbers],
    settings: RowsSettings,
) -> str:
    """Draws rows of texts, and returns the drawing.

    `looks` has a look for each text, or is empty. `heights` is empty, or has the greatest number of lines of the header and of each
    row. If a number is 0, `max_height` of the settings counts for its row. The header has no limit, whatever its number is.

    ValueError is raised if the library refuses an argument, and MemoryError if memory runs out.
    """
    texts = [text.encode() for row in rows for text in row]
    joined = b"".join(texts)
    numbers = [array.array("Q", it) for it in (map(len, texts), map(len, rows), heights)]
    lengths, counts, limits = (it.buffer_info() for it in numbers)
    # A struct for each look would take most of the time.
    joined_looks = b"".join(map(_bytes_of, looks))
    column_numbers = (_Column * len(columns))(*(_Column(*column) for column in columns))
    arguments = [joined, len(joined), *lengths, *counts, joined_looks, len(looks), *limits, column_numbers, len(columns)]
    status, text = _written(_ROWS_DRAW, len(joined) + 8 * len(texts), *arguments, ctypes.byref(settings))
    if status:
        raise ValueError(f"comfy_rows_draw returned {status}")
    return text


@functools.lru_cache(maxsize=256)
def _bytes_of(look: Look) -> bytes:
    """The bytes of the C struct of a look."""
    return bytes(_Look(*look))


def _written(function: Callable[..., int], size: int, *arguments: object) -> tuple[int, str]:
    """Calls a function, and returns its result and the text that it writes.

    `size` is the number of bytes of the function's input. If the buffer is too small, the function is called again with a larger
    buffer. MemoryError is raised if memory runs out.
    """
    room, needed = 4096 + 4 * size, _SIZE(0)
    while True:
        output = ctypes.create_string_buffer(room)
        status = function(*arguments, output, room, ctypes.byref(needed))
        if status == _OUT_OF_MEMORY:
            raise MemoryError
        if needed.value <= room:
            return status, ctypes.string_at(output, needed.value).decode()
        room = needed.value
