"""Tables drawn as text by a proved library.

This package calls the library comfy_table. It is proved that the library draws by written rules. The package's own code is tested,
but not proved.

    >>> from comfy_table_proved import tabulate
    >>> print(tabulate([["oats", 3], ["rye", -12.5]], headers=["name", "price"]))
    ╭──────┬───────╮
    │ name ┆ price │
    ╞══════╪═══════╡
    │ oats ┆   3   │
    │ rye  ┆ -12.5 │
    ╰──────┴───────╯

`tabulate` draws rows. `Table` keeps rows, so that more can be added. A `Cell` is a value with its own colours and alignment.
`draw_csv` draws CSV with the arguments of the program csvtable. In a shell, `python -m comfy_table_proved [OPTIONS] [FILE]` draws
a file as csvtable does. All functions may be called from several threads.
"""

from ._library import draw_csv
from ._paints import Cell
from ._table import Table, tabulate

__version__ = "0.1.0"

__all__ = ["Cell", "Table", "__version__", "draw_csv", "tabulate"]
