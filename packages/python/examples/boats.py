"""Draws rows as a table:

╭───────────┬──────────┬──────────────────────╮
│ name      ┆    price ┆ note                 │
╞═══════════╪══════════╪══════════════════════╡
│ Albatross ┆ 12500.00 ┆ two masts, teak      │
├╌╌╌╌╌╌╌╌╌╌╌┼╌╌╌╌╌╌╌╌╌╌┼╌╌╌╌╌╌╌╌╌╌╌╌╌╌╌╌╌╌╌╌╌╌┤
│ 帆船      ┆  -980.00 ┆ for one; the sails   │
│           ┆          ┆ are new              │
╰───────────┴──────────┴──────────────────────╯
"""

from comfy_table_proved import tabulate

boats = [("Albatross", 12500.0, "two masts, teak"), ("帆船", -980.0, "for one; the sails are new")]
print(tabulate(boats, headers=["name", "price", "note"], floatfmt=".2f", width=47))
