"""Draws a report. The header is bold, the results are centred and green or red, and remarks have at most 22 terminal columns:

+----------+---------+--------+-----------------------+
| check    | seconds | result | remark                |
+==========+=========+========+=======================+
| links    |    12.8 | passed |                       |
| spelling |     3.1 | failed | two words on the page |
|          |         |        | that lists the ports  |
| ports    |     0.2 |    -   | no network            |
| tests    |   104.0 | passed | one of them took half |
|          |         |        | of the time           |
+----------+---------+--------+-----------------------+
"""

from comfy_table_proved import Cell, tabulate

PASSED, FAILED = Cell("passed", "green"), Cell("failed", "bold red")
checks = [
    ("links", 12.8, PASSED, None),
    ("spelling", 3.1, FAILED, "two words on the page that lists the ports"),
    ("ports", 0.2, "-", "no network"),
    ("tests", 104.0, PASSED, "one of them took half of the time"),
]
names = [Cell(name, "bold") for name in ("check", "seconds", "result", "remark")]
print(tabulate(checks, names, "outline", ".1f", center="result", maxcolwidths={"remark": 22}, width=72))
