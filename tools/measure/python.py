#!/usr/bin/env python3
"""Measures a drawing of 10,000 rows of 6 short cells by comfy_table_proved, and by tabulate and rich if they are installed.

    python3 tools/measure/python.py [RUNS]

Each package draws RUNS times, by default 5 times. The packages take turns. For each, the best processor time and the number of
drawn lines are printed. The package comfy_table_proved, which tools/package.sh makes, has to be installed.
"""
import io
import sys
import time

HEADER = [f"header{i}" for i in range(6)]
ROWS = [[f"cell{(row * 7 + column) % 1000}" for column in range(6)] for row in range(10_000)]


def by_comfy_table():
    from comfy_table_proved import tabulate

    return tabulate(ROWS, headers=HEADER)


def by_tabulate():
    from tabulate import tabulate

    return tabulate(ROWS, headers=HEADER, tablefmt="rounded_outline")


def by_rich():
    from rich.console import Console
    from rich.table import Table

    table = Table(*HEADER)
    for row in ROWS:
        table.add_row(*row)
    console = Console(file=io.StringIO(), width=120)
    console.print(table)
    return console.file.getvalue()


def main():
    runs = int(sys.argv[1]) if len(sys.argv) > 1 else 5
    best, drawings = {}, {}
    for _ in range(runs):
        for call in by_comfy_table, by_tabulate, by_rich:
            begun = time.process_time()
            try:
                drawings[call] = call()
            except ImportError as error:
                print(f"left out: {error}", file=sys.stderr)
                continue
            best[call] = min(best.get(call, float("inf")), time.process_time() - begun)
    for call, seconds in best.items():
        print(f"{call.__name__[3:]}: {seconds:.3f} seconds, {drawings[call].count(chr(10)) + 1} lines")


if __name__ == "__main__":
    main()
