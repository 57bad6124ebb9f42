"""Draws CSV from standard input as a table, with the arguments of csvtable: draw_csv.py [ARGUMENT].."""

import sys

from comfy_table_proved import draw_csv

if __name__ == "__main__":
    try:
        sys.stdout.buffer.write(draw_csv(sys.stdin.buffer.read(), sys.argv[1:]).encode())
    except ValueError as error:
        sys.exit(str(error))
