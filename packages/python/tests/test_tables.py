"""Tests of the installed package: python -m unittest discover -s tests.

Expected drawings are typed by hand. If CSVTABLE is set, it is the program csvtable. Random rows have to be drawn as that program
draws them. Python's csv module writes them for it.
"""

import csv
import dataclasses
import doctest
import io
import os
import random
import re
import sqlite3
import subprocess
import sys
import tempfile
import threading
import typing
import unittest
from collections import namedtuple
from decimal import Decimal
from pathlib import Path
from unittest import mock

import comfy_table_proved
from comfy_table_proved import Cell, Table, draw_csv, tabulate

EXAMPLES = Path(__file__).parent.parent / "examples"
CSVTABLE = os.environ.get("CSVTABLE")


def drawn(text):
    """A drawing typed by hand, without the line feeds around it."""
    return text.strip("\n")


class Drawings(unittest.TestCase):
    maxDiff = None

    def test_lists(self):
        self.assertEqual(
            tabulate([["oats", 3], ["rye", -12.5], ["new\nline", None]], headers=["name", "price"]),
            drawn("""
╭──────┬───────╮
│ name ┆ price │
╞══════╪═══════╡
│ oats ┆   3   │
├╌╌╌╌╌╌┼╌╌╌╌╌╌╌┤
│ rye  ┆ -12.5 │
├╌╌╌╌╌╌┼╌╌╌╌╌╌╌┤
│ new  ┆       │
│ line ┆       │
╰──────┴───────╯
"""))

    def test_rows_with_keys(self):
        wanted = drawn("""
┌───┬───┐
│ a ┆ b │
╞═══╪═══╡
│ x ┆ 1 │
└───┴───┘
""")
        record = dataclasses.make_dataclass("Record", ["a", "b"])("x", 1)
        connection = sqlite3.connect(":memory:")
        connection.row_factory = sqlite3.Row
        selected = connection.execute("select 'x' as a, 1 as b")
        for rows in [{"a": "x", "b": 1}], [record], selected, [namedtuple("Pair", "a b")("x", 1)]:
            self.assertEqual(tabulate(rows, headers="keys", style="box"), wanted)
        self.assertEqual(tabulate([["a", "b"], ["x", 1]], headers="firstrow", style="box"), wanted)

    def test_keys_are_joined(self):
        self.assertEqual(
            tabulate([{"a": "x"}, {"b": "y", "a": "z"}], headers="keys", style="ascii"),
            drawn("""
+---+---+
| a | b |
+=======+
| x |   |
|---+---|
| z | y |
+---+---+
"""))

    def test_columns_by_name_and_position(self):
        self.assertEqual(
            tabulate([["x", "long", 1]], headers=["a", "b", "c"], columns=[-1, "a", 1], left="c", right=["b"], style="grid"),
            drawn("""
╭───┬───┬──────╮
│ c ┆ a ┆    b │
╞═══╪═══╪══════╡
│ 1 ┆ x ┆ long │
╰───┴───┴──────╯
"""))

    def test_width_height_and_limit(self):
        self.assertEqual(
            tabulate([["oats"], ["rye"]], width=12, full=True, limit=1, style="box"),
            drawn("""
┌──────────┐
│ oats     │
└──────────┘
1 of 2 rows
"""))
        self.assertEqual(
            tabulate([["x"], ["y", 5, 7]], headers=["a"], right=[2], limit=1, style="box"),
            drawn("""
┌───┐
│ a │
╞═══╡
│ x │
└───┘
1 of 2 rows
"""))
        self.assertEqual(
            tabulate([["a\nb\nlong text", 1.5]], max_height=2, floatfmt=".3f", style="box"),
            drawn("""
┌───────────┬───────┐
│ a         ┆ 1.500 │
│ b…        ┆       │
└───────────┴───────┘
"""))

    def test_markdown_and_records(self):
        self.assertEqual(
            tabulate([["a|b", 1.5]], headers=["x", "y"], markdown=True, floatfmt=".2f"),
            drawn("""
| x    |    y |
|------|-----:|
| a\\|b | 1.50 |
"""))
        self.assertEqual(tabulate([["a"]], style="Markdown"), tabulate([["a"]], markdown=True))
        self.assertEqual(
            tabulate([["oats", 3]], headers=["name", "price"], expanded=True, style="box"),
            drawn("""
row 1 of 1
┌───────┬──────┐
│ name  ┆ oats │
│ price ┆ 3    │
└───────┴──────┘
"""))


class Form(unittest.TestCase):
    """Texts that have a meaning in CSV files, but none in cells."""

    def test_marks_quotes_and_delimiters(self):
        self.assertEqual(
            tabulate([["\ufeffid", "sep=;"], ["sep=;", '"'], [], ["a\tb", 'x","y'], ["\x1b[31m\0", "\u202e"]]),
            drawn("""
╭────────┬───────╮
│ \ufeffid     ┆ sep=; │
│ sep=;  ┆ "     │
│        ┆       │
│ a   b  ┆ x","y │
│ \ufffd[31m\ufffd ┆ \ufffd     │
╰────────┴───────╯
"""))

    def test_words_are_no_options(self):
        for settings in {"style": "box\0--raw"}, {"style": "--raw"}, {"width": "9 --raw"}, {"limit": -1}, {"expanded": "odd"}:
            with self.assertRaises(ValueError, msg=settings):
                tabulate([["x"]], **settings)


class Refused(unittest.TestCase):
    def test_columns(self):
        for settings, message in [
            ({"right": "c"}, "no column 'c'"),
            ({"right": "a"}, "the header has 'a' twice; give the column's position"),
            ({"columns": [3]}, "no column 3"),
            ({"columns": -4}, "no column -4"),
            ({"left": [0], "right": ["b", -3]}, "the column at position 0 is in both left and right"),
        ]:
            with self.assertRaises(ValueError) as caught:
                tabulate([["x", "y", "z"]], headers=["a", "b", "a"], **settings)
            self.assertEqual(str(caught.exception), message)

    def test_texts_rows_and_settings(self):
        with self.assertRaises(ValueError):
            tabulate([["\ud800"]])
        with self.assertRaises(ValueError):
            tabulate([["x"]], headers="keys")
        with self.assertRaises(ValueError):
            tabulate([["x"]], colors=lambda row, column, value: "pink")
        with self.assertRaises(TypeError):
            tabulate(["text"])
        with self.assertRaises(TypeError):
            tabulate([["x"]], witdh=3)

    def test_a_key_that_is_there_twice(self):
        connection = sqlite3.connect(":memory:")
        connection.row_factory = sqlite3.Row
        with self.assertRaises(ValueError):
            tabulate(connection.execute("select 1 as a, 2 as a").fetchall(), headers="keys")
        # A cursor has the names of its columns in order.
        drawing = tabulate(connection.execute("select 1 as a, 2 as a"), headers="keys", style="ascii")
        self.assertEqual(drawing, "+---+---+\n| a | a |\n+=======+\n| 1 | 2 |\n+---+---+")

    def test_messages_are_those_of_csvtable(self):
        with self.assertRaises(ValueError) as caught:
            draw_csv('a,"b\n', ["list.csv"])
        self.assertEqual(str(caught.exception), "csvtable: list.csv: a quote that opens in line 1 is never closed; try --no-quotes")


class Colors(unittest.TestCase):
    def test_sequences(self):
        called = []

        def red_if_negative(row, column, value):
            called.append((row, column, value))
            return "bold red" if value == -1 else None

        wanted = "+----+---+\n|  a | 1 |\n+========+\n| \x1b[1;31m-1\x1b[0m | \ufffd |\n+----+---+"
        self.assertEqual(tabulate([[-1, "\x1b"]], headers=["a", 1], colors=red_if_negative, style="ascii", color="always"), wanted)
        self.assertEqual(called, [(0, "a", -1), (0, "1", "\x1b")])

    def test_a_header_in_bold(self):
        self.assertIn("\x1b[1m", tabulate([["x"]], headers=["a"], bold_header=True, color="always"))

    def test_places_for_colours(self):
        settings = {"headers": [Cell("a", "green")], "colors": lambda row, column, value: "red", "bold_header": True}
        plain = tabulate([["x"]], headers=["a"])
        self.assertEqual(tabulate([["x"]], color="never", **settings), plain)
        with self.assertRaises(ValueError):
            tabulate([["x"]], color="sometimes")
        closed = io.StringIO()
        closed.close()
        for output in None, closed:
            with mock.patch("sys.stdout", output):
                self.assertEqual(tabulate([["x"]], **settings), plain)
        for is_terminal, no_color, are_written in [(True, "", True), (True, "1", False), (False, "", False)]:
            output = io.StringIO()
            output.isatty = lambda: is_terminal
            with mock.patch("sys.stdout", output), mock.patch.dict(os.environ, NO_COLOR=no_color):
                drawing = tabulate([["x"]], **settings)
            self.assertEqual("\x1b[31m" in drawing and "\x1b[1m" in drawing, are_written)
            self.assertEqual(drawing == plain, not are_written)

    def test_colours_of_values(self):
        rows = [["\x1b[31mred\x1b[0m", 1], ["\x1b]0;t\x07", 2]]
        self.assertEqual(
            tabulate(rows, ansi=True, style="ascii"),
            "+--------+---+\n| \x1b[31mred\x1b[0m    | 1 |\n|--------+---|\n| \ufffd]0;t\ufffd | 2 |\n+--------+---+",
        )
        colored = tabulate(rows[:1], ansi=True, colors=lambda row, column, value: "bold", color="always", style="ascii")
        self.assertIn("| \x1b[1m\x1b[31mred\x1b[0m | \x1b[1m1\x1b[0m |", colored)
        self.assertIn("| red | 1 |", Table(rows[:1], ansi=True, style="ascii")._repr_html_())


class Tables(unittest.TestCase):
    def test_rows_are_added(self):
        table = Table(headers=["a"], style="ascii")
        table.add_row(["x<y"])
        self.assertEqual(str(table), "+-----+\n| a   |\n+=====+\n| x<y |\n+-----+")

    def test_notebooks_get_no_sequences(self):
        table = Table([["x<y"]], ["a"], style="ascii", colors=lambda row, column, value: "red", bold_header=True)
        self.assertEqual(table._repr_html_(), "<pre>\n+-----+\n| a   |\n+=====+\n| x&lt;y |\n+-----+</pre>")

    def test_empty_tables(self):
        self.assertEqual(tabulate([]), "")
        self.assertEqual(tabulate([], headers="keys", right="price"), "")
        self.assertEqual(tabulate([], headers="firstrow"), "")
        self.assertEqual(tabulate([[]], style="ascii"), "+---+\n|   |\n+---+")

    def test_a_drawing_that_is_much_longer_than_its_text(self):
        lines = tabulate([[""] * 40] * 300, width=4000, full=True).split("\n")
        self.assertEqual((len(lines), {len(line) for line in lines}), (302, {4000}))

    def test_threads(self):
        drawings = []
        threads = [threading.Thread(target=lambda: drawings.extend(tabulate([[i, "x"]]) for i in range(50))) for _ in range(4)]
        for thread in threads:
            thread.start()
        for thread in threads:
            thread.join()
        self.assertEqual(len(drawings), 200)
        self.assertEqual(sorted(drawings), sorted([tabulate([[i, "x"]]) for i in range(50)] * 4))


class Snippets(unittest.TestCase):
    """Calls as people write them for the package tabulate."""

    maxDiff = None

    def expect(self, drawing, wanted):
        self.assertEqual(drawing, drawn(wanted))

    def test_a_dict_of_columns(self):
        self.expect(tabulate({"name": ["Ann", "김"], "x": [1.5, 2]}, headers="keys", tablefmt="github"), """
| name |   x |
|------|----:|
| Ann  | 1.5 |
| 김   |   2 |
""")
        self.expect(tabulate({"a": [1, 2], "b": ["x"]}, headers="keys", tablefmt="outline"), """
+---+---+
| a | b |
+===+===+
| 1 | x |
| 2 |   |
+---+---+
""")

    def test_the_third_argument_is_tablefmt(self):
        self.expect(tabulate([["a", 1]], ["x", "y"], "grid"), """
+---+---+
| x | y |
+===+===+
| a | 1 |
+---+---+
""")

    def test_frames_of_tabulate(self):
        rows = [["a", 1], ["b", 22]]
        self.expect(tabulate(rows, ["x", "n"], tablefmt="fancy_grid"), """
╒═══╤════╕
│ x │  n │
╞═══╪════╡
│ a │  1 │
├───┼────┤
│ b │ 22 │
╘═══╧════╛
""")
        self.expect(tabulate(rows, ["x", "n"], tablefmt="rounded_outline"), """
╭───┬────╮
│ x │  n │
├───┼────┤
│ a │  1 │
│ b │ 22 │
╰───┴────╯
""")
        self.expect(tabulate(rows, ["x", "n"], tablefmt="pipe"), """
| x |  n |
|:--|---:|
| a |  1 |
| b | 22 |
""")
        self.assertEqual(tabulate(rows, tablefmt="plain"), "a   1\nb  22")
        self.assertEqual(tabulate(rows, ["x", "n"], tablefmt="simple"), "x   n\n-  --\na   1\nb  22")
        self.assertEqual(tabulate(rows, tablefmt="simple"), "-  --\na   1\nb  22\n-  --")
        self.assertEqual(tabulate(rows, ["", "n"], tablefmt="rst"), "==  ==\n..   n\n==  ==\na    1\nb   22\n==  ==")
        self.assertEqual(tabulate(rows, ["x", "n"], tablefmt="presto"), " x |  n\n---+----\n a |  1\n b | 22")
        self.assertEqual(tabulate(rows, ["x", "n"], tablefmt="orgtbl"), "| x |  n |\n|---+----|\n| a |  1 |\n| b | 22 |")
        self.expect(tabulate([["a", 1], ["bcd", 22]], ["x", "num"], tablefmt="pretty", left="x"), """
+-----+-----+
| x   | num |
+-----+-----+
| a   |  1  |
| bcd |  22 |
+-----+-----+
""")

    def test_gaps_between_columns(self):
        # If a text has the character that the library draws for gaps, another character is used for them.
        self.assertEqual(tabulate([["\ue000", "\ue001"]], tablefmt="plain"), "\ue000  \ue001")
        lines = tabulate([["one two three four", "five six seven"]], tablefmt="simple", width=17).split("\n")
        self.assertEqual(max(map(len, lines)), 17)
        self.assertEqual(tabulate([["a", 1]], ["x", "y"], tablefmt="plain", expanded=True), "row 1 of 1\n x    a\n y    1")

    def test_columns_in_the_middle_of_markdown(self):
        rows, names = [["a", 1], ["bcd", 22]], ["x", "num"]
        wanted = "| x   | num |\n|:---:|----:|\n| a   |   1 |\n| bcd |  22 |"
        self.assertEqual(tabulate(rows, names, tablefmt="pipe", colalign=("center",)), wanted)
        self.assertEqual(tabulate(rows, names, markdown=True, center="x"), wanted)
        colors = {"colors": lambda row, column, value: "red", "bold_header": True, "color": "always"}
        self.assertEqual(tabulate([["a", 1], ["\x1b[1mbcd\x1b[0m", 22]], names, markdown=True, center="x", ansi=True, **colors), wanted)
        self.assertEqual(tabulate(rows, names, tablefmt="pipe", left=1).split("\n")[1], "|:----|:----|")

    def test_formats_that_other_programs_make(self):
        with self.assertRaisesRegex(ValueError, "^no tablefmt 'html'; use pandoc"):
            tabulate([["a"]], tablefmt="html")
        with self.assertRaisesRegex(ValueError, "^tablefmt takes grid, simple_grid, .*, not 'grids'"):
            tabulate([["a"]], tablefmt="grids")

    def test_an_index(self):
        self.expect(tabulate([["F", 24], ["M", 19]], showindex="always", style="box"), """
┌───┬───┬────┐
│ 0 ┆ F ┆ 24 │
│ 1 ┆ M ┆ 19 │
└───┴───┴────┘
""")
        self.expect(tabulate([["F", 24], ["M", 19]], ["sex", "age"], showindex=["x", "y"], style="box"), """
┌───┬─────┬─────┐
│   ┆ sex ┆ age │
╞═══╪═════╪═════╡
│ x ┆ F   ┆  24 │
│ y ┆ M   ┆  19 │
└───┴─────┴─────┘
""")

    def test_missing_values(self):
        self.expect(tabulate([["a", None], [None, 1]], missingval="?", style="box"), """
┌───┬───┐
│ a ┆ ? │
│ ? ┆ 1 │
└───┴───┘
""")

    def test_formats_of_numbers(self):
        rows = [["pi", 3.14159, 1234567], ["e", 2.71828, 89]]
        self.expect(tabulate(rows, floatfmt=".2f", intfmt=",", style="box"), """
┌────┬──────┬───────────┐
│ pi ┆ 3.14 ┆ 1,234,567 │
│ e  ┆ 2.72 ┆        89 │
└────┴──────┴───────────┘
""")
        self.expect(tabulate([[1.5, 2.25]], floatfmt=("", ".1f"), style="box"), """
┌─────┬─────┐
│ 1.5 ┆ 2.2 │
└─────┴─────┘
""")

    def test_formats_of_columns_with_floats(self):
        rows = [[1, Decimal(1) / 3], [2.5, 4], [True, "5"]]
        self.expect(tabulate(rows, floatfmt=".2f", intfmt=",", style="box"), """
┌──────┬──────┐
│ 1.00 ┆ 0.33 │
│ 2.50 ┆ 4.00 │
│ True ┆ 5    │
└──────┴──────┘
""")
        self.assertEqual(tabulate([[1000, 1]], intfmt=",", floatfmt=".1f", tablefmt="plain"), "1,000  1")

    def test_bytes(self):
        self.assertEqual(tabulate([["ä".encode(), b"\xff"]], [b"x", "y"], tablefmt="plain"), "x  y\nä  b'\\xff'")

    def test_fewer_headers_than_columns(self):
        self.assertEqual(tabulate([["a", 1, 2], [3]], headers=["x", "y"], tablefmt="plain"), "   x  y\na  1  2\n3")

    def test_headers_that_choose_by_keys(self):
        wanted = "price  name\n    3  oats"
        record = dataclasses.make_dataclass("Record", ["name", "price"])("oats", 3)
        connection = sqlite3.connect(":memory:")
        connection.row_factory = sqlite3.Row
        selected = connection.execute("select 'oats' as name, 3 as price").fetchall()
        for rows in [{"name": "oats", "price": 3}], [record], selected, [namedtuple("Pair", "name price")("oats", 3)]:
            self.assertEqual(tabulate(rows, headers=["price", "name"], tablefmt="plain"), wanted)
            self.assertEqual(tabulate(rows, headers=[Cell("price")], tablefmt="plain"), "price\n    3")
        self.assertEqual(tabulate([record], headers=["Name", "EUR"], tablefmt="plain"), "Name  EUR\noats    3")
        self.assertEqual(tabulate({"name": ["oats"], "price": [3]}, ["Name", "EUR"], tablefmt="plain"), "Name  EUR\noats    3")
        with self.assertRaises(ValueError) as caught:
            tabulate([{"name": "oats", "price": 3}], headers=["name", "EUR"])
        self.assertEqual(str(caught.exception), "no row has the key 'EUR'; a dict of headers, {key: name}, renames keys")

    def test_sides_of_columns(self):
        self.expect(tabulate([["one", 1], ["three", 3]], colalign=("right", "left"), style="box"), """
┌───────┬───┐
│   one ┆ 1 │
│ three ┆ 3 │
└───────┴───┘
""")

    def test_columns_in_the_middle(self):
        self.expect(tabulate([["one", 1], ["three", 3]], ["word", "n"], colalign=("center", "left"), style="box"), """
┌───────┬───┐
│  word ┆ n │
╞═══════╪═══╡
│  one  ┆ 1 │
│ three ┆ 3 │
└───────┴───┘
""")

    def test_greatest_widths_of_columns(self):
        self.expect(tabulate([["John Smith", "Middle Manager"]], ["Name", "Title"], maxcolwidths=[None, 8], style="box"), """
┌────────────┬─────────┐
│ Name       ┆ Title   │
╞════════════╪═════════╡
│ John Smith ┆ Middle  │
│            ┆ Manager │
└────────────┴─────────┘
""")

    def test_controls_in_wrapped_columns(self):
        self.expect(tabulate([["\x1b[31mabcd"]], maxcolwidths=2, style="box"), """
┌────┐
│ \ufffd[ │
│ 31 │
│ ma │
│ bc │
│ d  │
└────┘
""")
        # A space at the end of the first line counts for the width.
        self.expect(tabulate([["a\tb"]], maxcolwidths=3, style="box"), """
┌────┐
│ a  │
│ b  │
└────┘
""")

    def test_headers_that_name_keys_anew(self):
        self.expect(tabulate([{"a": 1, "b": "x"}], headers={"a": "Alpha"}, style="box"), """
┌───────┬───┐
│ Alpha ┆ b │
╞═══════╪═══╡
│     1 ┆ x │
└───────┴───┘
""")

    def test_the_first_row_as_header(self):
        self.expect(tabulate([["Name", "Age"], ["Alice", 24], ["Bob", 19]], headers="firstrow", tablefmt="grid"), """
+-------+-----+
| Name  | Age |
+=======+=====+
| Alice |  24 |
+-------+-----+
| Bob   |  19 |
+-------+-----+
""")

    def test_frames_of_data(self):
        frame = Frame(["name", "age"], [("Alice", 24), ("Bob", 19)], [10, 20])
        self.expect(tabulate(frame, headers="keys", style="box"), """
┌────┬───────┬─────┐
│    ┆ name  ┆ age │
╞════╪═══════╪═════╡
│ 10 ┆ Alice ┆  24 │
│ 20 ┆ Bob   ┆  19 │
└────┴───────┴─────┘
""")
        self.expect(tabulate(frame, headers="keys", showindex=False, style="box"), """
┌───────┬─────┐
│ name  ┆ age │
╞═══════╪═════╡
│ Alice ┆  24 │
│ Bob   ┆  19 │
└───────┴─────┘
""")
        self.expect(tabulate(Series("age", [24, 19], ["a", "b"]), headers="keys", style="box"), """
┌───┬─────┐
│   ┆ age │
╞═══╪═════╡
│ a ┆  24 │
│ b ┆  19 │
└───┴─────┘
""")

    def test_arrays_of_records(self):
        self.expect(tabulate(Records(("a", "b"), [{"a": 1, "b": 2.5}]), headers="keys", style="box"), """
┌───┬─────┐
│ a ┆   b │
╞═══╪═════╡
│ 1 ┆ 2.5 │
└───┴─────┘
""")

    def test_pandas_and_numpy(self):
        try:
            import numpy
            import pandas
        except ImportError:
            self.skipTest("pandas isn't there")
        wanted = tabulate(Frame(["a", "b"], [(1, "x"), (2, "y")], [0, 1]), headers="keys")
        self.assertEqual(tabulate(pandas.DataFrame({"a": [1, 2], "b": ["x", "y"]}), headers="keys"), wanted)
        self.assertEqual(tabulate(pandas.Series([24, 19], ["a", "b"], name="age")), tabulate(Series("age", [24, 19], ["a", "b"])))
        self.assertEqual(tabulate(numpy.array([[1, 2], [3, 4]])), tabulate([[1, 2], [3, 4]]))
        array = numpy.array([(1, 2.5)], dtype=[("a", "i4"), ("b", "f8")])
        self.assertEqual(tabulate(array, headers="keys"), tabulate([{"a": 1, "b": 2.5}], headers="keys"))
        frame = pandas.DataFrame({"a": [1, 2], "b": ["x", "y"]})
        self.assertEqual(tabulate(frame, headers=["b"], tablefmt="plain"), "   b\n0  x\n1  y")
        self.assertEqual(tabulate(frame, headers=["B"], tablefmt="plain"), "      B\n0  1  x\n1  2  y")
        numbers = [[numpy.float32(1.5), numpy.int64(2000)], [numpy.int64(2), None]]
        self.assertEqual(tabulate(numbers, floatfmt=".2f", intfmt=",", tablefmt="plain"), "1.50  2,000\n2.00")


class Settings(unittest.TestCase):
    """Settings of columns, rows and cells, and frames of one's own."""

    maxDiff = None

    def expect(self, drawing, wanted):
        self.assertEqual(drawing, drawn(wanted))

    def test_widths(self):
        rows = [["oats", "two masts, teak", 3], ["rye", None, 12.5]]
        self.expect(tabulate(rows, ["name", "note", "n"], colwidths={"name": 6}, style="ascii"), """
+--------+-----------------+------+
| name   | note            |    n |
+=================================+
| oats   | two masts, teak |  3   |
|--------+-----------------+------|
| rye    |                 | 12.5 |
+--------+-----------------+------+
""")
        self.expect(tabulate(rows, mincolwidths=[None, None, 6], maxcolwidths=[3, 10], style="box"), """
┌─────┬────────────┬────────┐
│ oat ┆ two masts, ┆    3   │
│ s   ┆ teak       ┆        │
├╌╌╌╌╌┼╌╌╌╌╌╌╌╌╌╌╌╌┼╌╌╌╌╌╌╌╌┤
│ rye ┆            ┆   12.5 │
└─────┴────────────┴────────┘
""")
        # Least and greatest widths of columns hold within the table's width, and numbers stay whole.
        self.expect(tabulate(rows, mincolwidths={0: 6}, maxcolwidths={1: 12}, width=28, row_lines=False), """
╭────────┬──────────┬──────╮
│ oats   ┆ two      ┆  3   │
│        ┆ masts,   ┆      │
│        ┆ teak     ┆      │
│ rye    ┆          ┆ 12.5 │
╰────────┴──────────┴──────╯
""")

    def test_padding_and_hidden_columns(self):
        self.expect(tabulate([["a", "b", "c"]], ["x", "y", "z"], hidden="y", padding={"x": (0, 3), "z": 0}, style="ascii"), """
+----+-+
|x   |z|
+======+
|a   |c|
+----+-+
""")
        self.assertEqual(tabulate([["a", "b"]], hidden=-1, style="ascii"), "+---+\n| a |\n+---+")
        self.assertEqual(tabulate([["a"]], padding=(2, 0), style="ascii"), "+---+\n|  a|\n+---+")

    def test_cells(self):
        rows = [[Cell("wide text"), Cell(-1000, "bold #ff0000 on_blue")], [Cell("x", align="right"), Cell(None, align="center")]]
        self.expect(tabulate(rows, [Cell("a", "underline", "center"), "b"], style="ascii", intfmt=",", missingval="n/a", color="always"), """
+-----------+--------+
|\x1b[4m     a     \x1b[0m|      b |
+====================+
| wide text |\x1b[48;5;4m\x1b[38;2;255;0;0m\x1b[1m -1,000 \x1b[0m|
|-----------+--------|
|         x |   n/a  |
+-----------+--------+
""")

    def test_cells_beside_colours_by_value(self):
        called = []
        drawing = tabulate([[Cell("a", "on_#010203"), 1]], colors=lambda *values: called.append(values) or "red", style="ascii", color="always")
        self.assertEqual(called, [(0, 0, "a"), (0, 1, 1)])
        self.assertIn("|\x1b[48;2;1;2;3m \x1b[31ma\x1b[0m", drawing)
        self.assertIn("| \x1b[31m1\x1b[0m |", drawing)

    def test_cells_and_columns_in_the_middle_if_rows_may_be_expanded(self):
        rows, names = [[Cell("late", "red"), "a long remark on it"]], ["state", "remark"]
        settings = {"expanded": "auto", "style": "ascii", "color": "always", "center": 1}
        self.assertEqual(tabulate(rows, names, width=40, **settings), tabulate(rows, names, **{**settings, "expanded": False}))
        self.assertEqual(tabulate(rows, names, **settings), tabulate(rows, names, **{**settings, "expanded": False}))
        self.assertEqual(
            tabulate(rows, names, width=8, **settings), tabulate([["late", "a long remark on it"]], names, width=8, expanded=True, style="ascii")
        )

    def test_cells_in_notebooks(self):
        table = Table([[Cell("x<y", "bold red")]], [Cell("a", "bold")], style="ascii")
        self.assertEqual(table._repr_html_(), "<pre>\n+-----+\n| a   |\n+=====+\n| x&lt;y |\n+-----+</pre>")

    def test_controls_in_cells(self):
        self.expect(tabulate([[Cell("a\tb\r\nc"), "\x1b[31m\0"], ["\ufeffid", "\u202e \t|"]], style="box"), """
┌───────┬────────┐
│ a   b ┆ \ufffd[31m\ufffd │
│ c     ┆        │
├╌╌╌╌╌╌╌┼╌╌╌╌╌╌╌╌┤
│ \ufeffid    ┆ \ufffd   |  │
└───────┴────────┘
""")

    def test_heights_of_rows(self):
        self.expect(tabulate([["long\nb\nc"], ["d\ne"], ["f\ng"]], max_height=[2, 1], style="ascii", row_lines=False), """
+------+
| long |
| b…   |
| d…   |
| f    |
| g    |
+------+
""")

    def test_a_limit(self):
        self.assertEqual(tabulate([["a"], ["b", "c"]], limit=1, center=0, style="ascii"), "+---+\n| a |\n+---+\n1 of 2 rows")
        with self.assertRaises(ValueError):
            tabulate([["a"]], limit=0, center=0)

    def test_a_frame_of_six_lines(self):
        frame = ("╔═╦╗", "║ ║║", "╠═╬╣", "║ │║", "╟─┼╢", "╚═╩╝")
        rows = [["a", "b"], ["c", "d"]]
        self.expect(tabulate(rows, ["x", "y"], style=frame), """
╔═══╦═══╗
║ x ║ y ║
╠═══╬═══╣
║ a │ b ║
╟───┼───╢
║ c │ d ║
╚═══╩═══╝
""")
        self.assertEqual(tabulate(rows, style=["", "   !", "", "", "", "    "], padding=0), "ab \ncd ")
        self.expect(tabulate(rows[:1], ["x", "y"], style=frame, expanded=True), """
row 1 of 1
╔═══╦═══╗
║ x │ a ║
╟───┼───╢
║ y │ b ║
╚═══╩═══╝
""")

    def test_settings_without_meaning_are_refused(self):
        for settings, message in [
            ({"center": "c"}, "no column 'c'"),
            ({"center": 0, "right": 0}, "the column at position 0 is in both right and center"),
            ({"colwidths": 0}, "colwidths takes whole numbers from 1 to 65533, not 0"),
            ({"mincolwidths": {1: "2"}}, "mincolwidths takes whole numbers from 1 to 65533, not '2'"),
            ({"colwidths": 2, "maxcolwidths": 3}, "the column at position 0 has an exact width, so it can't have another"),
            ({"mincolwidths": 4, "maxcolwidths": 3}, "the column at position 0 has a least width above its greatest width"),
            ({"padding": -1}, "padding takes a whole number from 0 to 65535, a pair of them for left and right, or a dict, not -1"),
            ({"hidden": [0, 1]}, "no column is left that isn't hidden"),
            ({"max_height": [1, -2]}, "max_height takes a whole number from 0 on or None, not -2"),
            ({"style": ["+-++"]}, "a frame has six lines, each of four printable characters or none, not ['+-++']"),
            ({"style": ["+-++"] * 6}, "a line of texts has no fill, so the second character of '+-++' must be a space"),
            ({"center": 0, "expanded": True}, "expanded rows have no center"),
            ({"padding": 0, "expanded": "auto"}, "expanded rows have no padding"),
            ({"maxcolwidths": 9, "tablefmt": "github"}, "a table for Markdown has no maxcolwidths"),
        ]:
            with self.assertRaises(ValueError, msg=settings) as caught:
                tabulate([["x", "y"]], **settings)
            self.assertEqual(str(caught.exception), message)
        for arguments in ("x", "pink"), ("x", "on_bold"), ("x", "#12345"), ("x", None, "middle"):
            with self.assertRaises(ValueError, msg=arguments):
                Cell(*arguments)
        with self.assertRaises(TypeError):
            tabulate([Cell("x")])


class Frame:
    """The part of a DataFrame that the package uses."""

    def __init__(self, columns, rows, index):
        self.columns, self._rows, self.index = columns, rows, Index(index)

    def itertuples(self, index, name):
        return iter(self._rows)


class Index(list):
    name = None


class Series:
    """The part of a Series that the package uses."""

    dtype = object()

    def __init__(self, name, values, index):
        self.name, self._values, self.index = name, values, Index(index)

    def __iter__(self):
        return iter(self._values)

    def items(self):
        return zip(self.index, self._values)


class Records(list):
    """The part of a structured array that the package uses."""

    def __init__(self, names, rows):
        super().__init__(rows)
        self.dtype = namedtuple("Type", "names")(names)


class Messages(unittest.TestCase):
    """The messages for wrong parameters."""

    def expect(self, kind, message, rows=((1, 2),), **settings):
        with self.assertRaises(kind) as caught:
            tabulate(rows, **settings)
        self.assertEqual(str(caught.exception), message)

    def test_settings_of_tabulate_that_are_not_here(self):
        self.expect(TypeError, "tabulate has no setting 'numalign'; use left, right and align_decimals", numalign="left")
        self.expect(TypeError, "tabulate has no setting 'witdh'", witdh=3)

    def test_values(self):
        self.expect(
            ValueError,
            "style takes rounded, box, grid, ascii, plain, markdown or a preset such as \"UTF8_FULL\", not 'github'; "
            "tablefmt='github' is one",
            style="github",
        )
        self.expect(ValueError, "width takes a whole number from 0 to 65535, \"terminal\" or None, not 10.5", width=10.5)
        self.expect(ValueError, "width takes a whole number from 0 to 65535, \"terminal\" or None, not 65536", width=65536)
        self.expect(ValueError, "limit takes a whole number from 0 on or None, not -1", limit=-1)
        self.expect(ValueError, "expanded takes True, False or \"auto\", not 'yes'", expanded="yes")
        self.expect(ValueError, "style and tablefmt both set the frame; pass one of them", style="box", tablefmt="grid")
        self.expect(ValueError, "showindex has 1 values for 2 rows", rows=[[1], [2]], showindex=["a"])
        self.expect(ValueError, "colalign takes \"left\", \"right\", \"center\", \"decimal\" or None for each column, not 'middle'", colalign=["middle"])

    def test_rows(self):
        self.expect(TypeError, "a row must be a list of cells, not 1; for one column pass [[value], ..]", rows=[1, 2])
        self.expect(TypeError, "rows must be a list of rows, not 'text'", rows="text")


class Interface(unittest.TestCase):
    def test_types_are_written_out(self):
        hints = typing.get_type_hints(tabulate)
        self.assertIn("maxcolwidths", hints)
        self.assertIs(hints["return"], str)
        self.assertEqual(typing.get_type_hints(Table)["full"], bool)

    def test_tables_have_attributes(self):
        table = Table([["x"]], style="ascii")
        self.assertEqual((repr(table), len(table)), ("+---+\n| x |\n+---+", 1))
        table.style = "box"
        self.assertEqual(str(table), "┌───┐\n│ x │\n└───┘")

    def test_a_version(self):
        project = (Path(__file__).parent.parent / "pyproject.toml").read_text()
        self.assertIn(f'version = "{comfy_table_proved.__version__}"', project)

    def test_the_module_draws_a_file(self):
        def run(*arguments, given=b""):
            return subprocess.run([sys.executable, "-m", "comfy_table_proved", *arguments], input=given, capture_output=True)

        with tempfile.TemporaryDirectory() as folder:
            file = Path(folder) / "prices.csv"
            file.write_text("name,price\noats,3\n")
            wanted = b"+------+-------+\n| name | price |\n+==============+\n| oats |     3 |\n+------+-------+\n"
            self.assertEqual(run(file, "-s", "ascii").stdout, wanted)
            for options in ["-s", "ascii"], ["-sascii"], ["-ts", "ascii", "-d,"], ["--style", "ascii"], ["--style=ascii"], ["-w", "60", "-s", "ascii"], ["-s", "ascii", "--"]:
                self.assertEqual(run(*options, file, given=b"of standard input").stdout, wanted, options)
            self.assertEqual(run("-c", "name", file, "-s", "ascii", "--drop", "price").stdout.count(b"|"), 4)
            second = run(file, "-s", "ascii", file)
            self.assertEqual((second.returncode, second.stdout), (1, b""))
            self.assertIn(b"draws one file", second.stderr)
        for arguments in ["-", "-s", "ascii"], ["-s", "ascii", "-"], ["-s", "ascii"]:
            self.assertEqual(run(*arguments, given=b"name,price\noats,3\n").stdout, wanted)
        refused = run("no/such.csv")
        self.assertEqual((refused.returncode, refused.stdout), (1, b""))
        self.assertIn(b"No such file", refused.stderr)


# Pieces of texts: of many scripts, of CSV, of options, and control sequences of terminals.
PIECES = [
    "word", "two words", "Ångström", "Ελένη", "Анна", "רות", "ليلى", "กมล", "王小明", "김철수", "नमस्ते", "👨‍👩‍👧", "🇩🇪", "e\u0301",
    ",", ";", "|", '"', '""', "'", "\t", "\n", "\r", "\r\n", "\x1b", "\x1b[31m", "\0", "\x07", "\x9b", "\ufeff", "\u202e",
    "sep=;", "-", "--raw", "=", "\\", "#", " ", "\u00a0", "12", "-3.5", "1,150.00", "(12)", "7 %", "€ 9", "n/a", "2026-11-27", "1e9",
]
VALUES = [None, 0, -7, 12345678901234567890, 2.5, -0.125, 1e300, float("nan"), True, "", "12", "-12.80"]

# Settings, and options of csvtable with the same effect. From each line, one pair is chosen.
CHOICES = [
    [({}, []), ({"width": 30}, ["-w", "30"]), ({"width": 80}, ["-w", "80"]), ({"width": 60, "full": True}, ["-w", "60", "--full"])],
    [({}, ["--expanded", "never"]), ({}, ["--expanded", "never"]), ({"expanded": True}, ["-x"]), ({"expanded": "auto"}, [])],
    [({}, []), ({"row_lines": True}, ["--rows"]), ({"row_lines": False}, ["--no-rows"])],
    [({}, []), ({"style": "grid"}, ["-s", "grid"]), ({"style": "UTF8_HORIZONTAL_ONLY"}, ["-s", "utf8_horizontal_only"])],
    [({}, []), ({"limit": 3}, ["--limit", "3"]), ({"max_height": 2}, ["-m", "2"]), ({"bold_header": True, "color": "always"}, ["--color", "always"])],
]
MARKDOWN = {"markdown": True}, ["--markdown"]


def random_value(chance):
    if chance.random() < 0.4:
        return chance.choice(VALUES)
    return "".join(chance.choice(PIECES) for _ in range(chance.randint(1, 4)))


def random_rows(chance):
    return [[random_value(chance) for _ in range(chance.randint(0, 5))] for _ in range(chance.randint(0, 8))]


def random_settings(chance):
    """Random settings, and options of csvtable with the same effect."""
    chosen = [MARKDOWN] if chance.random() < 0.1 else [chance.choice(line) for line in CHOICES]
    settings = {name: value for wanted, _ in chosen for name, value in wanted.items()}
    return settings, [word for _, words in chosen for word in words]


def text_of(value):
    return "" if value is None else str(value)


def csv_of(rows):
    """The rows as Python's csv module writes them, with few quotes."""
    written = io.StringIO()
    csv.writer(written).writerows(row or [""] for row in rows)
    text = written.getvalue()
    # csvtable drops a byte-order mark at the beginning of a file, so a text that begins with one gets a second one.
    return "\ufeff" + text if text.startswith("\ufeff") else text


def by_csvtable(text, words):
    surroundings = {name: value for name, value in os.environ.items() if name not in ("COLUMNS", "NO_COLOR")}
    # Without -c, csvtable leaves out last columns that have neither a name nor a field. Rows keep all their columns.
    ran = subprocess.run([CSVTABLE, "-d", ",", "-e", "utf-8", "-c", "1-", *words], input=text.encode(), capture_output=True, env=surroundings)
    # csvtable prints a note after a drawing if records have more fields than the header.
    reported = re.sub(r"^csvtable: standard input: line \d+ has \d+ fields, the header has \d+.*\n", "", ran.stderr.decode())
    return ran.stdout.decode() + reported


FRAMES = ["rounded", "box", "ascii", "plain", "ASCII_FULL_CONDENSED", "ASCII_NO_BORDERS", "ASCII_BORDERS_ONLY", "ASCII_MARKDOWN"]
FRAMES += ["ASCII_BORDERS_ONLY_CONDENSED", "ASCII_HORIZONTAL_ONLY", "UTF8_FULL_CONDENSED", "UTF8_NO_BORDERS", "UTF8_BORDERS_ONLY"]


class RandomCells(unittest.TestCase):
    """Settings of cells and rows that change nothing."""

    maxDiff = None

    def test_cells_without_colours_are_drawn_as_their_values(self):
        for seed in range(1000):
            chance = random.Random(seed)
            rows = [[value, chance.choice(["-12.80", 3, 2.5, "2026-11-27", None])] for row in random_rows(chance) for value in row]
            settings = {name: value for line in CHOICES for name, value in chance.choice(line)[0].items() if name != "expanded"}
            settings.setdefault("style", chance.choice(FRAMES))
            if chance.random() < 0.5:
                settings["headers"] = "firstrow"
            if chance.random() < 0.2:
                settings["colors"] = lambda row, column, value: "red" if row % 2 else None
                settings["color"] = "always"
            if chance.random() < 0.3:
                settings["width"] = chance.randint(9, 30)
            wanted = tabulate(rows, **settings)
            if chance.random() < 0.5 and "max_height" in settings:
                settings["max_height"] = [settings["max_height"]] * len(rows)
            cells = [[Cell(value) for value in row] for row in rows]
            self.assertEqual(tabulate(cells, **settings), wanted, (seed, rows, settings))


@unittest.skipUnless(CSVTABLE, "CSVTABLE isn't set")
class RandomRows(unittest.TestCase):
    maxDiff = None

    def test_rows_are_drawn_as_csvtable_draws_their_csv(self):
        for seed in range(1000):
            chance = random.Random(seed)
            rows, (settings, words) = random_rows(chance), random_settings(chance)
            if chance.random() < 0.5 and rows:
                drawing = tabulate(rows, headers="firstrow", **settings)
                # If the second row has more columns, the first columns have no name.
                rows[0] = [""] * (len(rows[1]) - len(rows[0]) if len(rows) > 1 and rows[0] else 0) + rows[0]
            else:
                drawing, words = tabulate(rows, **settings), [*words, "-n"]
            text = csv_of([[text_of(value) for value in row] for row in rows])
            counted = by_csvtable(text, words).replace(" records\n", " rows\n")
            wanted = re.sub(r"^record (?=\d+ of \d+$)", "row ", counted, flags=re.MULTILINE)
            self.assertEqual(drawing + "\n" if drawing else "", wanted, (seed, rows, settings))

    def test_colours_are_sequences_in_fields(self):
        for seed in range(200):
            chance = random.Random(seed)
            rows = random_rows(chance)
            drawing = tabulate(rows, colors=lambda row, column, value: "red" if (row + column) % 2 else None, color="always")
            texts = [[text_of(value).replace("\x1b", "\ufffd") for value in row] for row in rows]
            painted = [[f"\x1b[31m{text}\x1b[0m" if (row + at) % 2 else text for at, text in enumerate(it)] for row, it in enumerate(texts)]
            wanted = by_csvtable(csv_of(painted), ["-n", "--ansi", "--expanded", "never"])
            self.assertEqual(drawing + "\n" if drawing else "", wanted, (seed, rows))


class Examples(unittest.TestCase):
    def test_they_draw_the_tables_of_their_comments(self):
        for name in "boats.py", "report.py":
            program = EXAMPLES / name
            ran = subprocess.run([sys.executable, program], capture_output=True, check=True, env={**os.environ, "PYTHONIOENCODING": "utf-8"})
            reported = program.read_text().split('"""')[1]
            self.assertEqual(re.sub("\x1b\\[[0-9;]*m", "", ran.stdout.decode()), reported.split("\n\n", 1)[1])


def load_tests(loader, tests, pattern):
    tests.addTests(doctest.DocTestSuite(comfy_table_proved))
    return tests


if __name__ == "__main__":
    unittest.main()
