"""Tests with calls of the package tabulate. Each drawing equals the stored drawing of tabulate, or differs from it as TABULATE.md
says."""

import json
import random
import re
import shutil
import subprocess
import tempfile
import unittest
from pathlib import Path

import comfy_table_proved
from tabulate_calls import CALLS, SAME, WIDER, drawing

HERE = Path(__file__).parent
STORED = json.loads((HERE / "tabulate_answers.json").read_text(encoding="utf-8"))
ROWS = [["spam", 41.5], ["eggs", "two\nlines"]]


def ours(call):
    return drawing(call, comfy_table_proved.tabulate, ansi=True)


def ours_with_wider_columns(call):
    """The drawing of a call. Each column is at least two terminal columns wider than its header, as in tabulate."""

    def tabulate(*arguments, **settings):
        table = comfy_table_proved.Table(*arguments, **settings)
        header = comfy_table_proved._rows.values_of(table.rows, table.headers, table.showindex).header or []
        table.mincolwidths = {position: len(str(name)) + 2 for position, name in enumerate(header)}
        return str(table)

    return drawing(call, tabulate, ansi=True)


def rows_of_page():
    page = (HERE.parent / "TABULATE.md").read_text(encoding="utf-8")
    lines = re.findall(r"^\| (.*) \|$", page, re.MULTILINE)[1:]
    return [line.split(" | ")[0].replace("\\|", "|") for line in lines]


KINDS = {
    "words": ["a", "word", "two words", "x-y", "Ann", "end", "b c d", "n/s", "two\nlines"],
    "ints": [0, 7, -12, 345, 67890, -1000],
    "floats": [0.5, 1.25, -3.75, 10.5, 100.125],
}


def random_call(chance):
    """A random call to which no row of TABULATE.md applies. Each column and each row has a value."""
    kinds = [chance.choice([*KINDS.values()]) for _ in range(chance.randint(1, 4))]
    rows = [[chance.choice(kind) for kind in kinds] for _ in range(chance.randint(1, 4))]
    has_lines = any("\n" in str(value) for row in rows for value in row)
    formats = "plain simple grid fancy_grid orgtbl presto psql".split() + ["rst", "fancy_outline"] * (not has_lines)
    settings = {"tablefmt": chance.choice(formats)}
    if chance.random() < 0.6:
        count = len(kinds) if settings["tablefmt"] == "rst" else chance.randint(1, len(kinds))
        settings["headers"] = ["name" * chance.randint(1, 3) for _ in range(count)]
    if chance.random() < 0.3:
        settings["floatfmt"] = ".2f"
    if chance.random() < 0.2 and settings["tablefmt"] != "rst":
        settings["showindex"] = True
    if len(kinds) > 1 and len(rows) > 1 and settings["tablefmt"] != "rst":
        rows[chance.randrange(len(rows))][chance.randrange(len(kinds))] = None
    return f"tabulate({rows!r}, **{settings!r})"


class Tabulate(unittest.TestCase):
    maxDiff = None

    def test_same_drawings(self):
        for call in CALLS[SAME]:
            self.assertEqual(ours(call), STORED["answers"][call], call)

    def test_same_drawings_but_for_widths(self):
        for call in CALLS[WIDER]:
            self.assertNotEqual(ours(call), STORED["answers"][call], call)
            self.assertEqual(ours_with_wider_columns(call), STORED["answers"][call], call)

    def test_other_differences(self):
        for row, calls in CALLS.items():
            for call in calls if row not in (SAME, WIDER) else []:
                drawn = ours(call)
                self.assertNotEqual(drawn, STORED["answers"][call], call)
                self.assertNotEqual(ours_with_wider_columns(call), STORED["answers"][call], call)
                self.assertEqual(bool(re.match(r"\w+Error: ", drawn)), row.endswith(" refused"), (call, drawn))

    def test_the_page_has_each_difference(self):
        self.assertEqual(rows_of_page(), [row for row in CALLS if row != SAME])

    def test_the_page_has_the_number_of_calls(self):
        page = (HERE.parent / "TABULATE.md").read_text(encoding="utf-8")
        counts = [sum(map(len, CALLS.values())), len(CALLS[SAME]), len(CALLS[WIDER])]
        reported = re.search(r"(\d+) calls were compared.* (\d+) calls draw the same bytes, and (\d+) do if", page, re.DOTALL)
        self.assertEqual([int(count) for count in reported.groups()], counts)

    def installed(self):
        try:
            import tabulate
        except ImportError:
            self.skipTest("tabulate isn't there")
        if tabulate.__version__ != STORED["version"] or tabulate.wcwidth is not None:
            self.skipTest(f"the answers are those of tabulate {STORED['version']} without wcwidth, and {tabulate.__version__} is there")
        return tabulate.tabulate

    def test_the_installed_package_still_says_so(self):
        tabulate = self.installed()
        for call, answer in STORED["answers"].items():
            self.assertEqual(drawing(call, tabulate), answer, call)

    def test_random_tables(self):
        tabulate = self.installed()
        for seed in range(5000):
            call = random_call(random.Random(seed))
            self.assertEqual(ours_with_wider_columns(call), drawing(call, tabulate), (seed, call))


class Readers(unittest.TestCase):
    """Tests in which other programs read the cells of a drawing."""

    def cells_by(self, program, *arguments, rows=ROWS, tablefmt):
        if not shutil.which(program):
            self.skipTest(f"{program} isn't there")
        with tempfile.TemporaryDirectory() as folder:
            file = Path(folder) / "table"
            file.write_text(comfy_table_proved.tabulate(rows, ["item", "qty"], tablefmt) + "\n")
            ran = subprocess.run([program, *arguments, file], capture_output=True, check=True, encoding="utf-8")
        self.assertEqual(ran.stderr, "")
        cells = re.findall(r"<t[dh][^>]*>(.*?)</t[dh]>", ran.stdout, re.DOTALL)
        return [re.sub(r"<[^>]*>|\s+", " ", cell).split() for cell in cells]

    def test_docutils(self):
        wanted = [["item"], ["qty"], ["spam"], ["41.5"], ["eggs"], ["two", "lines"]]
        self.assertEqual(self.cells_by("rst2html", tablefmt="grid"), wanted)
        self.assertEqual(self.cells_by("rst2html", tablefmt="rst", rows=ROWS[:1]), wanted[:4])

    def test_pandoc(self):
        wanted = [["item"], ["qty"], ["spam"], ["41.5"], ["eggs"], ["two", "lines"]]
        self.assertEqual(self.cells_by("pandoc", "-f", "markdown", "-t", "html", tablefmt="grid"), wanted)
        self.assertEqual(self.cells_by("pandoc", "-f", "rst", "-t", "html", tablefmt="grid"), wanted)
        self.assertEqual(self.cells_by("pandoc", "-f", "org", "-t", "html", tablefmt="orgtbl", rows=ROWS[:1]), wanted[:4])
        self.assertEqual(self.cells_by("pandoc", "-f", "markdown", "-t", "html", tablefmt="pipe", rows=ROWS[:1]), wanted[:4])


if __name__ == "__main__":
    unittest.main()
