"""Calls of the package tabulate, sorted by the difference to the drawings of comfy_table_proved.

    tabulate_calls.py

prints the drawings of the installed tabulate, in the form of tabulate_answers.json. The keys of CALLS are the rows of TABULATE.md.
"""

import collections
import dataclasses
import datetime
import decimal
import enum
import fractions
import json
import sqlite3

PLANETS = [["Sun", 696000, 1989100000], ["Earth", 6371, 5973.6], ["Moon", 1737, 73.5], ["Mars", 3390, 641.85]]
FOODS = [["spam", 41.5], ["eggs", 451.25]]
GOODS = [{"name": "oats", "price": 3}, {"name": "rye", "price": 12}]
Pair = collections.namedtuple("Pair", "name price")


@dataclasses.dataclass
class Boat:
    name: str
    length: int


class Tide(enum.Enum):
    LOW = 1


def cursor():
    connection = sqlite3.connect(":memory:")
    return connection.execute("select 1 as id, 'oats' as name union select 2, 'rye'")


SAME = ""
WIDER = "a column is as wide as its header"
CALLS = {
    SAME: [
        *[f"tabulate(FOODS, tablefmt={name!r})" for name in "plain simple grid fancy_grid fancy_outline orgtbl presto psql rst".split()],
        "tabulate(GOODS, tablefmt='grid')",
        "tabulate([Pair('oats', 3)], tablefmt='grid')",
        "tabulate({'name': ['oats', 'rye'], 'price': [3]}, tablefmt='psql')",
        "tabulate({'k': 1, 'l': 22}.items(), tablefmt='grid')",
        "tabulate(collections.Counter('abracadabra').most_common(2), tablefmt='grid')",
        "tabulate(zip('ab', [1, 2]), tablefmt='grid')",
        "tabulate(((i * j for j in range(3)) for i in range(2)), tablefmt='grid')",
        "tabulate([['F', 24], ['M', 19]], showindex='always', tablefmt='grid')",
        "tabulate([['F', 24], ['M', 19]], showindex=['r1', 'r2'], tablefmt='psql')",
        "tabulate([['a'], ['b', 'c', 'd']], tablefmt='grid')",
        "tabulate([[1.2345], [123.45], [12.345], [12345], [1234.5]], tablefmt='grid')",
        "tabulate([['pi', 3.141593], ['e', 2.718282]], tablefmt='grid', floatfmt='.4f')",
        "tabulate([[0.12345, 0.12345, 0.12345]], tablefmt='grid', floatfmt=('.1f', '.3f', '.2f'))",
        "tabulate([[1], [2.5], [3]], tablefmt='simple', floatfmt='.2f')",
        "tabulate([[decimal.Decimal('3.14159')]], tablefmt='grid', floatfmt='.2f')",
        "tabulate([[None, 'b'], ['a', None]], tablefmt='grid', missingval='?')",
        "tabulate([[1, 'x'], [None, 'y'], [33, None]], tablefmt='grid')",
        "tabulate([['one', 'two'], ['three', 'four']], colalign=('right', 'left'), tablefmt='grid')",
        "tabulate([[True, None], [False, 'x']], tablefmt='grid')",
        "tabulate([[datetime.date(2026, 1, 2), datetime.timedelta(1)]], tablefmt='grid')",
        "tabulate([[b'abc', 1]], tablefmt='grid')",
        "tabulate([[Tide.LOW, [1, 2]]], tablefmt='grid')",
        "tabulate([['a\\nb', 1], ['c', 2]], tablefmt='grid')",
        "tabulate([])",
        "tabulate([['', 1], ['b', 2]], tablefmt='rst')",
        "tabulate([['\\x1b[31mred\\x1b[0m', 1], ['plain', 2]], tablefmt='grid', **ANSI)",
        "tabulate(cursor().fetchall(), tablefmt='grid')",
        "tabulate([[-1], [10], [-100]], tablefmt='grid')",
    ],
    WIDER: [
        *[f"tabulate(FOODS, ['item', 'qty'], {name!r})" for name in "plain simple grid fancy_grid fancy_outline orgtbl presto psql rst".split()],
        "tabulate([['Name', 'Age'], ['Alice', 24], ['Bob', 19]], headers='firstrow', tablefmt='grid')",
        "tabulate({'Name': ['Alice', 'Bob'], 'Age': [24, 19]}, headers='keys', tablefmt='psql')",
        "tabulate([{'a': 1, 'b': 2}, {'b': 3, 'c': 4}], headers='keys', tablefmt='grid')",
        "tabulate(GOODS, headers={'name': 'Name', 'price': 'EUR'}, tablefmt='grid')",
        "tabulate([Pair('oats', 3)], headers='keys', tablefmt='grid')",
        "tabulate([Pair('oats', 3)], headers=['Name', 'EUR'], tablefmt='grid')",
        "tabulate([['a', 1, 2]], headers=['x', 'y'], tablefmt='grid')",
        "tabulate([['F', 24], ['M', 19]], headers=['sex', 'age'], showindex=True, tablefmt='grid')",
        "tabulate([], headers=['a', 'b'], tablefmt='grid')",
        "tabulate(cursor(), headers='keys', tablefmt='grid')",
        "tabulate(cursor().fetchall(), headers=['id', 'name'], tablefmt='simple')",
        "tabulate([['a\\nb', 1], ['c', 2]], headers=['x', 'n'], tablefmt='psql')",
    ],
    "without `tablefmt`, the frame has round corners": ["tabulate(FOODS)", "tabulate(FOODS, ['item', 'qty'])"],
    "in `github`, colons show at which side a column is aligned": ["tabulate(FOODS, ['item', 'qty'], 'github')"],
    "a table for Markdown always has a header": ["tabulate(FOODS, tablefmt='pipe')", "tabulate(FOODS, tablefmt='github')"],
    "decimal points in Markdown aren't below each other": ["tabulate([['a', 1.5], ['b', 22]], ['x', 'n'], tablefmt='pipe')"],
    "`|` and other marks in Markdown are escaped": ["tabulate([['a|b', 1], ['*', 2]], headers=['x', 'n'], tablefmt='pipe')"],
    "if the spaces around a centred text can't be halved, the larger part is before the text": ["tabulate([['a'], ['bcde']], tablefmt='pretty')"],
    "floats are as `str` writes them": [
        "tabulate([[0.1 + 0.2], [1e-7]], tablefmt='grid')",
        "tabulate([[12345678.9]], tablefmt='plain')",
        "tabulate(PLANETS, tablefmt='simple')",
        "tabulate(PLANETS, headers=['Planet', 'R (km)', 'mass (x 10^29 kg)'], tablefmt='grid')",
    ],
    "texts that look like numbers stay as they are": [
        "tabulate([['451.0'], ['007']], tablefmt='grid')",
        "tabulate([['3.14159']], tablefmt='grid', floatfmt='.2f')",
        "tabulate([['1e5'], ['2.5']], tablefmt='grid')",
    ],
    "floats are written by `floatfmt`, even if their column has a text": ["tabulate([[2.5], ['n/s']], tablefmt='grid', floatfmt='.2f')"],
    "a fraction is as `str` writes it": ["tabulate([[fractions.Fraction(1, 3)]], tablefmt='grid')"],
    "ints are written by `intfmt`": ["tabulate([[1234567]], tablefmt='grid', intfmt=',')"],
    "amounts of money and percentages are numbers": ["tabulate([['$ 3'], ['$ 12.50']], tablefmt='grid')"],
    "a `missingval` such as `?` makes a column of numbers a column of texts": ["tabulate([[1], [None], [33]], tablefmt='grid', missingval='?')"],
    "`nan` ends at the right edge of its column": ["tabulate([['x', float('nan')], ['y', 1.5]], tablefmt='psql')"],
    "spaces at the beginning of texts stay": ["tabulate([['  a'], ['bbbb']], tablefmt='grid')"],
    "a character takes as many terminal columns as terminals give it": [
        "tabulate([['年', 1], ['é', 2]], tablefmt='grid')",
        "tabulate([['👩\\u200d🚀'], ['abcd']], tablefmt='psql')",
    ],
    "without `ansi`, colours in values aren't kept": ["tabulate([['\\x1b[31mred\\x1b[0m', 1]], tablefmt='grid')"],
    "a list of keys as `headers` chooses columns": ["tabulate([Pair('oats', 3)], headers=['price', 'name'], tablefmt='grid')"],
    "a column that has only a header is drawn": ["tabulate([['a']], headers=['x', 'y'], tablefmt='grid')"],
    "a table with one empty row has one empty cell": ["tabulate([[]], tablefmt='grid')"],
    "if other texts have several lines, a row of empty texts is still one line": ["tabulate([['a\\nb'], [''], ['c']], tablefmt='grid')"],
    "texts can have several lines in each format": ["tabulate([['a\\nb', 1]], tablefmt='fancy_outline')"],
    "a column without texts is one terminal column wide": ["tabulate([[None, 1], ['', 2]], tablefmt='simple')"],
    "in the first column of `rst`, None becomes `..`, as an empty text does": ["tabulate([[None, 1], ['b', 2]], tablefmt='rst')"],
    "numbers at the right have their decimal points below each other": ["tabulate([[1.5], [10.25]], tablefmt='grid', colalign=['right'])"],
    "a dataclass has keys": ["tabulate([Boat('Albatross', 9)], headers='keys', tablefmt='grid')"],
    "there are `left`, `right`, `center` and other settings": [
        "tabulate(FOODS, tablefmt='grid', center=0)",
        "tabulate(FOODS, tablefmt='pretty', left=0)",
    ],
    "if rows are dicts, a list of headers that aren't keys is refused": ["tabulate(GOODS, headers=['Name', 'EUR'])"],
    "formats such as `html` and `latex` are refused": [
        *[f"tabulate(FOODS, tablefmt={name!r})" for name in "html unsafehtml latex latex_booktabs mediawiki jira textile tsv".split()],
        "tabulate(FOODS, tablefmt='moinmoin')",
    ],
    "`numalign`, `stralign` and `disable_numparse` are refused": [
        "tabulate(PLANETS, tablefmt='grid', numalign='left')",
        "tabulate(PLANETS, tablefmt='grid', stralign='center')",
        "tabulate([['007', '1e5']], tablefmt='grid', disable_numparse=True)",
    ],
    "a row that is a text or a number is refused": ["tabulate(['ab', 'cd'], tablefmt='grid')", "tabulate([1, 2], tablefmt='grid')"],
}


def drawing(call, tabulate, ansi=False):
    """The drawing of a call, or the error that it raises."""
    try:
        return eval(call, {**globals(), "tabulate": tabulate, "ANSI": {"ansi": True} if ansi else {}})
    except Exception as error:
        return f"{type(error).__name__}: {error}"


def main():
    import tabulate

    assert tabulate.wcwidth is None, "the answers are those without the package wcwidth"
    answers = {call: drawing(call, tabulate.tabulate) for calls in CALLS.values() for call in calls}
    print(json.dumps({"version": tabulate.__version__, "answers": answers}, ensure_ascii=False, indent=1))


if __name__ == "__main__":
    main()
