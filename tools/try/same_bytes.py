#!/usr/bin/env python3
"""Draws random inputs by two builds of csvtable or ctable, and prints the inputs for which they differ.

    tools/try/same_bytes.py csvtable|ctable OLD NEW [FIRST] COUNT

OLD and NEW are two builds of the program. Their files need the same name, because the help has this name in it. An input is made
from each of COUNT numbers, which begin with FIRST or with 0. Outputs, messages and statuses are compared. The status is 1 if there
is a difference. The run ends after six differences. 1,000 inputs take about ten seconds.
"""
import random
import subprocess
import sys

# Texts of many scripts, numbers, dates, markup, control characters, and texts that look like these.
TEXTS = [
    "a", "word", "two words", "Ünïcode", "日本語", "한글", "👨\u200d👩\u200d👧", "🇩🇪", "✅", "e\u0301", "ก็", "क्ष",
    "اب", "\u200d", "\ufe0f", "\u202e", "\ufeff", "", "  ", "x\ty", "line\nbreak", "a\r\nb", "\x07",
    "\x1b[31mred\x1b[0m", "very long text that has many words and goes on",
    "supercalifragilisticexpialidocious", "12", "-3.5", "1,234.50", "1.234,5", "$5", "€3,50", "5 %", "1e5",
    "+7", "(5)", "007", "1 000", "2024-01-02", "2024-01-02T03:04:05", "10:30", "n/a", "null", "true", "-", "—",
    "No. 5", "A-1", "q\"uote", "comma, here", "a;b", "|pipe|", "`code`", "<b>", "*x*", "\\",
    "http://example.com/a/b?c=d",
]
WIDTHS = [[], *(["-w", str(width)] for width in (1, 5, 20, 40, 60, 80, 120))]
OPTIONS = [
    words.split()
    for words in (
        "-x|--expanded auto|--expanded never|-n|--full|--markdown|-m 1|-m 2|--limit 3|--limit 0|--count --limit 2"
        "|--ansi|-l|-s ascii|-s grid|-s plain|-s box|-s UTF8_HORIZONTAL_ONLY|--color always|-d ;|-d tab|-d spaces|-t"
        "|--left 1|-r 2|-c 1|-c 2,1|-c 2-|--drop 1|--rows|--no-rows|--no-decimal|--no-quotes|--skip 1|-e cp1252"
    ).split("|")
]
STYLES = (
    "UTF8_FULL UTF8_FULL_CONDENSED UTF8_BORDERS_ONLY UTF8_HORIZONTAL_ONLY ASCII_FULL ASCII_NO_BORDERS ASCII_MARKDOWN NOTHING"
).split()


def text_of(draw):
    return " ".join(draw.choice(TEXTS) for _ in range(draw.randint(1, 3)))


def field_of(draw, kind):
    """A random field of this kind: a whole number, a number with a decimal point, a date or a text."""
    if kind == 0:
        return str(draw.randint(-999, 99999))
    if kind == 1:
        return f"{draw.uniform(-9999, 9999):.{draw.randint(0, 4)}f}"
    if kind == 2:
        return f"2024-{draw.randint(1, 12):02}-{draw.randint(1, 28):02}"
    return text_of(draw)


def quoted(draw, field, delimiter):
    if any(it in field for it in (delimiter, '"', "\n", "\r")) or draw.random() < 0.1:
        return '"' + field.replace('"', '""') + '"'
    return field


def csvtable_input(draw):
    """Arguments for csvtable, and an input. Some inputs aren't UTF-8, and some records have more or fewer fields than others."""
    delimiter = draw.choice(",,,,;\t|")
    kinds = [draw.randint(0, 4) for _ in range(draw.randint(1, 6))]
    lines = []
    for row in range(1 + draw.choice([0, 1, 2, 3, 5, 8, 10, 20, 300 if draw.random() < 0.1 else 10])):
        count = len(kinds) if draw.random() < 0.9 else draw.randint(0, len(kinds) + 1)
        fields = [field_of(draw, kinds[at % len(kinds)] if row else 3) for at in range(count)]
        lines.append(delimiter.join(quoted(draw, field, delimiter) for field in fields))
    text = draw.choice(["\n"] * 9 + ["\r\n"]).join(lines) + draw.choice(["\n", "\n", "\n", ""])
    encoding = draw.random()
    data = text.encode("utf-16" if encoding < 0.02 else "utf-8")
    if encoding > 0.98:
        data = data[: len(data) // 2] + b"\xff" + data[len(data) // 2 :]
    options = [word for _ in range(draw.randint(0, 3)) for word in draw.choice(OPTIONS)]
    return draw.choice(WIDTHS) + options, data


def cell_of(draw):
    return draw.choice(TEXTS) if draw.random() < 0.6 else "".join(draw.choices("ab c日é ", k=draw.randint(0, 25)))


def ctable_input(draw):
    """Arguments for ctable, and lines of cells that TABs separate."""
    columns = draw.randint(1, 8)
    lines = []
    for _ in range(draw.randint(1, 7)):
        count = columns if draw.random() < 0.85 else draw.randint(1, columns + 1)
        lines.append("\t".join(cell_of(draw) for _ in range(count)))
    width = draw.choice([1, 2, 3, 5, 8, 10, 13, 20, 25, 30, 40, 60, 80, 120, 200])
    words = [str(width), draw.choice(["dynamic", "full", "disabled"]), draw.choice(STYLES)]
    return words[: draw.randint(0, 3)], "\n".join(lines).encode()


def written_by(program, words, data):
    done = subprocess.run([program, *words], input=data, capture_output=True, timeout=60)
    return done.returncode, done.stdout, done.stderr


def main():
    name, old, new, *numbers = sys.argv[1:] or sys.exit(__doc__)
    first, count = ([0] + [int(number) for number in numbers])[-2:]
    made = {"csvtable": csvtable_input, "ctable": ctable_input}[name]
    differences = 0
    for number in range(first, first + count):
        words, data = made(random.Random(number))
        if written_by(old, words, data) != written_by(new, words, data):
            print(f"input {number}: {name} {' '.join(words)} < {data!r}")
            differences += 1
            if differences == 6:
                break
    print(f"{differences} differences")
    sys.exit(min(differences, 1))


if __name__ == "__main__":
    main()
