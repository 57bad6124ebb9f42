#!/usr/bin/env python3
"""Draws random files under a width, and looks for words, numbers and dates that are cut.

    tools/try/words.py CSVTABLE [COUNT] [SEED]

CSVTABLE is the program. The rule is how many terminal columns each column needs at least, so that the words of names, or also the
words of fields, are whole. It is written here a second time, from docs/CSVTABLE.md. A file has each word only once, so a cut word
isn't found in the drawing.
"""
import random
import subprocess
import sys

LEAST, NAME, WHOLE = 8, 20, 40


def need(name, fields, is_numeric, with_fields):
    """The number of terminal columns that a column needs for its content."""
    content = max(len(text) for text in [name, *fields])
    if content <= LEAST:
        return max(1, content)
    kept = min(NAME, max(len(word) for word in name.split(" ")))
    if is_numeric:
        kept = max(kept, max(len(field) for field in fields))
    elif with_fields:
        longest = max(len(word) for field in fields for word in field.split(" "))
        kept = max(kept, NAME if longest > WHOLE else longest)
    return min(content, max(LEAST, kept))


def words(random, used, count, longest):
    made = []
    while len(made) < count:
        word = "".join(random.choice("abcdefghijklmnopqrstuvwxyz") for _ in range(random.randint(4, random.randint(4, longest))))
        if not any(word in other or other in word for other in used):
            used.append(word)
            made.append(word)
    return " ".join(made)


def column(random, used, rows):
    name = words(random, used, random.randint(1, 4), 24)
    if random.random() < 0.3:
        first = random.choice(["2026-%02d-%02d", "%02d:%02d:00", "%d000.%d5"])
        return name, [first % (random.randint(1, 12), random.randint(1, 28)) for _ in range(rows)], True
    return name, [words(random, used, random.randint(1, 6), random.choice([8, 16, 40, 48])) for _ in range(rows)], False


def fault(program, random):
    """The fault in the drawing of a random file, or nothing. With it, true if the words of fields had room."""
    used, rows = [], random.randint(1, 3)
    columns = [column(random, used, rows) for _ in range(random.randint(1, 5))]
    width = random.randint(20, 200)
    lines = [",".join(name for name, _, _ in columns)] + [",".join(fields[row] for _, fields, _ in columns) for row in range(rows)]
    command = [program, "-w", str(width)]
    drawing = subprocess.run(command, input="\n".join(lines) + "\n", capture_output=True, text=True).stdout
    frame = len(columns) + 1
    total = lambda with_fields: frame + sum(2 + need(*own, with_fields) for own in columns)
    is_table = not drawing.startswith("record ")
    if is_table != (total(False) <= width):
        return f"{command}: records are expanded, or not, at a least width of {total(False)}\n" + "\n".join(lines) + "\n" + drawing, False
    has_room = total(True) <= width
    for name, fields, is_numeric in columns if is_table else []:
        # aligning decimal points doesn't change digits
        whole = fields if is_numeric else [word for field in fields for word in field.split(" ")] if has_room else []
        if not is_numeric and any(len(word) > WHOLE for word in whole):
            whole = []
        for text in whole + [word for word in name.split(" ") if len(word) <= NAME]:
            if text not in drawing:
                return f"{command}: {text} is cut\n" + "\n".join(lines) + "\n" + drawing, has_room
    return None, is_table and has_room


def main():
    if len(sys.argv) < 2:
        sys.exit(__doc__)
    count = int(sys.argv[2]) if len(sys.argv) > 2 else 2000
    seed = int(sys.argv[3]) if len(sys.argv) > 3 else 1
    source, with_room = random.Random(seed), 0
    for _ in range(count):
        found, has_room = fault(sys.argv[1], source)
        with_room += has_room
        if found:
            sys.exit(found)
    print(f"{count} files, {with_room} with room for words of fields: none is cut")


main()
