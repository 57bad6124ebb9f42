#!/usr/bin/env python3
"""Makes the pictures in docs/images, which show stored outputs in a terminal.

    tools/make/pictures.py

Each character is drawn at its column. A wide character takes two columns. A reader of a picture needs no fonts: frames are lines,
and all other characters are outlines from FONTS, whose licences allow this. Making pictures takes these fonts and the Python
package fontTools. tools/check/check_proved.py needs neither. It names the pictures that differ from the output of this program,
but doesn't compare outlines.
"""
import os
import re
import sys
import unicodedata
from dataclasses import dataclass
from xml.sax.saxutils import escape, quoteattr

from project import TOP, text_of

WIDTH, HEIGHT, MARGIN = 9, 20, 12  # the width of a column, the height of a line, and the margin, in pixels
BACKGROUND, FOREGROUND, FRAME = "#1e1e2e", "#e6e6ef", "#8a8fa8"
OUTLINE = "outline"  # the text in place of each outline, if pictures are compared without outlines
COLORS = {"9": "#ff6b6b", "10": "#7ddc8a", "11": "#f2c94c"}
# The lines of a frame character to the left, to the right, up and down: 0 means no line, 1 a single line, and 2 a double line.
SIDES = {
    "─": "1100", "│": "0011", "╌": "1100", "┆": "0011", "═": "2200",
    "┌": "0101", "┐": "1001", "└": "0110", "┘": "1010", "╭": "0101", "╮": "1001", "╰": "0110", "╯": "1010",
    "├": "0111", "┤": "1011", "┬": "1101", "┴": "1110", "┼": "1111", "╞": "0211", "╡": "2011", "╪": "2211",
}
DASHED = "╌┆"
ROUNDED = "╭╮╰╯"
SGR = re.compile("\x1b\\[([0-9;]*)m")


def arabic_forms():
    """The characters for the forms of Arabic letters, by the letter and the name of the form, such as `<medial>`."""
    parts = {chr(code): unicodedata.decomposition(chr(code)).split() for code in range(0xFE70, 0xFEFD)}
    return {(chr(int(of[1], 16)), of[0]): character for character, of in parts.items() if len(of) == 2}


FORMS = arabic_forms()


@dataclass
class Font:
    """A font, its files for regular and bold characters, and the Debian package that has them."""

    name: str
    licence: str
    columns: int  # the number of terminal columns of each character that is taken from the font
    size: int  # in pixels
    regular: str
    bold: str
    package: str
    number: int = -1  # the number of the font in a file of several fonts


# A character's outline is taken from the first font here that has the character, and whose `columns` is the character's width.
DEJAVU, NOTO = "/usr/share/fonts/truetype/dejavu/DejaVu", "/usr/share/fonts/opentype/noto/NotoSansCJK"
SYMBOLA = "/usr/share/fonts/truetype/ancient-scripts/Symbola_hint.ttf"
VERA, OFL = "licence of Bitstream Vera", "SIL Open Font License 1.1"
FONTS = [
    Font("DejaVu Sans Mono", VERA, 1, 15, f"{DEJAVU}SansMono.ttf", f"{DEJAVU}SansMono-Bold.ttf", "fonts-dejavu-core"),
    Font("DejaVu Sans", VERA, 1, 15, f"{DEJAVU}Sans.ttf", f"{DEJAVU}Sans-Bold.ttf", "fonts-dejavu-core"),
    Font("Noto Sans CJK SC", OFL, 2, 17, f"{NOTO}-Regular.ttc", f"{NOTO}-Bold.ttc", "fonts-noto-cjk", 2),
    Font("Symbola", "free for any use", 2, 16, SYMBOLA, SYMBOLA, "fonts-symbola"),
]


def colored_report():
    """The first coloured table of the stored run of example_report."""
    tables = re.findall(r"┌.*?┘\n", text_of("crates/example_report/stdout"), re.S)
    return next(it for it in tables if "\x1b" in it)


def drawing_of_case(name):
    """The drawing of a stored case of csvtable."""
    case = re.search(rf"^case\t{name}\n(.*?)^end$", text_of("crates/test_csv_cases/stdin"), re.M | re.S)[1]
    return "".join(re.findall(r"^=(.*\n)", case, re.M))


def typed_ledger():
    """The command that draws README's first table, and its stored output."""
    return "$ csvtable -w 60 ledger.csv\n" + text_of("crates/csvtable/stdout")


PICTURES = {
    "ledger.svg": ("A terminal in which csvtable draws a ledger", typed_ledger),
    "report.svg": ("A table of test results, with colours by value", colored_report),
    "scripts.svg": ("A table of names in eight scripts", lambda: drawing_of_case("names-in-eight-scripts")),
}


def columns_of(character):
    if unicodedata.combining(character) or unicodedata.category(character) in ("Mn", "Me", "Cf"):
        return 0
    return 2 if unicodedata.east_asian_width(character) in "WF" else 1


def runs_of(text):
    """The parts of a text that are drawn as a whole: frame characters, spaces and words. Each has its width in columns."""
    for piece in re.findall(f"[{''.join(SIDES)}]| +|[^ {''.join(SIDES)}]+", text):
        yield piece, sum(map(columns_of, piece))


def frame(character, left, top):
    """The lines of a frame character, in the form of a path. `left` and `top` are the corner of its cell, in pixels."""
    middle, center = left + WIDTH / 2, top + HEIGHT / 2
    ends = [(left, center), (left + WIDTH, center), (middle, top), (middle, top + HEIGHT)]
    if character in ROUNDED:
        (x, y), (across, down) = (end for side, end in zip(SIDES[character], ends) if side == "1")
        yield f"M{x:g} {y:g}Q{middle:g} {center:g} {across:g} {down:g}"
        return
    for side, (x, y) in zip(SIDES[character], ends):
        for apart in {"0": (), "1": (0,), "2": (-1.5, 1.5)}[side]:
            yield f"M{middle:g} {center + apart:g}L{x:g} {y + apart:g}"


def style_of(codes, style):
    """The colour after an SGR sequence with these codes, and whether it makes characters bold."""
    color, is_bold = style
    if codes in ("", "0"):
        return "", False
    if codes == "1":
        return color, True
    if codes == "39":
        return "", is_bold
    return f' fill="{COLORS[codes.split(";")[-1]]}"', is_bold


def in_order(word):
    """The characters of a word from left to right. Arabic letters get the forms that they have beside their neighbours."""
    if not any(unicodedata.bidirectional(it) in ("R", "AL") for it in word):
        return word
    joined = [(first, "<initial>") in FORMS and (second, "<final>") in FORMS for first, second in zip(word, word[1:])]
    forms = {(False, False): "<isolated>", (False, True): "<initial>", (True, True): "<medial>", (True, False): "<final>"}
    sides = zip([False, *joined], [*joined, False])
    return [FORMS.get((letter, forms[it]), letter) for letter, it in zip(word, sides)][::-1]


def draw_word(word, left, top, style, outlines):
    """A word, drawn by references to the outlines of its characters. The outlines are added to `outlines`."""
    color, is_bold = style
    uses, at = "", 0
    for character in in_order(word):
        name = f"{'b' if is_bold else 'r'}{ord(character):x}"
        outlines[name] = character, is_bold
        uses += f'<use href="#{name}" x="{at}"/>'
        at += columns_of(character) * WIDTH
    return f'<g aria-label={quoteattr(word)} transform="translate({left} {top + 15})"{color}>{uses}</g>'


def draw_line(line, top, lines, words, outlines):
    """Adds the frame characters of a line to `lines`, which has solid and dashed lines, and the words of the line to `words`."""
    style, left = ("", False), MARGIN
    for part in re.split("(\x1b\\[[0-9;]*m)", line):
        sequence = SGR.fullmatch(part)
        if sequence:
            style = style_of(sequence[1], style)
            continue
        for piece, columns in runs_of(part):
            if piece in SIDES:
                lines[piece in DASHED].extend(frame(piece, left, top))
            elif piece.strip(" "):
                words.append(draw_word(piece, left, top, style, outlines))
            left += columns * WIDTH


def outline_of(character, is_bold, fonts):
    """The outline of a character, in the middle of its columns, as a path in pixels from the left end of its baseline."""
    from fontTools.pens.svgPathPen import SVGPathPen
    from fontTools.pens.transformPen import TransformPen

    for font, opened in zip(FONTS, fonts[is_bold]):
        name = opened.getBestCmap().get(ord(character))
        if name and font.columns == columns_of(character):
            glyph, scale = opened.getGlyphSet()[name], font.size / opened["head"].unitsPerEm
            aside = (font.columns * WIDTH - glyph.width * scale) / 2
            pen = SVGPathPen(opened.getGlyphSet(), ntos=lambda it: f"{it:.2f}".rstrip("0").rstrip("."))
            glyph.draw(TransformPen(pen, (scale, 0, 0, -scale, aside, 0)))
            return pen.getCommands()
    raise ValueError(f"no font of FONTS has {character}")


def svg(title, drawing, fonts):
    """A picture. Without fonts, each of its outlines is `OUTLINE`."""
    lines = drawing.splitlines()
    across = max(sum(columns for _, columns in runs_of(SGR.sub("", line))) for line in lines)
    width, height = across * WIDTH + 2 * MARGIN, len(lines) * HEIGHT + 2 * MARGIN
    frames, words, outlines = [[], []], [], {}
    for at, line in enumerate(lines):
        draw_line(line, MARGIN + at * HEIGHT, frames, words, outlines)
    licences = ", ".join(f"{it.name} ({it.licence})" for it in FONTS)
    paths = [f'<path id="{name}" d="{outline_of(*outlines[name], fonts) if fonts else OUTLINE}"/>' for name in sorted(outlines)]
    return "\n".join(
        [
            f'<svg xmlns="http://www.w3.org/2000/svg" width="{width}" height="{height}" viewBox="0 0 {width} {height}">',
            f"<title>{escape(title)}</title>",
            f"<!-- Each outline of a character is from the first of these fonts that has it: {licences}. -->",
            "<defs>",
            *paths,
            "</defs>",
            f'<rect width="{width}" height="{height}" rx="6" fill="{BACKGROUND}"/>',
            f'<g fill="none" stroke="{FRAME}" stroke-width="1.2">',
            f'<path d="{"".join(frames[0])}"/>',
            f'<path stroke-dasharray="3 2" d="{"".join(frames[1])}"/>',
            "</g>",
            f'<g fill="{FOREGROUND}">',
            *words,
            "</g>",
            "</svg>",
            "",
        ]
    )


def pictures(fonts=None):
    return {f"docs/images/{name}": svg(title, drawing(), fonts) for name, (title, drawing) in PICTURES.items()}


def without_outlines(picture):
    return re.sub(r'(<path id="\w+") d="[^"]+"', rf'\1 d="{OUTLINE}"', picture)


def wrong_pictures():
    """The paths of the pictures that differ from the output, without their outlines."""
    return [path for path, made in pictures().items() if not os.path.exists(f"{TOP}/{path}") or without_outlines(text_of(path)) != made]


def opened_fonts():
    """The regular and the bold fonts of FONTS, opened. Ends the program if one isn't installed."""
    missing = {it.package for it in FONTS if not (os.path.exists(it.regular) and os.path.exists(it.bold))}
    try:
        from fontTools.ttLib import TTFont
    except ImportError:
        missing.add("python3-fonttools, whose interpreter is /usr/bin/python3")
    if missing:
        sys.exit("these packages of Debian are missing: " + ", ".join(sorted(missing)))
    return [TTFont(it.regular, fontNumber=it.number) for it in FONTS], [TTFont(it.bold, fontNumber=it.number) for it in FONTS]


if __name__ == "__main__":
    for path, made in pictures(opened_fonts()).items():
        with open(f"{TOP}/{path}", "w", encoding="utf-8") as file:
            file.write(made)
