#!/usr/bin/env python3
"""Reads csvtable's tables for Markdown as GitHub does, and compares them with the CSV files.

    tools/try/markdown.py CSVTABLE [FILES] [SEED]

It makes FILES random CSV files, by default 1,000, with web addresses, and with texts that Markdown could take for markup. Each
file is drawn. `cmark-gfm` (a Debian package) reads the drawing twice: once with tables only, and once with all extensions of
GitHub. Each field's text has to come back without the spaces around it, and each column has to have its alignment. If a field is
only an address, and has no backslash, it has to be a link to this address. The first differences and the number of links are
printed. The status is 1 if there is a difference, or if there is no link.
"""
import csv
import html.parser
import io
import random
import subprocess
import sys
import urllib.parse

PROGRAM, FILES, SEED = sys.argv[1], int((sys.argv[2:] or [1000])[0]), int((sys.argv[3:] or [61])[0])
PARTS = (
    ["|", "\\", "\\|", "`", "``", "*", "**", "_", "__", "~", "~~", "[", "](x)", "![", "<", "<br>", "<b>", "&", "&amp;", "&#42;", "#", "-", "+", "1.", ">"]
    + ["a", "b c", "x_y", "_u_", "1", "42", "-7", "3.5", "é", "王小明", "\U0001f680", " ", "  ", "\n", "http://a.b", "a@b.c", ":", "---", ":-:", "'", '"', ",", "$", "^", "="]
    + ["http://", "HTTPS://", "ftp://a.b/", "www.", "www.a.b/", "://", "w.", "mailto:", "xmpp:", "&a", ";", "x;", "&#x2a;", "(", ")", "<script>"]
)
# parts of addresses; some of them are wrong, but occur in files
SCHEMES = ["https://", "http://", "https://www.", "www."]
HOSTS = ["example.org", "a.b-c.net", "en.wikipedia.org", "localhost.test:8080", "192.168.0.1", "show.com"]
STEPS = ["/", "/a", "/~user", "/wiki/A_(b)", "/a_b/c", "/_next/x", "/%20b", "/a-b.html", "/@user", "/a+b", "/a,b", "/é", "/x!", "/$a", "/a:b", "/a;b", "/x=1'"]
QUERIES = ["", "?a=1", "?a=1&b=2", "?q=x&copy=2", "?a=1&amp;b=2", "?a[]=1", "?x=~1&y=~2", "?u=http://a.b/", "?_=1", "?q=*", "?q=*x*", "?a&b;c=1", "?a=<b>", "?a=1|2", "?a=\\"]
ENDS = ["", "", "", "#top", "#a_b", "#_x_", "/", "#:~:text=a"]


class Tables(html.parser.HTMLParser):
    """The cells of a table by row, and the alignment and the links of each."""

    def __init__(self):
        super().__init__()
        self.rows, self.sides, self.links, self.cell = [], [], [], None

    def handle_starttag(self, tag, attributes):
        if tag == "tr":
            self.rows.append([])
            self.sides.append([])
            self.links.append([])
        elif tag in ("td", "th"):
            self.cell = ""
            self.sides[-1].append(dict(attributes).get("align"))
            self.links[-1].append([])
        elif self.cell is not None and tag == "a":
            self.links[-1][-1].append(dict(attributes).get("href"))
        elif self.cell is not None:
            self.cell += "\n" if tag == "br" else f"<{tag}>"

    def handle_endtag(self, tag):
        if tag in ("td", "th"):
            self.rows[-1].append(self.cell)
            self.cell = None
        elif self.cell is not None and tag != "a":
            self.cell += f"</{tag}>"

    def handle_data(self, data):
        if self.cell is not None:
            self.cell += data


def address_of(given):
    return given.choice(SCHEMES) + given.choice(HOSTS) + "".join(given.choice(STEPS) for _ in range(given.randrange(4))) + given.choice(QUERIES) + given.choice(ENDS)


def text_of(given, addresses):
    kind = given.randrange(4)
    if kind == 0:
        address = address_of(given)
        addresses.add(address)
        return address
    parts = [address_of(given) if kind == 1 and given.randrange(3) == 0 else given.choice(PARTS) for _ in range(given.randrange(6))]
    return "".join(parts)


def spaceless(text):
    """A text as a page shows it, without spaces at the beginning and the end of each line."""
    return "\n".join(line.strip(" ") for line in text.split("\n")).strip(" ")


def read_by(drawn, extensions):
    arguments = ["cmark-gfm", "--unsafe"] + [argument for extension in extensions for argument in ("-e", extension)]
    tables = Tables()
    tables.feed(subprocess.run(arguments, input=drawn, stdout=subprocess.PIPE, check=True).stdout.decode())
    return tables


def leads_to(link, field):
    """True if a link leads to an address. The link may have percent escapes, and a scheme that the address doesn't have."""
    return urllib.parse.unquote(link).removeprefix("http://") == urllib.parse.unquote(field).removeprefix("http://")


def differences(number, counts):
    given = random.Random(f"{SEED} {number}")
    width = 1 + given.randrange(4)
    addresses = set()
    records = [[text_of(given, addresses) for _ in range(width)] for _ in range(1 + given.randrange(5))]
    right = [column for column in range(width) if given.randrange(2)]
    file = io.StringIO()
    csv.writer(file, lineterminator="\n", quoting=csv.QUOTE_ALL).writerows(records)
    arguments = ["--markdown", "-d", ","]
    if right:
        arguments += ["-r", ",".join(str(1 + column) for column in right)]
    left = [str(1 + column) for column in range(width) if column not in right]
    if left:
        arguments += ["--left", ",".join(left)]
    drawn = subprocess.run([PROGRAM, *arguments], input=file.getvalue().encode(), stdout=subprocess.PIPE, check=True).stdout
    wanted = [[spaceless(field) for field in record] for record in records]
    sides = [["right" if column in right else None for column in range(width)] for _ in records]
    for extensions in (["table"], ["table", "strikethrough", "autolink", "tagfilter"]):
        tables = read_by(drawn, extensions)
        read = [[spaceless(cell) for cell in row] for row in tables.rows]
        if (read, tables.sides) != (wanted, sides):
            return [drawn.decode(), " ".join(extensions), str(read), str(wanted)]
    for record, links in zip(wanted, tables.links):
        for field, own in zip(record, links):
            # The reader leaves some last characters out of links.
            if field not in addresses or field not in drawn.decode() or field[-1] in "?!.,:*_~'\");":
                continue
            counts["links"] += 1
            if len(own) != 1 or not leads_to(own[0], field):
                return [drawn.decode(), field, str(own)]
    return []


def main():
    bad, counts = 0, {"links": 0}
    for number in range(FILES):
        shown = differences(number, counts)
        bad += bool(shown)
        if shown and bad <= 3:
            print(f"file {number} of seed {SEED}:", *shown, sep="\n")
    print(f"{FILES} files, {bad} with differences; {counts['links']} links")
    return 1 if bad or not counts["links"] else 0


if __name__ == "__main__":
    sys.exit(main())
