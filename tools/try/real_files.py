#!/usr/bin/env python3
"""Makes 18 realistic files, and some files that aren't text, and tries csvtable on them.

    tools/try/real_files.py PROGRAM             runs PROGRAM on each file, and checks its status, output and messages. Checks that
                                                numbers and dates aren't broken at any width from 20 to 200. Runs each example of the
                                                man page, among them the recipes of docs/CSVTABLE.md, if the other programs in it are
                                                installed
    tools/try/real_files.py --compare PROGRAM   prints a table of the results of PROGRAM, csvlook, mlr and column on each file. If an
                                                option suits a file, the results with and without it are printed. Below the table are
                                                the numbers of files that each draws correctly

The expected results are beside each file or example, and follow from the rules in docs/CSVTABLE.md. The first form prints a line for
each run, and ends with status 1 if one differs.
"""
import csv
import gzip
import io
import itertools
import os
import pty
import re
import shutil
import subprocess
import sys
import tempfile
import termios
import textwrap
import unicodedata

TOP = os.path.realpath(os.path.join(os.path.dirname(__file__), "..", ".."))
sys.path.insert(0, os.path.join(TOP, "tools", "make"))

from manual import examples

WIDE = ",".join(f"column_{i}" for i in range(1, 31)) + "\n" + "".join(
    ",".join(f"value {i * row}" for i in range(1, 31)) + "\n" for row in range(1, 13)
)
LONG = (
    'id,text,link\n1,"'
    + "A sentence that goes on for a while. " * 6
    + '",https://example.org/a/path/that/is/long/enough/to/be/cut?and=more\n2,"two\nlines",https://example.org\n'
)
BANK = "Buchungstag;Verwendungszweck;Betrag\n02.05.2026;Bäckerei Müller;-84,50\n13.05.2026;Gehalt;2.500,00\n"
MIXED = "item,price,left\npaper,$12.50,3\nrefund,($3.00),n/a\npens,$1.20,12345678901234567890\nink,$8.99,NaN\n"
SCRIPTS = "name,city\n王小明,北京\nمحمد,القاهرة\nกมล,กรุงเทพ\nZoë,Zürich\n👨‍👩‍👧,🇩🇪 Köln\ne\u0301tienne,Orle\u0301ans\n"
LOG = 'time,level,text\n10:00:01,warn,\x1b[33mdisk at 91 %\x1b[0m\n10:00:07,error,\x1b]0;title\x07no space\n'
TSV = 'name\tnote\nscrew 5"\t5" long\nbolt\tflat\n'
PREAMBLE = "Bank of Nowhere\nAccount 12\n\ndate,amount\n2026-05-02,-84.50\n2026-05-13,2500.00\n"


# a pattern for a number, or for the characters of dates and times
WHOLE = re.compile(r"\(?[-+]?[$€£]?\d[\d,.]*(e[-+]?\d+)?\s?[%€$]?\)?|[-/:.TZ+ \d]*")


class Run:
    """A file, the arguments for drawing it, and the expected status, texts in the output, and message."""

    def __init__(self, name, text, arguments="", status=0, drawn=(), reported="", encoding="utf-8", delimiter=","):
        self.name, self.arguments, self.status, self.drawn, self.reported = name, arguments.split(), status, drawn, reported
        self.bytes = text if isinstance(text, bytes) else text.encode(encoding)
        self.encoding, self.delimiter = encoding, delimiter


RUNS = [
    Run("wide.csv", WIDE, drawn=["record 1 of 12", "column_30", "value 360"]),
    Run("wide.csv", WIDE, "-c column_2-column_4 --drop 3", drawn=["│ column_2 ┆ column_4 │"]),
    Run("zeros.csv", "order,zip\n000042,01067\n000043,80331\n", drawn=["│ 000042 ┆ 01067 │"]),
    Run("long.csv", LONG, drawn=["│ id ┆"]),
    Run("bank.csv", BANK, "", 1, reported="bank.csv: line 2 isn't UTF-8; try -e cp1252, or iconv -f ENCODING FILE | csvtable", encoding="latin-1", delimiter=";"),
    Run("bank.csv", BANK, "-e cp1252", drawn=["│ 02.05.2026  ┆ Bäckerei Müller  ┆   -84,50 │"], encoding="latin-1", delimiter=";"),
    Run("bank.csv", BANK, "-e utf-8", 1, reported="bank.csv: line 2 isn't UTF-8\n", encoding="latin-1", delimiter=";"),
    Run("bank8.csv", BANK, drawn=["│ 13.05.2026  ┆ Gehalt           ┆ 2.500,00 │"], delimiter=";"),
    Run("dates.csv", "day,time,host,version\n02.05.2026,07:49,192.168.0.1,1.2.3\n", drawn=["│ 02.05.2026 ┆ 07:49 ┆ 192.168.0.1 ┆ 1.2.3   │"]),
    Run("tabs.tsv", TSV, drawn=['│ screw 5" ┆ 5" long │'], delimiter="\t"),
    Run("mixed.csv", MIXED, drawn=["│ refund ┆ ($3.00) ┆                  n/a │"]),
    Run("ragged.csv", "a,b\n1\n1,2,3\n", drawn=["│ 1 ┆ 2 ┆ 3 │"], reported="ragged.csv: line 3 has 3 fields, the header has 2\n"),
    Run("quote.csv", 'a,b\n1,"open\n2,3\n', "", 1, reported="quote.csv: a quote that opens in line 2 is never closed; try --no-quotes"),
    Run("quote.csv", 'a,b\n1,"open\n2,3\n', "--no-quotes", drawn=['│ 1 ┆ "open │', "│ 2 ┆ 3     │"]),
    Run("empty.csv", "", drawn=[""]),
    Run("utf16.csv", "\ufeff" + BANK, drawn=["Bäckerei Müller"], encoding="utf-16-le", delimiter=";"),
    Run("utf16.csv", b"\xff\xfea\x00\n\x00\x00\xd8", "", 1, reported="utf16.csv: line 2 isn't UTF-16"),
    Run("mark.csv", "\ufeffid,name\r\n1,Ann\r\n2,Bob\r\n", drawn=["│ id ┆ name │", "│  1 ┆ Ann  │"]),
    Run("json.csv", 'id,data\n1,"{""a"": [1, 2], ""b"": null}"\n', drawn=['{"a": [1, 2], "b": null}']),
    Run("scripts.csv", SCRIPTS, drawn=["王小明", "محمد"]),
    Run("log.csv", LOG, drawn=["\ufffd[33mdisk at 91 %\ufffd[0m", "\ufffd]0;title\ufffdno space"]),
    Run("log.csv", LOG, "--ansi", drawn=["\x1b[33mdisk at 91 %\x1b[0m", "\ufffd]0;title\ufffdno space"]),
    Run("sep.csv", "sep=;\na;b\n1;2\n", drawn=["│ a ┆ b │", "│ 1 ┆ 2 │"], delimiter=";"),
    Run("sep.csv", "sep=;\na;b\n1;2\n", "-d ,", drawn=["│ sep=; │"], delimiter=";"),
    Run("preamble.csv", PREAMBLE, "--skip 3", drawn=["│ date       ┆  amount │"]),
    Run("preamble.csv", PREAMBLE, "--skip 3 -r amount --drop nothing", 1, reported="preamble.csv: no column 'nothing'; there are 'date' and 'amount'"),
]

# Files that aren't text, or aren't in the expected encoding, and the arguments that help with each. --compare doesn't use them.
ADVISED = [
    Run("bare.csv", BANK, "", 1, reported="bare.csv: looks like UTF-16; try -e utf-16\n", encoding="utf-16-le", delimiter=";"),
    Run("bare.csv", BANK, "-e utf-16", drawn=["Bäckerei Müller"], encoding="utf-16-le", delimiter=";"),
    Run("bare.csv", BANK, "--skip 1", 1, reported="bare.csv: looks like UTF-16; try -e utf-16\n", encoding="utf-16-le", delimiter=";"),
    Run("bank.csv.gz", gzip.compress(BANK.encode()), "", 1, reported="bank.csv.gz: compressed by gzip; try zcat FILE | csvtable\n"),
    Run("bank.xlsx", b"PK\3\4" + BANK.encode(), "", 1, reported="bank.xlsx: a zip archive; try unzip -p FILE | csvtable, or save a spreadsheet as CSV\n"),
    Run("nul.csv", "a,b\n1,\0\n", "", 1, reported="nul.csv: line 2 has a NUL byte, so this isn't text; -e utf-8 reads it anyway\n"),
    Run("nul.csv", "a,b\n1,\0\n", "-e utf-8", drawn=["│ 1 ┆ \ufffd │"]),
    Run("octets.csv", b"a,b\n\x81,\xe4\n", "", 1, reported="octets.csv: line 2 isn't UTF-8; try iconv -f ENCODING FILE | csvtable\n"),
    Run("junk.csv", b"\xff\0\n" + PREAMBLE.encode(), "--skip 4", drawn=["│ date       ┆  amount │"]),
    Run("junk.csv", b"\xff\n" + b"a,b\n\xe4\n", "--skip 1", 1, reported="junk.csv: line 3 isn't UTF-8; try -e cp1252, or iconv -f ENCODING FILE | csvtable\n"),
]

# The messages for files that can't be read.
OTHERS = [
    ("nofile.csv", "csvtable: nofile.csv: no such file\n"),
    ("folder", "csvtable: folder: is a directory\n"),
]

with open(os.path.join(TOP, "crates/csvtable/data/ledger.csv"), encoding="utf-8") as file:
    LEDGER = file.read()
# First more bytes than csvtable reads with --limit, and then bytes that aren't UTF-8. csvtable doesn't refuse the latter, because
# it doesn't need to read them.
BIG = b"id,name,x,y,z,last\n" + b"".join(b"%d,n%d,1,2,3,4\n" % (it, it) for it in range(9000)) + b"\xff\n"
GIT = "git init -q; git config user.name Ann; git config user.email ann@localhost; echo '*.csv diff=csv' > .gitattributes; git add .; git commit -qm one; sed -i s/1,150/1,175/ ledger.csv"
FILES = '[{"name": "a, b.txt", "size": 12}, {"name": "c", "size": 3000}]'


class Recipe:
    """A command of the man page, commands before and after it, and texts that their output has in this order. It goes to a pipe, or
    to a terminal if `columns` isn't 0."""

    def __init__(self, command, name, text, drawn, before="", after="", columns=0):
        self.command, self.name, self.drawn, self.columns = command, name, drawn, columns
        self.bytes = text if isinstance(text, bytes) else text.encode()
        self.script = "\n".join([before, command, after])


RECIPES = [
    Recipe("csvtable -m 1 -w 100 notes.csv", "notes.csv", "id,note\n1," + "word " * 40 + "\n2,short\n", ["│  1 ┆ word word", "word…  │\n│  2 ┆ short "]),
    Recipe("csvtable --markdown list.csv", "list.csv", "item,price\nnut,3 for 1\nbolt,2\n", ["| nut  | 3 for 1 |\n| bolt | 2       |"]),
    Recipe("csvtable -c name,3-5 --limit 20 big.csv", "big.csv", BIG, ["│ name ┆ x ┆ y ┆ z │", "│ n19  ┆ 1 ┆ 2 ┆ 3 │\n╰", "first 20 records; there are more\n"]),
    Recipe("csvtable -e cp1252 --skip 4 bank.csv", "bank.csv", ("1\n2\n3\n4\n" + BANK).encode("latin-1"), ["│ Buchungstag ┆ Verwendungszweck ┆   Betrag │", "Bäckerei Müller"]),
    Recipe(
        "csvtable --color always ledger.csv | less -RS",
        "ledger.csv",
        LEDGER,
        ["│\x1b[1m date       \x1b[0m┆\x1b[1m place  ", "│ 2026-01-15 ┆ Αθήνα  ┆ Tickets to th"],
        before="export LESS=-EX TERM=xterm LC_ALL=C.UTF-8",
        columns=40,
    ),
    Recipe("csvtable --limit 20 big.csv", "big.csv", BIG, ["│ id ┆ name ┆ x ┆ y ┆ z ┆ last │", "│ 19 ┆ n19  ┆ 1 ┆ 2 ┆ 3 ┆    4 │\n╰", "first 20 records; there are more\n"]),
    Recipe("mlr --csv filter '$amount < 0' ledger.csv | csvtable", "ledger.csv", LEDGER, ["┆    amount │\n", "┆    -12.80 │\n", "┆   -310.00 │\n╰"]),
    Recipe("mlr --csv cat a.csv b.csv | csvtable", "a.csv", "name,qty\nnut,3\n", ["│ nut  ┆   3 │\n│ bolt ┆  12 │"], before="printf 'name,qty\\nbolt,12\\n' > b.csv"),
    Recipe("mlr --csv stats1 -a count,sum,mean -f amount ledger.csv | csvtable", "ledger.csv", LEDGER, ["│ amount_count ┆ amount_sum ┆ amount_mean │"]),
    Recipe("mlr --ijson --ocsv unsparsify files.json | csvtable", "files.json", FILES, ["│ name     ┆ size │", "│ a, b.txt ┆   12 │", "│ c        ┆ 3000 │"]),
    Recipe("iconv -f cp1250 bank.csv | csvtable", "bank.csv", "imię,v\nŁukasz,1\n".encode("cp1250"), ["│ imię   ┆ v │", "│ Łukasz ┆ 1 │"], before="export LC_ALL=C.UTF-8"),
    Recipe(
        "watch 'csvtable -w $COLUMNS ledger.csv'",
        "ledger.csv",
        LEDGER,
        ["│ 2026-01-02 ┆ Zürich ┆ Paper, pens"],
        before='watch() { COLUMNS=80 sh -c "$1"; }',  # what watch does once: it says the width of its terminal in COLUMNS
    ),
    Recipe("git log --format=%h%x09%an%x09%s | csvtable -tn", "ledger.csv", LEDGER, [" ┆ Ann ┆ one │\n"], before=GIT),
    Recipe(
        "git config diff.csv.textconv csvtable",
        "ledger.csv",
        LEDGER,
        ["\n-│ 2026-01-05 ┆ 京都 ", "-1,150.00 │\n", "\n+│ 2026-01-05 ┆ 京都 ", "-1,175.00 │\n"],
        before=GIT,
        after="git --no-pager diff",
    ),
    Recipe(
        """mlr --csv -S put '$key = float(gsub($amount, ",", ""))' then sort -nr key then cut -x -f key ledger.csv | csvtable""",
        "ledger.csv",
        LEDGER,
        ["┆    amount │\n", "┆   2400.00 │\n", "┆     -3.50 │\n", "┆    -12.80 │\n", "┆   -310.00 │\n", "┆ -1,150.00 │\n"],
    ),
]


def width_of(line):
    """The terminal columns of a line. A character joined to an emoji takes none. Each of a flag's two letters takes one."""
    characters = [c for c, before in zip(line, " " + line) if before != "\u200d"]
    return sum(2 if unicodedata.east_asian_width(c) in "WF" else 1 for c in characters if unicodedata.category(c) not in ("Mn", "Me", "Cf"))


def ran(arguments, folder):
    return subprocess.run(arguments, cwd=folder, stdin=subprocess.DEVNULL, capture_output=True, timeout=120)


def write(run, folder):
    with open(os.path.join(folder, run.name), "wb") as file:
        file.write(run.bytes)


def fault_of(run, result):
    """The difference from the expected result, or ""."""
    out, err = result.stdout.decode(errors="replace"), result.stderr.decode(errors="replace")
    if result.returncode != run.status:
        return f"status {result.returncode}: {err.strip()}"
    message = "csvtable: " + run.reported + ("" if run.reported.endswith("\n") else "\n") if run.reported else ""
    if err != message or (run.status and out):
        return f"its message is {err!r}"
    if run.status:
        return ""
    missing = [it for it in run.drawn if it not in out]
    return f"no {missing[0]!r} in\n{out}" if missing or (run.drawn == [""] and out) else ""


def rows_of(run):
    """The records of a file, with the header first."""
    skipped = 3 if "--skip" in run.arguments else 0
    text = run.bytes.decode(run.encoding).removeprefix("\ufeff").removeprefix("sep=;\n")
    quoting = csv.QUOTE_NONE if "--no-quotes" in run.arguments else csv.QUOTE_MINIMAL
    return list(csv.reader(io.StringIO("".join(text.splitlines(True)[skipped:]), newline=""), delimiter=run.delimiter, quoting=quoting))


def broken_in(run, width, out):
    """The broken fields in columns of numbers or dates. In expanded records, fields must leave four columns for names."""
    columns = itertools.zip_longest(*rows_of(run)[1:], fillvalue="")
    fields = [it for column in columns if all(len(it) <= 25 and WHOLE.fullmatch(it) for it in column) for it in column]
    room = width - 7 - 4 if out.startswith("record ") else width
    return [it for it in fields if it.strip() and len(it) <= room and f" {it.strip()} " not in out]


def tried_at_widths(program, run, folder):
    """True if a number or a date is broken at some width."""
    write(run, folder)
    outs = [(width, ran([program, "-w", str(width), run.name], folder).stdout.decode()) for width in range(20, 201)]
    broken = [(width, it[0]) for width, out in outs if (it := broken_in(run, width, out))]
    print(f"{run.name} from 20 to 200 columns: {f'{broken[0][1]!r} is broken at {broken[0][0]}' if broken else 'as expected'}")
    return bool(broken)


def tried(program, folder):
    faults = 0
    for run in RUNS + ADVISED:
        write(run, folder)
        arguments = run.arguments if "-w" in run.arguments else ["-w", "80", *run.arguments]
        fault = fault_of(run, ran([program, *arguments, run.name], folder))
        print(f"{run.name} {' '.join(run.arguments)}: {fault or 'as expected'}")
        faults += bool(fault)
    faults += sum(tried_at_widths(program, run, folder) for run in RUNS if not run.arguments and not run.status)
    os.mkdir(os.path.join(folder, "folder"))
    for name, message in OTHERS:
        result = ran([program, name], folder)
        good = result.returncode == 1 and not result.stdout and result.stderr.decode() == message
        print(f"{name}: {'as expected' if good else result.stderr}")
        faults += not good
    return faults + tried_examples(program)


# ---- the examples of the man page


def shown(script, folder, columns):
    """The output of a script in a folder whose bin/ has csvtable. The output is a pipe, or a terminal if `columns` isn't 0."""
    ours, theirs = pty.openpty() if columns else os.pipe()
    if columns:
        termios.tcsetwinsize(theirs, (50, columns))
    path = os.path.join(folder, "bin") + os.pathsep + os.environ["PATH"]
    environment = {name: it for name, it in os.environ.items() if name not in ("COLUMNS", "NO_COLOR")} | {"PATH": path, "HOME": folder}
    process = subprocess.Popen(["timeout", "60", "sh", "-ec", script], cwd=folder, stdin=subprocess.DEVNULL, stdout=theirs, stderr=theirs, env=environment, start_new_session=True)
    os.close(theirs)
    out = b""
    try:
        while more := os.read(ours, 65536):
            out += more
    except OSError:  # a terminal whose other end is closed
        pass
    os.close(ours)
    process.wait(timeout=120)
    return out.decode(errors="replace").replace("\r", "")


def recipe_fault(recipe, out):
    """The first text that is missing after the one before it, or a line that is wider than the terminal, or ""."""
    place = 0
    for text in recipe.drawn:
        place = out.find(text, place)
        if place < 0:
            return f"no {text!r} in\n{out}"
    wide = [line for line in re.sub("\x1b(\\[[^a-zA-Z]*[a-zA-Z]|[=>])", "", out).split("\n") if recipe.columns and width_of(line) > recipe.columns]
    return f"a wide line: {wide[0]}" if wide else ""


def tried_recipe(program, recipe):
    """True if the output of an example differs. An example is left out if its other programs aren't installed."""
    others = [it for it in ("git", "less", "mlr") if it in recipe.script.split() and not shutil.which(it)]
    if others:
        print(f"{recipe.command}: left out, without {others[0]}")
        return False
    with tempfile.TemporaryDirectory() as folder:
        os.mkdir(os.path.join(folder, "bin"))
        os.symlink(program, os.path.join(folder, "bin", "csvtable"))
        write(recipe, folder)
        fault = recipe_fault(recipe, shown(recipe.script, folder, recipe.columns))
    print(f"{recipe.command}: {fault or 'as expected'}")
    return bool(fault)


def tried_examples(program):
    """The number of examples of the man page whose output differs, and of examples that this file lacks."""
    untried = {command for command, _ in examples()} ^ {it.command for it in RECIPES}
    for command in sorted(untried):
        print(f"{command}: only the man page or only this file has it")
    return len(untried) + sum(tried_recipe(program, it) for it in RECIPES)


# ---- the comparison with other programs

PROGRAMS = {
    "csvlook -I": ["csvlook", "-I"],
    "mlr --icsv --opprint --barred --right cat": ["mlr", "--icsv", "--opprint", "--barred", "--right", "cat"],
    "column -ts,": ["column", "-t", "-s", ","],
}

# For each of these programs, commands with an option that suits a file. The commands of csvtable are in RUNS.
SUITING = {
    "csvlook -I": {
        "bank.csv": ["csvlook", "-I", "-e", "cp1252"],
        "utf16.csv": ["csvlook", "-I", "-e", "utf-16"],
        "preamble.csv": ["csvlook", "-I", "-K", "3"],
        "mixed.csv": ["csvlook", "-I", "--blanks"],
    },
    "mlr --icsv --opprint --barred --right cat": {
        "bank8.csv": ["mlr", "--icsv", "--ifs", ";", "--opprint", "--barred", "--right", "cat"],
        "sep.csv": ["mlr", "--icsv", "--ifs", ";", "--opprint", "--barred", "--right", "cat"],
        "tabs.tsv": ["mlr", "--itsv", "--opprint", "--barred", "--right", "cat"],
    },
    "column -ts,": {
        "bank8.csv": ["column", "-t", "-s", ";"],
        "sep.csv": ["column", "-t", "-s", ";"],
        "tabs.tsv": ["column", "-t", "-s", "\t"],
    },
}


def report_in(result):
    """The first line of an error, or the last line of one of Python, without the program's name."""
    lines = result.stderr.decode(errors="replace").strip().split("\n")
    line = lines[-1] if "Python" in lines[0] or "python" in lines[0] else lines[0]
    return textwrap.shorten(re.sub(r"^(mlr: |csvtable: )+", "", line).strip(".:"), 64, placeholder=" ...").replace("|", "/").replace("`", "'")


def lost_in(run, out):
    """The lines of fields that a drawing doesn't have unchanged."""
    lines = [line.strip() for row in rows_of(run) for field in row for line in field.split("\n")]
    return [it for it in lines if it.isprintable() and it not in out]


def seen_of(run, result, whole, has_frame=True):
    """The faults that a person sees in a drawing, or "right" if there are none. If there is no drawing, the reason is
    returned. `whole` is the drawing without a width."""
    if result.returncode:
        return "refused: " + report_in(result)
    out, whole = result.stdout.decode(errors="replace"), whole.stdout.decode(errors="replace")
    if not out:
        return "nothing"
    faults = []
    widths = [width_of(line) for line in out.rstrip("\n").split("\n") if not line.startswith("record ")]
    if max(widths) > 80:
        faults.append(f"{max(widths)} columns wide")
    if has_frame and len(set(widths)) > 1:
        faults.append("crooked")
    if "\x1b" in out or "\x07" in out:
        faults.append("sends its escapes")
    if run.delimiter != "," and run.delimiter in whole:
        faults.append("columns not separated")
    lost = lost_in(run, whole)
    if lost and "columns not separated" not in faults:
        faults.append(f"no `{lost[0][:20]}`")
    return ", ".join(faults) or "right"


def options_of(command, plain):
    """The words of a command that the command without options doesn't have."""
    return " ".join("TAB" if it == "\t" else it for it in command if it not in plain)


def seen_by_csvtable(program, run, folder):
    """The results of csvtable on a file, without an option, and with the option of RUNS."""
    seen = {}
    if not run.arguments:
        seen[""] = seen_of(run, ran([program, "-w", "80", run.name], folder), ran([program, "-w", "0", run.name], folder))
    for it in RUNS:
        if it.name == run.name and it.arguments and not it.status and (run.arguments or seen[""].startswith("refused")):
            arguments = [program, *it.arguments, it.name]
            seen[" ".join(it.arguments)] = seen_of(it, ran([*arguments, "-w", "80"], folder), ran([*arguments, "-w", "0"], folder))
            break
    return seen


def seen_by(label, run, folder):
    """The results of another program on a file, without an option, and with the option of SUITING."""
    plain, suiting = PROGRAMS[label], SUITING[label].get(run.name)
    if not shutil.which(plain[0]):
        return {"": "not installed"}
    commands = {"": plain} | ({options_of(suiting, plain): suiting} if suiting else {})
    results = {options: ran([*command, run.name], folder) for options, command in commands.items()}
    return {options: seen_of(run, it, it, plain[0] != "column") for options, it in results.items()}


def compared(program, folder):
    labels = ["csvtable", *PROGRAMS]
    print("| File | " + " | ".join(f"`{it}`" for it in labels) + " |")
    print("|---|" + "---|" * len(labels))
    files = {run.name: run for run in reversed(RUNS)}
    counts = {label: [0, 0] for label in labels}
    for name in dict.fromkeys(run.name for run in RUNS):
        run = files[name]
        write(run, folder)
        found = [seen_by_csvtable(program, run, folder), *(seen_by(label, run, folder) for label in PROGRAMS)]
        for label, seen in zip(labels, found):
            counts[label][0] += seen.get("") == "right"
            counts[label][1] += "right" in seen.values()
        cells = ["; ".join(f"`{options}`: {it}" if options else it for options, it in seen.items()) for seen in found]
        print(f"| {name} | " + " | ".join(cells) + " |")
    filled = sum(bool(run.bytes) for run in files.values())
    print(f"| right of {filled}, without an option | " + " | ".join(str(counts[it][0]) for it in labels) + " |")
    print(f"| right of {filled}, with the option that suits | " + " | ".join(str(counts[it][1]) for it in labels) + " |")
    return 0


def main():
    arguments = [it for it in sys.argv[1:] if it != "--compare"]
    if len(arguments) != 1:
        sys.exit(__doc__)
    with tempfile.TemporaryDirectory() as folder:
        act = compared if "--compare" in sys.argv else tried
        sys.exit(1 if act(os.path.realpath(arguments[0]), folder) else 0)


if __name__ == "__main__":
    main()
