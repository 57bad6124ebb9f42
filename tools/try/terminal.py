#!/usr/bin/env python3
"""Runs csvtable in terminals, and checks what a person would see there.

    tools/try/terminal.py PROGRAM

PROGRAM is the command that tools/install.sh installs, PREFIX/bin/csvtable. It can also be a built program, but then the tries with
widths of terminals are left out. Each try has arguments, an input and an environment. In each try, some of standard input, output
and error are terminals. The widths of lines, bold headers, statuses, the stream of each text, and characters that control the
terminal are checked. A line is printed for each try, and the status is 1 if one differs.
"""
import os
import pty
import re
import select
import shutil
import subprocess
import sys
import tempfile
import termios
import unicodedata

SGR = re.compile("\x1b\\[[0-9;:]*m")
PROGRAM = ""
failed = 0


def terminal(columns=0):
    """The two ends of a new terminal, which doesn't change lines. If `columns` is 0, the terminal has no known width."""
    ours, theirs = pty.openpty()
    termios.tcsetwinsize(theirs, (24, columns))
    settings = termios.tcgetattr(theirs)
    settings[1] &= ~termios.OPOST
    termios.tcsetattr(theirs, termios.TCSANOW, settings)
    return ours, theirs


def all_of(ends):
    """The bytes that are read from each of these ends until it is closed."""
    reported = {end: b"" for end in ends}
    waiting = set(ends)
    while waiting:
        for end in select.select(list(waiting), [], [])[0]:
            try:
                more = os.read(end, 65536)
            except OSError:  # a terminal whose other end is closed
                more = b""
            reported[end] += more
            if not more:
                waiting.remove(end)
                os.close(end)
    return reported


def run(*arguments, text=b"", out="terminal", err="pipe", columns=0, program="", **variables):
    """The status, output and messages of a run. Each of the two streams is a terminal, a pipe, or the path of a file."""
    environment = {name: it for name, it in os.environ.items() if name not in ("COLUMNS", "NO_COLOR")} | variables
    ends, theirs = {}, {}
    for name, kind in (("out", out), ("err", err)):
        if kind in ("terminal", "pipe"):
            ends[name], theirs[name] = terminal(columns) if kind == "terminal" else os.pipe()
        else:
            theirs[name] = os.open(kind, os.O_WRONLY)
    with tempfile.TemporaryFile() as file:
        file.write(text if isinstance(text, bytes) else text.encode())
        file.seek(0)
        process = subprocess.Popen([program or PROGRAM, *arguments], stdin=file, stdout=theirs["out"], stderr=theirs["err"], env=environment)
        for end in theirs.values():
            os.close(end)
        reported = all_of(ends.values())
    texts = {name: reported[end].decode() for name, end in ends.items()}
    return process.wait(), texts.get("out", ""), texts.get("err", "")


def columns(line):
    """The terminal columns of a line. Wide characters take two, and marks none."""
    count = 0
    for c in SGR.sub("", line):
        if unicodedata.category(c) not in ("Mn", "Me", "Cf"):
            count += 2 if unicodedata.east_asian_width(c) in "WF" else 1
    return count


def widest(text):
    return max((columns(line) for line in text.split("\n")), default=0)


def controls(text):
    """True if a text has control characters other than line feeds and SGR sequences, or changes the direction of text."""
    return any(unicodedata.category(c) == "Cc" and c != "\n" or c in "\u202a\u202b\u202c\u202d\u202e\u2066\u2067\u2068\u2069" for c in SGR.sub("", text))


def see(name, is_so, shown=""):
    global failed
    print(f"{name}: {'as expected' if is_so else 'DIFFERS'}")
    if not is_so:
        failed = 1
        print(shown[:2000])


def widths():
    text = "name,text\n" + ("a,%s\n" % ("x" * 320)) * 3
    for name, variables, width in (
        ("no COLUMNS", {}, 80),
        ("COLUMNS=40", {"COLUMNS": "40"}, 40),
        ("COLUMNS=0", {"COLUMNS": "0"}, 80),
        ("an empty COLUMNS", {"COLUMNS": ""}, 80),
        ("COLUMNS=wide", {"COLUMNS": "wide"}, 80),
        ("COLUMNS=+40", {"COLUMNS": "+40"}, 80),
        ("COLUMNS=65535", {"COLUMNS": "65535"}, 331),
        ("COLUMNS=65536", {"COLUMNS": "65536"}, 80),
    ):
        status, out, _ = run(text=text, **variables)
        see(f"a terminal with {name}", status == 0 and widest(out) == width, out)
        status, out, _ = run(text=text, out="pipe", err="terminal", **variables)
        see(f"a pipe with {name}", status == 0 and widest(out) == 331, out)
    for arguments, width in ((["-w", "0"], 331), (["-w", "30"], 30), (["-w", "30", "-w", "50"], 50)):
        status, out, _ = run(*arguments, text=text, COLUMNS="40")
        see(f"a terminal with {' '.join(arguments)}", status == 0 and widest(out) == width, out)


def sizes():
    """Tries widths of terminals, which the installed command asks for. It is called directly, by a link, and by a path with
    spaces."""
    text = "name,text\n" + ("a,%s\n" % ("x" * 320)) * 3
    for columns, width in ((40, 40), (80, 80), (120, 120), (200, 200), (0, 80)):
        status, out, err = run(text=text, columns=columns)
        see(f"a terminal of {columns} columns", status == 0 and widest(out) == width and err == "", out)
    for arguments, variables, width in (([], {"COLUMNS": "40"}, 40), ([], {"COLUMNS": ""}, 120), (["-w", "30"], {}, 30), (["-w", "0"], {}, 331)):
        status, out, _ = run(*arguments, text=text, columns=120, **variables)
        see(f"a terminal of 120 columns with {arguments} and {variables}", status == 0 and widest(out) == width, out)
    status, out, _ = run(text=text, out="pipe", err="terminal", columns=120)
    see("a pipe beside a terminal of 120 columns", status == 0 and widest(out) == 331, out)
    status, out, err = run("-c", "  *'$HOME", "", text=text, columns=120)
    see("an empty argument", status == 1 and err == "csvtable: : no such file\n", out + err)
    status, out, err = run("-c", "  *'$HOME", text=text, columns=120)
    see("an argument with spaces and signs of the shell", status == 1 and err.endswith(": no column '  *'$HOME'; there are 'name' and 'text'\n"), out + err)
    with tempfile.TemporaryDirectory() as folder:
        prefix = os.path.join(folder, "a b")
        for part in ("bin", "libexec"):
            os.makedirs(os.path.join(prefix, part))
            shutil.copy(os.path.join(os.path.dirname(PROGRAM), "..", part, "csvtable"), os.path.join(prefix, part))
        link = os.path.join(folder, "a link")
        os.symlink(os.path.join(prefix, "bin", "csvtable"), link)
        status, out, err = run(text=text, columns=120, program=link)
        see("by a link, in a folder with a space", status == 0 and widest(out) == 120, out + err)
        status, out, err = run(text=text, columns=120, PATH=os.path.join(folder, "nothing"))
        see("without stty and any other program", status == 0 and widest(out) == 80 and err == "", out + err)


def resized():
    """Tries a terminal that has another size in each run."""
    ours, theirs = terminal()
    environment = {name: it for name, it in os.environ.items() if name not in ("COLUMNS", "NO_COLOR")}
    for columns in (120, 60, 90):
        termios.tcsetwinsize(theirs, (24, columns))
        process = subprocess.Popen([PROGRAM], stdin=subprocess.PIPE, stdout=theirs, env=environment)
        process.stdin.write(b"a,%s\n" % (b"x" * 200))
        process.stdin.close()
        out = b""
        while process.poll() is None or select.select([ours], [], [], 0.1)[0]:
            if select.select([ours], [], [], 0.1)[0]:
                out += os.read(ours, 65536)
        see(f"a terminal that now has {columns} columns", process.returncode == 0 and widest(out.decode()) == columns, out.decode())
    os.close(ours)
    os.close(theirs)


def waits():
    """Tries an input that comes from a terminal. The terminal gets a message about this."""
    reported = "csvtable: reading from the terminal; end with Ctrl-D\n"
    for arguments in ([], ["-"]):
        ours, theirs = terminal(80)
        pipes = {"stdout": subprocess.PIPE, "stderr": subprocess.PIPE}
        process = subprocess.Popen([PROGRAM, *arguments], stdin=theirs, **pipes)
        is_reported = select.select([process.stderr], [], [], 10)[0]
        first = process.stderr.read(len(reported)).decode() if is_reported else ""
        see(f"a terminal gets a message before it is read {' '.join(arguments)}", first == reported and process.poll() is None, first)
        os.write(ours, b"a,b\nx,y\n\x04")
        out, err = process.communicate(timeout=10)
        see("and its input is drawn", process.returncode == 0 and err == b"" and "│ x ┆ y │" in out.decode(), out.decode())
        os.close(ours)
        os.close(theirs)
    with tempfile.NamedTemporaryFile() as file:
        file.write(b"a,b\n")
        file.flush()
        ours, theirs = terminal(80)
        it = subprocess.run([PROGRAM, file.name], stdin=theirs, capture_output=True)
        see("a file is read, without a message", it.returncode == 0 and it.stderr == b"", it.stderr.decode())
        os.close(ours)
        os.close(theirs)


def blank():
    """Tries inputs for which nothing is drawn. A terminal then gets a message, and a pipe doesn't."""
    for arguments, text, message in (
        ([], "", "csvtable: standard input: no records\n"),
        ([], "\n\n", "csvtable: standard input: no records\n"),
        (["--skip", "9"], "a,b\n", "csvtable: standard input: no records below --skip 9\n"),
        ([], "a\n", ""),
    ):
        status, _, err = run(*arguments, text=text)
        see(f"the message in a terminal about {text!r} {' '.join(arguments)}", status == 0 and err == message, err)
        status, _, err = run(*arguments, text=text, out="pipe", err="pipe")
        see("and a pipe", status == 0 and err == "", err)


def bold():
    for name, arguments, variables, out, is_bold in (
        ("a terminal", [], {}, "terminal", True),
        ("a terminal with NO_COLOR=1", [], {"NO_COLOR": "1"}, "terminal", False),
        ("a terminal with an empty NO_COLOR", [], {"NO_COLOR": ""}, "terminal", True),
        ("a pipe", [], {}, "pipe", False),
        ("a pipe and --color always", ["--color", "always"], {}, "pipe", True),
        ("a terminal and --color never", ["--color", "never"], {}, "terminal", False),
        ("NO_COLOR=1 and --color always", ["--color", "always"], {"NO_COLOR": "1"}, "terminal", True),
    ):
        err = "pipe" if out == "terminal" else "terminal"
        status, reported, _ = run(*arguments, text="a,b\nx,y\n", out=out, err=err, **variables)
        see(f"bold in {name}", status == 0 and ("\x1b[1m" in reported) == is_bold, reported)


def endings():
    text = "a,b\nx,y\n"
    status, out, err = run("--bogus", text=text)
    see("an argument that isn't known", status == 2 and out == "" and "--bogus" in err, out + err)
    status, out, err = run("--bogus\x1b[2J", text=text)
    see("an argument with a sequence", status == 2 and out == "" and not controls(err), repr(err))
    see("an argument that isn't known, and a full disk", run("--bogus", text=text, err="/dev/full")[0] == 2)
    status, out, err = run("--help")
    see("help", status == 0 and "--columns" in out and err == "", out + err)
    see("help on a full disk", run("--help", out="/dev/full")[0] == 1)
    status, out, err = run("--version")
    see("the version", status == 0 and out == "csvtable 0.1.0\n" and err == "", out + err)
    status, out, err = run("-c", "01,zz", text=text)
    see("a number of no column", status == 1 and out == "" and err.endswith(": no column 'zz'; there are 'a' and 'b'\n"), out + err)
    status, out, err = run("-c", "09", text=text)
    see("a number as it was typed", status == 1 and out == "" and err.endswith(": no column '09'; there are 'a' and 'b'\n"), out + err)
    status, out, err = run("-c", "z\x1b]0;x\x07", text=text)
    see("a name with a sequence", status == 1 and out == "" and not controls(err), repr(err))
    status, out, err = run("-r", "b", "--left", "2", text=text)
    see("a column at two sides", status == 1 and out == "" and "'b'" in err, out + err)
    status, out, err = run(text=text, out="/dev/full")
    see("a full disk", status == 1 and "written" in err, err)


def texts():
    status, out, _ = run("-n", text="%s\n" % ("x" * 300))
    see("a text of 300 letters", status == 0 and widest(out) == 80, out)
    text = ",".join(f"column {n}" for n in range(30)) + "\n" + ",".join(f"text {n}" for n in range(30)) + "\n"
    status, out, _ = run(text=text)
    see("a file of 30 columns", status == 0 and out.startswith("record 1 of 1") and widest(out) == 23, out)
    status, out, _ = run("--expanded", "never", text=text)
    see("30 columns in rows", status == 0 and "record" not in out and widest(out) == 121, out)
    status, out, _ = run("--markdown", text="a,b\n" + "x,%s\n" % ("y" * 100) * 3, COLUMNS="20")
    see("Markdown with COLUMNS=20", status == 0 and out.count("\n") == 5, out)
    for arguments in ([], ["--ansi"]):
        text = "a,b\n\x1b]52;c;eA==\x07,\x1b[2J\n\u009b2J,\u202etxt\n\x1b[31mred\x1b[0m,\x1b[1A\n"
        status, out, _ = run(*arguments, text=text)
        see(f"a file with control sequences {' '.join(arguments)}", status == 0 and not controls(out) and widest(out) <= 80, repr(out))
    script = "José,Ελένη,Анна,רות,ليلى,ნინო,王小明,김철수\n"
    status, out, _ = run("-n", text=script)
    see("eight scripts", status == 0 and len({columns(line) for line in out.split("\n") if line}) == 1, out)
    status, out, err = run(text="")
    see("an empty file", status == 0 and out == "", repr(out))


def pages():
    with tempfile.NamedTemporaryFile() as file:
        file.write(b"number,text\n" + b"".join(b"%d,text %d\n" % (n, n) for n in range(100000)))
        file.flush()
        table = subprocess.Popen([PROGRAM, file.name], stdout=subprocess.PIPE, stderr=subprocess.PIPE)
        head = subprocess.run(["head", "-5"], stdin=table.stdout, capture_output=True)
        table.stdout.close()
        reported = table.stderr.read()
        see("100,000 records through head", table.wait() == 1 and reported == b"" and head.stdout.count(b"\n") == 5, head.stdout.decode())


def main():
    global PROGRAM
    if len(sys.argv) != 2:
        sys.exit(__doc__.split("\n\n")[1].strip())
    PROGRAM = os.path.realpath(sys.argv[1])
    with open(PROGRAM, "rb") as file:
        is_installed = file.read(2) == b"#!"
    for tries in (widths, *((sizes, resized) if is_installed else ()), waits, blank, bold, endings, texts, pages):
        tries()
    return failed


if __name__ == "__main__":
    sys.exit(main())
