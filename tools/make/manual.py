#!/usr/bin/env python3
"""Makes csvtable's man page, its completions for bash and zsh, and the list of options in docs/CSVTABLE.md. All of them are made
from the options in the program's source. The man page also has the sections of docs/CSVTABLE.md, and a section of SECURITY.md.

    tools/make/manual.py

tools/check/check_proved.py names the files that differ from the output of this program.
"""
import os
import re
import sys
import textwrap

from pages import in_words, with_links
from project import TOP, text_of

SPEC = r'^    "\w+", "(.+?)", (?:None|Some\(\'(.)\'\)), (\w+), "(.*?)",\s+"((?:[^"\\]|\\[\s\S])*)";'


class Option:
    def __init__(self, name, letter, kind, value, help):
        self.letter, self.kind, self.value = letter, kind, value
        self.name = name if kind not in ("File", "Letter") else None
        self.help = re.sub(r"\\\n *", "", help).replace("\\n", " ")
        self.values = VALUES.get(kind, DELIMITERS if name == "delimiter" else [])

    def forms(self):
        """The forms of the option, for example `-w` and `--width`."""
        return ([f"-{self.letter}"] if self.letter else []) + ([f"--{self.name}"] if self.name else [])


SOURCE = text_of("crates/csv_command/src/options.rt")
VERSION = re.search(r'\.version\("(.+?)"\)', SOURCE)[1]
DATE = "2026-11-27"  # the date of this version
ABOUT = re.search(r'\.about\("(.+?)"\)', SOURCE)[1]


def names_in(declared):
    return re.findall(r'"(.+?)"', re.search(declared + r": \[&str; \d+\] = \[(.*?)\];", SOURCE, re.S)[1])


def style_names():
    own = re.search(r"fn own_styles.*?\n\}", text_of("crates/csv_command/src/styles.rt"), re.S)[0]
    presets = re.search(r"pub static ALL.*?\];|pub const ALL.*?\];", text_of("crates/comfy_parts/src/style/presets.rt"), re.S)[0]
    return re.findall(r'\("(\w+)"', own) + re.findall(r'\("(\w+)"', presets)


PAGE = "docs/CSVTABLE.md"
VALUES = {"When": names_in("WHENS"), "Encoding": names_in("ENCODINGS"), "Style": style_names()}
DELIMITERS = ["auto", "tab", "spaces"]
SPECS = [Option(*it) for it in re.findall(SPEC, SOURCE, re.M)]
OPTIONS = [it for it in SPECS if it.kind != "File"]


ESCAPES = {"\\": "\\e", "-": "\\-", "'": "\\(aq", '"': "\\(dq", "`": "\\(ga", "^": "\\(ha", "~": "\\(ti"}


def literal(text):
    """A text in the form that man shows unchanged. It is in ASCII, and its hyphens are those that users type."""
    return "".join(ESCAPES.get(it, it if it.isascii() else f"\\[u{ord(it):04X}]") for it in text)


def bold(text):
    return f"\\fB{literal(text)}\\fR"


def escaped(text):
    """A text of a page in the form for man. Code and bold text become bold. The lines of the source have at most 78 characters."""
    made = ""
    for part in re.split(r"(`` ` ``|`[^`]*`)", text):
        if part.startswith("`"):
            made += bold("`" if part == "`` ` ``" else part[1:-1])
        else:
            made += re.sub(r"\*(.+?)\*", r"\\fI\1\\fR", re.sub(r"\*\*(.+?)\*\*", r"\\fB\1\\fR", literal(part)))
    return "\n".join(textwrap.wrap(made, 78, break_long_words=False, break_on_hyphens=False))


def page_for_man(path):
    """A page without links. In place of a link to a file that is installed with the man page, there is the path of this file."""

    def link_to(target, _, text):
        return text if target == path else in_words(text, "share/doc/csvtable/PROVED.md") if target == "docs/PROVED.md" else None

    return with_links(path, link_to)


def blocks(text):
    """The paragraphs, lists and examples of a text, in the form for man."""
    for block in re.findall(r"```.*?```|(?:(?!\n\n).)+", text, re.S):
        block = block.strip("\n")
        if block.startswith("```"):
            yield from [".PP", ".EX", literal("\n".join(block.split("\n")[1:-1])), ".EE"]
        elif block.startswith("- "):
            for item in block.split("\n"):
                yield from [".IP \\(bu 2", escaped(item[2:])]
        elif block:
            yield from [".PP", escaped(block)]


def section(path, heading, name=None):
    """A section of a page for man, under its heading or another name."""
    text = re.search(rf"^## {heading}\n(.*?)(?=^## |\Z)", page_for_man(path), re.M | re.S)[1]
    return [f".SH {literal((name or heading).upper())}", *blocks(text)]


def examples():
    """Commands and their purposes: those of the program's help, and the recipes of docs/CSVTABLE.md."""
    recipes = re.search(r"```sh\n(.*?)```", text_of(PAGE), re.S)[1]
    return re.findall(r"^  (csvtable .+?)  +(.+)$", SOURCE, re.M) + re.findall(r"^(.+?)  +# (.+)$", recipes, re.M)


def man_page():
    before, after = re.search(r"^# csvtable\n(.*?)<!-- options -->.*<!-- end of options -->\n(.*?)^## ", page_for_man(PAGE), re.M | re.S).groups()
    lines = [f'.TH CSVTABLE 1 {DATE} "csvtable {VERSION}" "User Commands"']
    lines += [".SH NAME", f"csvtable \\- {ABOUT[0].lower()}{ABOUT[1:]}"]
    lines += [".SH SYNOPSIS", ".B csvtable", "[\\fIoptions\\fR]", "[\\fIFILE\\fR]"]
    lines += [".SH DESCRIPTION", *blocks(before)]
    lines += [".SH OPTIONS", *blocks(after)]
    for option in OPTIONS:
        value = f" \\fI{option.value}\\fR" if option.value else ""
        lines += [".TP", ", ".join(map(bold, option.forms())) + value, escaped(option.help)]
        if option.kind == "Style":
            lines += [".br", escaped(", ".join(option.values))]
    lines += [".TP", "\\fB\\-h\\fR, \\fB\\-\\-help\\fR", "Print help", ".TP", "\\fB\\-V\\fR, \\fB\\-\\-version\\fR", "Print version"]
    for heading in ("Input", "Columns", "Width", "Expanded records", "Frame", "Numbers", "Markdown"):
        lines += section(PAGE, heading)
    lines += section(PAGE, "Errors and status", "Exit status")
    lines += [".SH ENVIRONMENT", ".TP", ".B COLUMNS", "The width of a terminal, as WIDTH says."]
    lines += [".TP", ".B NO_COLOR", escaped("If it is set and isn't empty, the header isn't bold unless `--color always` is given.")]
    lines += [".SH EXAMPLES"]
    for example, purpose in examples():
        lines += [".TP", bold(example), escaped(purpose[0].upper() + purpose[1:])]
    lines += section(PAGE, "Files of strangers")
    lines += section("SECURITY.md", "Reporting a fault", "Reporting bugs")
    lines += [".SH SEE ALSO", ".BR column (1),", ".BR iconv (1),", ".BR less (1),", ".BR mlr (1)"]
    return "\n".join(lines) + "\n"


def bash():
    cases = "".join(
        f"    {'|'.join(it.forms())})\n      COMPREPLY=($(compgen -W '{' '.join(it.values)}' -- \"$word\"))\n      return\n      ;;\n"
        for it in OPTIONS
        if it.values
    )
    taking = "|".join(form for it in OPTIONS if it.value and not it.values for form in it.forms())
    forms = " ".join(form for it in OPTIONS for form in it.forms()) + " -h --help -V --version"
    return f"""# Completes the options of csvtable in bash.
_csvtable() {{
  local word=${{COMP_WORDS[COMP_CWORD]}} option=${{COMP_WORDS[COMP_CWORD - 1]}}
  # `--style=box` is three words
  [ "$word" != = ] || word=
  [ "$option" != = ] || option=${{COMP_WORDS[COMP_CWORD - 2]}}
  case $option in
{cases}    {taking})
      return
      ;;
  esac
  case $word in
    -*) COMPREPLY=($(compgen -W '{forms}' -- "$word")) ;;
    *) COMPREPLY=($(compgen -f -- "$word")) ;;
  esac
}}
complete -o filenames -F _csvtable csvtable
"""


def zsh_text(text):
    return text.replace("'", "'\\''").replace("[", "\\[").replace("]", "\\]").replace(":", "\\:")


def zsh():
    lines = ["#compdef csvtable", "# Completes the options of csvtable in zsh.", "_arguments -s \\"]
    for option in OPTIONS:
        values = f"({' '.join(option.values)})" if option.values else " "
        value = f":{option.value}:{values}" if option.value else ""
        text = zsh_text(option.help)
        forms = option.forms()
        if len(forms) == 2:
            lines.append(f"  '({' '.join(forms)})'{{{','.join(forms)}}}'[{text}]{value}' \\")
        else:
            lines.append(f"  '{forms[0]}[{text}]{value}' \\")
    lines += ["  '(-h --help)'{-h,--help}'[Print help]' \\", "  '(-V --version)'{-V,--version}'[Print version]' \\"]
    return "\n".join([*lines, "  '::FILE:_files'"]) + "\n"


def page():
    """The text of docs/CSVTABLE.md, with its list of options."""
    lines = [f"- `{', '.join(it.forms())}{' ' + it.value if it.value else ''}`: {it.help}" for it in OPTIONS]
    before, after = "<!-- options -->\n", "<!-- end of options -->"
    return re.sub(f"{before}.*?{after}", lambda _: before + "\n".join(lines) + "\n" + after, text_of(PAGE), flags=re.S)


MADE = {"share/csvtable.1": man_page, "share/csvtable.bash": bash, "share/_csvtable": zsh, PAGE: page}


def wrong_files():
    """The paths of the files that differ from what this program would write."""
    return [path for path, made in MADE.items() if not os.path.isfile(os.path.join(TOP, path)) or text_of(path) != made()]


def main():
    if sys.argv[1:]:
        sys.exit(__doc__)
    for path in wrong_files():
        text = MADE[path]()
        with open(os.path.join(TOP, path), "w", encoding="utf-8") as file:
            file.write(text)


if __name__ == "__main__":
    main()
