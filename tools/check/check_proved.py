#!/usr/bin/env python3
"""Compares the pages with the code. It prints each difference, or "all agree". The status is 1 if there is a difference. Before
"all agree", a line says how many of 1,000 words are words that this project avoids.

    tools/check/check_proved.py

- docs/PROVED.md has the counts that tools/check/what_is_believed.py computes. Its tables name all laws and promises, and nothing
  else.
- comfy_table re-exports all laws of comfy_parts.
- Each law and each promise has a trial with a value that makes its conclusion false. The line before the trial is
  `-- false: CRATE::laws::NAME`.
- README.md shows the output of a stored run. Its figures equal those in docs/PERFORMANCE.md, and so does a figure of
  docs/DECISIONS.md.
- Each clause and each signature that a CALLING.md quotes is in the sources. They are the sources of its library, of another
  library on that page, or of a caller. Each name in backquotes on the page is in the sources too.
- docs/DIFFERENCES.md has each name that only the original or only this library has (tools/check/new_items.py).
- Each mutation changes a function that exists.
- Each definition of specs/ and proofs/ is used, and each private function is called (tools/check/reach.py).
- The first comment of each file in specs/ of a library ends with the source of its rules.
- Comments and pages have no more of the avoided words than tools/check/avoided.py allows.
- No line of src/ and specs/ has more than 100 characters, except `use` lines and `#[tactic(..)]`, which `rt fmt` doesn't break.
- The crate example_docs agrees with the doc comments. Each example that it doesn't have is in a test (tools/make/doc_examples.py).
- csvtable's man page and completions agree with the program's options (tools/make/manual.py).
- Each place that has the version agrees with CHANGELOG.md.
- The gallery and the pictures agree with the stored outputs (tools/make/gallery.py, pictures.py). Each link of a page leads to a file or a heading.
"""
import glob
import os
import re
import sys

from avoided import summary, too_many
from definitions import LIBRARIES, PROMISES, TOP, files_of, functions_of, sources_of, text_of
from mutations import mutations_of
from new_items import unlisted
from reach import uncalled, unreached
from what_is_believed import updated

sys.path.append(f"{TOP}/tools/make")
from doc_examples import wrong_examples
from gallery import is_wrong
from manual import wrong_files
from pages import dead_links
from pictures import wrong_pictures

LAWS_ALONE = ["cluster_width"]  # libraries without code
LAWS_ELSEWHERE = {("comfy_parts", "presets_are_as_defined")}  # laws outside of a module `laws`; they need no trial
LAWS_IN_PROSE = ["cluster_width", "promises"]  # crates whose laws PROVED names outside of its tables
COUNTS = "no one two three four five six seven eight nine ten eleven twelve".split()
CALLERS = ["test_callers", "csv_promises"]
PAGE_WITH = {"comfy_run": ["devices"], "csv_tables": ["csv_records", "csv_command"]}  # further crates on a CALLING.md
STORED = ["csvtable/stdout"]
# The programs whose lines README.md shows, by the languages of its code blocks.
README_CODE = {
    "rust": "crates/example_first/src/main.rt",
    "python": "packages/python/examples/boats.py",
    "c": "packages/c/examples/rows.c",
}
LINKED = ["README.md", "CHANGELOG.md", "CONTRIBUTING.md", "SECURITY.md", "docs/*.md", "crates/*/CALLING.md", "crates/case_files/FORMAT.md", "packages/*/README.md"]
# The places that have the version. The newest heading of CHANGELOG.md has it too.
VERSIONS = {
    "crates/csv_command/src/options.rt": r'\.version\("(.*)"\)',
    "docs/INSTALL.md": r"(?:csvtable|comfy_table|comfy_table_proved)[-_](\d+\.\d+\.\d+)",
    "packages/c/comfy_table.h": r'^#define COMFY_TABLE_VERSION "(.*)"',
    "packages/c/comfy_table.pc": r"^Version: (.*)",
    "packages/python/pyproject.toml": r'^version = "(.*)"',
    "packages/python/src/comfy_table_proved/__init__.py": r'^__version__ = "(.*)"',
    "packages/rust/Cargo.toml": r'^version = "(.*)"',
    "packages/rust/README.md": r"comfy_table_proved-(\d+\.\d+\.\d+)",
    "packages/rust/src/lib.rs": r"comfy_table_proved-(\d+\.\d+\.\d+)",
    "README.md": r"comfy_table_proved-(\d+\.\d+\.\d+)",
    "share/csvtable.1": r'"csvtable (\d+\.\d+\.\d+)"',
}
# Names in backquotes of a CALLING.md that the sources don't have, each with the reason.
NOT_OURS = {
    "yours": "a crate of the reader's",
    "try_": "the beginning of some names",
}


def mutated_in(crate):
    """The functions that a crate's mutations change, by the names of their files."""
    found = mutations_of(f"{TOP}/crates/{crate}") + mutations_of(f"{TOP}/crates/{crate}", "must-fail")
    return {it.name.split("__")[0] for it in found}


def laws():
    """The names of the laws and promises, in the form of a line `-- false:`."""
    for crate in LIBRARIES:
        for name, (one, *_) in functions_of(crate).items():
            in_laws = f"crates/{crate}/src/laws.rt" == one.signature.path
            if one.is_public and (in_laws or crate in LAWS_ALONE or one.signature.path.startswith(PROMISES)):
                yield f"{crate}::laws::{name}" if in_laws else f"{crate}::{name}"


def wrong_trials():
    """The laws without a trial in which they are false, and the names in lines `-- false:` that aren't laws."""
    named, false = set(), r"^-- false: (.*)\n(?=(?:--.*\n)*(?:pub )?\w+ :)"
    for path in files_of("*", "proofs/*Trials.antt"):
        for labels in re.findall(false, text_of(path), re.M):
            named |= set(labels.split(", "))
    wrong = [f"no trial has a value for which {it} is false" for it in laws() if it not in named]
    return wrong + [f"a trial names {it}, which isn't a law" for it in sorted(named - set(laws()))]


def on_one_line(text):
    """A clause, a signature or a source on one line and without lifetimes. So texts in different layouts can be compared."""
    line = " ".join(text.split()).replace("; }", " }").replace("( ", "(").replace(", )", ")")
    return re.sub(r"'\w+ (?=mut |\[|&|\w)|<'\w+>|\bmut (?=self\b)|\b(?:std::result|clap)::", "", line)


def quoted_in(page):
    """The clauses and signatures that a page quotes, each with the forms that it can have in the source. In a text block, `S` is
    the value that `self` points to before the call, and `S'` is the value after it."""
    for block in re.findall(r"```rust\n(.*?)```", page, re.S):
        yield from ([it] for it in re.findall(r"^\s*((?:ensures|requires)\b.*?);?$", block, re.M))
    for block in re.findall(r"```text\n(.*?)```", page, re.S):
        yield from ([f"fn {it}"] for it in re.findall(r"^fn (?:\w+::)*(.*)$", block, re.M))
        for clause in re.findall(r"^\s*ensures(?: \w+)?: (.*)$", block, re.M):
            after = re.sub(r"\bS'", "self.new", clause)
            yield [re.sub(r"\bS\b", before, after) for before in ("self.now", "self.old", "self.entry", "self")]


def wrong_in_calling(crate):
    """The quoted clauses and signatures of a CALLING.md that its library doesn't have."""
    sources = [it for name in (crate, *PAGE_WITH.get(crate, []), *CALLERS) for it in sources_of(name)]
    source = on_one_line(" ".join(text_of(it) for it in sources))
    quoted = quoted_in(text_of(f"crates/{crate}/CALLING.md"))
    return [
        f"{crate}/CALLING.md quotes this, which no source has: {forms[0]}"
        for forms in quoted
        if not any(on_one_line(it) in source for it in forms)
    ]


def names_in(page):
    """The names in backquotes of a page, outside of its blocks. Code of one word, or of words joined by `::`, is a name. In longer
    code, the words of the forms `FooBar`, `foo_bar` and `foo::bar` are names."""
    for code in re.findall(r"`([^`\n]+)`", re.sub(r"```.*?```", "", page, flags=re.S)):
        if re.fullmatch(r"[A-Za-z]\w*(?:::\w+)*", code):
            yield from code.split("::")
            continue
        for word in re.findall(r"[A-Za-z]\w*(?:::\w+)*", re.sub(r'"[^"]*"', "", code)):
            if "::" in word or "_" in word or re.search(r"[A-Z]\w*[a-z]\w*[A-Z]", word):
                yield from word.split("::")


def wrong_names():
    """The names in backquotes of the pages CALLING.md that no source has, except in comments."""
    pages = glob.glob("crates/*/CALLING.md", root_dir=TOP)
    paths = [path for kind in ("src/**/*.rt", "specs/**/*.antt", "proofs/**/*.antt") for path in files_of("*", kind)]
    sources = [re.sub(r"^\s*(?://|--).*$", "", text_of(path), flags=re.M) for path in paths]
    known = set(NOT_OURS).union(*(re.findall(r"\w+", it) for it in [*sources, *paths, text_of("crates.txt")]))
    found = ((page, it) for page in pages for it in dict.fromkeys(names_in(text_of(page))))
    return [f"{page} names `{it}`, which no source has" for page, it in found if it not in known]


def named_laws(page):
    """The crates and names of the laws and promises in the tables of a page. They are in the column after the conditions. If a
    name has no crate, its crate is in the head of the table."""
    place = ""
    for line in re.findall(r"^\| .*$", page, re.M):
        place = (re.findall(r"Function of `(\w+)", line) or [place])[0] if " | Condition | " in line else place
        for path in re.findall(r"`([a-z]\w*(?:::\w+)*)`", " ".join(line.split(" | ")[2:])):
            if " | Condition | " not in line:
                yield path.split("::")[0] if "::" in path else place, path.split("::")[-1]


def wrong_laws():
    """The laws and promises that PROVED doesn't name, and the names in its tables that are no laws and no promises."""
    page = text_of("docs/PROVED.md")
    named, wanted = set(named_laws(page)), {(it.split("::")[0], it.split("::")[-1]) for it in laws()}
    in_prose = {it for it in wanted if it[0] in LAWS_IN_PROSE and f"`{it[1]}`" in page}
    missing = [f"docs/PROVED.md doesn't name {'::'.join(it)}" for it in sorted(wanted - named - in_prose)]
    return missing + [f"docs/PROVED.md names {'::'.join(it)}, which isn't a law" for it in sorted(named - wanted - LAWS_ELSEWHERE)]


def table_below(heading, page):
    """The figures with a decimal point in each line of the first block below a heading of a page."""
    block = re.search(rf"^#+ {re.escape(heading)}\n.*?^```text\n.*?\n(.*?)^```", page, re.M | re.S)[1]
    return [[float(it.replace(",", "")) for it in re.findall(r"(?<=\s)[\d,]*\d\.\d+(?=[\s;])", line + "\n")] for line in block.splitlines()]


def percent_of(ratios):
    """The least and the greatest ratio in percent, as a page writes them."""
    return f"{round(100 * min(ratios))} to {round(100 * max(ratios))} %"


def wrong_figures():
    """The figures of README and DECISIONS that differ from PERFORMANCE, and the wrong ratios in PERFORMANCE."""
    page = text_of("docs/PERFORMANCE.md")
    ours = table_below("`ctable`, and the original", page)
    calls = table_below("Calls from Rust and Python", page)
    # A line has some figures of the package, then the figure of the original, then ratios. The first figure and the first ratio
    # are for `Table`.
    tables = [(it[0], it[len(it) // 2], it[len(it) // 2 + 1]) for it in calls]
    wrong = [f"docs/PERFORMANCE.md: {it} of {original} isn't {ratio}" for it, original, ratio in ours + tables if abs(it / original - ratio) > 0.0105]
    block = re.search(r"^100,000 records .*?\n(.*?)^```", page, re.M | re.S)[1]
    seen = {it[0]: f"{it[1]} s, {it[2]} MB" for it in re.findall(r"^(\w+).* (\d\.\d\d) +(\d+)$", block, re.M)}
    wanted = [
        ("README.md", f"On {COUNTS[len(ours)]} inputs, `ctable` takes {percent_of([it[2] for it in ours])} of the processor instructions"),
        ("README.md", f"On {COUNTS[len(calls)]} inputs, `Table` of the package for Rust takes {percent_of([it[2] for it in tables])} of them"),
        ("README.md", "processor time, memory | " + " | ".join(seen.get(it, "") for it in ("csvtable", "csvlook", "column", "mlr")) + " |"),
        ("docs/DECISIONS.md", f"CSV and arguments take {calls[0][2] - calls[0][1]:.2f} million instructions more"),
    ]
    return wrong + [f"{path} doesn't have this, which follows from docs/PERFORMANCE.md: {it}" for path, it in wanted if it not in text_of(path)]


def wrong_lines():
    """The lines of src/ and specs/ with more than 100 characters."""
    kept_on_one_line = r"\s*(?:(?:pub|ghost|unfoldable) )*use |\s*#!?\[tactic\("
    wrong = []
    for path in (it for kind in ("src/**/*.rt", "specs/**/*.antt") for it in files_of("*", kind)):
        for number, line in enumerate(text_of(path).split("\n"), 1):
            if len(line) > 100 and not re.match(kept_on_one_line, line):
                wrong.append(f"{path}:{number} has {len(line)} characters")
    return wrong


def wrong_versions():
    """The places whose version isn't the one in the newest heading of CHANGELOG.md."""
    version = re.search(r"^## (\d+\.\d+\.\d+)", text_of("CHANGELOG.md"), re.M)[1]
    wrong = []
    for path, pattern in VERSIONS.items():
        found = re.findall(pattern, text_of(path), re.M)
        wrong += [f"{path} has version {it}, and CHANGELOG.md {version}" for it in found or ["none"] if it != version]
    return wrong


def without_source():
    """The files of specs/ whose first comment doesn't end with the source of their rules."""
    paths = (path for crate in LIBRARIES for path in files_of(crate, "specs/**/*.antt"))
    source = r"(?:-- .*\n)+-- Source: .*\.\n(?!--)"
    return [it for it in paths if not it.endswith("/Lib.antt") and not re.match(source, text_of(it))]


def wrong_links():
    """The links of the pages to files or headings that don't exist."""
    pages = (it for pattern in LINKED for it in glob.glob(pattern, root_dir=TOP))
    return [f"{page} links to {link}, which {fault}" for page in pages for link, fault in dead_links(page, TOP)]


def main():
    page, readme, wrong = text_of("docs/PROVED.md"), text_of("README.md"), []
    for crate in os.listdir(f"{TOP}/crates"):
        wrong += [f"{crate} has no function {it}, which a mutation names" for it in mutated_in(crate) - set(functions_of(crate))]
    wrong += [f"README.md doesn't print crates/{path}" for path in STORED if text_of(f"crates/{path}") not in readme]
    for language, path in README_CODE.items():
        code = re.search(rf"^```{language}\n(.*?)^```", readme, re.M | re.S)[1]
        wrong += [f"{path} doesn't have this line of README.md: {line}" for line in code.splitlines() if line not in text_of(path)]
    for path in glob.glob("crates/*/CALLING.md", root_dir=TOP):
        wrong += wrong_in_calling(path.split("/")[1])
    wrong += wrong_names()
    wrong += wrong_laws()
    wrong += wrong_figures()
    wrong += wrong_trials()
    wrong += wrong_examples()
    wrong += [f"{path} differs from the output of tools/make/manual.py" for path in wrong_files()]
    wrong += [f"{path} differs from the output of tools/make/pictures.py" for path in wrong_pictures()]
    wrong += ["docs/GALLERY.md differs from the output of tools/make/gallery.py"] if is_wrong() else []
    wrong += wrong_links()
    wrong += [f"docs/PROVED.md doesn't have this line: {it}" for it in updated(page).splitlines() if it not in page.splitlines()]
    passed_on = re.search(r"^pub use comfy_parts::laws::\{(.*?)\};", text_of("crates/comfy_table/src/laws.rt"), re.M | re.S)[1]
    of_parts = re.findall(r"^pub fn (\w+)", text_of("crates/comfy_parts/src/laws.rt"), re.M)
    wrong += [f"comfy_table::laws doesn't re-export {it}" for it in set(of_parts) ^ set(re.findall(r"\w+", passed_on))]
    wrong += unlisted()
    wrong += [*unreached(), *uncalled()]
    wrong += wrong_lines()
    wrong += wrong_versions()
    wrong += too_many()
    wrong += [f"{path} has no source of its rules" for path in without_source()]
    print(summary())
    print("\n".join(wrong) or "all agree")
    return 1 if wrong else 0


if __name__ == "__main__":
    sys.exit(main())
