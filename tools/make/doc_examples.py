#!/usr/bin/env python3
"""Collects the examples of doc comments in the crate `example_docs`, which `rt ci` proves and runs.

    tools/make/doc_examples.py            writes the source of the crate and its stored output
    tools/make/doc_examples.py --check    prints the files that differ from the comments, and ends with status 1 if one does

The examples of the crates BY_HAND aren't collected. They are in tests that are written by hand, or in a function `main`. With
--check, their lines have to be in FILES_BY_HAND.

An example is a fenced block without a language in a doc comment of comfy_parts or comfy_table. It becomes a function with the name
of the item that has the comment. Each variable that an example uses without making it, such as `table`, becomes a parameter. A new
table becomes a parameter too, because a function that owns a table takes long to prove. Examples that print nothing are called
first. They are called by separate functions, whose errors need no conversion.

Lines of an example that begin with `//` are its output, or the value of its last `let`, which is a `text` or `is_so`. They make
the stored output. `\\u{1b}` in them means ESC.
"""
import glob
import os
import re
import shutil
import subprocess
import sys
import tempfile
import textwrap

from project import TOP, text_of

CRATE = "crates/example_docs"
MODULES = {"comfy_parts": "parts", "comfy_table": "tables"}
PARAMETERS = {
    "rt": ("&HostRuntime", "rt"),
    "alloc": ("Global", "alloc"),
    "table": ("&mut Table", "table"),
    "column": ("&mut Column", "&mut Column::new(0)"),
}
# The crates whose examples are written by hand, and the files that have them.
BY_HAND = ["devices", "comfy_run", "csv_records", "csv_command", "comfy_c"]
FILES_BY_HAND = ["test_libraries/src/run/doc_examples.rt", "comfy_c/src/tests.rt", "ctable/src/main.rt", "csvtable/src/main.rt"]
SPLIT = "comfy_table::utils::formatting::content_split"
PATHS = {"Global": "std::alloc"} | {it: SPLIT for it in ("ColumnDisplayInfo", "characters_fit", "split_line")}
PATHS |= {it: "comfy_table::presets" for it in ("by_name", "by_position")}
PATHS |= {it: "super" for it in ("renew", "show")}
VALUES = {None: "()", "text": "String", "is_so": "bool"}
NEW_TABLE = "let mut table = Table::new(alloc);\n"
PARTS = {"row_writer"}  # left out, because these examples continue others
AT_ONCE = 10  # calls in one function, because a long function takes long to prove
TRAITS = {f"into_{it}": f"Into{it.capitalize()}" for it in ("cell", "cells", "row")}


def snake(word):
    return re.sub(r"(?<=[a-z0-9])(?=[A-Z])", "_", word).lower()


def name_of(path, before, after):
    """The name of the item that has a doc comment. The name of its type, if there is one, comes before it. For the comment of a
    module, this is the file's name."""
    if after is None:
        return os.path.basename(path)[: -len(".rt")]
    indent, kind, item = re.match(r"(?:\s*#\[.*\n)*( *)(?:pub (?:const )?(\w+)|macro_rules!) (\w+)", after).groups()
    owner = [it[1] for it in re.finditer(r"^impl(?:<.*?>)? (\w+)(?:<.*?>)? \{", before, re.M)]
    return snake(f"{owner[-1]}_{item}" if kind == "fn" and indent else item)


class Example:
    def __init__(self, name, lines):
        self.name = name
        self.uses = [it for it in lines if it.startswith("use ")]
        self.prints = [it[2:].removeprefix(" ") for it in lines if it.startswith("//")]
        code = [it for it in lines if it not in self.uses and not it.startswith("//")]
        code = "\n".join(code).strip("\n").replace("&rt,", "rt,")
        self.given = {it: given for it, (_, given) in PARAMETERS.items()}
        if NEW_TABLE in code:
            self.given["table"] = "new_table"
        self.code = code.replace(NEW_TABLE, "")
        self.bare = re.sub(r'"[^"]*"', '""', self.code)
        made = r"(?:let (?:mut )?|Some\(|for )"
        self.parameters = [
            it for it in PARAMETERS if re.search(rf"\b{it}\b", self.bare) and not re.search(rf"{made}{it}\b", self.bare)
        ]

        last = re.search(r"let (\w+) = (.*);$", self.code)
        self.value = last[1] if last and self.prints else None

    def result(self):
        if "rt" in self.parameters:
            return "anyhow::Result<()>"
        given = VALUES[self.value]
        return f"Result<{given}>" if "?" in self.bare else given.strip("()")

    def function(self):
        parameters = ", ".join(f"{it}: {PARAMETERS[it][0]}" for it in self.parameters)
        result = self.result()
        code = re.sub(rf"let {self.value} = (.*);$", r"\1", self.code) if self.value else self.code
        if self.value and "?" in self.bare:
            code = code[:-1] if code.endswith("?") else re.sub(r"(.*)$", r"Ok(\1)", code)
        elif "Result" in result:
            code += "\nOk(())"
        body = textwrap.indent(code, "    ")
        return f"fn {self.name}_example({parameters}){' -> ' * bool(result)}{result} {{\n{body}\n}}\n"

    def is_silent(self):
        """True if the example prints nothing, so that it needs no runtime."""
        return not self.value and "rt" not in self.parameters

    def call(self):
        arguments = [self.given[it] for it in self.parameters]
        before = "    renew(alloc, new_table);\n" * ("new_table" in arguments)
        call = f"{self.name}_example({', '.join(arguments)})"
        if self.value == "text":
            return f"{before}    show(rt, {call})?;"
        if self.value:
            return f'{before}    println!(rt; "{{}}", {call})?;'
        return f"{before}    {call}{'?' * bool(self.result())};"


def blocks_of(crate):
    """The fenced blocks without a language in the doc comments of a crate: path, text before, text after, and lines."""
    for path in sorted(glob.glob(f"crates/{crate}/src/**/*.rt", root_dir=TOP, recursive=True)):
        text = text_of(path)
        for comment in re.finditer(r"(?:^ *//[/!].*\n)+", text, re.M):
            mark = comment[0].split()[0]
            after = text[comment.end() :] if mark == "///" else None
            lines = re.sub(r"^ *//[/!] ?", "", comment[0], flags=re.M)
            for block in re.finditer(r"^```(\w*)\n(.*?)^```\n", lines, re.M | re.S):
                if not block[1]:
                    yield path, text[: comment.start()], after, block[2].splitlines()


def examples_of(crate):
    named = ((name_of(path, before, after), lines) for path, before, after, lines in blocks_of(crate))
    return [Example(name, lines) for name, lines in named if name not in PARTS]


def is_line_of(example, line):
    """True if a line of a test agrees with a line of an example. In the test, an expression of the example is asserted."""
    return line.strip() in (example.strip(), f"assert!(rt; {example.strip()});")


def is_by_hand(example):
    """True if a file has the lines of an example, one after another."""
    for path in FILES_BY_HAND:
        lines = text_of(f"crates/{path}").splitlines()
        for at in range(len(lines) - len(example) + 1):
            if all(map(is_line_of, example, lines[at:])):
                return True
    return False


def without_test():
    """A line for each example of the crates BY_HAND whose lines no file has."""
    blocks = ((path, lines) for crate in BY_HAND for path, _, _, lines in blocks_of(crate))
    return [f"{path}: no test has the lines of this example: {lines[0]}" for path, lines in blocks if not is_by_hand(lines)]


def import_lines(code, uses):
    """The `use` lines for the names in some code, in the layout of `rt fmt`."""
    library = text_of("crates/comfy_table/src/lib.rt")
    offered = re.findall(r"\w+", " ".join(re.findall(r"pub use (.*?);", library, re.S)))
    macros = [it for it in re.findall(r"macro_rules! (\w+)", library) if re.search(rf"\b{it}!", code)]
    presets = re.findall(r"pub const (\w+)", text_of("crates/comfy_parts/src/style/presets.rt"))
    words = set(re.findall(r"(?<![:\w])\w+", re.sub(r'"[^"]*"', "", re.sub(r"anyhow::\w+", "", code))))
    words |= {TRAITS[it] for it in TRAITS if f".{it}(" in code}
    groups = {}
    for word in words:
        path = PATHS.get(word)
        if path is None and word in presets:
            path = "comfy_table::presets"
        if path is None and (word in macros or word in offered and word[0].isupper()):
            path = "comfy_table"
        if path:
            groups.setdefault(path, []).append(word)
    lines = set(uses)
    for path, names in groups.items():
        names.sort(key=lambda it: (it[0].islower(), it.isupper(), it))
        line = f"use {path}::{{{', '.join(names)}}};" if len(names) > 1 else f"use {path}::{names[0]};"
        if len(line) > 100:
            inner = textwrap.fill(", ".join(names) + ",", 100, initial_indent="    ", subsequent_indent="    ")
            line = f"use {path}::{{\n{inner}\n}};"
        lines.add(line)
    return sorted(lines, key=lambda it: (not it.startswith("use super"), it.replace("{", "~")))


LENT = {"rt": "&HostRuntime", "alloc": "Global", "table": "&mut Table", "new_table": "&mut Table"}
MAKE_ALLOC = "    let alloc = rt.alloc();"


def body(lines):
    """The body of a function with these lines. If the last one is a call with the function's result, its `?` is removed."""
    text = "\n".join(lines)
    if text.endswith("?;") and "println!" not in lines[-1]:
        return f" {{\n{text[:-2]}\n}}\n"
    return f" {{\n{text}\n    Ok(())\n}}\n"


def drivers(name, result, examples):
    """Functions that call a few examples each: the calls of these functions, and their code."""
    called, code = [], ""
    for at in range(0, len(examples), AT_ONCE):
        lines = [it.call() for it in examples[at : at + AT_ONCE]]
        used = [it for it in LENT if re.search(rf"\b{it}\b", "\n".join(lines))]
        if "rt" in used and "alloc" in used:
            used.remove("alloc")
            lines.insert(0, MAKE_ALLOC)
        driver = f"{name}_{at // AT_ONCE + 1}"
        called.append(f"    {driver}({', '.join(used)})?;")
        parameters = ", ".join(f"{it}: {LENT[it]}" for it in used)
        code += f"\nfn {driver}({parameters}) -> {result}{body(lines)}"
    return called, code


RUN = """/// Calls each example.
pub fn run(rt: &HostRuntime, table: &mut Table, new_table: &mut Table) -> anyhow::Result<()>"""


def module(crate, examples):
    silent_calls, silent = drivers("silent", "Result<()>", [it for it in examples if it.is_silent()])
    shown_calls, shown = drivers("shown", "anyhow::Result<()>", [it for it in examples if not it.is_silent()])
    calls = silent_calls + shown_calls
    if any("alloc" in it for it in calls):
        calls.insert(0, MAKE_ALLOC)
    code = "\n".join([f"{RUN}{body(calls)}{silent}{shown}"] + [it.function() for it in examples])
    uses = [use for it in examples for use in it.uses]
    return f"//! The examples of `{crate}`.\n\n" + "\n".join(import_lines(code, uses)) + "\n\n" + code


MAIN = """//! The examples of the doc comments, which `tools/make/doc_examples.py` wrote.
#![tactic(auto)]

mod parts;
mod tables;

use comfy_table::{Result, Table};
use std::alloc::Global;

fn main(rt: HostRuntime) -> anyhow::Result<()> {
    let alloc = rt.alloc();
    run(&rt, &mut Table::new(alloc), &mut Table::new(alloc))
}

fn run(rt: &HostRuntime, table: &mut Table, new_table: &mut Table) -> anyhow::Result<()> {
    fill(table)?;
    parts::run(rt, table, new_table)?;
    tables::run(rt, table, new_table)
}

// fills a table for examples that use one without making it
fn fill(table: &mut Table) -> Result<()> {
    table
        .set_header(["Bike", "Place", "Since"])?
        .add_row(["17", "dock 3", "Monday"])?;
    Ok(())
}

// puts a new table in place of the last one
fn renew(alloc: Global, table: &mut Table) {
    *table = Table::new(alloc);
}

fn show(rt: &HostRuntime, text: Result<String>) -> anyhow::Result<()> {
    println!(rt; "{}", text?)?;
    Ok(())
}
"""


def laid_out(texts):
    """The files in the layout of `rt fmt`. Examples in comments may have another layout."""
    with tempfile.TemporaryDirectory() as room:
        shutil.copy(f"{TOP}/crates.txt", room)
        for path, text in texts.items():
            os.makedirs(os.path.dirname(f"{room}/{path}"), exist_ok=True)
            with open(f"{room}/{path}", "w", encoding="utf-8") as file:
                file.write(text)
        subprocess.run(["rt", "fmt"], cwd=f"{room}/{CRATE}", check=True, stdout=subprocess.DEVNULL, stderr=subprocess.DEVNULL)
        for path in texts:
            with open(f"{room}/{path}", encoding="utf-8") as file:
                texts[path] = file.read()
    return texts


def files():
    """The text of each file of the crate that is made from the comments."""
    found = {"src/main.rt": MAIN}
    printed = []
    for crate, name in MODULES.items():
        examples = examples_of(crate)
        found[f"src/{name}.rt"] = module(crate, examples)
        printed += [line for it in examples for line in it.prints]
    found["stdout"] = "".join(line + "\n" for line in printed).replace("\\u{1b}", "\x1b")
    return laid_out({f"{CRATE}/{path}": text for path, text in found.items()})


def wrong_examples():
    """A line for each file that differs from the comments, and for each example that no file has."""
    made = [f"{path} differs from the output of tools/make/doc_examples.py" for path, text in files().items() if text_of(path) != text]
    return made + without_test()


def main():
    if sys.argv[1:] == ["--check"]:
        wrong = wrong_examples()
        print("\n".join(wrong) or "the examples agree with the comments")
        return 1 if wrong else 0
    for path, text in files().items():
        os.makedirs(os.path.dirname(f"{TOP}/{path}"), exist_ok=True)
        with open(f"{TOP}/{path}", "w", encoding="utf-8") as file:
            file.write(text)
    return 0


if __name__ == "__main__":
    sys.exit(main())
