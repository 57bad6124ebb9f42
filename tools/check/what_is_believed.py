#!/usr/bin/env python3
"""Prints the text that a reader has to believe for a promise: its clauses, and each definition that they use.

    tools/check/what_is_believed.py promises::straight_lines
    tools/check/what_is_believed.py comfy_table::lines
    tools/check/what_is_believed.py
    tools/check/what_is_believed.py --functions
    tools/check/what_is_believed.py --update

A promise is a function of `promises`, of `csv_promises`, or of `promised.rt` of `comfy_c`. The name of any
other function of a library works too. Without a name, the promises are listed, each with its number
of lines. --functions lists all public functions that have clauses, with their files. --update writes
the counts into docs/PROVED.md. The counts of a promise are at the end of its row in a table. The
count of all definitions is in a sentence.

A clause uses the definitions of its words, of the types in the function's signature, and of the ghost
members of its block. The definition of a type of src/ is its model, or its declaration if it has no
model. The types of a model's fields aren't followed, because the clauses of calls say what the fields
hold. Invariants aren't followed either, because they are proved for each value.

The promise's own file comes first. A promise is printed with its body, because the promise is about
the value that the body returns. The private functions that the body calls are printed too, and their
lines are counted separately. Comments count as lines, but clauses, bodies and headings don't. Public
types without a model, which callers know, are counted separately too, with the first paragraph of
their doc comments. Each other library has a line with its count and its names. Their code has to be
believed too, as README says of the toolchain.
"""
import re
import sys
from dataclasses import replace

from definitions import (
    LIBRARIES, PROMISES, TOP, crate_of, definitions_in, files_of, functions_in, functions_of,
    imports_of, members, path_of, sources_of, text_of, types,
)

WORD = r"(?<![\w.'-])[A-Za-z_][\w']*(?![\w'-])"


def named(word, path):
    """The file that defines a word of a file, the word's name there, and True if it is a variant. If no file defines it, None."""
    name, module = word, ""
    while name not in definitions_in(path):
        if name in imports_of(path):
            module, name = imports_of(path)[name]
            path = path_of(module)
            if path.endswith(".rt"):
                name = module.removesuffix(".TheVariants").split(".")[-1]
        elif path.endswith(".rt") and name in types() and not module:
            path = min(types()[name], key=lambda it: crate_of(it) != crate_of(path))
        else:
            return None
    return path, name, module.endswith(".TheVariants")


def read(text):
    """A text without comments, and without the names of its clauses."""
    return re.sub(r"\b(ensures\*?|requires) \w+ \{", r"\1 {", re.sub(r"(--|//).*", "", text))


def below(one):
    """The files and names of the definitions that a definition uses. An enum is used if one of its variants is named."""
    text = read(f"{one.head}\n{one.text}")
    found = [named(word, one.path) for word in dict.fromkeys(re.findall(WORD, text))]
    for local, (module, name) in imports_of(one.path).items():
        if not name and path_of(module).endswith(".antt"):
            words = re.findall(rf"\b{local}\.([\w']+)", text)
            found += [named(word, path_of(module)) for word in words]
    for path, name, is_variant in filter(None, found):
        is_enum = any(it.is_a("enum") for it in definitions_in(path)[name])
        if is_variant or not is_enum or one.is_a("fn"):
            yield path, name


def members_below(one):
    """The ghost members of traits that a function or a member names, and those of all impls with these names."""
    for name in re.findall(rf"\b[A-Z]\w*\.(\w+)|({WORD})", read(one.text)):
        ones = members().get("".join(name), [])
        if any(" trait " in f" {it.head}" for it in ones):
            yield from ones


def all_below(starts, is_followed):
    """The definitions that some definitions use, directly or through others, in reading order. After them, the names that weren't
    followed."""
    found, others, waiting = {}, {}, starts[::-1]
    while waiting:
        one = waiting.pop()
        if one in found:
            continue
        found[one] = None
        names = list(below(one))
        others |= {it: None for it in names if not is_followed(it[0])}
        own = [definitions_in(path)[name] for path, name in names if is_followed(path)]
        own.append(list(members_below(one)) if one.path.endswith(".rt") else [])
        waiting += [it for ones in own for it in ones][::-1]
    return list(found), list(others)


def start_of(function):
    """The beginning of a promise: a function with its clauses, and the ghost members of its block."""
    one = function.signature
    indent = re.match(" *", one.text)[0] + "    "
    text = "\n".join([one.text, *(indent + clause for _, clause in function.clauses)])
    return [replace(one, text=text), *function.members]


def all_starts(paths=PROMISES):
    """The beginnings of the public functions in files whose paths begin with one of `paths`, by label."""
    return {
        f"{crate}::{name}": start_of(one)
        for crate in LIBRARIES for name, found in functions_of(crate).items() for one in found
        if one.is_public and one.signature.path.startswith(paths)
    }


def listed_functions():
    """The public functions of the libraries that have clauses, file by file."""
    for crate in LIBRARIES:
        paths = [it for it in sources_of(crate) if not it.startswith(PROMISES)]
        for path in paths:
            found = [(name, one) for name, one in functions_in(path) if one.is_public and one.clauses]
            of_types = [re.match(r"(?:pub trait|impl(?:<.*?>)?) (?:.* for )?(\w+)", one.signature.head) for _, one in found]
            names = [f"{of_type[1]}::{name}" if of_type else name for of_type, (name, _) in zip(of_types, found)]
            if names:
                yield f"{path.removeprefix('crates/')}: {', '.join(names)}"


def believed(starts):
    """The definitions of this project that a promise uses, with its functions. After them, the names of other libraries."""
    return all_below(starts, lambda path: crate_of(path) in LIBRARIES)


def is_function(one):
    return one.is_a("fn")


def is_declared(one):
    """True for the declaration of a type, which isn't counted as a definition."""
    return one.is_a("struct") or one.is_a("enum")


def count_of(found):
    """The number of lines of definitions. Each module or block around them adds one line."""
    counted = [it for it in found if not is_function(it) and not is_declared(it)]
    heads = {(it.path, it.head) for it in counted if it.head}
    return sum(it.lines() for it in counted) + len(heads)


def updated(page):
    """The page with the counts."""
    specs = [text_of(it) for crate in LIBRARIES for it in files_of(crate, "specs/**/*.antt")]
    lines = sum(it.count("\n") for it in specs if not it.startswith("-- Private:"))
    ghosts = sum(map(len, members().values()))
    page = re.sub(r"the \d+ lines of definitions", f"the {lines} lines of definitions", page)
    page = re.sub(r"the \d+ ghost members", f"the {ghosts} ghost members", page)
    for label, starts in all_starts().items():
        count = count_of(believed(starts)[0])
        page = re.sub(rf"^(\|.*`{label}`.*\|) *\d+ *\|$", rf"\1 {count} |", page, flags=re.M)
    return page


def body_of(one):
    """The body of a promise, on its own lines, or "" for any other function."""
    if not is_function(one) or not one.path.startswith(PROMISES):
        return ""
    below = text_of(one.path).split("\n")[one.line :]
    return "\n" + re.search(r"^\{(?:\}|.*?^\})", "\n".join(below), re.M | re.S)[0]


def called_by(promises):
    """The private functions of the crate that the bodies of promises call, directly or through others."""
    found, waiting = {}, list(promises)
    while waiting:
        one = waiting.pop(0)
        for name in dict.fromkeys(re.findall(r"(?<![\w.:])([a-z_]\w*)\(", body_of(one))):
            for function in functions_of(crate_of(one.path)).get(name, []):
                if not function.is_public and function.signature not in found:
                    found[function.signature] = function.signature.text + body_of(function.signature)
                    waiting.append(function.signature)
    return found


def shown(starts):
    """The lines of text that a reader has to believe for a promise."""
    found, others = believed(starts)
    for path in dict.fromkeys(it.path for it in [*filter(is_function, starts), *found]):
        yield f"-- {path.removeprefix('crates/')}"
        head = ""
        for one in sorted((it for it in found if it.path == path), key=lambda it: it.line):
            yield from [one.head] if one.head not in ("", head) else []
            yield f"{one.text}{body_of(one)}\n"
            head = one.head
    called = called_by(filter(is_function, starts))
    for one, text in called.items():
        yield from [f"-- {one.path.removeprefix('crates/')}, called above", f"{text}\n"]
    declared = sum(it.lines() for it in found if is_declared(it))
    lines = sum(text.count("\n") + 1 for text in called.values())
    yield f"{count_of(found)} lines of definitions, and {declared} that declare public types."
    if lines:
        yield f"{lines} lines of functions that the body calls."
    yield "Of other libraries, used by these:"
    yield from lines_of_others(others)
    yield "Besides, README.md lists what you have to trust."


def lines_of_others(others):
    """A line for each other library: the number of lines that some names use, and these names."""
    starts = [one for path, name in others for one in definitions_in(path)[name]]
    found, _ = all_below(starts, lambda path: True)
    for crate in dict.fromkeys(crate_of(it.path) for it in found):
        names = ", ".join(name for path, name in others if crate_of(path) == crate)
        count = count_of([it for it in found if crate_of(it.path) == crate])
        yield f"  {crate}: {count} lines" + (f", for {names}" if names else "")


def main():
    page = text_of("docs/PROVED.md")
    starts = all_starts()
    if sys.argv[1:] == ["--update"]:
        with open(f"{TOP}/docs/PROVED.md", "w", encoding="utf-8") as file:
            file.write(updated(page))
    elif sys.argv[1:] == ["--functions"]:
        print("\n".join(listed_functions()))
    elif not sys.argv[1:]:
        for label, one in starts.items():
            print(f"{count_of(believed(one)[0]):5} {label}")
    elif sys.argv[1] in (starts := all_starts("crates/")):
        print("\n".join(shown(starts[sys.argv[1]])))
    else:
        sys.exit(__doc__)


if __name__ == "__main__":
    main()
