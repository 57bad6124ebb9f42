#!/usr/bin/env python3
"""Prints the items that only comfy-table 8.0.1 or only this library has, and that docs/DIFFERENCES.md doesn't name.

    tools/check/new_items.py

An item has a name that callers of comfy_table or comfy_parts can use. It is a module of comfy_table, a type, a function or a
constant, or a method, field or variant of such a type. The file original_names.txt has the items of the original.

The page names an item in its sections Otherwise or New. It names the item itself, or a new module or type that has the item. If
the original has another member with the same name, the page names the item with its type, for example `Column::padding`.
"""
import os
import re
import sys

from definitions import TOP, files_of, text_of

CRATES = ["comfy_parts", "comfy_table"]
DECLARED = r"^pub (?:fn|struct|enum|trait|type|const|static) (\w+)"
USED = r"^ *pub use (?:\w+::)*(?:\{([^}]*)\}|(\w+));"


def original():
    """The names of the original's items as tuples. A member's tuple has its type and its name."""
    for line in text_of("tools/check/original_names.txt").splitlines():
        of_type, _, names = line.rpartition(": ") if not line.startswith("#") else ("", "", "")
        yield from ((of_type, name) if of_type else (name,) for name in names.split())


def items_in(path, place=()):
    """The public names in a file and in its public modules, each as a tuple of modules and a name."""
    text = text_of(path)
    names = re.findall(DECLARED, text, re.M)
    names += [it for used in re.findall(USED, text, re.M) for it in re.findall(r"\w+", " ".join(used))]
    yield from ((*place, name) for name in names)
    for module in re.findall(r"^pub mod (\w+)", text, re.M):
        if path.startswith("crates/comfy_table/"):
            yield (*place, module)
        folder = os.path.dirname(path) if path.endswith("/lib.rt") else path.removesuffix(".rt")
        yield from items_in(f"{folder}/{module}.rt", (*place, module))


def members_in(path):
    """The public methods, fields and variants in a file, each after its type."""
    block = r"^(?:pub (struct|enum|trait)|(impl)(?:<[^>]*>)?) (\w+)(?:<[^>]*>)?(?:: [^{]*)? \{\n(.*?)^\}"
    kinds = {"struct": r"pub (\w+):", "enum": r"(\w+)", "trait": r"(?:ghost )?fn (\w+)", "impl": r"pub fn (\w+)"}
    for declared, impl, of_type, body in re.findall(block, text_of(path), re.M | re.S):
        for name in re.findall(rf"^    {kinds[declared or impl]}", body, re.M):
            yield of_type, name


def items():
    """All items of this library, as tuples."""
    named = {it for crate in CRATES for it in items_in(f"crates/{crate}/src/lib.rt")}
    paths = [it for crate in CRATES for it in files_of(crate, "src/**/*.rt")]
    types = {it[-1] for it in named}
    return named | {it for path in paths for it in members_in(path) if it[0] in types}


def own_name(it):
    """The name of an item in original_names.txt: a member's with its type, and any other without its modules."""
    return it if it[0][0].isupper() else it[-1:]


def unlisted():
    """A line for each item that only one of the two libraries has, and that the page doesn't name."""
    names, here = set(original()), items()
    known = {it[-1] for it in names}
    page = re.search(r"^## Otherwise$.*?\Z", text_of("docs/DIFFERENCES.md"), re.M | re.S)[0]
    listed = {it for code in re.findall(r"`([^`]+)`", page) for it in re.findall(r"\w+(?:::\w+)?", code)}
    listed |= {part for it in listed for part in it.split("::")}

    def is_listed(it):
        return "::".join(it[-2:]) in listed or any(part in listed and part not in known for part in it)

    new = [it for it in here if own_name(it) not in names and not is_listed(it)]
    gone = [it for it in names - {own_name(it) for it in here} if it[-1] not in listed]
    return [
        *(f"docs/DIFFERENCES.md doesn't name {'::'.join(it)}, which is new" for it in sorted(new)),
        *(f"docs/DIFFERENCES.md doesn't name {'::'.join(it)}, which this library doesn't have" for it in sorted(gone)),
    ]


def main():
    found = unlisted()
    print("\n".join(found) or "the page has each difference in names")
    return 1 if found else 0


if __name__ == "__main__":
    sys.exit(main())
