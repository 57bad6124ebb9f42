#!/usr/bin/env python3
"""Prints the definitions of specs/ and proofs/ that nothing uses, and the private functions that nothing calls, each with its
file and line.

    tools/check/reach.py

A definition is used if its name is in one of these places: code, a trial, the head of a module, or a definition that is used. The
proof files of functions (Answers, Invariants, Proof) count as code. A name means the definition that its file declares or imports
by this name.

A function is called if somewhere in its crate its name is before a parenthesis, or is among the arguments of a call.
"""
import glob
import re
import sys

from definitions import TOP, imports_of, text_of

WORD = r"[^\s(){}\[\],;.:λ→×⊎∷]+"
ROUND = r"\((?:[^()]|\((?:[^()]|\([^()]*\))*\))*\)"
DECLARING = r"(?:(?:pub|abbrev|unfoldable|opaque|private|instance|record|data|enum|syntax) )*"
# the first line of a definition: its name and its parameters, up to a colon or the end of the line
BEGINS = re.compile(rf" *{DECLARING}([^\s:(){{}}\[\]]+)(?: (?:{ROUND}|\{{[^}}]*\}}|_))*(?: :(?= |$)|$)")
# in code, the name of a function that is called, or that is passed to another function
CALLS = (r"\b(\w+)(?=\(|::<)", r"(?:(?<=[(:])|(?<=[,:=] ))(\w+)(?=[,;)])")
NO_NAMES = {"use", "module", "mod", "unfolding", "in", "let", "where"}
ANSWERS = ("Answers.antt", "Invariants.antt", "Proof.antt", "Trials.antt")


def is_root(path):
    return path.endswith((".rt", *ANSWERS))


def words_in(lines):
    return re.findall(WORD, "\n".join(lines))


def code_of(path):
    """A file without its comments, and with an empty line for each `use` line."""
    comment = r"//.*" if path.endswith(".rt") else r"(?<!\S)--(?!\S).*"
    text = re.sub(comment, "", text_of(path))
    use = r"^ *(?:(?:pub|ghost|unfoldable) )*use [^\n{]*(?:\{[^}]*\})?"
    return re.sub(use, lambda it: "\n" * it[0].count("\n"), text, flags=re.M)


def parts_of(path):
    """The definitions of a file by name, each with the number of its first line and its lines. After them, the other lines of the
    file."""
    found, outside, modules = {}, [], []
    own = outside
    for number, line in enumerate(code_of(path).split("\n"), 1):
        indent = len(line) - len(line.lstrip())
        while modules and line.strip() and indent <= modules[-1] and line[indent] not in ")}":
            modules.pop()
        begins = BEGINS.match(line)
        if re.match(" *module ", line):
            modules.append(indent)
            own = outside
        elif begins and begins[1] not in NO_NAMES and indent in (0, *(it + 2 for it in modules)):
            own = found.setdefault(begins[1], (number, []))[1]
        own.append(line)
    return found, outside


def file_of(module):
    crate, folder, *words = module.split(".")[1:]
    return f"crates/{crate}/{folder}/{'/'.join(words)}.antt"


def origin(word, path, parts):
    """The file and the name of the definition that a word of a file means, or None if the word means no definition of this
    project."""
    while word not in parts.get(path, ({},))[0]:
        module, word = imports_of(path).get(word, ("", ""))
        if not word:
            return None
        path = file_of(module)
    return path, word


def cited(path):
    """The lemmas that attributes in the code name by their paths."""
    for crate, words, name in re.findall(r"\b(\w+)::proofs::([\w:]+)::([^\s,()\]:]+)", text_of(path)):
        crate = path.split("/")[1] if crate == "crate" else crate
        yield f"crates/{crate}/proofs/{words.replace('::', '/')}.antt", name


def unreached():
    """A line for each definition that nothing uses."""
    sources = glob.glob("crates/*/src/**/*.rt", root_dir=TOP, recursive=True)
    proofs = sorted(it for kind in ("specs", "proofs") for it in glob.glob(f"crates/*/{kind}/**/*.antt", root_dir=TOP, recursive=True))
    parts = {path: parts_of(path) for path in proofs}
    waiting = [origin(name, path, parts) for source in sources for path, name in cited(source)]
    for path in [*sources, *proofs]:
        lines = code_of(path).split("\n") if is_root(path) else parts[path][1]
        waiting += [origin(word, path, parts) for word in words_in(lines)]
    reached = {None}
    while waiting:
        one = waiting.pop()
        if one not in reached:
            reached.add(one)
            waiting += [origin(word, one[0], parts) for word in words_in(parts[one[0]][0][one[1]][1])]
    return [
        f"{path}:{number}: nothing uses {name}"
        for path, (found, _) in parts.items()
        for name, (number, _) in found.items()
        if not is_root(path) and (path, name) not in reached
    ]


def own_functions(path):
    """The private functions of a file, each with the number of its line. Tests, methods of traits and `main` are left out,
    because callers outside of the crate call them."""
    in_trait, is_test = False, False
    for number, line in enumerate(code_of(path).split("\n"), 1):
        if re.match(r"(?:pub )?(?:unsafe )?(?:impl|trait)\b", line):
            in_trait = line.startswith(("trait", "pub trait")) or re.search(r"\bfor\b", line.split("where")[0]) is not None
        elif line.startswith("}"):
            in_trait = False
        is_test = is_test or line.strip() == "#[test]"
        begins = re.match(r" *(?:pub\(crate\) )?(?:const )?fn (\w+)", line)
        if begins and not is_test and not in_trait and begins[1] != "main":
            yield begins[1], number
        is_test = is_test and not begins


def uncalled():
    """A line for each private function that nothing calls."""
    for folder in glob.glob("crates/*/src", root_dir=TOP):
        sources = sorted(glob.glob(f"{folder}/**/*.rt", root_dir=TOP, recursive=True))
        code = re.sub(r"\bfn \w+", "", "\n".join(code_of(it) for it in sources))
        called = {it for kind in CALLS for it in re.findall(kind, code)}
        yield from (f"{path}:{number}: nothing calls {name}" for path in sources for name, number in own_functions(path) if name not in called)


def main():
    found = [*unreached(), *uncalled()]
    print("\n".join(found) or "each definition is used, and each function called")
    return 1 if found else 0


if __name__ == "__main__":
    sys.exit(main())
