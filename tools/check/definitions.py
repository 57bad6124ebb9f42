"""Reads definitions from specs/, and types, ghost members and functions from src/."""
import functools
import glob
import os
import re
import subprocess
from dataclasses import dataclass, field, replace

TOP = os.path.dirname(os.path.dirname(os.path.dirname(os.path.realpath(__file__))))
LIBRARIES = [
    *("cluster_width", "comfy_parts", "comfy_table", "devices", "comfy_run"),
    *("csv_records", "csv_tables", "csv_command", "comfy_c", "promises", "csv_promises"),
]
# the files with promises; the promises of comfy_c are in that crate, because no crate can depend on it
PROMISES = ("crates/promises/src/", "crates/csv_promises/src/", "crates/comfy_c/src/promised.rt")
BRACES = r"\{(?:[^{}]|\{(?:[^{}]|\{[^{}]*\})*\})*\}"
PUBLIC = r"(?:pub(?:\(\w+\))? )?"
MODEL = {"Value", "view"}  # the ghost members that define a type's model; invariants, which are proved, aren't among them


@dataclass(frozen=True)
class Definition:
    """A definition of specs/, or a type, a ghost member or a function of src/, with its comment."""

    path: str
    line: int
    text: str = field(compare=False)
    head: str = field(compare=False, default="")  # the first line of the module or block around it

    def lines(self):
        return self.text.count("\n") + 1

    def is_a(self, word):
        """True if the definition is declared by this word of Rust, such as `fn` or `enum`."""
        return re.search(rf'^ *{PUBLIC}(?:extern "C" )?{word} ', self.text, re.M) is not None


@dataclass(frozen=True)
class Function:
    """A function: its place, in the words by which a page can name it, its clauses by name, and its signature."""

    places: set
    clauses: list
    is_public: bool
    signature: Definition
    members: list  # the ghost members of its block


@functools.cache
def text_of(path):
    path = os.path.join(TOP, path)
    if not os.path.isfile(path):
        return ""
    with open(path, encoding="utf-8") as file:
        return file.read()


def files_of(crate, pattern):
    return sorted(glob.glob(f"crates/{crate}/{pattern}", root_dir=TOP, recursive=True))


def sources_of(crate):
    return files_of(crate, "src/**/*.rt")


def crate_of(path):
    return re.search(r"([^/]+)/(?:specs|src)/", path)[1]


@functools.cache
def kit():
    """The folder of the toolchain's libraries."""
    page = subprocess.run(["rt", "doc"], stdout=subprocess.PIPE, text=True, check=True).stdout
    return os.path.dirname(page.strip()) + "/rattle"


@functools.cache
def path_of(module):
    """The file of a module `Rattle.CRATE.specs.A.B`, or of a type `Rattle.CRATE.specs.declared.A.T`."""
    crate, _, *words = module.removesuffix(".TheVariants").split(".")[1:]
    folder = f"crates/{crate}" if crate in LIBRARIES else f"{kit()}/{crate}"
    if words[:1] == ["declared"]:
        return f"{folder}/src/{'/'.join(words[1:-1]) or 'lib'}.rt"
    return f"{folder}/specs/{'/'.join(words)}.antt"


@functools.cache
def imports_of(path):
    """For each word that a file imports, the module that it comes from and its name there. For a whole module, the name is ""."""
    found, text = {}, text_of(path)
    use = r"^\s*(?:(?:pub|ghost|unfoldable) )*use (Rattle\.[\w.-]+)"
    for module, words in re.findall(use + r"\.\{([^}]*)\}", text, re.M):
        for word in words.split(","):
            name, _, local = word.strip().partition(" as ")
            found[local or name] = (module, name)
    for module, local in re.findall(use + r" as (\w+)", text, re.M):
        found[local] = (module, "")
    return found


@functools.cache
def definitions_in(path):
    """The definitions of a file, by name."""
    return types_in(path) if path.endswith(".rt") else specs_in(path)


def specs_in(path):
    """The definitions of a file in specs/, by name."""
    found, head, comment, name = {}, "", [], None
    words = r"(?:(?:abbrev|unfoldable|pub|record|data) )+"
    for number, line in enumerate(text_of(path).split("\n")):
        if re.match(r"[^\s-]", line):
            head = line if line.startswith("module _") else ""
        own = line.removeprefix("  ") if head else line
        begins = re.match(rf"{words}(?!use |mod )(\S+)|(\S+) : ", own)
        if begins and line != head:
            name = begins[1] or begins[2]
            found[name] = [Definition(path, number, "\n".join([*comment, line]), head)]
            comment = []
        elif own.startswith("--"):
            comment, name = [] if own.startswith("-- --") else [*comment, line], None
        elif not own.strip() or line == head or re.match(rf"(?:{words})?(?:use|mod) ", own):
            comment = []
        elif name:
            found[name] = [replace(found[name][0], text=f"{found[name][0].text}\n{line}")]
    return found


@functools.cache
def blocks_in(path):
    """The impls and traits of a file, as matches of a pattern."""
    block = r"^(?:pub )?(?:impl|trait)\b[^{]*\{\n(?:(?: .*)?\n)*\}"
    return list(re.finditer(block, text_of(path), re.M))


def members_of(path, block):
    """The ghost members of an impl or a trait, by name."""
    found, text = {}, text_of(path)
    member = rf"(?:^ +//.*\n)*^    ghost (\w+)(?:: | = ){BRACES};"
    for it in re.finditer(member, block[0], re.M):
        line = text.count("\n", 0, block.start() + it.start())
        found[it[1]] = Definition(path, line, it[0], block[0].split("\n")[0])
    return found


def types_in(path):
    """The types that a file of src/ declares, by name. Each has its model, or its declaration if it has no model."""
    found, text = {}, text_of(path)
    declared = rf"(^{PUBLIC}(?:struct|enum) (\w+)(?:.*;$|.*\{{$(?:\n .*)*\n\}}))"
    for it in re.finditer(rf"((?:^//.*\n)*)(?:^#\[.*\n)*{declared}", text, re.M):
        comment = re.sub(r"///(?: ```.*)?\n(?:.*\n)*", "", it[1])  # its first paragraph
        found[it[3]] = [Definition(path, text.count("\n", 0, it.start()), comment + it[2])]
    for block in blocks_in(path):
        of = re.match(r"impl.*\bModel for (\w+)", block[0])
        if of:
            found[of[1]] = [it for name, it in members_of(path, block).items() if name in MODEL]
    return found


def by_name(pairs):
    """A dict from each first part of pairs to a list of its second parts."""
    found = {}
    for name, one in pairs:
        found.setdefault(name, []).append(one)
    return found


def all_sources():
    return [it for crate in LIBRARIES for it in sources_of(crate)]


@functools.cache
def types():
    """The files that declare each type of src/."""
    return by_name((name, path) for path in all_sources() for name in types_in(path))


@functools.cache
def members():
    """The ghost members of all libraries, by name."""
    blocks = [(path, block) for path in all_sources() for block in blocks_in(path)]
    return by_name(pair for block in blocks for pair in members_of(*block).items())


@functools.cache
def functions_of(crate):
    """The functions of a crate, by name."""
    return by_name(pair for path in sources_of(crate) for pair in functions_in(path))


def functions_in(path):
    """The functions of a file, each with its name."""
    text = text_of(path)
    begins = rf'^[ \t]*{PUBLIC}(?:extern "C" )?(?:fn|ghost) (\w+)'
    starts = list(re.finditer(begins, text, re.M))
    for start, end in zip(starts, [it.start() for it in starts[1:]] + [len(text)]):
        inside = [it for it in blocks_in(path) if it.start() < start.start() < it.end()]
        yield start[1], function_in(path, start, text[start.start() : end], inside)


def function_in(path, start, text, inside):
    """The function at the beginning of a text, with the impl or trait around it, if any."""
    head = inside[0][0].split("\n")[0] if inside else ""
    signature = re.match(r".*?(?=\n *(?:ensures|requires)\b| \{|;\n|$)", text, re.S)[0]
    clauses = re.findall(rf"^ *(ensures\*?(?: (\w+))? {BRACES})", text, re.M)
    return Function(
        places={os.path.basename(path).removesuffix(".rt"), *re.findall(r"\w+", head)},
        clauses=[(name, clause) for clause, name in clauses],
        is_public="pub " in start[0],
        signature=Definition(path, text_of(path).count("\n", 0, start.start()), signature, head),
        members=[it for block in inside for it in members_of(path, block).values()],
    )
