#!/usr/bin/env python3
"""Tries the mutations in crates/CRATE/mutations/*.edit, and prints which of them the prover refuses. A mutation is a wrong change
of the code, which a proof has to notice. Many mutations are tried in one check.

    tools/check/mutations.py [--must-fail] [--jobs N] [--list] [--only TEXT] [CRATE]..

A file is named FUNCTION__WHAT_IS_WRONG.edit, and has the form that `rt must-fail` reads:

    file: src/PATH.rt
    old: TEXT
    new: TEXT

The old text is a line or a part of a line. It must be in the file exactly once. The new text replaces it. More pairs of an old and
a new text can follow. A pair for another file begins with a line `file:`.

Without CRATE, all crates are tried. The options are:

    --must-fail    also try the mutations of must-fail/
    --only TEXT    try only the mutations whose label contains TEXT; the label is the source file and the name
    --list         try none; print the mutations that can't be applied, and names that are in both folders of the crate

Checks run on a copy of the crate and of the crates below it. The copy has the stored results of earlier checks, so it saves time
to run `rt check` in the crate's folder first. A check prints for each function whether it is proved. So mutations of different
functions are tried together. If a function calls a mutated function, the caller's own mutation is tried again in a later check. If
a check prints no result for a mutation, the mutation is tried alone.

The result of each mutation is printed:

    refused              a goal isn't proved
    SURVIVED             the crate is proved with it
    STALE                no goal is unproved, but a written answer names a thing that the mutation removes; so no clause was tried
    CANNOT BE APPLIED    an old text is missing, or is there more than once
    CANNOT BE READ       the changed source doesn't compile

The status is 0 if every mutation is refused. With --list it is 0 if every mutation can be applied and has a name of its own.
Otherwise it is 1.
"""
import argparse
import glob
import os
import re
import shutil
import subprocess
import sys
import tempfile

from definitions import TOP

TRIES = 5  # the number of checks in which called functions can hide a function's result, before its mutation is tried alone
# the messages about an answer that names a removed thing
STALE = r"has no field|has no `|is not in scope|is not a field|was not admitted"
FUNCTION = r"^[ \t]*(?:pub(?:\(\w+\))? )?(?:const )?fn (\w+)"
FORM = r"file: \S+\n(?:(?:file: \S+\n)?old: .+\nnew:.*\n)+"  # of an edit


class Mutation:
    """Pairs of texts. Each old text is in a file of the crate exactly once, and the new text replaces it."""

    def __init__(self, name, lines, crate):
        self.name, self.pairs, self.tries, self.is_alone = name, [], 0, False
        file = old = ""
        for line in lines.split("\n"):
            word, _, text = line.partition(":")
            text = text.removeprefix(" ")
            if word == "file":
                file = text.strip()
            elif word == "old":
                old = text
            elif word == "new":
                self.pairs.append((file, old, text))
        self.label = f"{os.path.basename(crate)}/{self.pairs[0][0]} {name}"
        self.function = function_at(crate, *self.pairs[0][:2])
        self.lines = lines_at(crate, *self.pairs[0][:2]) if self.function else None

    def applied(self, crate, texts):
        """The texts with this mutation, or None if an old text isn't in them exactly once."""
        made = dict(texts)
        for file, old, new in self.pairs:
            text = made[file] if file in made else text_of(f"{crate}/{file}")
            if text.count(old) != 1:
                return None
            made[file] = text.replace(old, new)
        return made


def text_of(path):
    if not os.path.isfile(path):
        return ""
    with open(path, encoding="utf-8") as file:
        return file.read()


def mutations_of(crate, folder="mutations"):
    """The mutations in a crate's folder, one for each file."""
    found = []
    for path in sorted(glob.glob(f"{crate}/{folder}/*.edit")):
        text, name = text_of(path), os.path.basename(path).removesuffix(".edit")
        if not re.fullmatch(FORM, text) or not re.fullmatch(r"\w+__\w+", name):
            sys.exit(f"{path}: not in the form that tools/check/mutations.py describes at its beginning")
        found.append(Mutation(name, text, crate))
    return found


def function_at(crate, file, old):
    """The end of the name by which a check prints the function with a text, or None if no function has the text."""
    text = text_of(f"{crate}/{file}")
    above = text[: text.find(old) + len(old)]
    starts = [(it.start(), it[1]) for it in re.finditer(FUNCTION, above, re.M)]
    if old not in text or not starts or re.search(r"^}", above[starts[-1][0] :], re.M):
        return None
    block = None
    for it in re.finditer(r"^(?:}|impl\b(?:<[^{]*?>)? ([^{]*)\{)", above, re.M):
        block = it[1]
    if not block:
        module = re.sub(r"^src/|\.rt$", "", file).split("/")
        return "::".join([os.path.basename(crate), *(it for it in module if it not in ("lib", "main")), starts[-1][1]])
    trait, _, of = re.sub(r"<[^{]*?>", "", block).split(" where ")[0].rpartition(" for ")
    return "::" + "".join(it.strip().split("::")[-1] for it in (of, trait)) + "::" + starts[-1][1]


def lines_at(crate, file, old):
    """The numbers of the lines from the function with a text to the next function."""
    text = text_of(f"{crate}/{file}")
    starts = [it.start() for it in re.finditer(FUNCTION, text, re.M)]
    at = text.find(old) + len(old)
    start = max(it for it in starts if it < at)
    end = min([it for it in starts if it >= at] or [len(text)])
    return range(text.count("\n", 0, start) + 1, text.count("\n", 0, end) + 1)


def copied(crate, room):
    """Copies a crate and the crates below it to a folder, and returns the path of the copy."""
    lines = [it.split("#")[0] for it in text_of(f"{TOP}/crates.txt").split("\n")]
    below = {it.split(":")[0].split()[0]: it.split(":")[1].split() for it in lines if ":" in it}
    wanted = [crate]
    for name in wanted:
        wanted += [it for it in below[name] if it in below and it not in wanted]
    with open(f"{room}/crates.txt", "w", encoding="utf-8") as file:
        file.writelines(f"{it}\n" for it in lines if ":" in it and it.split(":")[0].split()[0] in wanted)
    for name in wanted:
        left_out = shutil.ignore_patterns("mutations", "must-fail", "rt-work-*")
        shutil.copytree(f"{TOP}/crates/{name}", f"{room}/crates/{name}", ignore=left_out)
    if os.path.isfile(f"{TOP}/HANDLES"):
        shutil.copy(f"{TOP}/HANDLES", room)
    return f"{room}/crates/{crate}"


def checked(copy, crate, texts, jobs):
    """Checks the copy of a crate with changed texts of files, and restores these files. Returns the printed lines, the lines among
    them that say that a source can't be read, and True if the crate is proved."""
    for file, text in texts.items():
        with open(f"{copy}/{file}", "w", encoding="utf-8") as it:
            it.write(text)
    words = ["rt", "check", *(["--jobs", str(jobs)] if jobs else [])]
    ran = subprocess.run(words, cwd=copy, stdin=subprocess.DEVNULL, stdout=subprocess.PIPE, stderr=subprocess.STDOUT, text=True)
    for file in texts:
        shutil.copy(f"{crate}/{file}", f"{copy}/{file}")
    lines = ran.stdout.split("\n")
    unread = [it for it in lines if re.match(r"(\./)?(src|specs)/\S+: error: [^`]", it)]
    if not unread and not any(it.startswith("logic=") for it in lines):
        unread = [it for it in lines if it][-1:]
    return lines, unread, ran.returncode == 0


def states_of(lines, calls):
    """The state of each function in the lines of a check. For each function, the unproved functions that it calls are added to
    `calls`."""
    states = {it[1]: it[2] for it in (re.match(r"fn (\S+): (.*)", line) for line in lines) if it}
    for function, state in states.items():
        if "it calls" in state:
            calls.setdefault(function, set()).update(re.findall(r"`(.+?)`", state))
    return states


def state_of(mutation, states):
    """The state in a check of the function that a mutation changes, or ""."""
    return next((state for it, state in states.items() if mutation.function and it.endswith(mutation.function)), "")


def is_over(caller, callee, calls):
    """True if the first function is the second, or is known to call it directly or through other functions."""
    reached = [it for it in calls if it.endswith(caller)]
    for function in reached:
        reached += [it for it in calls.get(function, ()) if it not in reached]
    return caller == callee or any(it.endswith(callee) for it in reached)


def batch_of(waiting, crate, calls):
    """Mutations for one check, and the changed texts. No mutated function calls another mutated one."""
    batch, texts = [], {}
    for it in sorted(waiting, key=lambda it: (it.is_alone, -it.tries)):
        alone = it.is_alone or not it.function or it.tries >= TRIES
        functions = [other.function for other in batch]
        if batch and (alone or any(is_over(it.function, f, calls) or is_over(f, it.function, calls) for f in functions)):
            continue
        made = it.applied(crate, texts)
        if made is not None:
            batch, texts = [*batch, it], made
            if alone:
                break
    return batch, texts


def is_in(mutation, place):
    """True if a place in a message of a check is in a mutation's function, or in its answers."""
    file = mutation.pairs[0][0]
    if place.startswith("src/"):
        path, line = place.split(":")[:2]
        return path == file and int(line) in mutation.lines
    module, name = re.sub(r"^src/|\.rt$", "", file), mutation.function.split("::")[-1]
    folder = "" if module == "lib" else f"{module}/"
    return re.match(rf"proofs/{folder}(?:\w+/)?{name}/", place) is not None


def is_stale(mutation, lines, is_alone):
    """True if no goal is unproved, and written answers fail only for names that the mutation removed."""
    messages = r"^(?:note: )?(?:\./)?((?:src|proofs)/[^: ]+:\d+:\d+): (.*(?:\n  .*)?)"
    messages = re.finditer(messages, "\n".join(lines), re.M)  # a long message continues in the next line
    messages = [it for it in messages if is_alone or is_in(mutation, it[1])]
    if any("it is not proved that" in it[2] for it in messages):
        return False
    errors = [it[2] for it in messages if it[2].startswith("error")]
    return bool(errors) and all(re.search(STALE, it) for it in errors)


def report_of(mutation, state, check, is_alone):
    """The result of a mutation, or None if another check has to try it."""
    lines, unread, is_proved = check
    if unread:
        return f"CANNOT BE READ: {unread[0][:200]}" if is_alone else None
    if is_alone and is_proved:
        return "SURVIVED"
    if not is_alone and (not state or state.startswith("proved") or "it calls" in state):
        return None
    is_unproved = "did not prove" in state or not is_stale(mutation, lines, is_alone)
    return "refused" if is_unproved else "STALE"


def tried(crate, waiting, jobs):
    """Tries a crate's mutations, and prints their results. Returns the numbers of refused and of stale ones."""
    missing = [it for it in waiting if it.applied(crate, {}) is None]
    for it in missing:
        print(f"{it.label}: CANNOT BE APPLIED", flush=True)
    found, waiting, calls = [], [it for it in waiting if it not in missing], {}
    with tempfile.TemporaryDirectory(prefix="mutations-") as room:
        copy = copied(os.path.basename(crate), room)
        while waiting:
            batch, texts = batch_of(waiting, crate, calls)
            check = checked(copy, crate, texts, jobs)
            states = states_of(check[0], calls)
            for it in batch:
                state = state_of(it, states)
                reported = report_of(it, state, check, len(batch) == 1)
                if reported:
                    waiting.remove(it)
                    found.append(reported)
                    print(f"{it.label}: {reported}", flush=True)
                elif check[1] or state.startswith("proved"):
                    it.is_alone = True
                else:
                    it.tries += 1
    return found.count("refused"), found.count("STALE")


def listed(crate, found):
    """Prints the mutations of a crate that can't be applied or whose name is used twice, and returns their number."""
    names = [it.name for it in found]
    wrong = [f"{it.label}: CANNOT BE APPLIED" for it in found if it.applied(crate, {}) is None]
    wrong += [f"{it.label}: ITS NAME IS USED TWICE" for it in found if names.count(it.name) > 1]
    for line in wrong:
        print(line)
    return len(wrong)


def main():
    parser = argparse.ArgumentParser(description="Tries the mutations crates/CRATE/mutations/*.edit, many in one check.")
    parser.add_argument("--must-fail", action="store_true", help="also try the mutations of must-fail/")
    parser.add_argument("--jobs", type=int, help="the number of functions that a check proves at the same time")
    parser.add_argument("--list", action="store_true", help="try none, and print the mutations that can't be applied")
    parser.add_argument("--only", default="", metavar="TEXT", help="only mutations whose label contains TEXT")
    parser.add_argument("crate", nargs="*", help="the name of a crate (all crates if none is given)")
    options = parser.parse_args()
    count = refused = stale = faults = 0
    for name in options.crate or sorted(os.listdir(f"{TOP}/crates")):
        crate = f"{TOP}/crates/{name}"
        if not os.path.isdir(crate):
            parser.error(f"there is no crate {name}")
        found = mutations_of(crate) + (mutations_of(crate, "must-fail") if options.must_fail else [])
        found = [it for it in found if options.only in it.label]
        count += len(found)
        if options.list:
            faults += listed(crate, found)
        elif found:
            own = tried(crate, found, options.jobs)
            refused, stale = refused + own[0], stale + own[1]
    if options.list:
        print(f"{count} mutations, {faults} faults")
        return 1 if faults else 0
    print(f"{refused} of {count} mutations refused, {stale} stale")
    return 1 if refused < count else 0


if __name__ == "__main__":
    sys.exit(main())
