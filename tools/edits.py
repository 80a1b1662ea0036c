#!/usr/bin/env python3
"""Has the prover try wrong edits: each turns what a function does, and its crate's own contracts have to refuse it.

    tools/edits.py [--gate] [--built] [--jobs N] [CRATE | CRATE/NAME ..]

Tries the edits of more-edits/, all of them or those named; with --gate only those that more-edits/gate.txt names.
A crate's edits stand in more-edits/CRATE/NAME.edit, as lines `file: src/FILE.rt`, `old: TEXT` and `new: TEXT`, where TEXT stands once in the file.

Edits of different functions are tried in one check, of these functions and of what they call: each function has a
verdict of its own, by the contracts of the others. An edit passes if the proof of a function that it changes is refused,
by what is said of that proof itself. One that no function holds is tried by a check of the whole crate.

--built takes the libraries in crates/*/out as they stand, as `rt ci` leaves them; without it they are built first where their
files have changed, which takes as long as to prove them. --jobs is how many checks run at a time, as many as there are
processors unless it is given.

Prints a line for each edit, and last `N passed, M failed`. The status is 1 if one failed.
"""
import argparse
import collections
import concurrent.futures
import os
import pathlib
import re
import shutil
import subprocess
import sys
import tempfile

ROOT = pathlib.Path(__file__).resolve().parent.parent
PARTS = ("src", "specs", "proofs")
# What is said where a proof names what the edit took away, or cites such a proof: that says nothing of the contract.
NAMES = re.compile(r"has no field|is not in scope|has no `|was not admitted")
LIMIT = re.compile(r"antt ran out of|outgrew the memory limit|stopped at the step limit")

Change = collections.namedtuple("Change", "path old new")


class Edit:
    """A wrong edit, and the functions that it changes."""

    def __init__(self, file):
        self.crate, self.name = file.parent.name, file.stem
        self.changes = list(changes_of(file))
        self.why = None
        self.functions = set()
        for change in self.changes:
            text = (ROOT / "crates" / self.crate / change.path).read_text(encoding="utf-8")
            if text.count(change.old) != 1:
                self.why = f"its text stands {text.count(change.old)} times in {change.path}"
                return
            self.functions.add(function_at(text, text.index(change.old), change.path))
            self.functions.update(added_by(change, text))
        if not self.changes:
            self.why = "it has no lines `file:`, `old:` and `new:`"

    def is_whole(self):
        """Whether it changes what no function holds, as a constant."""
        return None in self.functions

    def __str__(self):
        return f"{self.crate}/{self.name}"


def changes_of(file):
    """Gives the changes of an edit, in order."""
    path = old = None
    for line in file.read_text(encoding="utf-8").splitlines():
        found = re.match(r"(file|old|new):(?: (.*))?$", line)
        if not found:
            continue
        text = found[2] or ""
        if found[1] == "file":
            path = text.strip()
        elif found[1] == "old":
            old = text
        else:
            yield Change(path, old, text)


class Function(collections.namedtuple("Function", "path cycle file first last")):
    """A function: its path, which for a method is the end of one, since it begins with the module of its type; the cycle of calls that it is proved with, if
    there is one; and its lines."""

    def unit(self):
        """Returns what names the proof that it is part of."""
        return self.cycle or self.path


def function_at(text, at, path):
    """Returns the function that holds a place of a file, or None."""
    lines = text.splitlines()
    here = text.count("\n", 0, at)
    for first in range(here, -1, -1):
        found = re.match(r"( *)(?:pub(?:\(\w+\))? )?(?:const )?(?:unsafe )?fn (\w+)", lines[first])
        if found:
            break
        if lines[first].startswith("}") and first < here:
            return None
    else:
        return None
    indent, name = len(found[1]), found[2]
    last = next(it for it in range(first, len(lines)) if lines[it] == " " * indent + "}" or it > here and lines[it].endswith(";") and indent > len(lines[it]))
    owner = owner_of(lines, first) if indent else None
    cycle = re.search(r"#\[cycle\((\w+)\)\]", "\n".join(above(lines, first)))
    whole = "::".join([owner, name] if owner else [*module_of(path), name])
    return Function(whole, cycle and f"+{cycle[1]}", path, first + 1 - len(above(lines, first)), last + 1)


def added_by(change, text):
    """Returns the functions that a change adds."""
    at, edited = text.index(change.old), text.replace(change.old, change.new)
    added = [it for it in re.finditer(r"\bfn (\w+)", change.new) if not re.search(rf"\bfn {it[1]}\b", change.old)]
    return [function_at(edited, at + it.start(), change.path) for it in added]


def module_of(path):
    """Returns the names of the module that a file is."""
    return [it for it in path.removeprefix("src/").removesuffix(".rt").split("/") if it not in ("lib", "main", "mod")]


def above(lines, first):
    """Returns the attributes and comments right above a line."""
    begin = first
    while begin and re.match(r" *(#|//)", lines[begin - 1]):
        begin -= 1
    return lines[begin:first]


def owner_of(lines, first):
    """Returns the type whose impl holds a line, as the prover names it: a trait's name behind it, where it is a trait's impl."""
    head = next(it for it in reversed(lines[:first]) if re.match(r"(pub(\(\w+\))? )?(unsafe )?(impl|trait)\b", it))
    head = re.sub(r" where .*", "", head.rstrip("{ "))
    while "<" in head:
        head = re.sub(r"<[^<>]*>", "", head)
    head = re.sub(r"^(pub(\(\w+\))? )?(unsafe )?(impl|trait) *", "", head)
    trait, _, kind = head.rpartition(" for ")
    last = lambda it: it.split(":")[0].strip() if it.count("::") == 0 else it.split("::")[-1].strip()
    return last(kind) + last(trait)


def batches_of(edits):
    """Parts a crate's edits so that each part can be tried in one check: no two change the same function."""
    batches = []
    for edit in edits:
        units = {it.unit() for it in edit.functions if it}
        place = next((it for it in batches if not edit.is_whole() and not it[0][0].is_whole() and not units & it[1]), None)
        if place:
            place[0].append(edit)
            place[1].update(units)
        else:
            batches.append(([edit], units))
    return [it for it, _ in batches]


def libraries():
    """Returns the crates that each crate names."""
    lines = (it.split("#")[0].strip() for it in (ROOT / "crates.txt").read_text().splitlines())
    return {name.split()[0]: below.split() for name, _, below in (it.partition(":") for it in lines if it)}


def built(library):
    """Returns the folder that a library of the repository is built into."""
    return ROOT / "crates" / library / "out" / "rlib"


class Kit:
    """The toolchain, and how it checks a crate."""

    def __init__(self):
        self.folder = pathlib.Path(subprocess.run(["rt", "doc"], stdout=subprocess.PIPE, text=True, check=True).stdout.strip()).parent
        self.crates = libraries()

    def below(self, crate):
        """Returns the crates of the repository that a crate stands on, the lowest first."""
        found = {}
        for name in self.crates[crate]:
            if name in self.crates:
                found.update(dict.fromkeys([*self.below(name), name]))
        return list(found)

    def words(self, crate):
        """Returns the words of a check of a crate, but for its functions."""
        words = [self.folder / "bin" / "rattle", "check", "--crate-name", crate, "src/lib.rt"]
        for name in ["std", *[it for it in self.crates[crate] if it not in self.crates]]:
            words += ["--extern", f"{name}={self.folder}/rlibs/{name}.rlib"]
        words += ["-L", f"dependency={self.folder}/rlibs"]
        for name in self.crates[crate]:
            if name in self.crates:
                words += ["--extern", f"{name}={built(name)}/{name}.rlib"]
        for name in self.below(crate):
            words += ["-L", f"dependency={built(name)}"]
        words += ["--antt-project", self.folder / "rattle/logic/antt-project.json", "--logic-built", self.folder / "logic_built"]
        return [*map(str, words), "--links", f"{crate}=", "--jobs", "1"]

    def check(self, crate, edits, functions):
        """Checks a copy of a crate with edits made in it: these functions, or all of it where there are none. Returns the status and what was said."""
        with tempfile.TemporaryDirectory() as room:
            for part in PARTS:
                if (ROOT / "crates" / crate / part).is_dir():
                    shutil.copytree(ROOT / "crates" / crate / part, f"{room}/{part}")
            for change in (change for edit in edits for change in edit.changes):
                file = pathlib.Path(room, change.path)
                file.write_text(file.read_text(encoding="utf-8").replace(change.old, change.new), encoding="utf-8")
            only = [word for it in functions for word in ("--only", it)]
            ran = subprocess.run(
                [*self.words(crate), *only], cwd=room, stdin=subprocess.DEVNULL, stdout=subprocess.PIPE, stderr=subprocess.STDOUT, errors="replace"
            )
        return ran.returncode, ran.stdout.splitlines()


def told_of(function, lines):
    """Returns what a check said of a function's own proof, where it is at fault."""
    told = []
    for line in lines:
        at = re.match(r"(?:note: )?(?:\./)?(\S+?):(\d+):\d+: ", line)
        if at and (is_proof_of(function, at[1]) or at[1] == function.file and function.first <= int(at[2]) <= function.last):
            told.append(line)
    return told


def is_proof_of(function, file):
    """Whether a file is part of a function's proof. That of a cycle stands where all of its functions' modules meet; a function that calls itself is a cycle
    with its own name."""
    *modules, name = function.unit().split("::")
    folders = pathlib.PurePath(file).parts[:-1]
    return folders[:1] == ("proofs",) and list(folders[-len(modules) - 1 :]) in ([*modules, name], [*modules, f"+{name}"])


def judge(edit, status, lines):
    """Returns whether a check refused an edit, or None where it said nothing of it, and why."""
    for function in edit.functions:
        # (closures have names of their own; a proof that only rests on a refused one has other words)
        own = re.compile(rf"fn {edit.crate}::(?:\S*::)?{re.escape(function.path)}(?:::\S+)?: (not proved|could not tell|no proof: (?!it calls))")
        verdicts = [found[1] for found in map(own.match, lines) if found]
        told = told_of(function, lines)
        errors = [it for it in told if ": error" in it] or told
        if verdicts and errors and not all(NAMES.search(it) for it in errors):
            return True, errors[0][:160]
        if verdicts and errors:
            return False, f"only a name is gone, which says nothing of the contract: change a value and keep the names: {errors[0][:160]}"
        if verdicts and any(LIMIT.search(it) for it in lines):
            return True, "only by a limit of the prover, which says less of the contract: choose a change that it refuses sooner"
        if verdicts:
            return None, f"{verdicts[0]}, and nothing is said of it"
    if any(re.search(r"\berror\[[\w-]+\]", it) for it in lines) or status not in (0, 1):
        return None, next((it for it in lines if "error" in it), f"status {status}")[:200]
    return False, "its functions are proved with it"


def whole(edit, status, lines):
    """Judges an edit of what no function holds, by a check of the whole crate."""
    if status == 1 and lines and lines[-1].startswith("logic=not-proved"):
        return True, next((it for it in lines if ": error" in it or "not proved" in it), "")[:160]
    return False, "the crate is proved with it" if status == 0 else f"status {status}"


def checked(kit, batch):
    """Checks the functions that some edits of a crate change, with these edits made in it. Returns the status and what was said."""
    functions = {function.path: function for edit in batch for function in edit.functions}
    while True:
        status, lines = kit.check(batch[0].crate, batch, sorted(functions))
        several = re.search(r"several functions are named `(.*?)`", "\n".join(lines)) if status == 2 else None
        if not several or several[1] not in functions:
            return status, lines
        # (it is that of the type which the edited file declares)
        function = functions.pop(several[1])
        functions["::".join([*module_of(function.file), function.path])] = function


def tried(kit, batch):
    """Tries some edits of a crate together, and returns what came of each."""
    if batch[0].is_whole():
        return [(batch[0], *whole(batch[0], *kit.check(batch[0].crate, batch, [])))]
    said = checked(kit, batch)
    found = [(edit, *judge(edit, *said)) for edit in batch]
    refused, others = [it for it in found if it[1]], [it[0] for it in found if not it[1]]
    if len(batch) == 1 or not others:
        return found
    # (the prover may leave a proof that rests on a refused one: the others are tried without those, and if that tells none, one by one)
    again = [others] if refused else [[it] for it in others]
    return refused + [it for some in again for it in tried(kit, some)]


def asked():
    """Returns what the words of the command line ask for."""
    words = argparse.ArgumentParser(description=__doc__, formatter_class=argparse.RawDescriptionHelpFormatter)
    words.add_argument("names", nargs="*", metavar="CRATE | CRATE/NAME")
    words.add_argument("--gate", action="store_true", help="only the edits that more-edits/gate.txt names")
    words.add_argument("--built", action="store_true", help="take the libraries in crates/*/out as they stand")
    words.add_argument("--jobs", type=int, default=os.cpu_count(), help="how many checks run at a time")
    return words.parse_args()


def names_of(file):
    """Returns the words of the command line that ask for an edit."""
    return file.parent.name, f"{file.parent.name}/{file.stem}"


def main():
    words, kit = asked(), Kit()
    files = sorted((ROOT / "more-edits").glob("*/*.edit"))
    if words.gate:
        named = set((ROOT / "more-edits" / "gate.txt").read_text().split())
        files = [it for it in files if f"{it.parent.name}/{it.stem}" in named]
        lacking = named - {f"{it.parent.name}/{it.stem}" for it in files}
        if lacking:
            sys.exit(f"more-edits/gate.txt names what isn't there: {' '.join(sorted(lacking))}")
    unknown = set(words.names) - {name for it in files for name in names_of(it)}
    if unknown:
        sys.exit(f"no edits of these names: {' '.join(sorted(unknown))}")
    edits = [Edit(it) for it in files if not words.names or set(words.names) & set(names_of(it))]
    crates = dict.fromkeys(it.crate for it in edits)
    for crate in crates if not words.built else ():
        if subprocess.run(["rt", "check", "--only", ""], cwd=ROOT / "crates" / crate, stdout=subprocess.DEVNULL).returncode:
            sys.exit(f"{crate}: a library below it isn't proved: see `rt check` in its folder")
    lacking = sorted({it for crate in crates for it in kit.below(crate) if not built(it).is_dir()})
    if lacking:
        sys.exit(f"these libraries aren't built, as `rt ci` leaves them: {' '.join(lacking)}. Without --built they are built first")
    passed = failed = 0

    def told(edit, is_refused, why):
        nonlocal passed, failed
        passed, failed = passed + bool(is_refused), failed + (not is_refused)
        print(f"{edit}: {'refused' if is_refused else 'NOT REFUSED'}: {why}", flush=True)

    for edit in edits:
        if edit.why:
            told(edit, False, edit.why)
    batches = [batch for crate in crates for batch in batches_of([it for it in edits if it.crate == crate and not it.why])]
    batches.sort(key=len, reverse=True)
    with concurrent.futures.ThreadPoolExecutor(words.jobs) as pool:
        for found in concurrent.futures.as_completed([pool.submit(tried, kit, it) for it in batches]):
            for it in found.result():
                told(*it)
    print(f"{passed} passed, {failed} failed")
    return 1 if failed else 0


if __name__ == "__main__":
    sys.exit(main())
