#!/usr/bin/env python3
"""Lists repeated statements of definitions and proofs, or wrong imports of names, without any check of proofs.

Usage: bench/statements.py [again|names]

    again    lemmas that are stated more than once (the default), whatever the names of their variables, and whether
             these are explicit. It ignores the types of variables, so two lemmas of a group may differ: look before you
             remove one. Keep the one in the lowest crate if the others can reach it. It skips lemmas within modules and
             `where`, answers, invariants and examples (`*Shown*.antt`)
    names    names that a file imports twice, or imports and defines; and names that a file imports from a file of the
             repository without such a name. A missing file is left to the check. After names were moved, this shows in
             seconds the errors that a check shows one crate at a time

Not part of rt ci.
"""
import collections
import functools
import os
import pathlib
import re
import sys

TOP = pathlib.Path(os.path.dirname(os.path.dirname(os.path.abspath(__file__))))
HEAD = re.compile(r"^(?:pub )?([^\s(){}:=]+) : (.*)$")
USE = re.compile(r"^\s*use ([\w.\-]+)\.\{(.*)\}$")
DEFINED = re.compile(r"^(?:(?:abbrev|unfoldable|pub|record|data) )*([^\s(){}:=]+) (?::|\(|\{)")
WORD = re.compile(r"[^\s(){}.,;]+|[(){}.,;]")
RELATIONS = re.compile(r"≡|≢|≤|<|⊥|^[A-Z]\w+ ")
# what gives a value and no fact
VALUES = re.compile(r"^(List|Option|ℕ|Bool|Result)\b")


def files():
    """The files of definitions and of proofs; each crate comes after those below it."""
    lines = (TOP / "crates.txt").read_text(encoding="utf-8").splitlines()
    for crate in [line.split(":")[0].split()[0] for line in lines if line.strip() and not line.startswith("#")]:
        for part in ("specs", "proofs"):
            yield from sorted((TOP / "crates" / crate / part).rglob("*.antt"))


def statements(lines):
    """The line, the name and the type of each lemma of a file, from 1."""
    at = 0
    while at < len(lines):
        found = HEAD.match(lines[at])
        begun, at = at, at + 1
        if found is None:
            continue
        while at < len(lines) and lines[at].startswith(" "):
            at += 1
        yield begun + 1, found.group(1), " ".join([found.group(2), *lines[begun + 1:at]])


def says_a_fact(statement):
    last = statement.split("→")[-1].strip()
    return "Type" not in last and ("≡" in statement or RELATIONS.search(last)) and not VALUES.match(last)


def with_numbers(words, names):
    """The words, with variables numbered in the order of their first occurrence."""
    numbers = {}
    return [numbers.setdefault(word, f"v{len(numbers)}") if word in names else word for word in words]


def plain(statement):
    """A statement without its variables' names and types."""
    text = re.sub(r"\s+", " ", statement).strip()
    names = set()
    for bound in re.findall(r"[({]([^(){}:]+?) : ", text) + re.findall(r"λ ([^.]+)\. ", text):
        names.update(bound.split())
    text = " ".join(with_numbers(WORD.findall(text), names)).replace("{", "(").replace("}", ")")
    body = re.sub(r"\( (?:v\d+ )+: [^()]*(?:\([^()]*\)[^()]*)* \) ?(?:→ )?", "", text).split(" ")
    return " ".join(with_numbers(body, {word for word in body if re.fullmatch(r"v\d+", word)}))


def again():
    groups = collections.defaultdict(list)
    for path in files():
        if path.name in ("Answers.antt", "Invariants.antt") or "Shown" in path.name:
            continue
        for line, name, statement in statements(path.read_text(encoding="utf-8").split("\n")):
            if says_a_fact(statement):
                groups[plain(statement)].append(f"{path.relative_to(TOP)}:{line} {name}")
    surplus = 0
    for statement, places in groups.items():
        if len(places) > 1:
            surplus += len(places) - 1
            print(statement[:160], *places, sep="\n    ")
    print(f"{surplus} repeated statements")


@functools.cache
def names_in(path):
    """The names that a file defines: of definitions, lemmas, constructors and fields."""
    names = set()
    for line in path.read_text(encoding="utf-8").split("\n"):
        passed_on = re.match(r"^\s*(?:unfoldable )?pub use [^{]*\{(.*)\}", line)
        found = re.match(r"^\s*(?:(?:abbrev|unfoldable|pub|record|data|mod) )*([^(){}:=]+?)(?: :| \(| \{|$)", line)
        if passed_on:
            names.update(item.split(" as ")[-1].strip() for item in passed_on.group(1).split(","))
        elif found and not line.lstrip().startswith("use "):
            names.update(found.group(1).split())
    return names


def module(words):
    """The file of a module of the repository, if it is one."""
    crate, part, *rest = words
    path = TOP / "crates" / crate / part / ("/".join(rest) + ".antt")
    return path if rest and "declared" not in rest and path.is_file() else None


def names_of(path):
    lines = path.read_text(encoding="utf-8").split("\n")
    own = {found.group(1) for line in lines if not line.startswith("use ") for found in [DEFINED.match(line)] if found}
    seen = set()
    for line in lines:
        found = USE.match(line)
        if found is None or line.startswith(" "):
            continue
        words = found.group(1).split(".")
        source = module(words[1:]) if words[0] == "Rattle" and len(words) > 3 else None
        for item in [item.strip() for item in found.group(2).split(",")]:
            first, name = item.split(" as ")[0], item.split(" as ")[-1]
            if "◌" in name:
                continue
            if name in seen:
                yield f"{name} is imported twice"
            seen.add(name)
            if name in own:
                yield f"{name} is imported and defined"
            if source and first not in names_in(source):
                yield f"{first} isn't in {source.relative_to(TOP)}"


def names():
    wrong = [f"{path.relative_to(TOP)}: {fault}" for path in files() for fault in names_of(path)]
    print(*wrong, f"{len(wrong)} names", sep="\n")
    sys.exit(1 if wrong else 0)


def main():
    asked = sys.argv[1:] or ["again"]
    if asked not in (["again"], ["names"]):
        sys.exit(__doc__)
    again() if asked == ["again"] else names()


if __name__ == "__main__":
    main()
