"""Every function that another crate or C can call has a promise and asks for nothing: an `ensures`, no `requires`.

A trait's function is called by the trait: where the trait is ours, its `ensures` stands there; where it is the library's, the block that writes it
has the promise in a line `ghost NAME_gives`. Reads crates.txt and the sources below crates/; prints what fails, and ends with status 1 where
anything does.
"""

import os
import re
import sys

HEAD = re.compile(r'^\s*pub (?:const |unsafe |extern "C" )*fn (\w+)')
CLAUSE = re.compile(r"^\s*(ensures|requires)\b")
# A trait, and a trait written for a type, of the line without what stands in angle brackets; both end at a brace in the first column.
TRAIT = re.compile(r"^pub (?:unsafe )?trait (\w+)")
IMPL = re.compile(r"^(?:unsafe )?impl ([\w:]+) for .*{$")
WITHIN = re.compile(r"^    (?:const |unsafe )*fn (\w+)")
GIVES = re.compile(r"^    ghost (\w+)_gives = ")
# Words for a person, which no definition fixes.
WORDS = {("fmt::Display", "fmt")}


def libraries():
    with open("crates.txt", encoding="utf8") as file:
        for line in file:
            words = line.split("#")[0].split(":")[0].split()  # the crate's name, and whether it is a static library
            if words and os.path.exists(f"crates/{words[0]}/src/lib.rt"):
                yield words[0]


def reached(path):
    """The file, and those that it opens to other crates by `pub mod`, or of which it hands a type on by `pub use`."""
    with open(path, encoding="utf8") as file:
        lines = file.read().splitlines()
    yield path, lines
    folder, stem = os.path.dirname(path), os.path.basename(path)[:-len(".rt")]
    inner = folder if stem == "lib" else os.path.join(folder, stem)
    for line in lines:
        opened = re.match(r"\s*pub (?:mod (\w+);|use (\w+)::)", line)
        below = opened and os.path.join(inner, (opened.group(1) or opened.group(2)) + ".rt")
        if opened and (opened.group(1) or os.path.exists(below)):
            yield from reached(below)


def written_anywhere(crate, seen):
    """The other files of a crate. A trait that is written there for a type is called by the trait, wherever it stands."""
    for folder, _, files in sorted(os.walk(f"crates/{crate}/src")):
        for path in sorted(os.path.join(folder, file) for file in files):
            if path.endswith(".rt") and path not in seen:
                with open(path, encoding="utf8") as file:
                    yield path, file.read().splitlines()


def bare(lines, at):
    """The head that begins at a line, up to its body, without what stands in angle brackets, from the innermost on."""
    line = lines[at].replace("->", "")
    while line.startswith(("impl", "unsafe impl")) and at + 1 < len(lines) and not line.rstrip().endswith(("{", "}")):
        at += 1
        line = f"{line} {lines[at].strip()}".replace("->", "")
    while re.search(r"<[^<>]*>", line):
        line = re.sub(r"<[^<>]*>", "", line)
    return line


def clauses_at(lines, at):
    """The clauses of the function whose head begins at a line, up to its body or its end."""
    found = []
    for below in lines[at:]:
        clause = CLAUSE.match(below)
        if clause:
            found.append(clause.group(1))
        if below.rstrip().endswith(";") or not clause and below.rstrip().endswith("{"):
            break
    return found


def functions(lines, ours):
    """Each function that another crate can call: its name, its line, and its clauses. `ours` has what our own traits promise, as TRAIT::NAME."""
    trait, written, given = None, None, ()
    for at, line in enumerate(lines):
        if line.startswith("}"):
            trait, written, given = None, None, ()
        opened, block, head, within = TRAIT.match(line), IMPL.match(bare(lines, at)), HEAD.match(line), WITHIN.match(line)
        if opened:
            trait = opened.group(1)
        elif block:
            written = block.group(1)
            given = [GIVES.match(below).group(1) for below in lines[at:lines.index("}", at)] if GIVES.match(below)]
        elif head:
            yield head.group(1), at + 1, clauses_at(lines, at)
        elif within and (trait or written) and (written, within.group(1)) not in WORDS:
            name = f"{trait or written}::{within.group(1)}"
            promised = within.group(1) in given or written and name in ours
            yield name, at + 1, ["ensures"] * bool(promised) + clauses_at(lines, at)


def promised_by_traits():
    """The functions of our own traits that have an `ensures` there, in all crates."""
    for crate in libraries():
        for path, lines in reached(f"crates/{crate}/src/lib.rt"):
            names = {match.group(1) for match in map(TRAIT.match, lines) if match}
            for name, _, clauses in functions(lines, ()):
                if name.split("::")[0] in names and "ensures" in clauses:
                    yield name


def main():
    count, failed = 0, 0
    ours = set(promised_by_traits())
    for crate in libraries():
        opened = list(reached(f"crates/{crate}/src/lib.rt"))
        seen = {path for path, _ in opened}
        for path, lines in opened + list(written_anywhere(crate, seen)):
            for name, line, clauses in functions(lines, ours):
                if path not in seen and "::" not in name:
                    continue  # a function of a module that the crate keeps to itself
                count += 1
                wrong = ["no ensures"] * ("ensures" not in clauses) + ["a requires"] * ("requires" in clauses)
                if wrong:
                    failed += 1
                    print(f"{path}:{line}: {crate}::{name} has {' and '.join(wrong)}")
    print(f"promises: {count - failed} passed, {failed} failed")
    return 1 if failed else 0


if __name__ == "__main__":
    sys.exit(main())
