"""Every name that the documents cite stands in the repository, and where a document says in which file, it stands there.

A name is what a document has between backquotes: a function, type, definition, theorem, edit, crate or function of the header. `near` in numbers/Near
says that crates/numbers/specs/Near.antt, or the file of that name in proofs, defines it. Paths of files are looked for too. Prints what is
missing, and ends with status 1 where anything is.
"""

import glob
import os
import re
import sys

DOCUMENTS = ["README", "docs/RULES", "docs/SENTENCES", "docs/PROMISES", "docs/DECISIONS", "docs/ARCHITECTURE", "docs/LANDINGS"]

# Words of the language, of the kit or of the header's parameters, and what is no name.
WORDS = set("requires ensures unfolding with take drop set match self move io libc rt main i64 f64 u8 M S r out_len field_len stdin stdout nv_ useless SIZE RT_JOBS "
            "refused done nan far apt-get Result Ok Err Option Some None Display From TryFrom as_chunks "
            "while for wrapping_neg get_mut iter_mut chunks_exact_mut unwrap_or".split())

DEFINED = re.compile(r"^\s*(?:unfoldable |abbrev )*(?:pub )?(?:record |data )?([^\s:(]+) ", re.M)
CODE = re.compile(r"\b(?:fn|struct|enum|trait|const|mod) (\w+)|^\s*(?:pub )?(\w+)(?:: |,$|\(\w+\),$| = \d+,$)|('\w+): (?:loop|{)", re.M)


def text(path):
    with open(path, encoding="utf8") as file:
        return file.read()


def stem(path):
    return os.path.splitext(os.path.basename(path))[0]


def defined(path):
    return set(DEFINED.findall(text(path)))


def all_names():
    names = set(WORDS)
    for path in glob.glob("crates/*/specs/**/*.antt", recursive=True) + glob.glob("crates/*/proofs/**/*.antt", recursive=True):
        names |= defined(path) | {stem(path)}
    for path in glob.glob("crates/*/src/**/*.rt", recursive=True):
        names |= {name for found in CODE.findall(text(path)) for name in found}
    names |= {os.path.basename(path) for path in glob.glob("crates/*")}
    names |= {stem(path) for path in glob.glob("crates/*/must-fail/*.edit")}
    return names | set(re.findall(r"\b(?:nv|NV)_\w+", text("include/netvjesha.h")))


def parts(cited):
    """The identifiers of what stands between backquotes; none where it is a command, a number or a formula."""
    if not re.fullmatch(r"[\w':.()-]+", cited) or cited.endswith(".py"):
        return []
    return [part for part in re.split(r"::|\.", cited.replace("()", "")) if re.fullmatch(r"[A-Za-z'][\w'-]*", part)]


def cited_in(words):
    return [part for cited in re.findall(r"`([^`]+)`", words) for part in parts(cited)]


def places(line):
    """Each (names, files) of a line that says where the names stand: `near` in numbers/Near, `near` of crates/numbers/specs/Near.antt, or that path, `near`."""
    for segment in re.split(r"[;|:]", line):
        begin = 0
        for said in re.finditer(r"\bin (\w+)/([A-Z]\w+)\b(?!\.\w)|\b(?:of|in) (crates/\w+/\w+/[\w/]+\.antt)", segment):
            crate, file, path = said.groups()
            files = [path] if path else [f"crates/{crate}/{kind}/{file}.antt" for kind in ("specs", "proofs")]
            yield cited_in(segment[begin:said.start()]), files
            begin = said.end()
        for said in re.finditer(r"(?:^|[^fn]) (crates/\w+/\w+/[\w/]+\.antt),((?: ?`[^`]+`,?)+)", segment):
            yield cited_in(said.group(2)), [said.group(1)]


def main():
    names = all_names()
    count, missing = 0, []
    for document in DOCUMENTS:
        for number, line in enumerate(text(document + ".md").splitlines(), 1):
            at = f"{document}.md:{number}"
            for part in (part for cited in re.findall(r"`([^`]+)`", line) for part in parts(cited)):
                count += 1
                if part not in names:
                    missing.append(f"{at}: no {part}")
            for path in re.findall(r"\b(?:crates|docs|second|tests|include|bench|data)/[\w./*-]+", line):
                count += 1
                if not glob.glob(path.rstrip(".").replace("NAME", "*")):
                    missing.append(f"{at}: no file {path}")
            for cited, files in places(line):
                here = set().union(*(defined(path) for path in files if os.path.exists(path)))
                for part in cited:
                    count += 1
                    if part not in here:
                        missing.append(f"{at}: {part} is not in {' or '.join(files)}")
    for line in missing:
        print(line)
    print(f"names: {count - len(missing)} passed, {len(missing)} failed")
    return 1 if missing else 0


if __name__ == "__main__":
    sys.exit(main())
