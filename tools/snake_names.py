#!/usr/bin/env python3
"""Spells the repository's own antt names in snake case: frameA is frame_a, readCard is read_card. Types, modules and facts keep their capitals.

    python3 tools/snake_names.py [--list]

Run once at the top of the repository, after the kit's port.py. The names are those that specs/ and proofs/ define or use; they change there, in
clauses, in must-fail edits, in the documents and in the scripts that write or look for them. --list prints the names and changes nothing.
"""
import glob
import re
import sys

# A name of antt: letters, digits, _, and dashes and primes within it.
TOKEN = re.compile(r"(?<![A-Za-z0-9_'-])[a-z][A-Za-z0-9_'-]*")
HUMP = re.compile(r"(?<=[a-z0-9])(?=[A-Z])")


# Definitions of specs/ that were spelled with a dash, and the name of a word of the library in two lemmas.
OTHERS = {
    "with-position": "with_position",
    "near-mark": "near_mark",
    "tide-checks": "tide_checks",
    "bottom-pos": "bottom_pos",
    "divisor-pos": "divisor_pos",
    "getD-splice": "get_or-splice",
    "getD-apart": "get_or-apart",
}


def snake(token):
    """Each part between dashes that begins small; a part that begins with a capital is a type or a fact."""
    if token in OTHERS:
        return OTHERS[token]
    parts = [HUMP.sub("_", part).lower() if HUMP.search(part) and part[0].islower() else part for part in token.split("-")]
    return "-".join(parts)


def files(*patterns):
    return sorted(path for pattern in patterns for path in glob.glob(pattern, recursive=True))


def main():
    antt = files("crates/*/specs/**/*.antt", "crates/*/proofs/**/*.antt")
    names = {}
    seen = set()
    for path in antt:
        for token in TOKEN.findall(open(path, encoding="utf-8").read()):
            seen.add(token)
            if snake(token) != token:
                names[token] = snake(token)
    for old, new in sorted(names.items()):
        if new in seen:
            print(f"falls together: {old} and {new}", file=sys.stderr)
    if "--list" in sys.argv:
        print("\n".join(f"{old} {new}" for old, new in sorted(names.items())))
        return
    others = files("crates/*/src/**/*.rt", "crates/*/must-fail/*.edit", "docs/*.md", "README.md", "second/make_cases.py", "second/README.md", "tests/*.py")
    for path in antt + others:
        text = open(path, encoding="utf-8").read()
        new = TOKEN.sub(lambda found: names.get(found.group(), found.group()), text)
        if new != text:
            open(path, "w", encoding="utf-8").write(new)


if __name__ == "__main__":
    main()
