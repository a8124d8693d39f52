#!/usr/bin/env python3
"""Respells the repository's own antt names as today's Rattle spells names.

usage: python3 tools/respell.py [FOLDER]      once, after the kit's port.py and before any edit by hand

Words in snake case (`bookOf` becomes `book_of`), types in camel case (`Reads-back` becomes `ReadsBack`), members of
records and data with underscores (`above-placing` becomes `above_placing`). Lemmas keep the dashes between their parts
(`upTo-more` becomes `up_to-more`). Names that the check makes (a goal's, a loop's) and names of src/ stay. It turns
crates/*/specs, crates/*/proofs, the ghost text of crates/*/src, the must-fail edits, and names between backticks in
README.md and docs/. It prints each name that it turned, and each new name that stood in one of the same files before.
"""

import collections
import os
import re
import sys

# names that would fall together with another name
CHOSEN = {"Well-told": "IsWellTold", "In-order": "IsInOrder", "In-own-steps": "IsInOwnSteps", "In-turns": "IsInTurns", "allBelow-getD": "all_below-slice_index"}
TYPE = re.compile(r"^(\s*)(?:pub\s+)?(?:record|data)\s+([^\s(){}:]+)")
SIGNED = re.compile(r"^(\s*)(?:(?:abbrev|unfoldable|pub)\s+)*([^\s(){}:;,⌜⌝λ∷\[\]=]+)\s+:\s(.*)")
GHOST = re.compile(r"^\s*ghost\s+([A-Za-z_][A-Za-z0-9_]*):")
TOKEN = re.compile(r"[^\s(){}\[\];,.:=λ→×`\"⌜⌝|]+")


def files(root, *endings):
    for folder, dirs, names in os.walk(root):
        dirs[:] = sorted(d for d in dirs if d not in ("out", "target", ".git", "data"))
        for name in sorted(names):
            if name.endswith(endings):
                yield os.path.join(folder, name)


def read(path):
    with open(path, encoding="utf-8") as f:
        return f.read()


def declared(root):
    """Each name that an .antt file declares, and each ghost member of src/, as (name, is it a type, is it a member)."""
    for path in files(os.path.join(root, "crates"), ".rt"):
        for line in read(path).splitlines():
            ghost = GHOST.match(line)
            if ghost:
                yield ghost.group(1), False, True
    for path in files(os.path.join(root, "crates"), ".antt"):
        inside = None
        for line in read(path).splitlines():
            if not line.strip() or line.lstrip().startswith("--") or line.startswith("use "):
                continue
            depth = len(line) - len(line.lstrip())
            if inside is not None and depth <= inside:
                inside = None
            type_line = TYPE.match(line)
            if type_line:
                inside = depth
                yield type_line.group(2), True, False
                continue
            signed = SIGNED.match(line)
            if signed and not re.match(r"(goal|need|given)\.", signed.group(3)):
                yield signed.group(2), False, inside is not None


def snake(part):
    return re.sub(r"(?<=[a-z0-9])([A-Z])", lambda m: "_" + m.group(1).lower(), part)


def respelled(name, is_member):
    name = name.replace("′", "'")
    if name[0].isupper():
        return "".join(p[:1].upper() + p[1:] for p in re.split("[-_]", name))
    parts = [snake(p) if p[:1].islower() else p for p in name.split("-")]
    return ("_" if is_member else "-").join(parts)


def turns(root):
    found = collections.OrderedDict()
    for name, is_type, is_member in declared(root):
        if not re.match(r"[A-Za-z]", name):
            continue
        new = CHOSEN.get(name) or respelled(name, is_member)
        if new != name and found.setdefault(name, new) != new:
            print(f"two spellings: {name}: {found[name]}, {new}")
            found[name] = min(found[name], new, key=lambda n: n.count("-"))
    return found


def turned(text, found):
    return TOKEN.sub(lambda m: found.get(m.group(0), m.group(0)), text)


def main():
    root = sys.argv[1] if len(sys.argv) > 1 else "."
    found = turns(root)
    for old, new in found.items():
        print(f"{old} -> {new}")
    for path in files(os.path.join(root, "crates"), ".antt", ".rt", ".edit"):
        text = read(path)
        words = set(TOKEN.findall(text))
        for old, new in found.items():
            if old in words and new in words:
                print(f"together: {path}: {old} and {new}")
        with open(path, "w", encoding="utf-8") as f:
            f.write(turned(text, found))
    for path in [os.path.join(root, "README.md"), *files(os.path.join(root, "docs"), ".md")]:
        text = re.sub(r"`[^`\n]+`", lambda m: turned(m.group(0), found), read(path))
        with open(path, "w", encoding="utf-8") as f:
            f.write(text)


main()
