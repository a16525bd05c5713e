#!/usr/bin/env python3
"""Brings this repository's own definitions and lemmas to snake case: a dash between the words of a declared name becomes '_'.

usage: tools/snake_names.py [--list] ROOT

Names that Rattle makes (goals, steps, arms) and names of the library keep their spelling, and so does everything in src/ but the
ghost text that cites a renamed name. A name is renamed wherever it stands as a whole word: in specs/, proofs/, the ghost text of
src/ and between backquotes in the pages of docs/ and README.md. SPECIAL and LEFT below have the names that need more than that.
"""
import glob, os, re, sys

WORD = re.compile(r"[^\s(){}\[\];,.:|\"`@]+")
DECL = re.compile(r"^\s*(?:abbrev |unfoldable |pub |data |record |module |infixl? |infixr? )*([A-Za-z][^\s(){}\[\];,.:|\"`]*)\s*(?:\([^:]*:[^)]*\)\s*|\{[^:]*:[^}]*\}\s*)*:(?!=)\s*(.*)$")

# names whose snake form is not their letters with '_': a word of two words, and the library's word that port.py left
SPECIAL = {"isSome-mapped": "is_some_mapped"}
LEFT = {"bit-or": "bit_or", "bitOr": "bit_or"}
# names of variables and names given by 'as'
LOCAL = "of-run of-origin of-entry set-action group-bytes record-number sound-to fits-xy fits-yz last-part no-fit none-there now-from now-to own-there same-group same-origin yes-is zero-on zero-part".split()


def files(root):
    for folder in ("specs", "proofs"):
        yield from sorted(glob.glob(os.path.join(root, "crates", "*", folder, "**", "*.antt"), recursive=True))


def declared(root):
    """Each declared name with a dash, and the files that declare it. Answers and invariants, whose type is a goal's, are Rattle's."""
    names = {}
    for path in files(root):
        for line in open(path, encoding="utf-8"):
            if line.lstrip().startswith("--"):
                continue
            m = DECL.match(line)
            if m and "-" in m[1] and not re.match(r"(goal|need|given)\.", m[2]):
                names.setdefault(m[1], []).append(path)
    return names


def taken(root):
    """The names with '_' that are declared already."""
    found = {}
    for path in files(root):
        for line in open(path, encoding="utf-8"):
            m = DECL.match(line)
            if m and "_" in m[1]:
                found.setdefault(m[1], []).append(path)
    return found


def turned(names):
    return {n: SPECIAL.get(n, n.replace("-", "_")) for n in names} | LEFT | {n: n.replace("-", "_") for n in LOCAL}


def respell(text, new):
    return WORD.sub(lambda m: new.get(m[0], m[0]), text)


def main(argv):
    root = argv[-1]
    names = declared(root)
    new = turned(names)
    if "--list" in argv:
        have = taken(root)
        for n in sorted(new):
            clash = have.get(new[n])
            print(n, "->", new[n], "" if not clash else "  TAKEN by " + ", ".join(sorted(set(os.path.relpath(c, root) for c in clash))))
        return 0
    changed = 0
    paths = list(files(root)) + sorted(glob.glob(os.path.join(root, "crates", "*", "src", "**", "*.rt"), recursive=True))
    for path in paths:
        text = open(path, encoding="utf-8").read()
        out = respell(text, new)
        if out != text:
            open(path, "w", encoding="utf-8").write(out)
            changed += 1
    for path in sorted(glob.glob(os.path.join(root, "docs", "*.md"))) + [os.path.join(root, "README.md")]:
        text = open(path, encoding="utf-8").read()
        out = re.sub(r"`[^`\n]+`", lambda m: respell(m[0], new), text)
        if out != text:
            open(path, "w", encoding="utf-8").write(out)
            changed += 1
    print(f"{len(new)} names, {changed} files")
    return 0


if __name__ == "__main__":
    raise SystemExit(main(sys.argv[1:]))
