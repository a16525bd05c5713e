#!/usr/bin/env python3
"""Respells the names of steps and goals in proofs/*/**: a name from the source keeps its '_' (c.merge-runs-count is c.merge_runs-count).

usage: tools/step_names.py ROOT [CRATE..]

The words of a name with dashes are joined where they are a name of src/ (a function, a variable, a method that is called there) or
one of Rattle's own words with '_'. Names that specs/ or proofs/ declare, and names of the library, stay.
"""
import glob, os, re, sys

WORD = re.compile(r"[^\s(){}\[\];,.:|\"`@]+")
OWN = {"in_default", "in_ok", "in_err", "type_inv", "invariant_of", "overflow_add", "overflow_sub", "overflow_mul", "overflow_cast", "overflow_shl", "overflow_shr", "overflow_step", "nonzero_div", "nonzero_rem", "slice_bounds", "offset_bounds"}
HEADS = re.compile(r"^(returns|loop|if|then|else|in|not|overflow|invariant|decreases|at|starred|bounds|slice|index|branch|invariant_of|match)-")


def source_names(root):
    found = set(OWN)
    for path in glob.glob(os.path.join(root, "crates", "*", "src", "**", "*.rt"), recursive=True):
        found |= set(re.findall(r"\b(?:[a-z][a-z0-9]*(?:_[a-z0-9]+)+|[A-Z][A-Z0-9]*(?:_[A-Z0-9]+)+)\b", open(path, encoding="utf-8").read()))
    return found


def declared(root):
    import snake_names
    found = set()
    for path in snake_names.files(root):
        for line in open(path, encoding="utf-8"):
            m = snake_names.DECL.match(line)
            if m and not re.match(r"(goal|need|given)\.", m[2]):
                found.add(m[1])
    return found


def library():
    found = set()
    for folder in ("std", "core", "std_alloc", "logic", "antt"):
        for path in glob.glob(os.path.join("/opt/rattle/rattle", folder, "**", "*.antt"), recursive=True):
            try:
                found |= {w for w in WORD.findall(open(path, encoding="utf-8").read()) if "-" in w}
            except OSError:
                pass
    return found


def join(word, names):
    parts, out, i = word.split("-"), [], 0
    while i < len(parts):
        for j in range(len(parts), i + 1, -1):
            if "_".join(parts[i:j]) in names:
                out.append("_".join(parts[i:j]))
                i = j
                break
        else:
            out.append(parts[i])
            i += 1
    return "-".join(out)


def main(argv):
    root, crates = argv[0], argv[1:]
    names, stay = source_names(root), declared(root) | library()
    n = 0
    for path in sorted(glob.glob(os.path.join(root, "crates", "*", "proofs", "*", "**", "*.antt"), recursive=True)):
        if crates and os.path.relpath(path, os.path.join(root, "crates")).split(os.sep)[0] not in crates:
            continue
        text = open(path, encoding="utf-8").read()

        def turn(m):
            w = m[0]
            if "-" not in w or (w in stay and not HEADS.match(w)):
                return w
            return "+".join(join(part, names) for part in w.split("+"))

        out = WORD.sub(turn, text)
        if out != text:
            open(path, "w", encoding="utf-8").write(out)
            n += 1
    print(n, "files")
    return 0


if __name__ == "__main__":
    sys.path.insert(0, os.path.dirname(os.path.realpath(__file__)))
    raise SystemExit(main(sys.argv[1:]))
