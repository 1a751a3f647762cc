#!/usr/bin/env python3
"""Respells this repository's own names of specs/ and proofs/ as Rattle spells them: words in snake case, and a dash only
between two names. Run once, at the top, right after the toolchain's own port script.

    python3 tools/respell.py          rewrites crates/, README.md and docs/
    python3 tools/respell.py list     prints each old name with its new one
"""
import glob
import os
import re
import sys

SPLIT = re.compile(r"([\s(){}\[\];,.`\"\\]+)")
HEAD = re.compile(r"^(\s*)((?:pub |abbrev |unfoldable )*)([^\s(){}\[\];,.:λ]+) :\s")
CASE = re.compile(r"(?<=[a-z0-9])(?=[A-Z])")
# two names that would fall together, or that a library or the program has: what to call the first instead
APART = {
    "label-of": "label_of_node",
    "counts-in": "counts_in_lem",
    "flags-from": "flags_from_lem",
    "read-by": "read_by_lem",
    "two_at": "two_at_lem",
    "getD-snoc": "get_or_snoc",
    "D-of": "d_of",
    "D-rules": "d_rules",
    "D-orders": "d_orders",
}
MADE = re.compile(r"^(returns|loop\d*|overflow|invariant|decreases)(-|$)")


def texts():
    for folder, dirs, files in os.walk("crates"):
        dirs[:] = sorted(d for d in dirs if d != "out")
        for f in sorted(files):
            if f.endswith((".rt", ".antt", ".edit")):
                yield os.path.join(folder, f)


def read(path):
    with open(path, encoding="utf-8") as f:
        return f.read()


def own():
    """The names that antt files declare, each with its kind: word, field or lemma."""
    kinds = {}
    for path in texts():
        if not path.endswith(".antt") or path.endswith("/Proof.antt"):
            continue
        within = None
        for line in read(path).split("\n"):
            if re.match(r"^\s*(pub )?(record|data) ", line) or re.match(r"^\s*(abbrev )?pub (record|data) ", line):
                within = len(line) - len(line.lstrip())
                continue
            m = HEAD.match(line)
            if not line.strip() or line.lstrip().startswith("--"):
                continue
            indent = len(line) - len(line.lstrip())
            if within is not None and indent <= within:
                within = None
            if not m:
                continue
            name = m.group(3)
            if within is not None and indent == within + 2:
                kinds.setdefault(name, "field")
            elif "abbrev" in m.group(2) or "unfoldable" in m.group(2) or "/specs/" in path:
                kinds[name] = "word"
            else:
                kinds.setdefault(name, "lemma")
    return kinds


def library():
    """Names that use lines bring in from elsewhere."""
    crates = set(os.listdir("crates"))
    found = set()
    for path in texts():
        if path.endswith(".edit"):
            continue
        for m in re.finditer(r"(?m)^\s*(?:ghost |pub )*use ([^\s{;]+?)\.\{([^}]*)\}", read(path)):
            parts = m.group(1).split(".")
            if not (parts[0] == "Rattle" and len(parts) > 1 and parts[1] in crates):
                found.update(w.strip() for w in m.group(2).split(","))
    return found


def snake(name):
    return CASE.sub("_", name).lower() if not name[0].isupper() else name


def respelled(name, kind, words):
    if name in APART:
        return APART[name]
    if name[0].isupper():
        return name
    if "-" not in name:
        return snake(name)
    parts = [snake(p) for p in name.split("-")]
    if kind != "lemma":
        return "_".join(parts)
    # a lemma: a dash stays between two names, its left side's outer call first
    out = parts[0]
    for i, p in enumerate(parts[1:], 1):
        left, right = name.split("-")[i - 1], name.split("-")[i]
        both = left in words and right in words
        out += ("-" if both else "_") + p
    return out


def table():
    kinds = own()
    lib = library()
    words = {n for n, k in kinds.items() if k == "word"} | {"length", "take", "drop", "map", "total"}
    old = {}
    for name, kind in sorted(kinds.items()):
        if MADE.match(name) or name.endswith("-spec"):
            continue
        new = respelled(name, kind, words)
        if new != name:
            old[name] = new
    taken = {}
    for name in kinds:
        taken.setdefault(old.get(name, name), []).append(name)
    for new, names in sorted(taken.items()):
        if len(names) > 1:
            print("fall together:", new, names, file=sys.stderr)
        for n in names:
            if new != n and new in lib:
                print("a library has:", new, n, file=sys.stderr)
            if n in lib and n in old:
                print("own and library:", n, "->", new, file=sys.stderr)
    return old


def main():
    if os.path.exists("docs/PORT.md"):
        raise SystemExit("respelled already: see docs/PORT.md")
    old = table()
    if sys.argv[1:] == ["list"]:
        for a, b in sorted(old.items()):
            print(a, b)
        return
    pages = [p for p in ["README.md"] + sorted(glob.glob("docs/*.md")) if not p.endswith("PORT.md")]
    for path in list(texts()) + pages:
        text = read(path)
        if path.endswith(".md"):
            new = re.sub(r"`[^`\n]+`", lambda m: "".join(old.get(w, w) if w in old and ("-" in w or re.search("[a-z][A-Z]", w)) else w for w in SPLIT.split(m.group(0))), text)
        elif path.endswith(".rt"):
            # only what clauses and ghost items say; comments and code have no such names
            new = "\n".join(l if l.lstrip().startswith("//") else "".join(old.get(w, w) if ("-" in w or re.search("[a-z][A-Z]", w)) else w for w in SPLIT.split(l)) for l in text.split("\n"))
        else:
            new = "".join(old.get(w, w) for w in SPLIT.split(text))
        new = re.sub(r"(?<![\w-])([\w]+(?:-[\w]+)*)-spec(?![\w-])", lambda m: m.group(1).replace("-", "_") + "_spec", new) if path.endswith("/Proof.antt") else new
        if new != text:
            with open(path, "w", encoding="utf-8") as f:
                f.write(new)


main()
