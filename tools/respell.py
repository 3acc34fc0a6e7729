#!/usr/bin/env python3
"""Respells the repository's own definitions and lemmas: snake case, plain underscores. Types and modules keep their capitals.

usage: respell.py [--check] [ROOT]

Run once, after port.py. It goes by whole words in crates/: the .antt files, the .rt files (a lower case name with a capital or a dash in it
stands in clauses and comments alone) and the must-fail edits. A name of the library keeps its spelling in a file that imports it from there,
and the goals that a function's own Proof.antt names are Rattle's. --check writes nothing and says which names would fall together.
"""
import collections
import glob
import os
import re
import sys

WORD = re.compile(r"[^\s(){}.;,@\"«»:`]+")
DECLARED = re.compile(
    r"^\s*(?:(?:unfoldable|abbrev|pub|data|record|ruleset|let|where) +)*([^\s(){}.;,@\"«»:]+)(?: +(?:\{[^{}]*\}|\([^()]*\)))* :(?= |$)"
)
RULESET = re.compile(r"^\s*(?:pub )?ruleset (?:pub )?([^\s(){}.;,@\"«»:]+)")
USE = re.compile(r"^\s*(?:ghost )?use ([^\s;{]+)\.\{([^}]*)\}", re.M)
LIBRARY = re.compile(r"(Rattle\.(std|core|std_\w+|io|os|libc)\b|Prim\b|mathlib\b|lib\b|native\b|borrow\b|denote\b|logic\b)")
CODE_SPAN = re.compile(r"`[^`\n]+`")
# lemmas in snake case whose name a definition has after this: by the folder in which they are used
LEMMAS = {
    "crates/call_write/proofs/Records.antt": "after_first",
    "crates/house_text/proofs/": "one_more",
    "crates/method/proofs/": "one_more",
    "crates/network/proofs/": "one_more",
    "crates/network_bytes/proofs/": "one_more",
    "crates/network_list/proofs/": "one_more laid_out",
    "crates/run_node/proofs/": "room_after",
    "crates/table/proofs/": "one_more",
    "crates/table_reader/proofs/": "all_room",
    "crates/table_records/proofs/Walk.antt": "first_one",
    "crates/walk/proofs/": "turn_at",
}


def snake(name):
    """windowAt as window_at, length-asBits as length_as_bits."""
    words = re.sub(r"(?<=[a-z0-9′'₀-₉])([A-Z])(?=[a-z0-9]|$|-|_)", lambda m: "_" + m.group(1).lower(), name)
    return words.replace("-", "_")


def files(root):
    for kind in ("specs", "proofs"):
        yield from sorted(glob.glob(f"{root}/crates/*/{kind}/**/*.antt", recursive=True))
    yield from sorted(glob.glob(f"{root}/crates/*/src/**/*.rt", recursive=True))
    yield from sorted(glob.glob(f"{root}/crates/*/must-fail/*.edit"))


def declared(text):
    out = set()
    for line in text.splitlines():
        line = re.sub(r"(?:^|\s)--.*", "", line)
        m = DECLARED.match(line) or RULESET.match(line)
        if m:
            out.add(m.group(1))
    return out


def lent(text):
    """The names that a file imports from a library."""
    out = set()
    for path, items in USE.findall(text):
        if LIBRARY.match(path):
            out |= {it.split(" as ")[-1].strip() for it in items.split(",")}
            out |= {it.split(" as ")[0].strip() for it in items.split(",")}
    return out


def main(argv):
    check = "--check" in argv
    roots = [a for a in argv if not a.startswith("--")]
    root = roots[0] if roots else "."
    texts = {p: open(p, encoding="utf-8").read() for p in files(root)}
    own = set()
    for p, t in texts.items():
        if p.endswith(".antt") and not p.endswith("/Proof.antt"):
            own |= declared(t)
    table = {}
    for n in own:
        if n[:1].isupper() or not n[:1].isalpha():
            continue
        new = snake(n)
        if new != n:
            table[n] = new
    # a lemma or a label that would have a definition's name gets _lem
    plain = {new for old, new in table.items() if "-" not in old} | {n for n in own if n == snake(n)}
    for old, new in table.items():
        if "-" in old and new in plain:
            table[old] = new + "_lem"
    back = collections.defaultdict(set)
    for old, new in table.items():
        back[new].add(old)
        if new in own:
            back[new].add(new)
    for new, olds in sorted(back.items()):
        if len(olds) > 1:
            print(f"together: {new}: {' '.join(sorted(olds))}")
    changed = 0
    for p, t in sorted(texts.items()):
        keep = lent(t)
        for folder, names in LEMMAS.items():
            if os.path.relpath(p, root).startswith(folder):
                for n in names.split():
                    t = re.sub(rf"(?<![\w.-]){n}(?![\w-])|(?<=\.\{{){n}(?![\w-])", n + "_lem", t)
        words = set(WORD.findall(t))
        here = {o: n for o, n in table.items() if o in words and o not in keep}
        for o, n in sorted(here.items()):
            if n in words and not p.endswith(".edit"):
                print(f"meets: {p}: {o} would meet {n}")
            if o in keep:
                print(f"kept: {p}: {o} is the library's here")
        new = WORD.sub(lambda m: here.get(m.group(0), m.group(0)), t)
        if new != texts[p]:
            changed += 1
            if not check:
                with open(p, "w", encoding="utf-8") as f:
                    f.write(new)
    for p in sorted(glob.glob(f"{root}/docs/*.md")) + [f"{root}/README.md"]:
        t = open(p, encoding="utf-8").read()
        new = CODE_SPAN.sub(lambda s: WORD.sub(lambda m: table.get(m.group(0), m.group(0)), s.group(0)), t)
        if new != t:
            changed += 1
            if not check:
                with open(p, "w", encoding="utf-8") as f:
                    f.write(new)
    print(f"respell: {len(table)} names, {changed} files")


if __name__ == "__main__":
    main(sys.argv[1:])
