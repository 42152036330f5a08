#!/usr/bin/env python3
"""Turns the repository's own definitions and lemmas to today's spelling.

usage: python3 tools/respell.py      at the top of the repository, once, after the kit's own script

A definition or lemma is written in snake case, a fact or a type in upper camel case. Older files joined the words
of a name by dashes. Only names that a file of specs/ or proofs/ of this repository defines are turned; names of
the library and names that the toolchain makes keep their dashes. Where two names fall together it says so and
changes nothing.
"""

import os
import re
import sys

WORD = r"[A-Za-z][A-Za-z0-9_'’]*"
DASHED = re.compile(r"(?<![\w.'«-])(" + WORD + r"(?:-[A-Za-z0-9_']+)*)(?![\w'-])")
DEFINED = re.compile(r"(?m)^[ \t]*((?:pub|abbrev|unfoldable|data|record|ruleset|unfolding) )*(" + WORD + r"(?:-[A-Za-z0-9_']+)*)((?: \([^()]*(?:\([^()]*\)[^()]*)*\)| \{[^}]*\})*) :(?: (.*))?$")
MADE = re.compile(r"^(goal|need|given)\.")
ALIAS = re.compile(r" as (" + WORD + r"(?:-[A-Za-z0-9_']+)+)(?=[,}])")

# names that would fall together with a function, a variant or another name, or that are now words of the prover
OTHERS = {
    "Clash-at": "ClashAtLaw",
    "Clash-by": "ClashByLaw",
    "First-only": "IsFirstOnly",
    "Second-only": "IsSecondOnly",
    "atom-at": "atom_in_bytes",
    "atom-uses": "atom_use",
    "counts-in": "counts_of_block",
    "ground": "ground_of",
    "ground-atom": "ground_of_atom",
    "literal-holds": "literal_has",
    "nth-names": "nth_assignment",
    "own-model": "own_model_lem",
    "same-literal": "sameness_literal",
    "signed-atom": "signed_atom_of",
    "size-at": "size_at_index",
    "term-uses": "term_use",
}
# the same by crate
OTHERS_IN = {"blocks": {"literal-in": "literal_of_bytes"}}
OTHERS["literal-in"] = "literal_of_list"


def files(root):
    for folder, dirs, names in os.walk(os.path.join(root, "crates")):
        dirs[:] = sorted(d for d in dirs if d != "out")
        for n in sorted(names):
            if n.endswith((".rt", ".antt", ".edit")):
                yield os.path.join(folder, n)


def respelled(name):
    if name in OTHERS:
        return OTHERS[name]
    if name[0].isupper():
        return "".join(p[:1].upper() + p[1:] for p in re.split(r"[-_]", name))
    return name.replace("-", "_")


def main():
    root = os.getcwd()
    texts = {}
    for p in files(root):
        with open(p, encoding="utf-8") as f:
            texts[p] = f.read()
    own = {}
    for p, t in texts.items():
        if not p.endswith(".antt"):
            continue
        for m in DEFINED.finditer(t):
            name = m.group(2)
            if MADE.match((m.group(4) or "").strip()):
                continue
            if "-" in name or name in OTHERS or (name[0].isupper() and "_" in name):
                own[name] = respelled(name)
    for p, t in texts.items():
        for m in ALIAS.finditer(t):
            own.setdefault(m.group(1), respelled(m.group(1)))
    library = set()
    for p, t in texts.items():
        for m in re.finditer(r"(?m)^(?:ghost )?use ([\w.+'-]+)\.\{([^}]*)\}", t):
            crate = m.group(1).split(".")
            listed = [w.strip().split(" as ")[0] for w in m.group(2).split(",")]
            if crate[0] != "Rattle" or not os.path.isdir(os.path.join(root, "crates", crate[1])):
                library.update(listed)
    both = sorted(set(own) & library)
    for n in both:
        print(f"left: {n} is a name of the library too")
        del own[n]
    used = set()
    for t in texts.values():
        for m in DASHED.finditer(t):
            used.add(m.group(1))
    bad = 0
    targets = {}
    for old, new in sorted(own.items()):
        if new in targets:
            print(f"fall together: {targets[new]} and {old} are both {new}")
            bad = 1
        targets[new] = old
        if new in used:
            where = [os.path.relpath(p, root) for p, t in texts.items() if re.search(r"(?<![\w'-])" + re.escape(new) + r"(?![\w'-])", t)]
            print(f"taken: {old} becomes {new}, which stands in {' '.join(where[:4])}")
            bad = bad or ("--taken" not in sys.argv and 1)
    if bad:
        return 1
    n = 0
    for p, t in texts.items():
        crate = os.path.relpath(p, root).split(os.sep)[1]
        turned = own | OTHERS_IN.get(crate, {})

        def line(text):
            # code keeps its names: in src/ a name without a dash is turned only in imports for clauses, clauses and ghost items
            whole = p.endswith(".antt") or re.match(r"\s*(ghost|pub ghost|requires|ensures)", text)
            return DASHED.sub(lambda m: turned.get(m.group(1), m.group(1)) if whole or "-" in m.group(1) else m.group(1), text)

        new = "\n".join(line(x) for x in t.split("\n"))
        if new != t:
            n += 1
            with open(p, "w", encoding="utf-8") as f:
                f.write(new)
    print(f"respelled {len(own)} names in {n} files")
    return 0


sys.exit(main())
