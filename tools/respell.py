#!/usr/bin/env python3
"""Brings the repository's own names to the spelling of the kit's port page, part 3.

usage: python3 tools/respell.py [--check]     at the top, once, after port.py

Words are in snake case: a definition, lemma, field or constructor such as 'recordOf' or 'accepts-exactly' becomes
'record_of' and 'accepts_exactly'. Types and modules are in camel case. Names of src/, exported C names, strings, inputs
and outputs keep their spelling: only names that a file of specs/ or a lemma file of proofs/ defines are turned, wherever
they stand in .antt, .rt and .edit files. In an .edit file and a page of docs/, where port.py turns nothing, what it
turned elsewhere (camel case to snake case) is turned too. A lemma that would have the name of a function gets '_lem'. A
new name that falls together with another one stops the run.
--check writes nothing. docs/PORT.md names the commit in which it was run.
"""

import os
import re
import sys

TOKEN = re.compile(r"[\w'\-]+")
CAMEL = re.compile(r"[a-z0-9_'][A-Z]")

# What the rule would not tell: statements are types, and what they would fall together with.
GIVEN = {
    "DEMAND3": "DemandStatement",
    "DEMAND-3": "demand_3",
    "EXACTLY-ONCE": "ExactlyOnceStatement",
    "ONCE-EACH": "once_each",
    "EMPTY-SET": "EmptySetStatement",
    "FILES-ONE-HISTORY": "FilesOneHistoryStatement",
    "STORES-ONE-HISTORY": "StoresOneHistoryStatement",
}
# Lemmas that port.py turned to the name that their function gets here: the files that say them, and the name.
LEMMAS = {
    "crates/store/proofs/Laws/Adding.antt": "is_open",
    "crates/store/proofs/Laws/Showing.antt": "shown_by",
    "crates/codec/proofs/Laws/Indexing.antt": "step_start",
    "crates/codec/proofs/index/long_record/Proof.antt": "step_start",
}


def snake(name):
    if name in GIVEN:
        return GIVEN[name]
    out = name.replace("getD", "get_or")
    if re.match(r"[a-z0-9]", out):
        out = re.sub(r"(?<=[a-z0-9])([A-Z])", lambda m: "_" + m.group(1).lower(), out)
        out = out.replace("-", "_")
    return out


def files(root, endings, tops):
    for top in tops:
        for folder, dirs, names in os.walk(os.path.join(root, top)):
            dirs[:] = sorted(d for d in dirs if d not in ("out", ".git"))
            for n in sorted(names):
                if n.endswith(endings):
                    yield os.path.join(folder, n)


def is_lemma_file(path):
    return "/specs/" in path or ("/proofs/" in path and os.path.basename(path) not in ("Proof.antt", "Answers.antt", "Invariants.antt"))


DEFINED = re.compile(r"^\s*(?:(?:abbrev|unfoldable|pub|mutual) )*(?:(?:data|record|ruleset) )?([^\s(){}:;,.=]+)(?: :|\s*=|(?: \([^)]*\)| \{[^}]*\})* :)")


def defined(root):
    found = set()
    for p in files(root, ".antt", ["crates"]):
        if not is_lemma_file(p):
            continue
        for line in open(p, encoding="utf-8"):
            if line.lstrip().startswith(("--", "use ", "pub use ", "let ")):
                continue
            m = DEFINED.match(line)
            if m:
                found.add(m.group(1))
    return {n for n in found if TOKEN.fullmatch(n)}


def main():
    write = "--check" not in sys.argv[1:]
    root = "."
    for p, name in LEMMAS.items():
        if not os.path.isfile(p):
            continue
        text = open(p, encoding="utf-8").read()
        new = TOKEN.sub(lambda m: name + "_lem" if m.group(0) == name else m.group(0), text)
        if write:
            open(p, "w", encoding="utf-8").write(new)
    own = defined(root)
    turned = {n: snake(n) for n in own if snake(n) != n}
    words, of_logic = set(), set()
    for p in files(root, (".antt", ".rt"), ["crates"]):
        found = set(TOKEN.findall(open(p, encoding="utf-8").read()))
        words |= found
        of_logic |= found if is_lemma_file(p) else set()
    taken = {turned[n] for n in turned if "-" not in n}
    bad = []
    by_new = {}
    for old, new in sorted(turned.items()):
        # A lemma that would have its function's name gets _lem; a definition that mirrors a function of src/ has its name.
        if "-" in old and old not in GIVEN and (new in words or new in taken):
            new = turned[old] = new + "_lem"
        if (new in of_logic and new not in LEMMAS.values()) or (new in words and "-" in old):
            bad.append((old, new, "stands already"))
        by_new.setdefault(new, []).append(old)
    bad += [(" ".join(olds), new, "fall together") for new, olds in by_new.items() if len(olds) > 1]
    for it in bad:
        print("falls together:", *it)
    if bad and write:
        return 1
    print(f"{len(turned)} names")
    if not write:
        for k, v in sorted(turned.items()):
            print(" ", k, v)
        return 0

    def turn(m):
        return turned.get(m.group(0), m.group(0))

    def turn_edit(m):
        w = m.group(0)
        if w in turned:
            return turned[w]
        return snake(w) if CAMEL.search(w) and w[0].islower() else w

    def turn_page(m):
        return re.sub(TOKEN, turn_edit, m.group(0))

    n = 0
    for p in files(root, (".antt", ".rt", ".edit"), ["crates"]):
        text = open(p, encoding="utf-8").read()
        new = TOKEN.sub(turn_edit if p.endswith(".edit") else turn, text)
        if new != text:
            n += 1
            open(p, "w", encoding="utf-8").write(new)
    pages = [os.path.join(root, "README.md")] + [p for p in files(root, ".md", ["docs", "host"]) if os.path.basename(p) not in ("CHANGES.md", "PORT.md")]
    for p in pages:
        text = open(p, encoding="utf-8").read()
        new = re.sub(r"`[^`\n]+`", turn_page, text)
        if new != text:
            n += 1
            open(p, "w", encoding="utf-8").write(new)
    print(f"{n} files")
    return 0


if __name__ == "__main__":
    raise SystemExit(main())
