#!/usr/bin/env python3
"""Brings the repository's own definitions and lemmas to snake case: spelling.py [--look], at the top of the repository.

A name that a file of specs/ or proofs/ defines in lower camel case, as `walkOf`, becomes `walk_of`, wherever it stands:
in specs/ and proofs/, in the clauses and comments of src/, in must-fail edits and in the pages. A dash joins the parts of
a lemma's name and stays, as in `walk_of-seen`. Types, facts and modules are in upper camel case and stay, and so do strings,
functions of src/ and names of the library. --look changes nothing, and lists the names that would fall together with
another in one file.
"""
import os
import re
import sys

PART = r"[A-Za-z0-9_'₀-₉µκ«»]+"
CAMEL = re.compile(r"[a-z][a-z0-9]*(?:[A-Z][A-Za-z0-9]*)+'*$")
HEAD = re.compile(r"(?m)^[ \t]*(?:abbrev |unfoldable )?(?:pub )?(?:record |data )?([A-Za-z0-9_'₀-₉µκ«»-]+)(?: \([^)]*\)| \{[^}]*\})* :(?= |$)")
BOUND = re.compile(r"[({]((?:[A-Za-z0-9_'₀-₉]+ )+):(?= )| as ([A-Za-z0-9_'₀-₉]+)(?=[,}\n])")
STRING = re.compile(r'b?"(?:[^"\\\n]|\\.)*"')
# lemmas that stand beside a definition which gets their name: they keep the dash that they had
DASHED = {
    "fields_in": ("crates/esfields/proofs/Puts.antt", "crates/esds_write/proofs/Puts.antt"),
    "key_in": ("crates/keys/proofs/Firsts.antt", "crates/keys/proofs/KeyLaws.antt"),
    "by_count": ("crates/opened/proofs/Told.antt",),
    "by_total": ("crates/opened/proofs/Told.antt",),
    "first_by": ("crates/passes/proofs/Pass.antt",),
    "all_held": ("crates/sweeps/proofs/Bare.antt",),
    "first_found": ("crates/verdicts/proofs/Order.antt",),
}
# two definitions are named as a box, whose letters a sentence writes as they are
BOXES = {"avcC": "avcc", "vpcC": "vpcc"}
SENTENCE = {".antt": "--", ".rt": "//", ".edit": "#", ".md": ""}


def snake(name):
    return BOXES.get(name) or re.sub(r"(?<=[a-z0-9])([A-Z])", lambda m: "_" + m.group(1).lower(), name)


def files(ends):
    for top in ("crates", "docs", "README.md"):
        if os.path.isfile(top):
            yield top
        for folder, folders, names in os.walk(top):
            folders[:] = sorted(d for d in folders if d != "out")
            for name in sorted(names):
                if name.endswith(ends) and "/data" not in folder:
                    yield os.path.join(folder, name)


def read(path):
    with open(path, encoding="utf-8") as f:
        return f.read()


def defined():
    """What specs/ and proofs/ define or bind, by the parts between dashes."""
    found = set()
    for path in files(".antt"):
        if path.endswith(".antt"):
            text = read(path)
            found |= {part for head in HEAD.findall(text) for part in head.split("-")}
            found |= {name for bound in BOUND.findall(text) for name in " ".join(bound).split()}
    return found


def turned(text, is_ours, ending):
    kept = []

    def aside(match):
        kept.append(match.group())
        return f"\0{len(kept) - 1}\0"

    if ending == ".rt":
        text = STRING.sub(aside, text)
    for box in BOXES:
        text = re.sub(rf"(?m){SENTENCE[ending]}.*\b{box}\b.*$", lambda m: re.sub(rf"\b{box}\b", aside, m.group()), text)
    text = re.sub(r"(?<![\w'])" + PART, lambda m: snake(m.group()) if is_ours(m.group()) else m.group(), text)
    return re.sub("\0(\\d+)\0", lambda m: kept[int(m.group(1))], text)


def main():
    heads = defined()
    names = {name for name in heads if CAMEL.match(name)}
    turning = {snake(name) for name in names}
    # pages and edits still have what port.py turned elsewhere
    cited = lambda name: name in names or CAMEL.match(name) and snake(name) in heads
    for path in files((".antt", ".rt", ".edit", ".md")):
        before = read(path)
        if "--look" in sys.argv:
            here = set(re.findall(PART, before))
            for name in sorted(here & names):
                if snake(name) in here:
                    print(f"{path}: {name} and {snake(name)}")
            continue
        after = before
        for lemma, places in DASHED.items():
            if path in places and lemma in turning:
                after = re.sub(rf"(?<![\w'-]){lemma}(?![\w'-])", lemma.replace("_", "-"), after)
        after = turned(after, cited if path.endswith((".edit", ".md")) else names.__contains__, os.path.splitext(path)[1])
        if after != before:
            with open(path, "w", encoding="utf-8") as f:
                f.write(after)
    print(f"{len(names)} names")


main()
