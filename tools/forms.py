#!/usr/bin/env python3
"""Counts the places of docs/DESIGN-PASS.md in crates/*/src.

    tools/forms.py [FOLDER] [--places]        FOLDER is the repository's top; with --places, each place too

One line for each point: its number, how many places, what counts as one. Comments are passed over.
"""
import collections
import pathlib
import re
import sys

CLAUSE = re.compile(r"^\s*(requires|ensures)\b")
TYPES = re.compile(r"\b(u8|u16|u32|u64|usize|i16|i32|i64|U8|U16|U24|U32|U64|I16|I32|I64)\b")


def code_of(text):
    return re.sub(r"//[^\n]*", "", text)


def enums(text):
    """Name and variants; a variant is its name and whether it holds something."""
    for found in re.finditer(r"^(?:pub(?:\(crate\))? )?enum (\w+)[^{]*\{\n(.*?)\n\}", text, re.S | re.M):
        body = re.sub(r"\s+", " ", found.group(2))
        variants = re.findall(r"(\w+)\s*(\([^()]*(?:\([^()]*\)[^()]*)*\)|\{[^{}]*\})?\s*(?:,|$)", body)
        yield text.count("\n", 0, found.start()) + 1, found.group(1), [(name, held) for name, held in variants if name]


def functions(text):
    """Line, name, signature with clauses, body."""
    for found in re.finditer(r"^( *)(?:pub(?:\(crate\))? )?fn (\w+)", text, re.M):
        indent = found.group(1)
        end = text.find("\n" + indent + "}", found.end())
        line_end = re.compile(r"\{$|;$|\n" + indent + r"\{", re.M).search(text, found.end())
        # (a trait's function may have no body)
        if not line_end or line_end.group() == ";" or end < 0:
            continue
        open_at = line_end.start()
        yield text.count("\n", 0, found.start()) + 1, found.group(2), text[found.start():open_at], text[open_at:end]


def loose(body):
    """A body with its types, numbers and constants taken away."""
    body = re.sub(r"\b0x[0-9a-fA-F_]+\b|\b\d[\d_]*\b", "#", TYPES.sub("T", body))
    body = re.sub(r"\b[A-Z][A-Z0-9_]+\b", "#", body)
    return re.sub(r"\s+", " ", body)


def main():
    args = [a for a in sys.argv[1:] if not a.startswith("--")]
    top = pathlib.Path(args[0] if args else ".")
    places = collections.defaultdict(list)
    bodies = collections.defaultdict(list)
    facts = collections.defaultdict(set)
    for path in sorted((top / "crates").glob("*/src/**/*.rt")):
        text = code_of(path.read_text())
        where = path.relative_to(top)

        def put(point, line, what):
            places[point].append(f"{where}:{line} {what}")

        for line, name, variants in enums(text):
            held = [n for n, h in variants if h]
            bare = [n for n, h in variants if not h]
            refuses = [n for n, h in variants if h == "(Refusal)"]
            if refuses and len(variants) in (2, 3):
                put("1a", line, name)
            elif len(variants) == 2 and len(held) == 1 and len(bare) == 1:
                put("1b", line, name)
        for found in re.finditer(r"\bnumber: (?:\d+|number|\w+\.number),\s*detail:|\.number != 0\b", text):
            put("1c", text.count("\n", 0, found.start()) + 1, "a refusal by its number")
        for found in re.finditer(r"^ *pub (?:ok|there|live|has\w*): bool,", text, re.M):
            put("1d", text.count("\n", 0, found.start()) + 1, found.group(0).strip())
        for found in re.finditer(r"(?<!struct )\bFinding \{\s*number\b", text):
            put("1e", text.count("\n", 0, found.start()) + 1, "a finding by its number")
        for found in re.finditer(r"^ *while \b", text, re.M):
            put("3", text.count("\n", 0, found.start()) + 1, text[found.start():text.find("\n", found.start())].strip())
        for line, name, head, body in functions(text):
            if body.count("\n") > 2:
                bodies[loose(body)].append(f"{where}:{line} {name}")
            if re.fullmatch(r"same|is_same|equals?|is_equal|eq", name):
                put("4", line, name)
            elif re.fullmatch(r"\s*\{\s*\w+(\.\w+)? as \w+\s*", body):
                put("4", line, f"{name}: a conversion")
            tables = re.findall(r": &(?:mut )?\[usize; 4096\]", head.split("ensures")[0])
            if len(tables) > 2:
                put("5a", line, f"{name}: {len(tables)} tables side by side")
            for fact in re.findall(r"^\s*requires(?: \w+)? \{ (.*) \}$", head, re.M):
                facts[(str(where).split("/")[1], fact)].add(name)
            if re.search(r"(\w+): &(?:mut )?\[(u8|u64)\], (?:n|rows|count|length): (?:usize|u32)", re.sub(r"\s+", " ", head)):
                put("6", line, f"{name}: a buffer and how much of it counts")
            chain = re.findall(r"if (\w+) == [\w:]*[A-Z][A-Z0-9_]+(?: as \w+)? \{", body)
            if chain and max(collections.Counter(chain).values()) > 3:
                put("7", line, f"{name}: a chain of tests on {chain[0]}")
    for (crate, fact), names in facts.items():
        if len(names) > 2:
            places["5b"].append(f"{crate}: {fact} ({', '.join(sorted(names))})")
    for group in bodies.values():
        if len(group) > 1:
            places["2"].append(" = ".join(group))
    answers = sum(1 for _ in (top / "crates").glob("*/proofs/**/Answers.antt"))
    what = {
        "1a": "own enums that hold a value or a Refusal",
        "1b": "own enums of two variants, of which one holds something",
        "1c": "refusals made or tested by their number",
        "1d": "flags with a value beside them",
        "1e": "findings made by their number",
        "2": "groups of functions whose bodies differ in types, numbers and constants alone",
        "3": "`while` loops",
        "4": "equalities and conversions of one line, by hand",
        "5a": "functions with three tables or more side by side",
        "5b": "facts that stand in the `requires` of three functions of a crate or more",
        "6": "functions with a buffer and a count of what counts in it",
        "7": "chains of more than three tests on what kind it is",
    }
    for point, text in what.items():
        print(f"{point:3} {len(places[point]):4}  {text}")
        if "--places" in sys.argv:
            for place in places[point]:
                print("        ", place)
    print(f"8   {answers:4}  Answers.antt files")


main()
