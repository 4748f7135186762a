#!/usr/bin/env python3
"""Spells the names that the definitions and proofs declare in snake case: 'openBays' becomes 'open_bays', and in specs/ 'most-bays' becomes 'most_bays'.

usage: tools/turn_names.py [--check] [FOLDER]

Whole words alone are turned, in every .antt, .rt and .edit file below FOLDER/crates. A name stays, and is listed, where its new spelling is taken in a file that has it.
A dash in the name of a lemma stays: there it joins two names.
"""

import os
import re
import sys

WORD = re.compile(r"[^\s(){}\[\].;,:@\"«»⌜⌝`]+")
DECLARED = re.compile(r"(?m)^ *(?:(?:abbrev|unfoldable|pub|opaque|private) )*([^\s(){}\[\].;,:@\"]+)((?: [({][^(){}\n]*[)}])*) :(?=\s)")
# Names whose new spelling would meet another name get one of their own.
OWN = {
    "isDigit": "is_digit",
    "allBilled": "total_billed",
    "all-billed": "all_billed",
    "dropOwn": "without_own",
    "lineThen": "then_line",
    "line-then": "line_then",
    "linesThen": "then_lines",
    "marksThen": "then_marks",
    "recordThen": "then_record",
    "record-then": "record_then",
    "noMark": "is_no_mark",
    "no-mark": "no_mark",
    "programShort": "short_program",
    "sameLine": "is_same_line",
}
HUMP = re.compile(r"(?<=[a-z0-9])([A-Z]+)(?![a-z])|(?<=[a-z0-9])([A-Z])")


def files(root, kinds):
    for folder, dirs, names in os.walk(os.path.join(root, "crates")):
        dirs[:] = sorted(d for d in dirs if d != "out")
        for name in sorted(names):
            if name.endswith(kinds):
                yield os.path.join(folder, name)


def read(path):
    with open(path, encoding="utf-8") as f:
        return f.read()


def snake(name):
    return HUMP.sub(lambda m: "_" + m[0].lower(), name)


def turned(name, in_specs):
    if name in OWN:
        return OWN[name]
    if not re.match(r"[a-z]", name):
        return name
    parts = [snake(it) if re.match(r"[a-z]", it) else it for it in name.split("-")]
    return ("_" if in_specs else "-").join(parts)


def main(argv):
    check = "--check" in argv
    argv = [it for it in argv if it != "--check"]
    root = argv[0] if argv else "."
    table = {}
    texts = {p: read(p) for p in files(root, (".antt", ".rt"))}
    for in_specs in (False, True):
        for path, text in texts.items():
            if path.endswith(".antt") and ("/specs/" in path) == in_specs:
                for name, _ in DECLARED.findall(text):
                    new = turned(name, in_specs)
                    if new != name:
                        table[name] = new
    # Module parameters and parts of records that are declared together with others.
    for path, text in texts.items():
        if path.endswith(".antt"):
            for name in re.findall(r"(?<![\w'-])[a-z][a-z0-9_]*[a-z0-9][A-Z]\w*(?![\w'-])", text):
                table.setdefault(name, turned(name, False))
    # A lemma named for a definition follows it.
    for path, text in texts.items():
        if path.endswith(".antt"):
            for name in set(WORD.findall(text)):
                if name not in table and "-" in name and re.match(r"[a-z]", name):
                    new = "-".join(table.get(it, snake(it) if re.search(r"[a-z0-9][A-Z]", it) and it in table else it) for it in name.split("-"))
                    if new != name:
                        table[name] = new
    stays = {}
    # A function of the code may have the name of what it computes; a parameter or a variable may not.
    functions = {name for path, text in texts.items() if path.endswith(".rt") for name in re.findall(r"\bfn (\w+)", text)}
    for path, text in texts.items():
        # the answers of a function's proof are named by the check, and written anew
        if re.search(r"/proofs/.*/Proof\.antt$", path):
            continue
        words = set(WORD.findall(text))
        if path.endswith(".rt"):
            words = {it for it in words if it in table or re.search(rf"\b{re.escape(it)}\s*:[^:]|\blet (mut )?{re.escape(it)}\b", text)}
        else:
            text = re.sub(r"\b(?:Rattle|tie|goal)(?:\.[\w'-]+)+", " ", text)
            fields = set(re.findall(r"\.([\w'-]+)", text))
            bare = set(WORD.findall(re.sub(r"\.[\w'-]+", " ", text)))
            words = {it for it in words if it in table or it in bare or (it in fields and it not in functions)}
        for old in words & set(table):
            rivals = [it for it in words if it in table and table[it] == table[old] and it != old]
            if old not in OWN and (table[old] in words or rivals):
                stays.setdefault(old, []).append(path)
    for old, where in sorted(stays.items()):
        print(f"stays: {old}: {table[old]} is taken in {where[0]}" + (f" and {len(where) - 1} more" if len(where) > 1 else ""))
        del table[old]
    print(f"{len(table)} names are turned")
    if check:
        for old, new in sorted(table.items()):
            print(f"{old}\t{new}")
        return
    for path in list(texts) + list(files(root, (".edit",))):
        text = texts.get(path) or read(path)
        new = WORD.sub(lambda m: table.get(m[0], m[0]), text)
        if new != text:
            with open(path, "w", encoding="utf-8") as f:
                f.write(new)


if __name__ == "__main__":
    main(sys.argv[1:])
