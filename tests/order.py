#!/usr/bin/env python3
"""Arguments stand in one order, in definitions as in code (docs/PROVING.md, "Where things stand").

    tests/order.py

Ends with status 1 and names each definition of specs/ and each function of src/ that keeps another. A parameter is known by its type or, where
numbers and octets have the same, by its name; one that is neither is passed over."""
import glob
import os
import re
import sys

FORM, BOARD, STORE, KEY, READ, OCTETS, SIDE, SESSION, PST, ADDRESSES, NUMBER = range(11)
BY_TYPE = {
    "Form": FORM, "Positions": FORM,
    "Table": BOARD, "Board": BOARD, "Story": BOARD, "World": BOARD, "Writer": BOARD,
    "Head": READ, "Outline": READ, "Segment": READ, "List Segment": READ, "Command": READ,
    "Session": SESSION, "Sessions": SESSION, "SessionRecord": SESSION,
}
LISTS = {"store": STORE, "s": OCTETS, "xs": OCTETS, "octets": OCTETS, "line": OCTETS, "addresses": ADDRESSES}
FLAGS = {"ero": SIDE}
NUMBERS = {"key": KEY, "pst": PST, "at": NUMBER, "room": NUMBER, "limit": NUMBER, "count": NUMBER}


def kind(name, type):
    type = re.sub(r"&('\w+ )?(mut )?", "", type).strip()
    if type in BY_TYPE:
        return BY_TYPE[type]
    names = LISTS if type in ("List ℕ", "[u8]") else FLAGS if type in ("Bool", "bool") else NUMBERS if type in ("ℕ", "u64", "usize") else {}
    return names.get(name)


def in_order(parameters):
    kinds = [k for k in (kind(name, type) for name, type in parameters) if k is not None]
    return kinds == sorted(kinds)


def arguments(type):
    """The types before a type's last arrow."""
    parts, depth = [""], 0
    for c in type:
        depth += (c in "({") - (c in ")}")
        if c == "→" and depth == 0:
            parts.append("")
        else:
            parts[-1] += c
    return [part.strip().removeprefix("(").removesuffix(")") for part in parts[:-1]]


def definitions(text):
    types = {}
    for line in text.split("\n"):
        if found := re.match(r"(?:abbrev |unfoldable )*(?:pub )?([^\s:{}()]+) : (.*)$", line):
            types[found[1]] = arguments(found[2])
        elif (found := re.match(r"([^\s:{}()]+)((?: [^\s=]+)+) =(?:\s|$)", line)) and found[1] in types:
            yield found[1], list(zip(re.findall(r"\([^()]*\)|\S+", found[2]), types[found[1]]))


def functions(text):
    for found in re.finditer(r"\bfn (\w+)(?:<[^>]*>)?\(([^)]*)\)", text):
        parameters = [tuple(part.strip() for part in one.split(":", 1)) for one in found[2].split(",") if ":" in one]
        names = [name for name, _ in parameters]
        if names[:2] == ["out", "at"]:
            # where it is written into
            parameters = parameters[2:]
        if names[-1:] == ["out"]:
            # a row of the console has the buffers that are lent to it behind all else
            parameters = [p for p in parameters if "&" not in p[1] or p[0] == "line" and "mut" not in p[1]]
        yield found[1], parameters


os.chdir(os.path.dirname(os.path.abspath(__file__)) + "/..")
faults = looked = 0
for pattern, those in (("crates/*/specs/**/*.antt", definitions), ("crates/*/src/**/*.rt", functions)):
    for path in sorted(glob.glob(pattern, recursive=True)):
        with open(path) as file:
            for name, parameters in those(file.read()):
                looked += 1
                if not in_order(parameters):
                    faults += 1
                    print(f"{path}: {name}: {', '.join(name for name, _ in parameters)}")
if looked < 1000:
    sys.exit(f"only {looked} definitions and functions were found")
sys.exit(faults > 0)
