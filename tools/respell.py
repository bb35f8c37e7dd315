#!/usr/bin/env python3
"""Brings the repository's own definitions and lemmas to one spelling: words in snake case, a prime an apostrophe.

    tools/respell.py            writes
    tools/respell.py --report   says what it would write, and which names fall together

A name counts as own where specs/ or proofs/ declare it. What a file takes from the library keeps its spelling there, and so do the
names of goals, functions, types and modules. It rewrites crates/, and words between backticks in README.md and docs/.
"""

import collections
import glob
import re
import sys

W = r"[^\s(){}.;,@\"«»\[\]\\:`]+"
TOKEN = re.compile(W)
DECL = re.compile(
    r"^\s*(?:(?:abbrev|unfoldable|pub|private|instance|ruleset|data|record)\s+)*(?P<names>"
    + W
    + r"(?:\s+"
    + W
    + r")*)\s+:(?=\s|$)(?P<rest>.*)"
)
# Fields whose plain spelling is that of a number that their record's file cites.
OVERRIDE = {
    "key-least": "least_key",
    "key-most": "most_key",
    "version-least": "least_version",
    "version-most": "most_version",
    "link-local": "local_link",
    "no-path": "without_path",
}


def snake(name):
    if name in OVERRIDE:
        return OVERRIDE[name]
    out = name.replace("′", "'")
    if not re.match(r"[a-z]", out) or not re.fullmatch(r"[A-Za-z0-9_'\-₀-₉]+", out):
        return out
    out = re.sub(r"(?<=[a-z0-9])(?=[A-Z])", "_", out.replace("-", "_"))
    return re.sub(r"(?<=[A-Z])(?=[A-Z][a-z])", "_", out).lower()


def files():
    for part in ("specs", "proofs", "src"):
        for p in sorted(glob.glob(f"crates/*/{part}/**/*", recursive=True)):
            if p.endswith((".antt", ".rt")):
                yield p


def read(p):
    with open(p, encoding="utf-8") as f:
        return f.read()


OWN = {p.split("/")[1] for p in glob.glob("crates/*/")}


def foreign(text):
    """The names that a file takes from libraries that are not the repository's."""
    found = set()
    for m in re.finditer(r"(?m)^\s*(?:ghost )?use ([^;\n{]*)\.\{([^}]*)\}", text):
        parts = m[1].split(".")
        if not (parts[0] == "Rattle" and len(parts) > 1 and parts[1] in OWN):
            found |= {n.strip().split(" ")[0] for n in m[2].split(",")}
    return found


def declared():
    names = collections.defaultdict(set)
    for p in files():
        if not p.endswith(".antt"):
            continue
        for l in read(p).split("\n"):
            if l.lstrip().startswith("--"):
                continue
            m = DECL.match(l)
            if not m or "tie." in m["rest"] or "goal." in m["rest"] or m["rest"].strip().endswith("statement M"):
                continue
            for n in m["names"].split():
                names[n].add(p)
    return names


def apart(names, table):
    """Names that fall together in some file: the lemma gets `_lem`. A lemma that has the plain spelling already is renamed only where it is declared or imported."""
    back = collections.defaultdict(set)
    for n in names:
        back[table.get(n, n)].add(n)
    used = {p: set(TOKEN.findall(read(p))) for p in files()}
    scoped = {}
    for to, each in sorted(back.items()):
        if len(each) < 2 or not any(len(each & u) > 1 for u in used.values()):
            continue
        specs = {n for n in each if any("/specs/" in p for p in names[n])}
        for n in each:
            if re.search("[A-Z]", n) or (n in specs and n == to):
                continue
            if n != to:
                table[n] = to + "_lem"
            else:
                where = {
                    p
                    for p in files()
                    if p in names[n] or re.search(r"(?ms)^use Rattle[^{;]*\.\{[^}]*(?<![^\s{,])" + re.escape(n) + r"(?![^\s},])[^}]*\}", read(p))
                }
                scoped[n] = (to + "_lem", where)
    return scoped


def main(argv):
    names = declared()
    table = {n: snake(n) for n in names if snake(n) != n}
    scoped = apart(names, table)
    back = collections.defaultdict(set)
    for n in names:
        back[scoped[n][0] if n in scoped else table.get(n, n)].add(n)
    if argv:
        print(len(table), "names")
        for n, (to, where) in sorted(scoped.items()):
            print("scoped:", n, "->", to, len(where))
        for n in sorted(table):
            if table[n].endswith("_lem"):
                print("lemma:", n, "->", table[n])
        for p in files():
            if p.endswith(".rt"):
                text = read(p)
                cited = {table.get(n.strip(), n.strip()) for m in re.finditer(r"(?m)^ghost use [^;{]*\{([^}]*)\}", text) for n in m[1].split(",")}
                params = set(re.findall(r"(\w+)\s*:\s*[&\w\[(]", text))
                for n in sorted(cited & params):
                    print("parameter:", p, n)
        for to, each in sorted(back.items()):
            if len(each) > 1:
                print("together:", to, "<-", ", ".join(f"{e} ({', '.join(sorted(names[e]))[:160]})" for e in sorted(each)))
        for p in files():
            text = read(p)
            other = foreign(text)
            used = set(TOKEN.findall(text))
            for n in sorted(used & set(table)):
                if n in other:
                    print("kept:", p, n)
                elif table[n] in other:
                    print("library:", p, n, "->", table[n])
                elif p.endswith(".rt") and table[n] in used:
                    print("source:", p, n, "->", table[n])
                elif p.endswith(".antt") and table[n] in used and table[n] not in names:
                    print("local:", p, n, "->", table[n])
        return
    for p in files():
        text = read(p)
        other = foreign(text)
        here = {n: to for n, (to, where) in scoped.items() if p in where}

        def turn(m):
            if m[0] in other:
                return m[0]
            if m[0] in here and text[m.start() - 1] != ".":
                return here[m[0]]
            return table.get(m[0], m[0].replace("′", "'"))

        turned = TOKEN.sub(turn, text)
        if turned != text:
            with open(p, "w", encoding="utf-8") as f:
                f.write(turned)
    for p in sorted(glob.glob("crates/*/must-fail/*.edit")):
        text = read(p)
        turned = "\n".join(TOKEN.sub(lambda m: table.get(m[0], m[0].replace("′", "'")), l) if not l.startswith("file: ") else l for l in text.split("\n"))
        if turned != text:
            with open(p, "w", encoding="utf-8") as f:
                f.write(turned)
    for p in ["README.md"] + sorted(glob.glob("docs/*.md")):
        text = read(p)
        turned = re.sub(r"`[^`\n]*`", lambda c: TOKEN.sub(lambda m: table.get(m[0], m[0].replace("′", "'")), c[0]), text)
        if turned != text:
            with open(p, "w", encoding="utf-8") as f:
                f.write(turned)


main(sys.argv[1:])
