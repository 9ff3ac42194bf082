#!/usr/bin/env python3
"""Respells the repository's own definitions and lemmas: words in snake case, a prime as an apostrophe.

usage: python3 tools/respell.py [--check] [ROOT]

It goes over crates/ and docs/ below ROOT (the current folder, if none is given) once, after port.py. What it respells is
what the repository's own files of specs/ and proofs/ declare, each name everywhere: in .antt files, in the clauses and
ghost items of .rt files, and between backquotes in pages. Types and modules, which are in camel case, stay, and so does
every name of the code. CLASHES has the names that would meet another one. --check only lists what it would do.
"""

import os
import re
import sys

# A lemma that would have a definition's name ends in _lem.
CLASHES = {
    name: name.replace("-", "_") + "_lem"
    for name in (
        "all-parts",
        "bit-or",
        "claim-item",
        "item-of",
        "known-parts",
        "last-role",
        "opens-now",
        "some-role",
        "step-item",
        "tag-byte",
    )
}

DECLARED = re.compile(r"^((?:abbrev |unfoldable |data |record |pub |pattern )*)([^\s:(){}.;,@]+)((?: [({][^:]*?:.*?[)}])*)\s:\s")
INNER = re.compile(r"^\s+((?:pub )?)([^\s:(){}.;,@]+)((?: [({][^:]*?:.*?[)}])*)\s:\s")
TOKEN = re.compile(r'[^\s(){}.;,@"«»⌜⌝`]+')
MADE = ("Answers.antt", "Invariants.antt", "Proof.antt")


def files(root, ends):
    for top in ("crates", "docs"):
        for folder, dirs, names in os.walk(os.path.join(root, top)):
            dirs[:] = sorted(d for d in dirs if d != "out")
            for name in sorted(names):
                if name.endswith(ends):
                    yield os.path.join(folder, name)
    if ".md" in ends:
        yield os.path.join(root, "README.md")


def read(path):
    with open(path, encoding="utf-8") as f:
        return f.read()


def snake(name):
    words = re.sub(r"(?<=[a-z0-9])[A-Z]", lambda m: "_" + m[0].lower(), name)
    return words.replace("-", "_").replace("′", "'")


def is_type(name):
    return name[:1].isupper()


def declared(root):
    """Each name that the repository's own definitions and lemmas declare, with the files that do."""
    found = {}
    for path in files(root, (".antt",)):
        made = path.endswith(MADE) and "/proofs/" in path
        for line in read(path).splitlines():
            hit = DECLARED.match(line) or INNER.match(line)
            if not hit or line.lstrip().startswith("--"):
                continue
            name = hit[2]
            # A goal of Rattle's keeps the name that Rattle made.
            if made and re.match(r"^(?:abbrev )?pub ", line):
                continue
            if is_type(name) or name.startswith("◌") or "◌" in name:
                continue
            if snake(name) != name:
                found.setdefault(name, set()).add(path)
    return found


def imported(root):
    """The names that some file takes from a library, which are not the repository's."""
    own = "|".join(sorted(os.listdir(os.path.join(root, "crates"))))
    found = set()
    for path in files(root, (".antt", ".rt")):
        for module, names in re.findall(r"\buse ([\w.+'\-]+)\.\{([^}]*)\}", read(path)):
            if not re.match(rf"Rattle\.(?:{own})\.", module):
                found |= {n.split(" as ")[0].strip() for n in names.split(",")}
    return found


def table(root):
    names = declared(root)
    lent = imported(root)
    return {n: CLASHES.get(n, snake(n)) for n in sorted(names) if n not in lent}


def turn(text, rows):
    return TOKEN.sub(lambda m: rows.get(m[0], m[0]), text)


CLAUSE = re.compile(r"(?:requires|ensures)\s*\*?\s*(?:\w+\s*)?\{|ghost\s*(?:\w+\s*(?::|=)\s*)?\{")


def clauses(text):
    """The spans of the clauses, ghost members and 'ghost use' items of a file of the code."""
    spans = [m.span() for m in re.finditer(r"ghost\s+use\b[^;]*;", text)]
    for m in CLAUSE.finditer(text):
        depth, at = 1, m.end()
        while depth and at < len(text):
            depth += {"{": 1, "}": -1}.get(text[at], 0)
            at += 1
        spans.append((m.start(), at))
    return sorted(spans)


def turn_code(text, rows):
    out, at = "", 0
    for a, b in clauses(text):
        if a < at:
            continue
        out += text[at:a] + turn(text[a:b], rows)
        at = b
    return out + text[at:]


def turn_page(text, rows):
    return re.sub(r"`[^`\n]+`", lambda m: turn(m[0], rows), text)


def main(words):
    check = "--check" in words
    words = [w for w in words if w != "--check"]
    root = words[0] if words else "."
    rows = table(root)
    news = {}
    for old, new in rows.items():
        news.setdefault(new, []).append(old)
    for new, olds in news.items():
        if len(olds) > 1:
            print(f"meet: {' and '.join(olds)} would both be {new}")
    for path in files(root, (".antt", ".rt", ".md")):
        text = read(path)
        tokens = set(TOKEN.findall(text))
        if not path.endswith(".md"):
            for old, new in rows.items():
                if old in tokens and new in tokens:
                    print(f"meet: {path}: {old} would be {new}, which is there")
                if path.endswith(".rt") and old in tokens and re.search(rf"\b{re.escape(new)}\b", text):
                    print(f"code: {path}: {old} would be {new}, which the code says")
        after = turn(text, rows) if path.endswith(".antt") else turn_code(text, rows) if path.endswith(".rt") else turn_page(text, rows)
        if path.endswith(".antt"):
            after = after.replace("′", "'")
        if after != text and not check:
            with open(path, "w", encoding="utf-8") as f:
                f.write(after)
    print(f"{len(rows)} names")
    if check:
        for old, new in rows.items():
            print(f"{old}\t{new}")
    return 0


if __name__ == "__main__":
    raise SystemExit(main(sys.argv[1:]))
