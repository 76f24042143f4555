#!/usr/bin/env python3
"""Brings the repository's own definitions, lemmas and fields to today's spelling: words in snake case, a dash only between two names.

usage: python3 tools/respell.py [--list]      at the top of the repository, once, after port.py; --list only prints what would be renamed
"""

import glob
import os
import re
import sys

WORD = r"[\w'\-₀-₉]"
# Words of the library, and operators in words: a dash before one of these joins two names.
NAMES = set("le lt gt ge add sub mul div mod max min zero suc one length append map set take drop get_or put any all sum concat".split())


def files():
    for top in ("crates",):
        for folder, dirs, names in os.walk(top):
            dirs[:] = sorted(d for d in dirs if d not in ("out", "data"))
            for name in sorted(names):
                if name.endswith((".antt", ".rt", ".edit")):
                    yield os.path.join(folder, name)
    yield from sorted(glob.glob("docs/**/*.md", recursive=True))
    yield "README.md"


def snake(word):
    return re.sub(r"(?<=[a-z0-9])([A-Z])", lambda m: "_" + m.group(1).lower(), word) if word[:1].islower() else word


def declared(within):
    """The names that specs/ and proofs/ declare, the fields of records, and what is brought from elsewhere. Within: those that stand within a module too."""
    tops, fields, brought = {}, {}, set()
    for path in files():
        if not path.endswith((".antt", ".rt")):
            continue
        with open(path, encoding="utf-8") as f:
            text = f.read()
        for m in re.finditer(r"^\s*(?:pub |ghost )*use ([\w.'+-]+)\.\{([^}]*)\}", text, re.M):
            if not re.match(r"Rattle\.(?!std\b|core\b)", m.group(1)):
                brought |= {it.split(" as ")[0].strip() for it in m.group(2).split(",")}
        if not path.endswith(".antt"):
            continue
        walk = re.search(r"/proofs/.*/", path)
        for line in text.split("\n"):
            m = re.match(r"(?:(?:abbrev|unfoldable|pub|record|data|axiom) )*([^\W\d]" + WORD + r"*)\s*(?::|\(.*:)", line)
            if m and m.group(1) not in ("use", "mod", "module") and not (walk and (re.search(r": (tie\.(Need-|invariant|decreases)|goal\.)", line) or re.search("[-_]spec$", m.group(1)))):
                tops.setdefault(m.group(1), path)
            m = re.match(r"\s+pub ([^\W\d]" + WORD + r"*) : ", line)
            if m:
                fields.setdefault(m.group(1), path)
                continue
            m = re.match(r"\s+(?:(?:abbrev|unfoldable|pub) )*([^\W\d]" + WORD + r"*)\s+:\s", line)
            if m and within and not re.search(r"/proofs/.*/", path):
                tops.setdefault(m.group(1), path)
    return tops, fields, brought


def respelt(path, line, pattern, table):
    """Prose names a definition between backticks, and may have the same words elsewhere."""

    def to(text):
        return pattern.sub(lambda m: table[m.group(1)], text)

    if path.endswith(".md") or re.match(r"\s*(--|//)", line) or path.endswith(".edit") and not re.match(r"(file|old|new): ?", line):
        return re.sub(r"`[^`]*`", lambda m: to(m.group(0)), line)
    return to(line)


def spell(within):
    tops, fields, brought = declared(within)
    own = {snake(n) for n in tops if "-" not in n}
    table = {}
    for name in tops:
        parts = [snake(it) for it in name.split("-")]
        new = parts[0]
        for part in parts[1:]:
            new += ("-" if part in NAMES or part in own or part[:1].isupper() else "_") + part
        table[name] = new
    for name in fields:
        table[name] = snake(name).replace("-", "_")
    table = {a: b for a, b in table.items() if a != b and a not in brought}
    # A lemma that would have its function's name.
    for a, b in table.items():
        if "-" in a and a in tops and (b in own or b in table.values() and any(it != a and to == b for it, to in table.items())):
            table[a] = b + "_lem"
    if "--list" in sys.argv:
        for a, b in sorted(table.items()):
            print(a, b)
        return
    pattern = re.compile("(?<!" + WORD + ")(" + "|".join(sorted(map(re.escape, table), key=len, reverse=True)) + ")(?!" + WORD + ")")
    for path in files():
        with open(path, encoding="utf-8") as f:
            text = f.read()
        new = "\n".join(respelt(path, line, pattern, table) for line in text.split("\n"))
        if new != text:
            with open(path, "w", encoding="utf-8") as f:
                f.write(new)


# Names within modules were brought over after the others, so a dash before one that only a module declares had become part of the word.
for within in (True,) if "--list" in sys.argv else (False, True):
    spell(within)
