#!/usr/bin/env python3
"""Spells the repository's own definitions, lemmas and ghost fields as today's Rattle does: words in snake case, types in
camel case. It is run once, at the top, after /opt/rattle/port/port.py, and changes names alone.

A name stays where it is imported from a library, or made by Rattle for a proof file (a step or a goal). Names that
would fall together are listed, and nothing is written then.
"""

import os
import re
import sys

WORD = re.compile(r"""[^\s(){}.;,@"«»\[\]\x60]+""")
DASHED = re.compile(r"[\w'][-][\w']")
USE = re.compile(r"\buse\s+([\w.+]+?)\.?\{([^{}]*)\}", re.S)
USE_ONE = re.compile(r"\buse\s+([\w.+]+)\.([^\s{};]+)(?:\s+as\s+(\S+))?")
CAMEL = {
    "anyBelow": "any_below",
    "anyOf": "any_of",
    "rulesAre": "rules_are",
    "placesAre": "places_are",
    "bindingsAre": "bindings_are",
    "fewPlaces": "few_places",
    "fewBindings": "few_bindings",
}
# These would meet a name of the library.
OTHER = {"bit-and": "bit_of_and", "bit-or": "bit_of_or"}
LIBRARIES = ("std", "core", "std_alloc", "std_collections", "std_heap", "std_io")
GENERATED = ("Answers.antt", "Invariants.antt", "Proof.antt")
# A comment, a string or a character stays as it is.
QUIET = {
    ".antt": re.compile(r'(?<![^\s(){}.;,])--[^\n]*|"(?:[^"\\\n]|\\.)*"'),
    ".rt": re.compile(r"//[^\n]*|b?\"(?:[^\"\\]|\\.)*\"|b?'(?:[^'\\\n]|\\.)'", re.S),
}


def turned(word):
    """The new spelling of a name."""
    if word in CAMEL or word in OTHER:
        return CAMEL.get(word) or OTHER[word]
    if not DASHED.search(word):
        return word
    if word[0].isupper() and not word.startswith("Decides"):
        return "".join(part[:1].upper() + part[1:] for part in word.split("-"))
    return re.sub(r"(?<=[\w'])-(?=[\w'])", "_", word)


def own(path, crates):
    parts = path.split(".")
    return parts[0] == "Rattle" and len(parts) > 1 and parts[1] in crates


def imports(text, crates):
    """The names that a file imports from elsewhere than the repository's own texts."""
    foreign = set()
    for m in USE.finditer(text):
        made = re.search(r"\.(Goals|Given)$", m[1])
        if made or not own(m[1], crates):
            for item in m[2].replace("\n", " ").split(","):
                foreign.update(w for w in item.split() if w != "as")
    for m in USE_ONE.finditer(text):
        if not own(m[1], crates):
            foreign.update(w for w in (m[2], m[3]) if w)
    return foreign


def files(root):
    for folder, dirs, names in os.walk(os.path.join(root, "crates")):
        dirs[:] = sorted(d for d in dirs if d not in ("out", "data"))
        for name in sorted(names):
            if name.endswith((".antt", ".rt")):
                yield os.path.join(folder, name)


def fields(texts):
    """The fields of records, and the ghost fields and labels of the code."""
    found = set()
    for path, text in texts.items():
        if path.endswith(".antt"):
            found.update(re.findall(r"(?m)^\s+(?:pub )?([^\s(){}.;,]+) :(?= )", text))
        else:
            found.update(re.findall(r"\bghost ([^\s:={]+)\s*:", text))
    return found


def respell(path, text, crates, known):
    """The text with its names turned, and the names that were turned."""
    foreign = imports(text, crates)
    made = os.path.basename(path) in GENERATED and path.count("/proofs/") == 1
    if made:
        foreign |= set(re.findall(r"(?m)^(?:abbrev )?(?:unfoldable )?(?:pub )?([^\s(){}.;,]+) : goal\.", text))
    seen = {}
    quiet = QUIET[os.path.splitext(path)[1]]
    out, last = [], 0

    def part(piece, start):
        def one(m):
            word = m[0]
            new = turned(word)
            at = start + m.start()
            behind_dot = at > 0 and text[at - 1] == "."
            if new == word or word in foreign:
                return word
            if behind_dot and word not in known:
                return word
            seen[word] = new
            return new
        return WORD.sub(one, piece)

    for m in quiet.finditer(text):
        out.append(part(text[last:m.start()], last))
        out.append(m[0])
        last = m.end()
    out.append(part(text[last:], last))
    return "".join(out), seen


def main():
    root = sys.argv[1] if len(sys.argv) > 1 else "."
    crates = set(os.listdir(os.path.join(root, "crates")))
    texts = {}
    for path in files(root):
        with open(path, encoding="utf-8") as f:
            texts[path] = f.read()
    known = fields(texts)
    # port.py turned some fields where they are declared, and left them behind a dot.
    known |= {name.replace("_", "-") for name in known}
    new, clashes, names = {}, [], {}
    for path, text in texts.items():
        new[path], seen = respell(path, text, crates, known)
        # A module in a path, and a function of the code, stand beside a definition of the same name.
        words = set(m[0] for m in WORD.finditer(text) if m.start() == 0 or text[m.start() - 1] != ".")
        for a, b in seen.items():
            names[a] = b
            called = path.endswith(".rt") and re.search(r"\b%s(<[^()]*>)?\(|::\{?[^;{}]*\b%s\b" % (re.escape(b), re.escape(b)), text)
            if b in words and not called:
                clashes.append(f"{path}: {a} and {b}")
    if clashes:
        print("\n".join(clashes))
        raise SystemExit(1)
    for path, text in new.items():
        if text != texts[path]:
            with open(path, "w", encoding="utf-8") as f:
                f.write(text)
    for a in sorted(names):
        print(a, names[a])


main()
