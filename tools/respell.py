#!/usr/bin/env python3
"""Brings the repository's own definitions and lemmas to today's spelling: words in snake case, types and modules in camel case.

usage: python3 tools/respell.py [--check]      once, at the top, after the kit's port/port.py

It reads the names that specs/*.antt and proofs/*.antt of each crate declare, says which of them change, looks for names that would fall
together (with another name of ours, with an imported one, or with any word of a file that has the old one; such a name ends in _lem), and
turns them with the kit's snake.py in .antt and .rt files, and in the pages' code spans. Functions of src/ keep their names.
"""
import collections
import glob
import os
import re
import shutil
import subprocess
import sys
import tempfile

KIT = os.path.dirname(os.path.dirname(os.path.realpath(shutil.which("rt") or "rt")))
SNAKE = os.path.join(KIT, "port/notes/2026-11-18-names-are-in-snake-case/snake.py")
NAME = r"[^\s(){}\[\];,.λ@\"]+"
DECLARED = re.compile(r"^\s*(?:abbrev\s+|unfoldable\s+|pub\s+)*(%s) :(?:\s|$)" % NAME)
WORD = re.compile(r'[^\s(){}.;,@"«»]+')
USE = re.compile(r"use\s+([^\s{;]+)\.\{([^}]*)\}")


def text_of(path):
    with open(path, encoding="utf-8") as f:
        return f.read()


def turned(name):
    """The name in today's spelling. Words with a capital in front are types and stay."""
    parts = []
    for part in name.split("-"):
        if part[:1].islower():
            part = re.sub(r"([a-z0-9])([A-Z])", lambda m: m[1] + "_" + m[2].lower(), part)
            part = re.sub(r"_([A-Z])", lambda m: "_" + m[1].lower(), part)
        parts.append(part)
    return "_".join(parts)


def main():
    own = collections.defaultdict(set)
    for path in sorted(glob.glob("crates/*/specs/*.antt") + glob.glob("crates/*/proofs/*.antt")):
        for line in text_of(path).split("\n"):
            m = DECLARED.match(line)
            if m and not line.lstrip().startswith("--") and re.search("[a-zA-Z]", m[1]):
                own[m[1]].add(path)
    files = sorted(glob.glob("crates/*/specs/*.antt") + glob.glob("crates/*/proofs/**/*.antt", recursive=True) + glob.glob("crates/*/src/*.rt"))
    words, every, imported = {}, {}, {}
    for path in files:
        text = re.sub(r"(?m)^\s*(--|//).*$", "", text_of(path))
        alone = re.sub(r"\.[^\s(){}.;,@\"«»]+|[^\s(){}.;,@\"«»]+(?=\.)", " . ", re.sub(r"\s\.\s", " ", text))
        every[path] = set(WORD.findall(text))
        words[path] = set(WORD.findall(alone)) if path.endswith(".antt") else set()
        imported[path] = set()
        for module, names in USE.findall(text):
            ours = module.startswith("Rattle.") and not module.startswith("Rattle.std")
            for n in names.split(","):
                n = n.strip().split(" as ")[-1].strip()
                if n and not ours:
                    imported[path].add(n)
    table, said = {}, []
    change = {n: turned(n) for n in own if turned(n) != n}
    # two lemmas, already in this spelling, that give way to a definition
    for n in ("is_digit", "found_in"):
        change[n] = n + "_lem"
    # definitions first, then lemmas: a lemma gives way
    order = sorted(change, key=lambda n: (n not in ("is_digit", "found_in"), "-" in n, n))
    where = collections.defaultdict(list)
    for path in files:
        for w in every[path]:
            if w in change:
                where[w].append(path)
    for n in order:
        if any(n in imported[p] for p in where[n]):
            said.append(f"stays: {n}: imported under this name from the library somewhere")
            continue
        new = change[n]
        if any(new in words[p] for p in where[n]):
            said.append(f"together: {n} -> {new}: {[p for p in where[n] if new in words[p]][:3]}")
            new = new + "_lem"
            if any(new in words[p] for p in where[n]):
                sys.exit("no name for " + n)
        for p in where[n]:
            words[p].discard(n)
            words[p].add(new)
        table[n] = new
    print("\n".join(said))
    print(f"{len(own)} names, {len(table)} change")
    if "--check" in sys.argv:
        return
    with tempfile.NamedTemporaryFile("w", suffix=".tsv", delete=False, encoding="utf-8") as f:
        for n in sorted(table):
            f.write(f"{n}\t{table[n]}\n")
    pages = [p for p in ["README.md", "CONTRIBUTING.md", "CHANGELOG.md"] if os.path.exists(p)] + sorted(glob.glob("docs/**/*.md", recursive=True))
    subprocess.run(["python3", SNAKE, "--table", f.name, "--only", "antt,rt,md", "--prose", "none"] + sorted(glob.glob("crates/*")) + pages, check=True, stdout=subprocess.DEVNULL)
    os.unlink(f.name)


main()
