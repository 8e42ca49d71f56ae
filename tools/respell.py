#!/usr/bin/env python3
"""Brings the names of definitions and lemmas in crates/ to today's spelling, once, after the scripts of the port:
functions, fields and lemmas in snake case, facts and types in camel case.

usage: tools/respell.py [--list]     at the top of the repository; --list prints the pairs and changes nothing
"""
import collections
import glob
import re
import sys

WORD = r"\w₀-₉'◌"
DECLARED = re.compile(r"^[ \t]*(?:(?:abbrev|unfoldable)[ \t]+)?(?:pub[ \t]+)?(?:(data|record)[ \t]+)?([^\s:(){}]+(?:[ \t]+[^\s:(){}]+)*)[ \t]*:(?=\s)(.*)", re.M)
IMPORT = re.compile(r"\buse\s+(\S+?)\.\{([^}]*)\}")


def antt():
    return sorted(glob.glob("crates/*/specs/**/*.antt", recursive=True) + glob.glob("crates/*/proofs/**/*.antt", recursive=True))


def read(path):
    with open(path, encoding="utf-8") as f:
        return f.read()


def snake(name):
    name = re.sub(r"([a-z0-9])([A-Z][a-z]+)", r"\1_\2", name)
    name = re.sub(r"([A-Z])([A-Z][a-z]+)", r"\1_\2", name)
    return re.sub(r"([a-z0-9])([A-Z])", r"\1_\2", name).lower()


def names():
    declared, foreign, facts = collections.OrderedDict(), set(), set()
    for path in antt():
        text = read(path)
        for m in IMPORT.finditer(text):
            if not m.group(1).startswith("Rattle.") or m.group(1).startswith("Rattle.std"):
                foreign |= {x.split(" as ")[0].strip() for x in m.group(2).split(",")}
        for m in DECLARED.finditer(text):
            if re.match(r"\s*(--|use\b|module\b|let\b|in\b|elim\b)", m.group(0)):
                continue
            for name in m.group(2).split():
                declared.setdefault(name, set()).add(path)
                if "/specs/" in path and m.group(1) is None and re.search(r"Type\s*\d*\s*$", m.group(3).split("\n")[0].rstrip()):
                    facts.add(name)
    return declared, foreign, facts


def pairs():
    declared, foreign, facts = names()
    source = set()
    for path in glob.glob("crates/*/src/*.rt"):
        code = [l for l in read(path).split("\n") if not re.match(r"\s*(//|ghost use|requires|ensures)", l)]
        source |= set(re.findall(r"\w+", "\n".join(code)))
    found = collections.OrderedDict()
    for name in declared:
        # A name of the library or of src/ keeps its spelling.
        if name in foreign or name in source:
            continue
        new = name
        if re.search(r"[a-z0-9][A-Z]", name) and name[0].islower():
            new = name[0].upper() + name[1:] if name in facts else snake(name)
        new = re.sub(r"(?<=\w)-(?=\w)", "_", new)
        if new != name:
            found[name] = new
    # Two names that fall together in one file: the lemma's gets `_lem`.
    texts = {p: set(re.findall(rf"[{WORD}]+(?:-[{WORD}]+)*", read(p))) for p in antt()}
    for name in list(found):
        new = found[name]
        rivals = {new} | {o for o, n in found.items() if n == new and o != name}
        rivals &= set(declared) | set(found)
        for rival in sorted(rivals):
            meet = [p for p, t in texts.items() if name in t and rival in t]
            if meet:
                lemma = name if not any("/specs/" in p for p in declared[name]) else rival
                found[lemma] = found.get(lemma, lemma) + "_lem"
                print(f"fall together: {name} and {rival} as {new}: {lemma} becomes {found[lemma]} ({meet[0]})", file=sys.stderr)
                break
    return found


def turn(text, found, pattern):
    return pattern.sub(lambda m: found[m.group(0)], text)


def main():
    found = pairs()
    if "--list" in sys.argv:
        for old, new in found.items():
            print(old, new)
        return
    pattern = re.compile(rf"(?<![{WORD}-])(?:" + "|".join(re.escape(n) for n in sorted(found, key=len, reverse=True)) + rf")(?![{WORD}-])")
    camel = {o: n for o, n in found.items() if "-" not in o}
    plain = re.compile(rf"(?<![{WORD}-])(?:" + "|".join(re.escape(n) for n in sorted(camel, key=len, reverse=True)) + rf")(?![{WORD}-])")

    def quoted(text):
        return re.sub(r"`[^`\n]+`", lambda m: turn(m.group(0), found, pattern), text)

    def proof(text):
        out = []
        for line in text.split("\n"):
            code, dashes, comment = line.partition("-- ") if "-- " in line else (line, "", "")
            out.append(turn(code, found, pattern) + dashes + turn(quoted(comment), camel, plain))
        return "\n".join(out)

    for path in antt():
        text = read(path)
        new = proof(text)
        if new != text:
            open(path, "w", encoding="utf-8").write(new)
    for path in glob.glob("crates/*/src/*.rt") + glob.glob("crates/*/must-fail/*.edit"):
        text = read(path)
        new = "\n".join(turn(l, found, pattern) if re.match(r"\s*(ghost use|requires|ensures|old:|new:|file: proofs|file: specs)", l) else quoted(l) for l in text.split("\n"))
        if new != text:
            open(path, "w", encoding="utf-8").write(new)
    for path in ["README.md"] + [p for p in glob.glob("docs/*.md")]:
        text = read(path)
        new = quoted(text)
        if new != text:
            open(path, "w", encoding="utf-8").write(new)


main()
