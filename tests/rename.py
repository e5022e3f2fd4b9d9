#!/usr/bin/env python3
"""rename.py [--write] FILE: renames identifiers in all crates, as FILE says.

FILE has a line `OLD NEW` for each identifier, or `part OLD NEW` for a word in identifiers: with
`part told reported`, `is_told` becomes `is_reported`. The script renames an identifier wherever it
is a word of the code: in sources, definitions and proofs, in the names of their files and folders,
in mutants, and in backticks in comments and pages. It leaves strings and other text.

Each OLD gets one new name everywhere, so the code means the same. The script refuses a NEW that a
file has beside OLD, and an OLD that our code imports from the kit. Without --write it only prints
what it would do. Afterwards run `rt fmt` in each changed crate, `tests/texts.py`, and the gate.
"""
import os
import re
import subprocess
import sys

TOP = os.path.dirname(os.path.dirname(os.path.realpath(__file__)))
# A comment, a string or character, or a word.
RT = re.compile(r"""(?P<comment>//[^\n]*)|(?P<text>b?r(?P<mark>\#*)".*?"(?P=mark)|b?"(?:[^"\\]|\\.)*"|b?'(?:[^'\\\n]|\\.[^']*)')|(?P<word>\w+)""", re.S)
ANTT = re.compile(r"""(?P<comment>--[^\n]*)|(?P<text>"(?:[^"\\]|\\.)*")|(?P<word>\w+)""", re.S)
IMPORT = re.compile(r"^\s*(?:ghost |pub )*use (?:Rattle\.)?(\w+)[.:]([^;]*?)(?:;|\n(?!    )|\Z)", re.M)
PARTS = re.compile(r"_+|[A-Z]+(?=[A-Z][a-z])|[A-Z]?[a-z0-9]+|[A-Z]+")


def pattern(path):
    return RT if path.endswith(".rt") else ANTT


def words_of(path, text):
    return {it["word"] for it in pattern(path).finditer(text) if it["word"]}


def names_in(file, words):
    """Returns the new names by the old ones, for the words of the code."""
    names, parts = {}, {}
    for line in open(file, encoding="utf-8"):
        found = line.split("#")[0].split()
        if found[:1] == ["part"]:
            parts[found[1]] = found[2]
            parts[found[1].title()] = found[2].title()
            parts[found[1].upper()] = found[2].upper()
        elif found:
            names[found[0]] = found[1]
    for word in words - set(names):
        split = PARTS.findall(word)
        new = "".join(parts.get(it, it) for it in split)
        if "".join(split) == word and new != word:
            names[word] = new
    return names


def faults_of(names, texts, of_kit):
    """Returns what forbids the names."""
    faults, found = set(), set()
    for path, text in texts.items():
        words = words_of(path, text)
        found |= words & set(names)
        faults |= {f"{old}: {path} has {names[old]} too" for old in words & set(names) if names[old] in words - set(names)}
        for source, rest in IMPORT.findall(text):
            if source in of_kit:
                faults |= {f"{it}: {path} imports it from {source}" for it in re.findall(r"\w+", rest) if it in names}
    faults |= {f"{old}: the code has no such word" for old in set(names) - found}
    new = list(names.values())
    return sorted(faults | {f"{old}: another word gets the name {names[old]}" for old in names if new.count(names[old]) > 1})


def main(options):
    write = "--write" in options
    files = [it for it in options if not it.startswith("-")]
    if len(files) != 1:
        sys.exit(__doc__.splitlines()[0])
    tracked = subprocess.run(["git", "ls-files"], cwd=TOP, capture_output=True, text=True, check=True).stdout.splitlines()
    rows = [re.findall(r"\w+", it) for it in open(f"{TOP}/crates.txt", encoding="utf-8") if not it.startswith("#")]
    of_kit = {it for row in rows for it in row} - {row[0] for row in rows if row} | {"std", "core", "alloc"}
    code = [it for it in tracked if it.startswith("crates/") and it.endswith((".rt", ".antt"))]
    texts = {it: open(f"{TOP}/{it}", encoding="utf-8").read() for it in code}
    words = set().union(*(words_of(path, text) for path, text in texts.items()))
    names = names_in(files[0], words)
    faults = faults_of(names, texts, of_kit)
    if faults:
        sys.exit("\n".join(faults))
    every = lambda text: re.sub(r"\w+", lambda it: names.get(it[0], it[0]), text)
    quoted = lambda text: re.sub(r"`[^`\n]*`", lambda it: every(it[0]), text)

    def one(found):
        if found["word"]:
            return names.get(found["word"], found["word"])
        return quoted(found[0]) if found["comment"] else found[0]

    changed = 0
    for path in tracked:
        if path in texts:
            old, new = texts[path], pattern(path).sub(one, texts[path])
        elif path.endswith((".edit", ".md")):
            old = open(f"{TOP}/{path}", encoding="utf-8").read()
            new = every(old) if path.endswith(".edit") else quoted(old)
        else:
            continue
        crate, inner = path.split("/")[:2], path.split("/")[2:]
        to = "/".join([*crate, *map(every, inner)]) if path in texts else path
        if (to, new) == (path, old):
            continue
        changed += 1
        if write:
            os.makedirs(os.path.dirname(f"{TOP}/{to}"), exist_ok=True)
            with open(f"{TOP}/{path}", "w", encoding="utf-8") as it:
                it.write(new)
            os.rename(f"{TOP}/{path}", f"{TOP}/{to}")
    for old in sorted(names):
        print(f"{old} {names[old]}")
    print(f"{len(names)} names, {changed} files {'changed' if write else 'to change'}")


if __name__ == "__main__":
    main(sys.argv[1:])
