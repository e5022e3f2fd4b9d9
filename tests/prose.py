#!/usr/bin/env python3
"""prose.py [--list KIND] [PATH..]: checks the English of pages and comments.

It reads the Markdown pages and the comments of .rt, .antt, .py, .sh, .js and .c files, all of the
repository or those under the paths. It reports:

- long: a sentence of more than 30 words
- word: a word or a phrase that plain technical English has no use for (BANNED below)
- wide: a line of more than 100 columns, but for tables, links and code
- name: a function whose name contains such a word, or is a verb without an object (BANNED_NAMES)

Code, tables and quoted names (`..`) are left out. prose_allowed.txt lists findings that stay, each
with its reason, at most 40. Any other finding fails. --list prints every finding of a kind. The
last line is 'N passed, M failed'.
"""
import argparse
import ast
import os
import re
import subprocess
import sys

TESTS = os.path.dirname(os.path.realpath(__file__))
TOP = os.path.dirname(TESTS)
MOST_WORDS = 30
MOST_COLUMNS = 100
MOST_ALLOWED = 40
BANNED = re.compile(
    r"\b(anew|tells?|told|telling|stands?(?!-in)|stood|(?:is|are|be) had|be made of|take[sn]? away|go(?:es)? on|went on|gone on"
    r"|came to|hold of|as soon as it can|no more than|where there is none|is one that|so does|nor|as long as that is"
    r"|in the place of|up to now|so is it|as these|that of which|whoever)\b",
    re.I,
)
BANNED_NAMES = {"put", "take", "give", "told", "of", "end", "made", "go_on"}
# Names of public interfaces that other code calls: the type or trait, and the function.
FIXED_NAMES = {
    ("RowSink", "put"), ("Link", "take"), ("Link", "give"), ("Image", "put"),
    ("Shares", "of"), ("SocketLink", "end"), ("Chain", "end"),
}
BANNED_PARTS = {"told", "tell", "tells", "stand", "stands", "anew", "behind"}
PAGE, SOURCE, SCRIPT = "pages", "sources", "scripts"
# The bytes of web/, which web/embed writes.
GENERATED = {"crates/web_page/src/files.rt"}
KINDS = ("long", "word", "wide", "name")
MARKS = {".rt": r"(///|//!|//|--)", ".antt": r"(--+)", ".py": r"(#)", ".sh": r"(#)", ".js": r"(//)", ".c": r"(//)"}


def kind_of(path):
    """The kind of a file, or None for a file that this check does not read."""
    ending = os.path.splitext(path)[1]
    if ending == ".md":
        return PAGE
    if ending in (".rt", ".antt"):
        return SOURCE
    return SCRIPT if ending in MARKS else None


def paths_under(names):
    """The files of the repository under the names."""
    out = subprocess.run(["git", "ls-files", "--", *names], cwd=TOP, capture_output=True, text=True, check=True)
    return [it for it in out.stdout.splitlines() if kind_of(it) and it not in GENERATED and os.path.exists(f"{TOP}/{it}")]


def plain(text):
    """A text without quoted names, names of files and targets of links."""
    return re.sub(r"`[^`]*`|\[[\w./]+\.(?:antt|rt|md|sh|py)\]|\]\([^)]*\)|<[^>]*>", " x ", text)


def sentences(blocks):
    """Yields (line number, sentence) of blocks, which are lists of (line number, text)."""
    for block in blocks:
        words = [(number, word) for number, text in block for word in plain(text).split()]
        sentence = []
        for number, word in words:
            sentence.append((number, word))
            if re.search(r"[.:;!?][)\"'*_]*$", word):
                yield sentence[0][0], " ".join(it for _, it in sentence)
                sentence = []
        if sentence:
            yield sentence[0][0], " ".join(it for _, it in sentence)


def blocks_of_page(lines):
    """The paragraphs and list items of a Markdown page."""
    block, fenced = [], False
    for number, line in enumerate(lines, 1):
        bare = line.strip()
        if bare.startswith("```"):
            fenced = not fenced
        is_text = bare and not fenced and not bare.startswith(("```", "|", "<", "#")) and not line.startswith("    ")
        starts = re.match(r"([-*]|\d+\.)\s", bare)
        if block and (not is_text or starts):
            yield block
            block = []
        if is_text:
            block.append((number, re.sub(r"^([-*]|\d+\.)\s+", "", bare)))
    if block:
        yield block


def docstrings(text):
    """Yields (line number, docstring) of a Python text."""
    try:
        tree = ast.parse(text)
    except SyntaxError:
        return
    for node in ast.walk(tree):
        if isinstance(node, (ast.Module, ast.FunctionDef, ast.ClassDef)) and ast.get_docstring(node, clean=False):
            yield node.body[0].lineno, ast.get_docstring(node, clean=False)


def blocks_of_comments(ending, text):
    """Yields the comments of a source: each run of comment lines, and each paragraph of a docstring."""
    mark = re.compile(r"(\s*)" + MARKS[ending] + r"(?:\s(.*)|)$")
    block, last = [], None
    for number, line in enumerate(text.split("\n"), 1):
        found = mark.match(line)
        if found and line.startswith("#!"):
            found = None
        key = (found[1], found[2], number) if found and found[3] and found[3].strip() else None
        if block and (not key or last != (key[0], key[1], number - 1) or found[3].strip().startswith(("- ", "* "))):
            yield block
            block = []
        if key:
            block.append((number, found[3].strip()))
        last = key
    if block:
        yield block
    if ending == ".py":
        for start, doc in docstrings(text):
            paragraph = []
            for at, line in enumerate(doc.split("\n")):
                if paragraph and (not line.strip() or line.strip().startswith(("- ", "* "))):
                    yield paragraph
                    paragraph = []
                if line.strip():
                    paragraph.append((start + at, line.strip()))
            if paragraph:
                yield paragraph


def wide_lines(path, text):
    """Yields the numbers of lines of prose that are too long."""
    ending = os.path.splitext(path)[1]
    fenced = False
    for number, line in enumerate(text.split("\n"), 1):
        if ending == ".md":
            fenced = fenced != line.startswith("```")
            is_prose = not fenced and not line.startswith("|") and "](" not in line and "://" not in line
        else:
            is_prose = re.match(r"\s*" + MARKS[ending] + r"(\s|$)", line) and "://" not in line
        if is_prose and len(line) > MOST_COLUMNS:
            yield number, f"{len(line)} columns"


def bad_names(text):
    """Yields the functions of a Rattle source whose names are banned."""
    owner = None
    for number, line in enumerate(text.split("\n"), 1):
        block = re.match(r"impl(?:<.*?>)? (\w+)|(?:pub )?trait (\w+)", line)
        if block:
            owner = block[1] or block[2]
        found = re.match(r"\s*(?:pub(?:\([a-z]+\))? )?fn (\w+)", line)
        if found and (owner, found[1]) not in FIXED_NAMES and (found[1] in BANNED_NAMES or BANNED_PARTS & set(found[1].replace("stand_in", "").split("_"))):
            yield number, found[1]


def findings(path):
    """Yields (kind, line number, text) of what is wrong in a file."""
    with open(f"{TOP}/{path}", encoding="utf-8", errors="replace") as it:
        text = it.read()
    ending = os.path.splitext(path)[1]
    blocks = list(blocks_of_page(text.split("\n")) if ending == ".md" else blocks_of_comments(ending, text))
    for number, sentence in sentences(blocks):
        if len(sentence.split()) > MOST_WORDS:
            yield "long", number, f"{len(sentence.split())} words: {sentence[:100]}"
    for number, sentence in sentences(blocks):
        for word in BANNED.finditer(sentence):
            if word[0] != "nor" or "neither" not in sentence.lower():
                yield "word", number, f"{word[0]}: {sentence[:100]}"
    for number, columns in wide_lines(path, text):
        yield "wide", number, columns
    if ending == ".rt":
        for number, name in bad_names(text):
            yield "name", number, name


def allowed():
    """The findings that stay, as (kind, path, part of the text)."""
    with open(f"{TESTS}/prose_allowed.txt", encoding="utf-8") as it:
        lines = [line.rstrip("\n") for line in it if line.strip() and not line.startswith("#")]
    if len(lines) > MOST_ALLOWED:
        sys.exit(f"prose_allowed.txt has {len(lines)} lines: {MOST_ALLOWED} at most")
    rows = []
    for line in lines:
        parts = line.split(" | ")
        if len(parts) != 4:
            sys.exit(f"prose_allowed.txt: kind | path | text | reason, not {line!r}")
        rows.append(tuple(parts[:3]))
    return rows


def main():
    parser = argparse.ArgumentParser(add_help=False)
    parser.add_argument("--list", choices=KINDS)
    parser.add_argument("paths", nargs="*")
    options = parser.parse_args()
    allow, used = allowed(), set()
    counts, failures, passed = {}, [], 0
    for path in paths_under(options.paths):
        found = []
        for kind, number, text in findings(path):
            row = next((it for it in allow if it[0] == kind and it[1] == path and it[2] in text), None)
            if row:
                used.add(row)
                continue
            found.append((kind, number, text))
            counts.setdefault((kind_of(path), kind), []).append(f"{path}:{number}: {text}")
        passed += not found
    for row in allow:
        if not options.paths and row not in used:
            failures.append(f"prose_allowed.txt: nothing is found any more for {' | '.join(row)}")
    for key, found in sorted(counts.items()):
        for line in found if options.list == key[1] else found[:12]:
            print(f"  {line}")
        failures.append(f"{key[0]}, {key[1]}: {len(found)} findings")
    for line in failures:
        print(f"FAILED {line}")
    print(f"{passed} passed, {len(failures)} failed")
    sys.exit(bool(failures))


main()
