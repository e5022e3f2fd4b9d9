#!/usr/bin/env python3
"""unnamed.py: lists the entries of crates.txt that can be removed.

These are libraries of ours that no source, definition or proof of their crate names. A library that
is not listed may still be used through a listed one. The status is 1 if there are such entries.
"""
import os
import re
import sys

TOP = os.path.dirname(os.path.dirname(os.path.realpath(__file__)))


def lists():
    """Returns the libraries of each crate of crates.txt, with those of the toolchain."""
    found = {}
    with open(f"{TOP}/crates.txt", encoding="utf-8") as it:
        for line in it:
            name, colon, rest = line.partition(":")
            if colon and not line.startswith("#"):
                found[name.strip()] = rest.split()
    return found


def text_of(name):
    """Returns all text of a crate."""
    said = []
    for at, folders, files in os.walk(f"{TOP}/crates/{name}"):
        folders[:] = [it for it in folders if it != "out"]
        for file in files:
            if file.endswith((".rt", ".antt")):
                with open(f"{at}/{file}", encoding="utf-8") as it:
                    said.append(it.read())
    return "\n".join(said)


def main():
    crates = lists()
    count = 0
    for name, below in crates.items():
        text = text_of(name)
        unnamed = [it for it in below if it in crates and not re.search(rf"\b{it}\b", text)]
        count += len(unnamed)
        if unnamed:
            print(f"{name}: {' '.join(unnamed)}")
    return 1 if count else 0


if __name__ == "__main__":
    sys.exit(main())
