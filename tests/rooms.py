#!/usr/bin/env python3
"""rooms.py: compares the arrows, the tables and the counts of docs/ARCHITECTURE.md with crates.txt.

It prints the differences and the counts, and ends with 'N passed, M failed'; the status is 1 if M >
0.
"""
import os
import re
import sys

TOP = os.path.dirname(os.path.dirname(os.path.realpath(__file__)))
PROGRAMS = {"sunreg", "http_cases"}


def lists():
    """Returns the libraries of each of our crates in crates.txt."""
    found = {}
    with open(f"{TOP}/crates.txt", encoding="utf-8") as it:
        for line in it:
            name, colon, rest = line.partition(":")
            if colon and not line.startswith("#"):
                found[name.strip()] = rest.split()
    return {name: [it for it in below if it in found] for name, below in found.items()}


def chain_of(crates, name):
    """Returns the longest chain of crates that ends with one."""
    return max((chain_of(crates, it) for it in crates[name]), key=len, default=[]) + [name]


def below(crates, name):
    """Returns all crates below a crate, direct and indirect."""
    return set(crates[name]).union(*(below(crates, it) for it in crates[name]))


def arrows_of(crates, layers):
    """Returns the pairs of a layer and a layer that uses it, with none between them."""
    uses = {layer: set() for layer in layers.values()}
    for name, libraries in crates.items():
        uses.get(layers.get(name), set()).update({layers[it] for it in libraries if it in layers} - {layers.get(name)})
    return {(it, layer) for layer in uses for it in uses[layer] if not any(it in below(uses, other) for other in uses[layer])}


def drawn_in(text):
    """Returns the arrows of the diagram."""
    lines = re.search(r"```mermaid\n(.*?)```", text, re.S).group(1).splitlines()
    return {tuple(it.strip() for it in line.split("-->")) for line in lines if "-->" in line}


def main():
    crates = lists()
    tests = {it for it in crates if it.endswith("_tests")}
    libraries = crates.keys() - tests - PROGRAMS
    with open(f"{TOP}/docs/ARCHITECTURE.md", encoding="utf-8") as it:
        text = it.read()
    rows = re.findall(r"^\| \[`(\w+)`\]\([^)]*\) \| (\w+) \|", text, re.M)
    layers = dict(rows)
    ruled = re.findall(r"^\| (\w+) \| [^|]*\. \|$", text, re.M)
    wanted, drawn = arrows_of(crates, layers), drawn_in(text)
    faults = [f"the diagram lacks {it} --> {layer}" for it, layer in sorted(wanted - drawn)]
    faults += [f"the diagram has {it} --> {layer}" for it, layer in sorted(drawn - wanted)]
    faults += [f"the layer {it} has {ruled.count(it)} rules" for it in sorted({*layers.values(), *ruled}) if ruled.count(it) != 1]
    names = [it for it, _ in rows] + re.findall(r"^\| `(\w+)` \|", text, re.M)
    listed = crates.keys() - {"http_cases"} | set(names)
    faults += [f"{it} has {names.count(it)} rows" for it in sorted(listed) if names.count(it) != 1 or it not in crates]
    chain = max((chain_of(crates, it) for it in libraries), key=len)
    counted = (("Libraries", len(libraries)), ("Crates of tests", len(tests)), ("The longest chain of libraries", len(chain)))
    for what, count in counted:
        if not re.search(rf"^\| {what}\b[^|]*\| {count} \|$", text, re.M):
            faults.append(f"the page doesn't say how many: {what}, {count}")
    print("\n".join(faults + [f"{len(libraries)} libraries, {len(tests)} crates of tests; the longest chain has {len(chain)}: {' '.join(chain)}"]))
    # (an arrow, a layer's rule, a crate's row and a count of the page are one thing each)
    compared = len(wanted | drawn) + len(set(ruled)) + len(listed) + len(counted)
    print(f"{compared - len(faults)} passed, {len(faults)} failed")
    return 1 if faults else 0


sys.exit(main())
