#!/usr/bin/env python3
"""links.py: follows the relative links of all pages, and of the pages' tables.

A link must lead to a file or folder of the repository. A link with '#' must lead to a heading of
that page. The script prints a line for each link that leads nowhere. It ends with 'N passed, M
failed', counted in links; the status is 1 if M > 0.
"""
import os
import re
import subprocess
import sys

TOP = os.path.dirname(os.path.dirname(os.path.realpath(__file__)))
LINK = re.compile(r"\]\(([^()\s]+)\)")
CODE = re.compile(r"^```.*?^```", re.S | re.M)


def anchors_of(path):
    """Returns the anchors of a page's headings, as GitHub names them."""
    with open(path, encoding="utf-8") as it:
        headings = re.findall(r"^#+ (.*)$", CODE.sub("", it.read()), re.M)
    plain = [re.sub(r"\[([^\]]*)\]\([^)]*\)", r"\1", it).strip().lower() for it in headings]
    return {re.sub(r"[^\w\- ]", "", it).replace(" ", "-") for it in plain}


def leads(page, link):
    """Returns whether a link of a page leads to a file, and to a heading if it names one."""
    to, _, anchor = link.partition("#")
    path = os.path.normpath(os.path.join(os.path.dirname(page), to)) if to else page
    if not os.path.exists(path):
        return False
    return not anchor or path.endswith(".md") and anchor in anchors_of(path)


def main():
    tracked = subprocess.run(["git", "ls-files", "*.md"], cwd=TOP, capture_output=True, text=True, check=True).stdout.split()
    passed = failed = 0
    for name in tracked:
        with open(f"{TOP}/{name}", encoding="utf-8") as it:
            text = CODE.sub("", it.read())
        for link in LINK.findall(text):
            if re.match(r"\w+:", link):
                # (an address of the web)
                continue
            if leads(f"{TOP}/{name}", link):
                passed += 1
            else:
                failed += 1
                print(f"{name}: {link}")
    print(f"{passed} passed, {failed} failed")
    return 1 if failed else 0


sys.exit(main())
