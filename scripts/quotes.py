#!/usr/bin/env python3
"""Compares the documents' quotations with the quoted files: a line that is a file's path between backticks, followed by
a block of antt or rust. A line `..` in a block marks lines that are left out. Fails if a quotation is not in its file.
"""

import glob
import os
import re
import sys

from lib.words import TOP, asked

QUOTATION = re.compile(r"^`(crates/[^`]+)`\n```(?:antt|rust)\n(.*?)^```$", re.M | re.S)


def pieces(block):
    """The stretches of a block between lines that are `..`."""
    found = [[]]
    for line in block.splitlines():
        if line.strip() == "..":
            found.append([])
        else:
            found[-1].append(line)
    return [piece for piece in found if piece]


def missing(path, block):
    """The fault of the first piece that does not follow the earlier ones in the file."""
    if not os.path.exists(os.path.join(TOP, path)):
        return "the file does not exist"
    with open(os.path.join(TOP, path), encoding="utf-8") as file:
        lines = file.read().splitlines()
    at = 0
    for piece in pieces(block):
        while at <= len(lines) - len(piece) and lines[at : at + len(piece)] != piece:
            at += 1
        if at > len(lines) - len(piece):
            return f"at this point it does not have {piece[0].strip()}"
        at += len(piece)
    return None


def main():
    asked(__doc__)
    wrong = []
    count = 0
    for document in ["README.md", *sorted(glob.glob("docs/*.md", root_dir=TOP))]:
        with open(os.path.join(TOP, document), encoding="utf-8") as file:
            text = file.read()
        for path, block in QUOTATION.findall(text):
            count += 1
            fault = missing(path, block)
            if fault:
                wrong.append(f"{document} quotes {path}: {fault}")
    print("\n".join(wrong) or f"{count} quotations match their files")
    return 1 if wrong else 0


if __name__ == "__main__":
    sys.exit(main())
