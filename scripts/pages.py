#!/usr/bin/env python3
"""Compares crate pages, crates/NAME/README.md, with the code: each crate has a page, its dependencies and users are those of
crates.txt, and each word in backquotes that could be a name is one of the repository's. Compares docs/MAP.md with crates.txt:
each crate is in one layer, and depends only on crates of its own layer or of those before it. Compares docs/COMMANDS.md with the
options of crates/command: each is in the other.

With --write it writes the dependencies into the pages.
"""

import glob
import os
import re
import sys

from gate_cost import libraries
from lib.words import TOP, asked

BEGIN, END = "<!-- read from crates.txt and src: begin -->\n", "<!-- read from crates.txt and src: end -->\n"
WORD = re.compile(r"`([A-Za-z_][A-Za-z0-9_]*(?:::[A-Za-z_][A-Za-z0-9_]*)*)(?:\(\))?`")
# A page names at most so many users of its crate.
MOST_USERS = 8
# Words of pages that are not names of this repository.
OTHERS = {"usize", "None", "Ok", "clap", "indexmap", "usual"}


def read(path):
    with open(os.path.join(TOP, path), encoding="utf-8") as file:
        return file.read()


def linked(names, nothing):
    return ", ".join(f"[`{it}`](../{it}/README.md)" for it in names) or nothing


def generated(crate, named):
    users = [it for it in named if crate in named[it]]
    below = linked(named[crate], "no crate of this repository")
    above = linked(users, "no crate") if len(users) <= MOST_USERS else f"{len(users)} crates"
    return f"**Depends on** {below}. **Used by** {above}.\n\n"


def parts(page):
    """A page before, between and after the marks, if it has them."""
    first, begin, rest = page.partition(BEGIN)
    inner, end, last = rest.partition(END)
    return (first, inner, last) if begin and end else None


def words_of_code():
    words = set()
    for pattern in ("crates/**/*.rt", "crates/**/*.antt", "scripts/**/*.py", "examples/**/*"):
        for name in glob.glob(pattern, root_dir=TOP, recursive=True):
            if os.path.isfile(os.path.join(TOP, name)):
                words.update(re.findall(r"[A-Za-z_][A-Za-z0-9_]*", read(name)))
    return words


def options():
    """Each option of the command line."""
    text = read("crates/command/src/line.rt")
    return set(re.findall(r'(?:flag|text|wanted)\(\s*alloc,\s*"([a-z-]+)"', text)) | set(re.findall(r'\.long\("([a-z-]+)"\)', text))


def main():
    given, named = asked(__doc__, "--write"), libraries()
    wrong, words = [], None
    for crate in named:
        path = f"crates/{crate}/README.md"
        if not os.path.isfile(os.path.join(TOP, path)):
            wrong.append(f"{path} is missing")
            continue
        page = read(path)
        cut = parts(page)
        if cut is None:
            wrong.append(f"{path} has no marks for its dependencies")
            continue
        first, inner, last = cut
        now = generated(crate, named)
        if inner != now:
            if given.write:
                with open(os.path.join(TOP, path), "w", encoding="utf-8") as file:
                    file.write(first + BEGIN + now + END + last)
            else:
                wrong.append(f"{path} has other dependencies than crates.txt: run --write")
        words = words or words_of_code()
        for found in WORD.findall(first + last):
            lost = [it for it in found.split("::") if it not in words and it not in named and it not in OTHERS]
            if lost:
                wrong.append(f"{path} names {found}, which is not a name in the code")
    layers = [re.findall(r"crates/(\w+)/README", it) for it in re.findall(r"^- \*\*.*?(?=^- |^## |\Z)", read("docs/MAP.md"), re.M | re.S)]
    layer_of = {crate: number for number, layer in enumerate(layers) for crate in layer}
    if sorted(sum(layers, [])) != sorted(named):
        wrong.append("docs/MAP.md does not have each crate in exactly one layer")
    wrong += [
        f"docs/MAP.md has {crate} in a layer before that of {it}, on which it depends"
        for crate, below in named.items()
        for it in below
        if layer_of.get(it, 0) > layer_of.get(crate, len(layers))
    ]
    described = set(re.findall(r"--([a-z][a-z-]*)", read("docs/COMMANDS.md")))
    there = options()
    wrong += [f"docs/COMMANDS.md does not describe --{it}" for it in sorted(there - described)]
    wrong += [f"docs/COMMANDS.md describes --{it}, which is not an option" for it in sorted(described - there - {"help", "version", "then"})]
    print("\n".join(wrong) or f"{len(named)} pages of crates and {len(there)} options agree with the code")
    return 1 if wrong else 0


if __name__ == "__main__":
    sys.exit(main())
