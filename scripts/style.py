#!/usr/bin/env python3
"""Checks what users and developers read for phrases that the field does not use, each with what it says instead.

    scripts/style.py            fails if a file has more such phrases than scripts/style_allowed.csv allows, or fewer
    scripts/style.py --write    lowers the numbers of that table; if there is no table, writes what is there now
    scripts/style.py FILE..     lists the phrases in these files

It reads README.md, CONTRIBUTING.md, CHANGELOG.md, the pages of docs/, the crates' pages, the texts of --help, the
messages, and the comments and texts of scripts/ and .ci/. A file that the table does not name is allowed none, so the
numbers only go down. Code, quotations and what EXCEPTIONS names are left out. The rules are in CONTRIBUTING.md, under
Style.
"""

import csv
import glob
import io
import os
import re
import sys
import tokenize

from lib.words import TOP, reader

TABLE = f"{TOP}/scripts/style_allowed.csv"
# A phrase, and what to write; a blank matches any white space. A phrase that begins with a capital is one at the
# beginning of a sentence, in that case alone.
PHRASES = [
    (r"(?:is|are|was|were|be|been) told", "is reported, prints"),
    (r"tells (?:of|how|where|whether|that|what)", "reports, prints, shows"),
    (r"stands? (?:in|for|on|at|behind|before|beside|below|there|so|where|above)", "is in, depends on, follows, means"),
    (r"whoever|who wants to|who (?:takes|counts|looks|finds)", "to ..; anyone who; a thread that"),
    (r"but for", "except"),
    (r"behind (?:it|which|that|the|a|an|each|this|them|every|another|one)", "after, following"),
    (r"besides?", "also; alongside, concurrent with"),
    (r"goes on|go on|going on|went on", "continues; for ever: never terminates"),
    (r"astray", "goes wrong"),
    (r"brought to an end|comes? to an end", "terminates"),
    (r"(?:is|are) over(?! \d)", "has terminated"),
    (r"wrong bod(?:y|ies)", "mutant"),
    (r"hardly mean(?:s|t)?", "suspicious, probably a mistake"),
    (r"nothing is said|(?:if|where|when) not given", "by default, unspecified; [default: N]"),
    (r"how (?:each|it|they|that) comes about", "a schedule that produces it"),
    (r"what can come out", "possible outcomes"),
    (r"is dropped|are dropped|drops? an? attempt|dropped attempts?", "is aborted, aborts an attempt"),
    (r"(?:begins?|begun|beginning) anew", "restarts, retries"),
    (r"wants? (?:a|of|no) memory", "needs a memory; out of memory"),
    (r"refused growths?|growths? (?:is|are|was|were) refused", "allocation failure"),
    (r"(?:is|are|was) looked at", "is explored, is checked"),
    (r"by chance", "at random, random"),
    (r"(?:is|are) asked", "is evaluated, is requested"),
    (r"as (?:it is known|they are|ever)", "unchanged; or leave it out"),
    (r"nobody|somebody", "no (other) thread, a reader"),
    (r"hand(?:s|ed|ing)? (?:back|on)", "returns, passes on"),
    (r"(?:is|are) made of", "consists of, is generated from"),
    (r"\d+ in (?:a )?100", "N %"),
    (r"gone through", "explored"),
    (r"(?:held|hold|holds|holding) (?:to|against)", "is checked against, compares .. with"),
    (r"unmet", "violated"),
    (r"undisturbed", "conflict-free, alone"),
    (r"kept lock", "lock held to the commit"),
    (r"believed", "trusted"),
    (r"means the program", "preserves the program's semantics"),
    (r"hangs? on", "depends on"),
    (r"(?:That|What|Of|So) [a-z ]{0,40}\b(?:is|are|has|have|says)", "begin with the subject"),
]
# Texts that match a phrase and stay: a file, or all, the text, and why.
EXCEPTIONS = [
    ("*", r"What[^.!?|]*\?", "a question"),
    ("scripts/style.py", r"(?ms)^PHRASES = \[.*?^\]", "the phrases themselves"),
]
# The parts of a page that are not prose: code, headings, the targets of links, remarks of scripts, and quotations.
NO_PROSE = [
    re.compile(r"^( *)```.*?^\1```[ ]*$|<!--.*?-->", re.M | re.S),
    re.compile(r"^#+ .*$|<code>.*?</code>|`[^`]+`|\]\([^)]*\)|\"[^\"\n]{1,200}\"", re.M),
]
# Files that are written from others, in which the phrases are to be replaced.
WRITTEN = {
    "docs/TRUST_FILES.md": "scripts/trust.py",
    "crates/messages/src/explanations.rt": "scripts/faults.py, from docs/ERRORS.md",
}


def blank(found):
    """White space in place of a text, with its lines."""
    return re.sub(r"[^\n]", " ", found[0])


def prose_of_page(text):
    for pattern in NO_PROSE:
        text = pattern.sub(blank, text)
    return text


def prose_of_code(text):
    """The texts of a file of code: literals of two words and more."""
    kept, at = [], 0
    for found in re.finditer(r'"((?:[^"\\]|\\.)*)"|//[^\n]*', text):
        kept += [blank([text[at : found.start()]]), found[0] if " " in (found[1] or "") else blank(found)]
        at = found.end()
    return re.sub(r"`[^`\n]+`", blank, "".join(kept))


def prose_of_script(text):
    """The comments of a script in Python, and its texts: docstrings, and literals of two words and more."""
    lines = [[" "] * len(it) for it in text.split("\n")]
    texts = tokenize.STRING, getattr(tokenize, "FSTRING_MIDDLE", None)
    for kind, said, (first, start), _, _ in tokenize.generate_tokens(io.StringIO(text).readline):
        if kind == tokenize.COMMENT or (kind in texts and " " in said and not said.startswith(("r", "fr"))):
            values = r"\{[^{}\n]*\}" if said.startswith("f") else r"(?!)"
            for at, line in enumerate(re.sub(values, blank, said).split("\n")):
                column = 0 if at else start
                lines[first - 1 + at][column : column + len(line)] = line
    return re.sub(r"`[^`\n]+`", blank, "\n".join(map("".join, lines)))


def prose_of_shell(text):
    """The comments of a script of the shell, and its texts of two words and more."""
    pattern = r"^[ ]*#[^\n]*|'[^'\n]* [^'\n]*'|\"[^\"\n]* [^\"\n]*\""
    kept, at = [], 0
    for found in re.finditer(pattern, text, re.M):
        kept += [blank([text[at : found.start()]]), found[0]]
        at = found.end()
    return "".join(kept)


def prose_of(path, text):
    """The part of a file that a person reads as English."""
    if path.endswith(".md"):
        return prose_of_page(text)
    if path.endswith(".rt"):
        return prose_of_code(text)
    return prose_of_shell(text) if text.startswith("#!/bin/sh") else prose_of_script(text)


def files():
    pages = ["README.md", "CONTRIBUTING.md", "CHANGELOG.md", *glob.glob("docs/**/*.md", root_dir=TOP, recursive=True)]
    pages += glob.glob("crates/*/README.md", root_dir=TOP)
    code = ["crates/command/src/line.rt", *glob.glob("crates/messages/src/**/*.rt", root_dir=TOP, recursive=True)]
    scripts = [*glob.glob("scripts/**/*.py", root_dir=TOP, recursive=True), *glob.glob("scripts/*.sh", root_dir=TOP)]
    scripts += glob.glob(".ci/*", root_dir=TOP)
    return [it for it in [*sorted(pages), *sorted(code), *sorted(scripts)] if it not in WRITTEN]


def compiled():
    """Each phrase as a pattern, and what to write."""
    for phrase, say in PHRASES:
        is_start = phrase.startswith("(?:That")
        words = re.sub(r"(?<!\[a-z) (?!\])", r"\\s+", phrase).replace("[a-z ]", r"[a-z\s]")
        yield re.compile(rf"\b(?:{words})\b", 0 if is_start else re.I), say


PATTERNS = list(compiled())


def hits(path):
    """The phrases of a file: line, text, and what to write."""
    with open(os.path.join(TOP, path), encoding="utf-8") as file:
        text = file.read()
    for where, pattern, _ in EXCEPTIONS:
        if where in ("*", path):
            text = re.sub(pattern, blank, text)
    prose = prose_of(path, text)
    found = [(it.start(), " ".join(it[0].split()), say) for pattern, say in PATTERNS for it in pattern.finditer(prose)]
    return [(prose.count("\n", 0, at) + 1, phrase, say) for at, phrase, say in sorted(found)]


def allowed():
    """How many phrases each file of the table may have."""
    if not os.path.isfile(TABLE):
        return None
    with open(TABLE, encoding="utf-8", newline="") as file:
        return {row["file"]: int(row["phrases"]) for row in csv.DictReader(file)}


def write(counts):
    with open(TABLE, "w", encoding="utf-8", newline="") as file:
        rows = csv.writer(file, lineterminator="\n")
        rows.writerow(["file", "phrases"])
        rows.writerows((path, count) for path, count in sorted(counts.items()) if count)


def listed(path, found):
    return [f"{path}:{line}: \"{phrase}\" -> {say}" for line, phrase, say in found]


def main():
    words = reader(__doc__)
    words.add_argument("--write", action="store_true")
    words.add_argument("files", nargs="*", metavar="FILE")
    given = words.parse_args()
    if given.files:
        rows = [row for it in given.files for row in listed(it, hits(os.path.relpath(os.path.abspath(it), TOP)))]
        print(*rows, f"{len(rows)} phrases", sep="\n")
        return 0
    found, may = {path: hits(path) for path in files()}, allowed()
    counts = {path: len(its) for path, its in found.items()}
    if may is None:
        may = counts if given.write else {}
    more = [path for path in counts if counts[path] > may.get(path, 0)]
    fewer = [path for path in {**counts, **may} if counts.get(path, 0) < may.get(path, 0)]
    for path in more:
        print(*listed(path, found[path]), sep="\n")
        print(f"{path} has {counts[path]} phrases to replace, and {may.get(path, 0)} are allowed")
    if given.write:
        write({path: min(count, may.get(path, 0)) for path, count in counts.items()})
    else:
        for path in fewer:
            print(f"{path} has {counts.get(path, 0)} phrases, fewer than {may[path]}: scripts/style.py --write")
    if more or (fewer and not given.write):
        return 1
    print(f"{len(counts)} files; phrases still to be replaced: {sum(counts.values())}")
    return 0


if __name__ == "__main__":
    sys.exit(main())
