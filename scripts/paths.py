#!/usr/bin/env python3
"""Checks what documents refer to, and that each script is run.

Fails if

  - README.md, CONTRIBUTING.md, a page of docs/ or a crate's page has in backquotes the path of a file or folder that
    does not exist. NAME and other words in capitals mean any name; a path begins at the top, at crates/ or at a crate's
    folder, on that crate's own page at its folder; a mutant is CRATE/NAME;
  - the table of docs/BYTECODE.md lacks an instruction that a listing shows, or has another one;
  - docs/COMMANDS.md lacks a command (scripts/pages.py looks for the options);
  - a call of txc in such a page has a command or an option that txc does not have;
  - a comment of the parser states a rule that the grammar of docs/LANGUAGE.md does not have: a rule whose words are
    those of the page, or RENAMED ones; or that grammar has a keyword that no comment of the parser has;
  - a script of scripts/ is called by none in .ci/, neither directly nor by a script that is.
"""

import fnmatch
import glob
import os
import re
import sys

from lib.words import TOP, asked
from pages import options

PATH = re.compile(r"\.?\w[\w.*-]*(?:/[\w.*-]+)+/?|\.?\w[\w-]*/|\w[\w*-]*\.(?:rt|antt|py|sh|md|csv|edit)")
PLACEHOLDER = re.compile(r"(?<![\w.])[A-Z]{2,}(?![\w.])")
FENCED = re.compile(r"^( *)```.*?^\1```[ ]*$", re.M | re.S)
# Words of the first column of a table of instructions that are none.
TYPES = {"int", "unsigned", "long"}
# Paths that are not of this repository, or that only a build makes.
ELSEWHERE = re.compile(r"out/|rattle/|crates/\w+/out/|~|/")
# Words of the parser's comments, and the page's for the same.
RENAMED = {"constant": "const", "initialiser": "init", "type": "vtype", "assigning": "assign", "declaration": "decl"}
# Rules that the page has otherwise: in its table of operators, or with the signs in brackets.
IN_TABLE = {"[expr { , expr }]", "[? expr : expr]", "? expr : expr", "!", "~", "++ expr", "-- expr", "name [ expr ]"}
# Scripts that a person runs, and no check: why.
BY_HAND = {
    "check_profile.py": "it checks a crate from nothing to show where the prover spends its time, and finds no fault",
}


def read(path):
    with open(f"{TOP}/{path}", encoding="utf-8") as file:
        return file.read()


def pages():
    found = ["README.md", "CONTRIBUTING.md", *glob.glob("docs/**/*.md", root_dir=TOP, recursive=True)]
    return [*sorted(found), *sorted(glob.glob("crates/*/README.md", root_dir=TOP))]


def files_and_folders():
    """All paths of the repository, without what builds make."""
    found = []
    for folder, folders, files in os.walk(TOP):
        folders[:] = [it for it in folders if it not in ("out", ".git", "__pycache__")]
        found += [os.path.relpath(f"{folder}/{it}", TOP) for it in [*folders, *files]]
    return found


class Repository:
    """The repository's paths, and all ends of them that begin after a slash."""

    def __init__(self):
        self.paths = files_and_folders()
        self.ends = {path[at:] for path in self.paths for at in [0, *[m.end() for m in re.finditer("/", path)]]}

    def has(self, path, page):
        """Whether there is what a page calls so."""
        path = PLACEHOLDER.sub("*", path.removesuffix("/"))
        own = f"{os.path.dirname(page)}/{path}"
        if page.startswith("crates/") and path.split("/")[0] in ("src", "specs", "proofs", "must-fail"):
            return any(fnmatch.fnmatch(it, own) for it in self.paths) if "*" in path else os.path.exists(f"{TOP}/{own}")
        if "*" in path:
            return any(fnmatch.fnmatch(it, path) for it in self.ends)
        return path in self.ends or f"{path}.edit" in self.ends


def lost_paths():
    """Each path in backquotes that is not there, with its page and line."""
    repository = Repository()
    for page in pages():
        text = FENCED.sub(lambda it: "\n" * it[0].count("\n"), read(page))
        for number, line in enumerate(text.splitlines(), 1):
            for word in [word for span in re.findall(r"`([^`]+)`", line) for word in span.split()]:
                word = re.sub(r":\d+$", "", word)
                if PATH.fullmatch(word) and not ELSEWHERE.match(word) and not repository.has(word, page):
                    yield f"{page}:{number} names {word}, which does not exist"


def instructions():
    """The instructions of a listing: words that always have a type after a point, and words without one."""
    text = read("crates/bytecode/specs/Listing.antt")
    text = text[text.index("not_word :") : text.index("if_instr_text :")]
    typed = set(re.findall(r'typed_word \(codes "([a-z]+)"\)', text))
    return typed, set(re.findall(r'(?<!typed_word \()codes "([a-z.]+)', text))


def wrong_instructions():
    page, (typed, plain) = read("docs/BYTECODE.md"), instructions()
    rows = re.search(r"^\| Instruction \|[^\n]*\n\|[-|]+\|\n((?:\|[^\n]*\n)+)", page, re.M)
    if not rows:
        yield "docs/BYTECODE.md has no table whose first column is `Instruction`"
        return
    told = {it.split()[0] for row in rows[1].splitlines() for it in re.findall(r"`([a-z][^`]*)`", row.split("|")[1])}
    bases = {it.partition(".")[0] for it in told}
    yield from (f"the table of docs/BYTECODE.md lacks {it}" for it in sorted((typed - bases) | (plain - told)))
    known = typed | plain | {f"{it}.{kind}" for it in typed for kind in "sul"} | TYPES
    unknown = {it for it in told - known if not re.fullmatch(r"r[A-Z]", it)}
    yield from (f"docs/BYTECODE.md has the instruction {it}, which no listing shows" for it in sorted(unknown))


def commands():
    return re.findall(r'(?:of_file|command_of)\(\s*alloc,\s*"([a-z]+)"', read("crates/command/src/line.rt"))


def wrong_calls():
    """Calls of txc in pages, in backquotes or at the beginning of a line of a block, that txc does not understand."""
    names, known = {*commands(), "help"}, options() | {"help", "version"}
    for page in pages():
        is_block = False
        for number, line in enumerate(read(page).splitlines(), 1):
            is_block ^= line.lstrip().startswith("```")
            begin = r"^(?:\$ )?|&& " if is_block else "`"
            for call in re.findall(rf"(?:{begin})(?:out/)?txc ([a-z-][^`|]*)", line):
                if re.match(r"[a-z]+(?: |$)", call) and call.split()[0] not in names:
                    yield f"{page}:{number} calls txc {call.split()[0]}, which is no command"
                for it in sorted(set(re.findall(r"(?<!\S)--([a-z][a-z-]*)", call)) - known):
                    yield f"{page}:{number} calls txc with --{it}, which is no option"


def wrong_commands():
    names, page = commands(), read("docs/COMMANDS.md")
    if len(names) < 5:
        yield "crates/command/src/line.rt makes its commands in a way that this script does not read"
    yield from (f"docs/COMMANDS.md lacks the command {it}" for it in names if it != "txc" and f"`txc {it}" not in page)


def normal(rule, renamed):
    """A rule of the grammar without blanks and quotes, by the words of the page."""
    return re.sub(r'[\s"]+', "", re.sub(r"\b\w+\b", lambda it: renamed.get(it[0], it[0]), rule))


def wrong_grammar():
    """Rules that a comment of the parser states in words of the page, and the page does not have."""
    blocks = [it[0] for it in FENCED.finditer(read("docs/LANGUAGE.md")) if re.search(r"^unit +=", it[0], re.M)]
    if len(blocks) != 1:
        yield "docs/LANGUAGE.md does not have one block with the grammar, which begins with `unit`"
        return
    grammar = normal(re.sub(r"^(\w+) += ", r"\1 ::= ", blocks[0], flags=re.M), {})
    known = {*re.findall(r"^(\w+) +=", blocks[0], re.M), "expr", "name", "const", "string"}
    known |= set(re.findall(r'Keyword key\.\w+\) = codes "(\w+)"', read("crates/lex/specs/Spelling.antt"))) | {"outer"}
    found, stated = 0, set()
    for path in sorted(glob.glob("crates/parse/src/*.rt", root_dir=TOP)):
        comments = "".join(re.findall(r"^ *///.*\n", read(path), re.M))
        stated |= {word for span in re.findall(r"`([^`]+)`", comments) for word in re.findall(r"\w+", span)}
        for comment in re.findall(r"^ */// ((?:`[^`]+`(?:, | or )?)+)", read(path), re.M):
            for rule in re.findall(r"`([^`]+)`", comment):
                words = {RENAMED.get(it, it) for it in re.findall(r"\w+", rule)}
                if rule in IN_TABLE or words - known or ".." in rule:
                    continue
                found += 1
                if normal(rule, RENAMED) not in grammar:
                    yield f"the grammar of docs/LANGUAGE.md lacks `{rule}`, which {path} reads"
    extra = set(re.findall(r'"(\w+)"', blocks[0])) - stated
    yield from (f"the grammar of docs/LANGUAGE.md has {it}, which no comment of the parser has" for it in sorted(extra))
    if found < 30:
        yield f"only {found} comments of crates/parse/src state a rule in words of the grammar in docs/LANGUAGE.md"


def imported(text):
    """The files of scripts/ that a script imports."""
    of_lib = ", ".join(re.findall(r"^from lib import (.*)$", text, re.M))
    names = re.findall(r"^(?:from|import) ([\w.]+)", text, re.M) + [f"lib.{it.strip()}" for it in of_lib.split(",")]
    paths = [f"scripts/{it.replace('.', '/')}.py" for it in names]
    return [it for it in paths if os.path.isfile(f"{TOP}/{it}")]


def scripts_called():
    """Each script, and those that it imports or calls."""
    called = {}
    for path in glob.glob("scripts/**/*.py", root_dir=TOP, recursive=True):
        text = re.sub(r'^(?:#[^\n]*\n)*""".*?"""', "", read(path), flags=re.S)
        called[path] = set(imported(text))
    for path in glob.glob("scripts/*.sh", root_dir=TOP):
        called[path] = set()
    return called


def uncalled():
    called = scripts_called()
    text = "".join(read(it) for it in glob.glob(".ci/*", root_dir=TOP))
    left = [it for it in called if re.search(rf"\b{os.path.basename(it)}\b", text)] + imported(text)
    reached = set()
    while left:
        path = left.pop()
        if path not in reached:
            reached.add(path)
            left += called[path]
    for path in sorted(set(called) - reached):
        if os.path.basename(path) not in BY_HAND and not path.endswith("__init__.py"):
            yield f"{path} is called by no check in .ci/"


def main():
    asked(__doc__)
    wrong = [*lost_paths(), *wrong_instructions(), *wrong_calls(), *wrong_commands(), *wrong_grammar(), *uncalled()]
    print("\n".join(wrong) or f"the paths of {len(pages())} pages exist, and each script is called")
    return 1 if wrong else 0


if __name__ == "__main__":
    sys.exit(main())
