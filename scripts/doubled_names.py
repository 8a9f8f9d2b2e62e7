#!/usr/bin/env python3
"""Lists and counts capitalised names that two files of definitions both define.

  scripts/doubled_names.py [--inner] [--all]

The contracts of public functions cite definitions in specs/, outside specs/inner. If two of them had the same name, a
reader would have to look at the imports to tell them apart, so no capitalised name is defined twice. `--inner` includes
specs/inner, `--all` names that begin with a small letter. The last line is the count; the exit status is 1 if it is not
0.
"""

import collections
import pathlib
import re
import sys

from lib.words import TOP, asked

DEFINED = re.compile(r"^ *(?:(?:private|opaque|unfoldable|abbrev|data|record|class|law|lemma|notation)\s+)*pub\s+"
                     r"(?:(?:data|record|class)\s+)?(?P<name>[A-Za-z_][A-Za-z0-9_']*)\s*(?=[:({]|$)")


def definitions(path):
    """The public names of a file of definitions, with their lines: those within modules and the fields of records too."""
    for number, line in enumerate(path.read_text().split("\n"), 1):
        found = DEFINED.match(line)
        if found:
            yield found["name"], number


def main():
    given, root = asked(__doc__, "--inner", "--all"), pathlib.Path(TOP)
    places = collections.defaultdict(list)
    for path in sorted(root.glob("crates/*/specs/**/*.antt")):
        inside = path.relative_to(root).parts[3:]
        if not given.inner and inside[0] in ("inner", "inner.antt"):
            continue
        for name, number in definitions(path):
            if given.all or name[0].isupper():
                places[name].append(f"{path.relative_to(root)}:{number}")
    twice = {n: p for n, p in places.items() if len({x.split(':')[0] for x in p}) > 1}
    for name in sorted(twice):
        print(f"{name}\t{len(twice[name])}\t{'  '.join(twice[name])}")
    print(f"{len(twice)} of {len(places)} names are defined twice")
    sys.exit(1 if twice else 0)


if __name__ == "__main__":
    main()
