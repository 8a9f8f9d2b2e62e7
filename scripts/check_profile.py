#!/usr/bin/env python3
"""Shows where a check of a crate spends its time: part by part, function by function, module by module.

    scripts/check_profile.py [--most N] CRATE..

Each crate is checked from nothing, with one job, over the libraries in the out/ folders of the crates below it (`rt
lib` builds those). The prover writes each module when it has finished it, so the time between two of its files belongs
to the later one. Seconds are of processor, sampled twenty times a second. A function, or a cycle of functions, has
these modules of its own:

    Lts      its paths, point by point: its statements times what is alive there
    Proof    goals that have no answer, which the tactics search for
    Answers  goals that have one
    Tie      how its paths lead to its contract
    others   its layout, its statement and the like

Modules without a part hold definitions and lemmas. N is the number of rows of each table [default: 10].
"""

import bisect
import collections
import os
import re
import subprocess
import sys
import tempfile
import time

from gate_cost import libraries
from lib.words import TOP, reader
from mutants import words_of

PARTS = "Lts|Proof|Answers|Tie|Goals|Code|Layout|Named|Reads|Kinds|Statement|Met|Key|Invariants"
PART = re.compile(rf"(.*?)\.({PARTS})\b.*")
TICK = os.sysconf("SC_CLK_TCK")


def processor(pid):
    """The seconds of processor that a process has had."""
    with open(f"/proc/{pid}/stat", encoding="utf-8", errors="replace") as file:
        words = file.read().rpartition(")")[2].split()
    return (int(words[11]) + int(words[12])) / TICK


def check(crate, named, folder, said):
    """Checks a crate from nothing; gives how much of the processor the check had had, at some times of the clock."""
    here = f"{TOP}/crates/{crate}"
    root = "src/main.rt" if os.path.isfile(f"{here}/src/main.rt") else "src/lib.rt"
    words = [*words_of(crate, root, named), "--incremental", folder]
    looks = [(time.time(), 0.0)]
    with subprocess.Popen(words, cwd=here, stdin=subprocess.DEVNULL, stdout=said, stderr=said) as process:
        while process.poll() is None:
            try:
                looks.append((time.time(), processor(process.pid)))
            except (FileNotFoundError, ProcessLookupError, IndexError):
                break
            time.sleep(0.05)
        if process.wait():
            said.seek(0)
            sys.exit(f"{crate} is not proved:\n{said.read()[-3000:]}")
    return looks


def had(looks, when):
    """How much of the processor the check had had at this time."""
    at = bisect.bisect(looks, (when,))
    if at in (0, len(looks)):
        return looks[min(at, len(looks) - 1)][1]
    (before, less), (after, more) = looks[at - 1 : at + 1]
    return less + (more - less) * (when - before) / (after - before)


def modules(folder, looks):
    """Each module that the check has kept, with the seconds of processor that it took."""
    files = []
    for at, _, names in os.walk(folder):
        kept = [it for it in names if it.endswith(".oantt")]
        files += [(os.stat(f"{at}/{it}").st_mtime, re.sub(r"(\.decls)?\.oantt$", "", it)) for it in kept]
    before = 0.0
    for when, name in sorted(files):
        now = had(looks, when)
        yield re.sub(r"^Rattle-\w+-(?=proofs|specs)", "", name), now - before
        before = now


def told(crate, folder, looks, most):
    """Prints what the parts, the functions and the modules of a crate took."""
    parts, functions, dearest = collections.Counter(), collections.Counter(), collections.Counter()
    for name, took in modules(folder, looks):
        part = PART.match(name) if name.startswith("proofs") else None
        parts[part[2] if part else "definitions, lemmas and the rest"] += took
        dearest[name] += took
        if part:
            functions[part[1]] += took
    print(f"{crate}: {looks[-1][1]:.0f} s of processor, {sum(parts.values()):.0f} of them up to its last module")
    for heading, counted in (("part", parts), ("function", functions), ("module", dearest)):
        print(f"\n  by {heading}")
        for name, took in counted.most_common(most):
            print(f"  {took:8.1f}  {name}")
    print(flush=True)


def main():
    words = reader(__doc__)
    words.add_argument("--most", type=int, default=10, metavar="N")
    words.add_argument("crates", nargs="+", metavar="CRATE")
    given = words.parse_args()
    named = libraries()
    if unknown := [it for it in given.crates if it not in named]:
        sys.exit(f"crates.txt has none of {', '.join(unknown)}")
    for crate in given.crates:
        with tempfile.TemporaryDirectory(prefix="check-profile-") as room:
            os.mkdir(f"{room}/kept")
            with open(f"{room}/said", "w+", encoding="utf-8", errors="replace") as said:
                looks = check(crate, named, f"{room}/kept", said)
            told(crate, f"{room}/kept", looks, given.most)


if __name__ == "__main__":
    main()
