"""The table of `scripts/against_spin.py --measure`: `txc outcomes`, SPIN's verifiers of models written by hand, and
those of models that scripts/spin.py generates, with the same programs.

The figures are the least processor time of three rounds, in which each runs once, and the memory of the last one. They
include what a list prints, but no compilation of a verifier.
"""

import os
import re
import resource
import subprocess
import sys

from lib.spin_runs import FAST, STORED, generated, hand_written
from lib.words import TOP

ROUNDS = 3
# An example, its hand-written model or None, with how many threads, and the binary logarithm of the number of places in
# SPIN's hash table, which are a little more than the states.
CASES = (
    ("booking.c", "booking", 11, 19),
    ("hashset.c", "hashset", 6, 20),
    ("queue.c", "queue", 3, 20),
    ("ticket.c", "ticket", 5, 18),
    ("properties/queue.c", "waiting_queue", 8, 18),
    ("counter.c", None, 9, 19),
)
LIMITS = ("--limit", "100000000", "--memory", "6000")
LAST = re.compile(r"states: (\d+), threads: \d+(.*)\n$")


# How many bytes of a command's output are read: the memory of a command is at least that of this process.
TAIL = 4096


def run(words, room):
    """The processor time of a command in seconds, the most memory that it held in MB, and the end of what it prints."""
    with open(f"{room}/printed", "w", encoding="utf-8") as printed:
        child = subprocess.Popen(words, cwd=room, stdout=printed, stderr=subprocess.STDOUT)
        _, _, used = os.wait4(child.pid, 0)
        child.returncode = 0
    with open(f"{room}/printed", "rb") as printed:
        printed.seek(max(0, os.path.getsize(printed.name) - TAIL))
        end = printed.read().decode(errors="replace")
    own = resource.getrusage(resource.RUSAGE_SELF).ru_maxrss
    memory = f"{'under ' * (used.ru_maxrss <= own * 1.05)}{used.ru_maxrss * 1024 / 1e6:.0f}"
    return used.ru_utime + used.ru_stime, memory, end


def states_of(printed):
    """How many states there are, by what `txc outcomes` or a verifier prints; ends if these are not all."""
    found = LAST.search(printed)
    if found and not found[2]:
        return int(found[1])
    found = STORED.search(printed)
    if not found or "max search depth too small" in printed or "out of memory" in printed:
        sys.exit(f"not all states are explored:\n{printed[-2000:]}")
    return int(found[1])


def row(txc, case, room):
    """A row of the table."""
    file, model, threads, places = case
    path = f"{TOP}/examples/{file}"
    search = ["-c0", "-m100000", f"-w{places}"]
    sides = {"txc": [txc, "outcomes", path, "--threads", str(threads), *LIMITS]}
    if model:
        sides["hand"] = [hand_written(room, model, threads, "-o2", how=FAST), *search]
    sides["made"] = [generated(room, path, threads, how=FAST), *search]
    figures = {}
    for _ in range(ROUNDS):
        for side, words in sides.items():
            time, memory, printed = run(words, room)
            least = min(time, figures[side][1]) if side in figures else time
            figures[side] = states_of(printed), least, memory
    cells = [f"`{file}`", str(threads)]
    for side in ("txc", "hand", "made"):
        states, time, memory = figures.get(side, (None, None, None))
        cells += [f"{states:,}", f"{time:.2f}", memory] if states else ["–"] * 3
    return f"| {' | '.join(cells)} |"


def measure(txc, room):
    """Prints the table."""
    sides = " | ".join(f"{it}: states | s | MB" for it in ("txc", "SPIN, by hand", "SPIN, generated"))
    print(f"| Program | Threads | {sides} |\n|{'---|' * 11}")
    for case in CASES:
        print(row(txc, case, room), flush=True)
    return 0
