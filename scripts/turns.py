#!/usr/bin/env python3
"""Compares replays of orders with the source: each program of examples/, and random programs, with one thread to four,
in random orders. `txc replay --order L` has to leave the globals of `txc source --order L`, and each thread's text and
end, except that a waiting thread is `running`. No event may be an abort, and the schedule that the replay prints has to
give the same report. If a thread runs out of ticks in the source's order, the order is left out.

  scripts/turns.py [PROGRAMS] [--txc PATH]

PROGRAMS is the number of random programs.
"""

import collections
import glob
import random
import subprocess
import sys
import tempfile

from lib.orders import report_of
from lib.programs import Program, text_of
from lib.words import TOP, TXC, asked, count

ORDERS = 12
MOST_TURNS = 12


def printed(txc, *words):
    """The exit status, and what the program prints on either stream."""
    done = subprocess.run([txc, *words], capture_output=True, text=True, check=False)
    return done.returncode, done.stdout, done.stderr


def drawn_order(chance, threads):
    """An order of some turns, which may be empty."""
    return ",".join(str(chance.randrange(threads)) for _ in range(chance.randrange(MOST_TURNS + 1)))


def hold(txc, file, threads, order, room):
    """What comes of one order: "same", or why nothing is held; or ends where a replay shows something else."""
    words = [file, "--threads", str(threads), "--order", order]
    status, text, errors = printed(txc, "source", *words)
    if status not in (0, 3, 4) or errors:
        sys.exit(f"source {words}: {text}{errors}")
    wanted = report_of(text)
    if "spent" in wanted.ends:
        return "spent"
    status, text, errors = printed(txc, "replay", *words)
    if errors == "txc: fault 81\n" and not text:
        return "too long"
    told, found = text.partition("== thread ")[0], report_of(text.partition("== events\n")[2])
    ends = tuple("running" if end == "waits" else end for end in wanted.ends)
    if errors or " abort\n" in told or found != wanted._replace(ends=ends):
        sys.exit(f"replay {words}:\n{text}{errors}\nand the source:\n{wanted}")
    with open(f"{room}/schedule", "w", encoding="utf-8") as schedule:
        schedule.write(printed(txc, "replay", *words, "--print-schedule")[1])
    other = printed(txc, "replay", *words[:3], "--schedule", f"{room}/schedule")
    if other != (status, text, errors):
        sys.exit(f"replay {words} and of its schedule:\n{text}{other[1]}{other[2]}")
    return "same"


def main():
    given = asked(__doc__, count("programs", 100), TXC)
    chance, came = random.Random(0), collections.Counter()
    with tempfile.TemporaryDirectory(prefix="turns-") as room:
        files = sorted(glob.glob(f"{TOP}/examples/*.c"))
        for seed in range(1, given.programs + 1):
            files.append(f"{room}/{seed}.c")
            with open(files[-1], "w", encoding="utf-8") as program:
                program.write(text_of(Program(seed, 4, {}).items()))
        for file in files:
            for threads in (1, 2, 3, 4):
                for _ in range(ORDERS):
                    came[hold(given.txc, file, threads, drawn_order(chance, threads), room)] += 1
    print(", ".join(f"{many} {what}" for what, many in came.most_common()))
    return 0 if came["same"] else 1


if __name__ == "__main__":
    sys.exit(main())
