#!/usr/bin/env python3
"""Shows how often tests find the bug of examples/seats.c, and how `txc outcomes` does: prints a table in Markdown.

    scripts/stress.py [RUNS] [--txc PATH]

Two threads buy one seat, and the bug is that both get it (`sold = 2`). GCC builds the program with -O2 -fgnu-tm and a
`main` that starts two threads RUNS times, each time from the first values of the globals: once with nothing else, and
once with a barrier at which both threads wait first. Then each call of `txc run` and each seed of `txc replay` is one
test. Chance decides the rows of real threads, and so does what else the machine does. Without gcc or libitm the first
two rows are left out. 60,000 runs [default] took four minutes on a busy machine.
"""

import subprocess
import sys
import tempfile

from lib.words import TOP, TXC, asked, count

SEATS = f"{TOP}/examples/seats.c"
SOLD_TWICE = "sold = 2"
CALLS, SEEDS = 400, 200
MAIN = """#include <pthread.h>
#include <stdio.h>
#include <stdlib.h>
#include "%s"
static pthread_barrier_t both;
static int waits;
static void *run(void *self) {
    if (waits)
        pthread_barrier_wait(&both);
    worker(self != NULL);
    return NULL;
}
int main(int argc, char **argv) {
    int runs = atoi(argv[1]), bad = 0, first = 0;
    waits = argc > 2;
    pthread_barrier_init(&both, NULL, 2);
    for (int i = 1; i <= runs; i++) {
        pthread_t one, other;
        seats = 1;
        sold = 0;
        if (pthread_create(&one, NULL, run, NULL) || pthread_create(&other, NULL, run, &both))
            return 1;
        pthread_join(one, NULL);
        pthread_join(other, NULL);
        if (sold == 2 && ++bad == 1)
            first = i;
    }
    printf("%%d %%d\\n", bad, first);
    return 0;
}
"""


def output_of(*command):
    """What a command prints; its exit status may be any."""
    return subprocess.run(command, stdout=subprocess.PIPE, stderr=subprocess.DEVNULL, text=True, check=False).stdout


def built(folder):
    """The program that GCC makes, or None."""
    program = f"{folder}/seats"
    with open(f"{program}.c", "w", encoding="utf-8") as file:
        file.write(MAIN % SEATS)
    words = ["gcc", "-O2", "-fgnu-tm", "-pthread", f"{program}.c", "-o", program]
    try:
        subprocess.run(words, check=True, capture_output=True)
    except (OSError, subprocess.CalledProcessError):
        return None
    return program


def row(way, found, runs, first):
    """A row of the table: how many of the runs found the bug, and which one was the first."""
    return f"| {way} | {found:,} of {runs:,} | {f'{first:,}' if found else 'none'} |"


def gcc_rows(runs):
    """The rows of GCC."""
    with tempfile.TemporaryDirectory() as folder:
        program = built(folder)
        if program is None:
            print("stress.py: no gcc with libitm: its rows are left out", file=sys.stderr)
            return
        for way, more in (("two new threads each time", []), ("the same, with a barrier at which both begin", ["1"])):
            found, first = map(int, output_of(program, str(runs), *more).split())
            yield row(f"`gcc -O2 -fgnu-tm`, {way}", found, runs, first)


def txc_row(way, commands):
    """The row of calls of txc, each of which is a test."""
    found = [number for number, words in enumerate(commands, 1) if SOLD_TWICE in output_of(*words).splitlines()]
    return row(way, len(found), len(commands), min(found, default=0))


def main():
    given = asked(__doc__, count("runs", 60000, 1), TXC)
    program = given.txc
    print("| Test | Runs that sold the seat twice | First at run |\n|---|---|---|")
    for line in gcc_rows(given.runs):
        print(line, flush=True)
    run = [program, "run", SEATS, "--threads", "2"]
    print(txc_row("`txc run`", [run] * CALLS), flush=True)
    seeds = [[program, "replay", SEATS, "--threads", "2", "--seed", str(seed)] for seed in range(1, SEEDS + 1)]
    print(txc_row(f"`txc replay --seed 1`, `2`, .. `{SEEDS}`", seeds), flush=True)
    print(txc_row("`txc outcomes`", [[program, "outcomes", SEATS, "--threads", "2"]]))


if __name__ == "__main__":
    main()
