#!/usr/bin/env python3
"""Compares replays with the source. Each program of examples/ is replayed by SEEDS seeds, with two to four threads, and
half of the replays are cut off early. If no thread holds the lock at the end, the source runs in the order of the
transactions in the replay's events. Both have to leave the same memory. Each thread of the replay has to have printed a
prefix of its text there, and if it has ended, it has to have ended in the same way.

  scripts/replays.py [SEEDS] [--txc PATH]

The order is that of the events: each commit, each trap, and each cancel of an outermost transaction is one turn. A
transaction that is cancelled, or that writes nothing, may have read an earlier memory than that before its event, if
others committed in between. If the order of the events does not give the result of the replay, it is therefore enough
that another one does in which such turns come earlier, after their thread's turn before.
"""

import glob
import os
import re
import subprocess
import sys

from lib.words import TOP, TXC, asked, count

STEPS = 40_000
# How many places are tried of the turns of one replay.
MOST_RUNS = 5_000
REPORT = re.compile(r"(?:== events\n(?P<events>.*?))?(?P<threads>== thread .*?)== memory(?P<memory>.*)", re.S)
THREAD = re.compile(r"^== thread \d+: (.*)\n((?:(?!== ).*\n)*)", re.M)


def report(txc, *words):
    """The events, the threads' ends and texts, and the memory that the program prints."""
    done = subprocess.run([txc, *words], capture_output=True, text=True, check=False)
    found = REPORT.fullmatch(done.stdout)
    if not found or done.stderr:
        sys.exit(f"{' '.join(words)}: {done.stdout}{done.stderr}")
    return (found["events"] or "").splitlines(), THREAD.findall(found["threads"]), found["memory"]


def cancels_inside(source):
    """Whether the program's cancels are of transactions inside others. They have to be all of one kind. An outer
    cancel is taken for one of an outermost transaction."""
    kinds, blocks, opens = set(), [], False
    for word in re.findall(r"//.*|__transaction_cancel \[\[outer\]\]|__transaction_\w+|[{}]", source):
        if word == "{":
            blocks.append(opens)
        elif word == "}":
            blocks.pop()
        elif word.startswith("__transaction_cancel"):
            kinds.add(sum(blocks) > 1 and "outer" not in word)
        opens = word in ("__transaction_atomic", "__transaction_relaxed")
    assert len(kinds) < 2
    return kinds == {True}


def turns(events, inside):
    """The thread of each turn."""
    for event in events:
        _, thread, what, *_ = event.split()
        if what in ("commit", "trap") or what == "cancel" and not inside:
            yield thread


class Source:
    """A program's source, run by turns."""

    def __init__(self, txc, file, threads):
        self.words = [txc, "source", file, "--threads", threads, "--order"]

    def run(self, order):
        _, threads, memory = report(*self.words, ",".join(order))
        return threads, memory

    def gives(self, order, replayed, memory):
        """Whether the order leaves this memory, and what threads of a replay have printed and how they have ended."""
        threads, left = self.run(order)
        return left == memory and all(
            text.startswith(part.rstrip("\n")) and (end == "running" or end == there)
            for (end, part), (there, text) in zip(replayed, threads)
        )

    def placed(self, found, replayed, memory):
        """Whether some order gives the result of the replay, in which each turn that changes something comes after
        those before it, and each that changes nothing comes there or earlier, after its thread's turn before."""
        left = MOST_RUNS

        def fits(order, at, thread, was):
            nonlocal left
            left -= 1
            threads, became = self.run(order[:at] + [thread] + order[at:])
            text, printed = threads[int(thread)][1].rstrip("\n"), replayed[int(thread)][1].rstrip("\n")
            return became == was and (text.startswith(printed) or printed.startswith(text))

        def go(order):
            if len(order) == len(found):
                return self.gives(order, replayed, memory)
            thread, was = found[len(order)], self.run(order)[1]
            first = len(order) - order[::-1].index(thread) if thread in order else 0
            places = [len(order)]
            if self.run(order + [thread])[1] == was:
                places = (at for at in range(len(order), first - 1, -1) if left > 0 and fits(order, at, thread, was))
            return any(go(order[:at] + [thread] + order[at:]) for at in places)

        return go([])


def main():
    given = asked(__doc__, count("seeds", 200), TXC)
    txc = given.txc
    wrong = 0
    sys.setrecursionlimit(STEPS)
    for file in sorted(glob.glob(f"{TOP}/examples/*.c")):
        with open(file, encoding="utf-8") as text:
            inside = cancels_inside(text.read())
        same, moved, held = 0, 0, 0
        for seed in range(1, given.seeds + 1):
            threads, steps = str(2 + seed % 3), str(STEPS if seed % 2 else 5 * seed)
            events, replayed, memory = report(
                txc, "replay", file, "--threads", threads, "--seed", str(seed), "--steps", steps
            )
            if memory.startswith(": lock held"):
                held += 1
                continue
            source, found = Source(txc, file, threads), list(turns(events, inside))
            if source.gives(found, replayed, memory):
                same += 1
            elif source.placed(found, replayed, memory):
                moved += 1
            else:
                wrong += 1
                print(f"{os.path.basename(file)}: {threads} threads, seed {seed}: not what the source gives")
        print(
            f"{os.path.basename(file)}: {same} in the order of events, {moved} with turns moved,"
            f" {held} left with the lock held"
        )
    sys.exit(wrong > 0)


if __name__ == "__main__":
    main()
