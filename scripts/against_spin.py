#!/usr/bin/env python3
"""Compares the lists of `txc outcomes` with what SPIN finds, which shares no code with its search.

    scripts/against_spin.py [PROGRAMS] [--threads N] [--measure] [--txc PATH]

Hand-written models (examples/promela): SPIN has to find the same final values and texts as the list, and a deadlock if
and only if a schedule is stuck. Generated models (scripts/spin.py) of examples/ and of PROGRAMS random programs, of
which many wait in loops, with two threads and with three, or with N: SPIN has to reach the same reports, byte for byte,
and states from which no end is reachable if and only if a schedule is stuck; each report that is listed as stuck has to
be one of theirs. Trails of violated properties have to be orders that lead `txc source` to the violation. Last come the
claims and the output of the part on SPIN in docs/TUTORIAL.md.

With --measure it prints the table of docs/PERFORMANCE.md instead, the least processor time of three rounds.

SPIN is Debian's package `spin` (6.5.2). If it is not installed, nothing is compared.
"""

import glob
import os
import re
import shutil
import sys
import tempfile

import outcomes
from lib import spin_speed
from lib.listing import read, write
from lib.programs import Program, text_of
from lib.spin_runs import MODELS, generated, hand_written, output_of, verified
from lib.words import TOP, TXC, asked, count, use
from properties import memory_of

# A hand-written model, the example that it models, and with how many threads they are compared.
PAIRS = (
    ("counter_stays", "counter.c", (2, 3, 5)),
    ("booking", "booking.c", (2, 3, 5)),
    ("drain", "drain.c", (2, 3, 4)),
    ("hashset", "hashset.c", (2, 3, 4)),
    ("locks_blocking", "locks.c", (2,)),
    ("ticket", "ticket.c", (2, 3, 4)),
    ("queue", "queue.c", (2,)),
    ("waiting_queue", "properties/queue.c", (2, 3, 4, 5)),
    ("philosophers", "properties/philosophers_broken.c", (2, 3, 4)),
)
# What docs/TUTORIAL.md says: a model, more words for SPIN, and what its verifier prints.
CLAIMS = (
    ("seats", [], r"assertion violated \(sold<=1\)"),
    ("locks_polling", ["-o2"], r"errors: 0"),
    ("locks_blocking", ["-o2"], r"invalid end state \(at depth 1\)"),
    ("counter", [], r"END 9\b"),
    ("counter", ["-o2"], r"(?s)\A(?!.*END (?!6\n)).*END 6\n.*\b31 states, stored"),
    ("counter_stays", ["-o2"], r"\b25 states, stored"),
)
# Properties of examples that fail with three threads, each with what is so in memory if it does.
VIOLATED = {
    ("properties/lock_broken.c", "alone"): lambda memory: memory["inside"][0] > 1,
    ("properties/seats_broken.c", "no_seat_twice"): lambda memory: memory["seats"][0] < 0,
    ("properties/bank_broken.c", "kept"): lambda memory: sum(memory["account"]) != 60,
}
# Examples with a deadlock with three threads.
STUCK = ("properties/philosophers_broken.c", "properties/queue.c")
# Random programs are this small, and many of them wait.
SHAPE = {"room": 2, "call": 1, "leave": 1, "wait": 2, "alike": 1}
REPORT = re.compile(r"^== (outcome|stuck)\n(.*?)(?=^== (?:outcome|stuck)\n|^== outcomes: )", re.S | re.M)
LAST = re.compile(r"^== outcomes: \d+, stuck: (\d+), states: (\d+)(, stopped)?$", re.M)


def numbers_of(report):
    """The numbers of a report: those that each thread printed, then those in memory."""
    lines = [it for it in report.splitlines() if not it.startswith("== ")]
    return tuple(int(it) for line in lines for it in re.findall(r"(?<![\w])-?\d+", line.partition(" = ")[2] or line))


def hold_pair(txc, model, file, threads, room):
    """Ends if a hand-written model and the list of its example differ."""
    ends, stuck, is_whole = outcomes.listed(txc, f"{TOP}/examples/{file}", threads)
    printed, errors = verified(hand_written(room, model, threads, "-o2"), "-c0", "-m1000000", "-w20")
    found = {tuple(map(int, it.split())) for it in re.findall(r"^ *END (.*)$", printed, re.M)}
    wanted = {numbers_of(report) for _, report in ends}
    if not is_whole or found != wanted or len(found) != len(ends) or bool(errors) != bool(stuck):
        sys.exit(
            f"{model}.pml with {threads} threads: {len(found)} ends and {errors} deadlocks, and the list of {file} has"
            f" {len(ends)} and {len(stuck)} stuck; the model alone has {sorted(found - wanted)[:3]}, the list alone"
            f" {sorted(wanted - found)[:3]}"
        )
    return len(ends)


def hold_generated(txc, file, threads, room):
    """Ends if a generated model and the list of its program differ. Otherwise how many outcomes, stuck reports and
    states the model has, and how many states the list; None if the list is not whole."""
    ends, stuck, is_whole = outcomes.listed(txc, file, threads)
    if not is_whole:
        return None
    printed, errors = verified(generated(room, file, threads, "-DREPORTS"), "-c0", "-m1000000", "-w18")
    reports = {"outcome": [], "stuck": []}
    for what, report in REPORT.findall(printed):
        reports[what].append(report)
    last = LAST.search(printed)
    wanted = sorted(report for _, report in ends)
    is_same = sorted(set(reports["outcome"])) == wanted and {report for _, report in stuck} <= set(reports["stuck"])
    if not last or last[3] or not is_same or bool(stuck) != (last[1] != "0") or errors and not stuck:
        shown = f"{len(ends)} outcomes and {len(stuck)} stuck reports, and the model has\n{printed[-20000:]}"
        sys.exit(f"{file} with {threads} threads: the list has {shown}")
    states = outcomes.printed(txc, "outcomes", file, threads)[1].rpartition("states: ")[2].partition(",")[0]
    return len(ends), len(stuck), int(last[2]), int(states)


def hold_all(txc, files, threads, room, what):
    """Compares the models of programs, and prints how many outcomes and states they have together."""
    came = [it for it in (hold_generated(txc, file, threads, room) for file in files) if it]
    ends, stuck, states, others = (sum(it[at] for it in came) for at in range(4))
    print(
        f"{len(came)} {what}, {threads} threads: {ends} outcomes, {sum(it[1] > 0 for it in came)} programs with stuck"
        f" schedules ({stuck} reports), {states} states; {others} in the lists",
        flush=True,
    )


def hold_trail(txc, file, threads, asked, room):
    """Ends if the trail of a verifier does not lead the source to where the property is violated; without a property,
    to where some threads wait."""
    path = f"{TOP}/examples/{file}"
    verifier = generated(room, path, threads, asked=asked)
    errors = verified(verifier, "-m1000000", "-w18")[1]
    said = output_of(room, verifier, "-r", "-S")
    order = re.search(r"^--order (\S+)$", said, re.M)
    if not errors or not order:
        sys.exit(f"{file} with {threads} threads and {asked}: {errors} errors, and the trail is\n{said}")
    report = outcomes.in_order(txc, path, threads, order[1])
    if asked and not VIOLATED[file, asked[0][1]](memory_of(report)) or not asked and "waits" not in report:
        sys.exit(f"{file} with {threads} threads in the order {order[1]} is no violation of {asked}:\n{report}")


def hold_claims(room):
    """How many claims of docs/TUTORIAL.md about hand-written models do not hold."""
    wrong = 0
    if f"```promela\n{read(f'{MODELS}/seats.pml')}```" not in read(f"{TOP}/docs/TUTORIAL.md"):
        wrong += 1
        print("docs/TUTORIAL.md does not show examples/promela/seats.pml")
    for model, more, claim in CLAIMS:
        # With -c0 it does not stop at an error, so that every order prints.
        came = output_of(room, hand_written(room, model, 2, *more), "-c0" if model.startswith("counter") else "-c1")
        if not re.search(claim, came):
            wrong += 1
            print(f"{model}.pml {' '.join(more)}: the verifier does not print {claim!r}:\n{came}")
    return wrong


def hold_transcripts(room):
    """How many blocks of docs/TUTORIAL.md that begin with scripts/spin.py do not print what the page shows."""
    wrong = 0
    for block in re.findall(r"^```\n(\$ scripts/spin\.py .*?)^```$", read(f"{TOP}/docs/TUTORIAL.md"), re.S | re.M):
        commands = re.findall(r"^\$ ((?:.*\\\n)*.*)$", block, re.M)
        shown = re.sub(r"^\$ (?:.*\\\n)*.*\n", "", block, flags=re.M)
        came = output_of(room, "bash", "-c", "set -e\n" + "\n".join(commands))
        if came != shown:
            wrong += 1
            print(f"docs/TUTORIAL.md shows\n{shown}and this comes:\n{came}")
    return wrong


def drawn(room, seed, threads):
    """The file of a random program."""
    write(f"{room}/drawn{seed}.c", text_of(Program(seed, threads, SHAPE).items()))
    return f"{room}/drawn{seed}.c"


def transcripts_folder(txc, room):
    """A folder like the top of the repository, in which commands may write; `txc` is on the path."""
    os.makedirs(f"{room}/top/bin")
    for name in ("scripts", "examples"):
        os.symlink(f"{TOP}/{name}", f"{room}/top/{name}")
    os.symlink(txc, f"{room}/top/bin/txc")
    os.environ["PATH"] = f"{room}/top/bin:{os.environ['PATH']}"
    return f"{room}/top"


def compare(txc, programs, counts, room):
    """Compares everything; returns how much of docs/TUTORIAL.md is wrong."""
    came = [hold_pair(txc, model, file, it, room) for model, file, threads in PAIRS for it in threads]
    print(f"{len(PAIRS)} hand-written models, {len(came)} lists: {sum(came)} outcomes", flush=True)
    files = [it for folder in ("", "properties/") for it in sorted(glob.glob(f"{TOP}/examples/{folder}*.c"))]
    for threads in counts:
        hold_all(txc, files, threads, room, "examples")
        hold_all(txc, [drawn(room, seed, threads) for seed in range(1, programs + 1)], threads, room, "random programs")
    for file, name in VIOLATED:
        hold_trail(txc, file, 3, [("always", name)], room)
    for file in STUCK:
        hold_trail(txc, file, 3, (), room)
    print(f"{len(VIOLATED) + len(STUCK)} trails lead the source to where they should")
    wrong = hold_claims(room) + hold_transcripts(transcripts_folder(txc, room))
    print(f"{len(CLAIMS)} claims and the transcripts of docs/TUTORIAL.md, {wrong} wrong")
    return wrong


def main():
    threads = "--threads", {"type": int, "metavar": "N"}
    given = asked(__doc__, count("programs", 100), threads, "--measure", TXC)
    missing = [it for it in ("spin", "gcc") if not shutil.which(it)]
    if missing:
        print(f"not compared: {' and '.join(missing)} not installed")
        return 0
    use(given.txc)
    with tempfile.TemporaryDirectory(prefix="against-spin-") as room:
        if given.measure:
            return spin_speed.measure(given.txc, room)
        return 1 if compare(given.txc, given.programs, [given.threads] if given.threads else [2, 3], room) else 0


if __name__ == "__main__":
    sys.exit(main())
