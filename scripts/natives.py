#!/usr/bin/env python3
"""Compares native programs (scripts/native.py) with the source. Each random program runs with sequentially consistent
accesses and with acquire and release, and with one to four threads. `txc certify` has to confirm each run: its report
is, byte for byte, what the source prints in the order of transactions that the run wrote down. For native programs with
a planted fault, some run must not be certified. The faults: validation passes over a changed word, the lock is not
checked after a read, the lock is released before the stores, an `unsigned` sum does not wrap.

    scripts/natives.py [PROGRAMS] [--txc PATH]

PROGRAMS is the number of random programs. Runs that stop, and those for which `txc certify` has no memory, are counted
and left out. A program with a run that is not certified is kept as out/natives-SEED.c.
"""

import collections
import os
import shutil
import subprocess
import sys
import tempfile

import native
from lib.programs import WEIGHTS, Program, text_of
from lib.words import TOP, TXC, asked, count, txc

# The exit statuses of `txc certify`.
CERTIFIED, REFUTED = 0, 5
RUNS = 60
# Money goes from account to account, and their sum is checked before each transfer, and in it.
CONTENDED = """int account[512];
unsigned wrong;
int sum(void) {
    int sum = 0;
    for (int k = 0; k < 512; k++) sum += account[k];
    return sum;
}
void worker(int self) {
    int lost = 0;
    for (int i = 0; i < 200; i++) {
        if (__transaction_atomic (sum()) != 0) lost++;
        __transaction_atomic {
            if (sum() != 0) wrong++;
            account[(97 * self + 31 * i) & 511] -= 1;
            account[(59 * self + 83 * i) & 511] += 1;
        }
    }
    printf("%d sums lost", lost);
}
"""
WRAPS = """int x;
void worker(int self) {
    unsigned u = 4294967295u;
    unsigned v = u + (unsigned)self + 1u;
    if (v != (unsigned)self) { printf("%d", 1); }
    __transaction_atomic { x = (v >> 31) > 0u; }
}
"""
# A fault: a program that shows it, a header, a text of the header, and the text in its place.
FAULTS = {
    "validation passes over a changed word": (
        CONTENDED,
        "machine.h",
        "                return DROPPED;\n        FENCE(acquire);",
        "                continue;\n        FENCE(acquire);",
    ),
    "the lock is not checked after a read": (
        CONTENDED,
        "machine.h",
        "if (SELDOM(atomic_load_explicit(&lock, LOAD_BEHIND) != t->snapshot)) {",
        "if (0) {",
    ),
    "the lock is released before the stores": (
        CONTENDED,
        "machine.h",
        "    FENCE(release);\n",
        "    atomic_store_explicit(&lock, t->snapshot + 2, STORE);\n",
    ),
    "an unsigned sum does not wrap": (
        WRAPS,
        "operators.h",
        "*to = U(U(a) + U(b));",
        "*to = (uint64_t)U(a) + U(b);",
    ),
}


def is_certified(program, exe, threads):
    """Whether a run is that of its order, and why it is left out, if it is."""
    count = ["--threads", str(threads)]
    with tempfile.NamedTemporaryFile() as order, tempfile.NamedTemporaryFile() as report:
        ran = subprocess.run([exe, *count, "--order-file", order.name], stdout=report, stderr=subprocess.DEVNULL)
        if ran.returncode not in (0, 3):
            return None, f"status {ran.returncode}"
        files = ["--order-file", order.name, "--report", report.name]
        told = subprocess.run([txc(), "certify", program, *count, *files], capture_output=True)
    if told.returncode not in (CERTIFIED, REFUTED):
        return None, f"no verdict: {told.stderr.decode().strip()}"
    return told.returncode == CERTIFIED, None


def hold(seed, room, came):
    """Holds runs of the program of a seed."""
    program = f"{room}/program.c"
    native.write(program, text_of(Program(seed, 4, WEIGHTS).items()))
    for is_weak in (False, True):
        native.compiled(native.text_of(program), f"{room}/program", is_weak=is_weak)
        for threads in (1, 2, 3, 4):
            certified, why = is_certified(program, f"{room}/program", threads)
            came["certified" if certified else f"left out ({why})" if certified is None else "not certified"] += 1
            if certified is False:
                os.makedirs(f"{TOP}/out", exist_ok=True)
                shutil.copy(program, f"{TOP}/out/natives-{seed}.c")
                print(f"seed {seed}, {threads} threads{', weak' * is_weak}: NOT CERTIFIED: out/natives-{seed}.c")


def refused(name, room):
    """The first run of a program with a fault planted that is not certified, if there is one."""
    text, header, old, new = FAULTS[name]
    headers = f"{room}/headers"
    shutil.copytree(native.HEADERS, headers, dirs_exist_ok=True)
    right = native.read(f"{headers}/{header}")
    if right.count(old) != 1:
        sys.exit(f"{header} has no place for the fault that {name}")
    native.write(f"{headers}/{header}", right.replace(old, new))
    native.write(f"{room}/fault.c", text)
    native.compiled(native.text_of(f"{room}/fault.c"), f"{room}/fault", headers=headers)
    runs = (is_certified(f"{room}/fault.c", f"{room}/fault", 4)[0] for _ in range(RUNS))
    return next((number for number, certified in enumerate(runs, 1) if certified is False), None)


def main():
    given = asked(__doc__, count("programs", 1000), TXC)
    os.environ["TXC"] = given.txc
    came = collections.Counter()
    with tempfile.TemporaryDirectory(prefix="natives-") as room:
        for seed in range(1, given.programs + 1):
            hold(seed, room, came)
        print(f"{given.programs} programs: {', '.join(f'{many} runs {what}' for what, many in came.most_common())}")
        unseen = []
        for name in FAULTS:
            first = refused(name, room)
            print(f"{name}: " + (f"run {first} is not certified" if first else f"all {RUNS} runs are certified"))
            unseen += [name] * (first is None)
    return 1 if unseen or came["not certified"] else 0


if __name__ == "__main__":
    sys.exit(main())
