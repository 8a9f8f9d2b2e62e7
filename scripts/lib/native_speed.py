"""The case `native` of scripts/bench.py: native programs (scripts/native.py) of the workloads that share data, `txc
run`, NOrec written by hand (scripts/workloads/norec.c) and GCC's transactional memory, with one and four threads; and
what a certificate costs.

Every implementation runs once in each round. It prints times of whole processes on the clock, the least of the rounds
with one thread and the median with four, and means of their ratios: `native` with sequentially consistent accesses,
`weak` with acquire and release. libitm runs by its method ml_wt, and by its default one. Then, for runs with one thread
and with four that wrote down their order: how many transactions, the time of the run, and time and memory of `txc
certify`.
"""

import math
import os
import resource
import statistics
import subprocess
import sys
import tempfile
import time

import native
from lib.words import TOP, txc, use

BENCH = f"{TOP}/examples/bench"
WORKLOADS = f"{TOP}/scripts/workloads"
SHARED = ["counter", "bank", "list", "hashset", "longread", "disjoint", "sieve"]
BY_HAND = SHARED[:-1]
SIDES = ["txc run", "native", "weak", "by hand", "ml_wt", "libitm"]
# A name, what is divided by what, and of which workloads.
RATIOS = [("txc run", "native"), ("native", "by hand"), ("weak", "by hand"), ("native", "ml_wt"), ("native", "libitm")]


def built(room):
    """Makes all programs."""
    gcc = ["gcc", "-O2", "-w", "-pthread"]
    subprocess.run([*gcc, f"{WORKLOADS}/norec.c", "-o", f"{room}/norec"], check=True)
    for name in SHARED:
        file = f"{BENCH}/{name}.c"
        for is_weak in (False, True):
            native.compiled(native.text_of(file), f"{room}/{name}{'.weak' * is_weak}", is_weak=is_weak)
        files = [file, f"{WORKLOADS}/threads.c", "-o", f"{room}/{name}.gcc"]
        subprocess.run([*gcc, "-fgnu-tm", *files, "-litm"], check=True)


def sides(room, name, threads):
    """The command of each side, and its environment."""
    count, all_of = str(threads), {**os.environ}
    found = {
        "txc run": ([txc(), "run", f"{BENCH}/{name}.c", "--threads", count], all_of),
        "native": ([f"{room}/{name}", "--threads", count], all_of),
        "weak": ([f"{room}/{name}.weak", "--threads", count], all_of),
        "ml_wt": ([f"{room}/{name}.gcc", count], {**all_of, "ITM_DEFAULT_METHOD": "ml_wt"}),
        "libitm": ([f"{room}/{name}.gcc", count], all_of),
    }
    if name in BY_HAND:
        found["by hand"] = ([f"{room}/norec", name, count], all_of)
    return found


def clock(words, environment, out=subprocess.DEVNULL):
    """Milliseconds of a process, and how it ended."""
    start = time.perf_counter()
    status = subprocess.run(words, env=environment, stdout=out, stderr=subprocess.DEVNULL).returncode
    return 1000 * (time.perf_counter() - start), status


def measured(room, rounds, threads):
    """The time of each side at each workload."""
    rows = {}
    for name in SHARED:
        times = {side: [] for side in sides(room, name, threads)}
        for _ in range(rounds):
            for side, (words, environment) in sides(room, name, threads).items():
                took, status = clock(words, environment)
                if status:
                    sys.exit(f"{name}, {threads} threads, {side}: status {status}")
                times[side].append(took)
        one_of = min if threads == 1 else statistics.median
        rows[name] = {side: one_of(found) for side, found in times.items()}
        shown = [f"{rows[name][side]:.1f}" if side in rows[name] else "" for side in SIDES]
        print(f"| `{name}` | {' | '.join(shown)} |", flush=True)
    return rows


def mean(rows, over, under):
    """The geometric mean of a ratio."""
    found = [math.log(row[over] / row[under]) for row in rows.values() if over in row and under in row]
    return math.exp(sum(found) / len(found))


def certificate(room, name, threads):
    """Prints what the certificate of one run costs."""
    count, order, report = ["--threads", str(threads)], f"{room}/order", f"{room}/report"
    with open(report, "wb") as out:
        ran, status = clock([f"{room}/{name}", *count, "--order-file", order], None, out)
    if status:
        return print(f"| `{name}` | {threads} | status {status} |")
    many = native.read(order).replace(",", " ").split()
    words = [txc(), "certify", f"{BENCH}/{name}.c", *count, "--order-file", order, "--report", report]
    start = time.perf_counter()
    told = subprocess.Popen(words, stdout=subprocess.PIPE, stderr=subprocess.STDOUT, preexec_fn=limited)
    said = told.stdout.read().decode().splitlines()
    _, _, used = os.wait4(told.pid, 0)
    took = time.perf_counter() - start
    verdict = said[0] if said else "nothing"
    print(f"| `{name}` | {threads} | {len(many):,} | {ran:.0f} | {took:.2f} | {used.ru_maxrss // 1024:,} | {verdict} |", flush=True)


def limited():
    """Limits the memory that a certificate may take."""
    resource.setrlimit(resource.RLIMIT_AS, (6 << 30, 6 << 30))


def measure(program, rounds):
    """Prints the tables."""
    use(program)
    with tempfile.TemporaryDirectory(prefix="native-speed-") as room:
        built(room)
        for threads in (1, 4):
            print(f"\n{threads} threads, ms: {', '.join(SIDES)}")
            rows = measured(room, rounds, threads)
            for over, under in RATIOS:
                print(f"{over} / {under}: {mean(rows, over, under):.2f}")
        print("\ncertificates: threads, transactions, run in ms, certificate in s, MB, what it says")
        for name in SHARED:
            for threads in (1, 4):
                certificate(room, name, threads)
