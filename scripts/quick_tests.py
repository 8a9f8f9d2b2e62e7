#!/usr/bin/env python3
"""Runs all tests in minutes, WITHOUT PROVING ANYTHING.

    scripts/quick_tests.py [--jobs N] [--unchecked] [CRATE..]

It compiles the tests of each crate, or of the given ones, by `rt try --test`, and runs them. `rt try` adds checks to
the code (of bounds, of sums that wrap, of freed memory). If code breaks a contract, a test or a check may fail here;
only `.ci/run` proves that none is broken.

With --unchecked the tests are compiled as scripts/quick_build.py compiles the program, without these checks and
optimised, which takes a fraction of the time. A sum that wraps, or an index out of bounds, is then noticed only by its
consequences.

--jobs N is the number of crates at once [default: the number of processors, at most 4]. Each needs up to 2 GB. A line
reports the result of each crate's tests when they end, and their seconds of processor. The output of a crate follows if
a test failed or did not run, and the exit status is then 1. Nothing is written except a folder that is removed.
"""

import os
import re
import resource
import sys
import tempfile
import time
from concurrent.futures import ThreadPoolExecutor, as_completed

from gate_cost import has_tests, libraries, measure
from lib.words import TOP, reader
from quick_build import compare_logic, copy_sources, keep_bitcode, kit, linked, make_links

RESULT = re.compile(r"^test result: (ok\. )?.*$", re.M)
# On the clock, for each test: the machine may have other work.
SECONDS = "3600"
# These take by far the longest, and begin first; of the others those with the longest sources.
LONGEST = ("serving_replays_tests", "lower_tests", "serving_tests")
# Bytes of stack of a program's main thread: with checks in the code, frames that fit into the usual 8 MiB do not.
STACK = 64 << 20


def size_of(crate):
    """How many bytes the sources of a crate have."""
    walked = os.walk(f"{TOP}/crates/{crate}/src")
    return sum(os.path.getsize(f"{at}/{name}") for at, _, names in walked for name in names)


def enlarge_stack():
    """Gives what is run from here on more stack, as far as the system lets it."""
    most = resource.getrlimit(resource.RLIMIT_STACK)[1]
    resource.setrlimit(resource.RLIMIT_STACK, (STACK if most == resource.RLIM_INFINITY else min(STACK, most), most))


def tried(crate, work, limit=SECONDS):
    """Tries a crate's tests: whether all passed, their result, the seconds of processor, and all that was printed. The
    limit is in seconds on the clock, for each test."""
    with open(f"{work}/{crate}", "w+", encoding="utf-8", errors="replace") as said:
        words = [f"{work}/kit/bin/rt", "try", "--test", "--seconds", limit]
        status, seconds, _ = measure(words, f"{work}/sources/crates/{crate}", said)
        said.seek(0)
        text = said.read()
    result = RESULT.search(text)
    return status == 0 and result and result[1], result[0] if result else f"ended in status {status}", seconds, text


def tried_unchecked(crate, work, limit=SECONDS):
    """The same, without checks in the code."""
    links, bitcode, program = (f"{work}/{crate}.{it}" for it in ("kit", "bc", "tests"))
    folder = f"{work}/sources/crates/{crate}"
    make_links(kit(), links)
    keep_bitcode(kit(), links, bitcode)
    with open(f"{work}/{crate}", "w+", encoding="utf-8", errors="replace") as said:
        _, seconds, _ = measure([f"{links}/bin/rt", "try", "--test"], folder, said)
        if os.path.exists(bitcode):
            said.seek(0)
            said.truncate()
            linked(bitcode, f"{work}/sources", links, program)
            _, more, _ = measure([f"{kit()}/bin/rattle-test", "--seconds", limit, program], folder, said)
            seconds += more
        said.seek(0)
        text = said.read()
    result = RESULT.search(text)
    return result and result[1], result[0] if result else "the tests were not run", seconds, text


def main():
    words = reader(__doc__)
    words.add_argument("--jobs", type=int, default=min(4, os.cpu_count() or 1))
    words.add_argument("--unchecked", action="store_true")
    words.add_argument("crates", nargs="*", metavar="CRATE")
    given = words.parse_args()
    known = [it for it in libraries() if has_tests(f"{TOP}/crates/{it}")]
    known.sort(key=lambda it: (it in LONGEST, size_of(it)), reverse=True)
    if unknown := [it for it in given.crates if it not in known]:
        sys.exit(f"no crate with tests: {', '.join(unknown)}; these are: {', '.join(known)}")
    compare_logic()
    enlarge_stack()
    failed, begun = [], time.monotonic()
    with tempfile.TemporaryDirectory(prefix="txc-quick-tests-") as work, ThreadPoolExecutor(given.jobs) as pool:
        copy_sources(f"{work}/sources")
        make_links(kit(), f"{work}/kit")
        one_try = tried_unchecked if given.unchecked else tried
        runs = {pool.submit(one_try, it, work): it for it in given.crates or known}
        try:
            for run in as_completed(runs):
                passed, result, seconds, text = run.result()
                print(f"{runs[run]}: {result} ({seconds:.0f} s of processor)", flush=True)
                if not passed:
                    failed.append(runs[run])
                    print(text, flush=True)
        except KeyboardInterrupt:
            # (what is running got the signal too)
            pool.shutdown(cancel_futures=True)
            raise
    used = resource.getrusage(resource.RUSAGE_CHILDREN)
    seconds, minutes = used.ru_utime + used.ru_stime, (time.monotonic() - begun) / 60
    print(f"{len(runs)} crates, {seconds:.0f} s of processor, {minutes:.1f} minutes on the clock; nothing was proved")
    if failed:
        sys.exit(f"not all tests passed: {', '.join(sorted(failed))}")


if __name__ == "__main__":
    main()
