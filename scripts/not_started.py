#!/usr/bin/env python3
"""Runs a program on 64 threads where there is no room for their stacks, and fails where that is not told as a thread
that was not started: fault 73, with nothing reported and the exit status 4. No test of the repository
can make that happen.

  scripts/not_started.py [--txc PATH]

A program with the checks of `rt try` will not do: these take more room than it is given.
"""

import resource
import subprocess
import sys

from lib.words import TOP, TXC, asked

MEBIBYTE = 1 << 20


def with_little_room():
    """A stack of each thread may have 64 MiB, and all that the program has 512."""
    resource.setrlimit(resource.RLIMIT_STACK, (64 * MEBIBYTE, 64 * MEBIBYTE))
    resource.setrlimit(resource.RLIMIT_AS, (512 * MEBIBYTE, 512 * MEBIBYTE))


def main():
    words = [asked(__doc__, TXC).txc, "run", f"{TOP}/examples/counter.c", "--threads", "64"]
    done = subprocess.run(words, capture_output=True, text=True, check=False, preexec_fn=with_little_room)
    if (done.stdout, done.stderr[:13], done.returncode) != ("", "txc: fault 73", 4):
        sys.exit(f"status {done.returncode}: {done.stdout}{done.stderr}")
    print(done.stderr, end="")


if __name__ == "__main__":
    main()
