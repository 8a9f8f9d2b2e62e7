#!/usr/bin/env python3
"""Runs a program under hostile conditions. Fails if it crashes, reports another error than the one that occurred, or
prints a report that differs from the usual one.

  scripts/hostile.py [--txc PATH]

It takes less than a minute, and needs Linux, and `gcc` for the first part:

  - each allocation of each command fails in turn, by a library that is loaded before the system's and counts the calls
    of `malloc` and its kin: the answer is `txc: out of memory`, fault 73 if a thread cannot start, or a whole report in
    which one step was not executed (stop 00)
  - standard output is full after each byte of a report, closed, or a pipe without a reader: `txc: cannot write`, after
    no more than what fits
  - the source is a FIFO, a directory, a file without read permission, or one that shrinks while it is read
  - 64 threads have 64 frames each
  - the address space is smaller than the program needs, from 20 MiB up in steps of 4
"""

import os
import resource
import shutil
import signal
import subprocess
import sys
import tempfile
import threading
from concurrent.futures import ThreadPoolExecutor

from lib.words import TOP, TXC, asked

MEBIBYTE = 1 << 20
OUT_OF_MEMORY = b"txc: out of memory\n"

# A program, a schedule for two threads, and an order of them.
PROGRAMS = {
    "cancels": (
        "int f, g = 1, h; void worker(int self) { if (self == 0) { __transaction_atomic { f = 1; h = 1; } } else {"
        " __transaction_atomic { __transaction_atomic { if (f == 0) { g = 9; __transaction_cancel; } g = 5; }"
        " g = g + h; } } }",
        "1 a5\n0 a6\n1 a13\n",
        "0,1",
    ),
    "prints": (
        'int x; void worker(int self) { __transaction_relaxed { x = x + 1; printf("%d\\n", x); } }',
        "0 a3\n1 a3\n0 a1\n1 a2\n0 a3\n1 a9\n",
        "0,1",
    ),
    "calls": (
        "void down(int k) { if (k > 0) down(k - 1); } void worker(int self) { down(62 + self); }",
        "0 9999\n1 9999\n",
        "",
    ),
}

# Refuses the growth whose number the environment's REFUSED has, from 1 on.
REFUSES = """
#define _GNU_SOURCE
#include <dlfcn.h>
#include <errno.h>
#include <stdatomic.h>
#include <stdlib.h>
static atomic_long left;
__attribute__((constructor)) static void begin(void) { const char *s = getenv("REFUSED"); left = s ? atol(s) : 0; }
static int refused(void) { return left > 0 && atomic_fetch_sub(&left, 1) == 1; }
#define NEXT(name) (name##_next ? name##_next : (name##_next = dlsym(RTLD_NEXT, #name)))
static void *(*malloc_next)(size_t), *(*realloc_next)(void *, size_t), *(*aligned_alloc_next)(size_t, size_t);
static int (*posix_memalign_next)(void **, size_t, size_t);
void *malloc(size_t n) { if (refused()) { errno = ENOMEM; return 0; } return NEXT(malloc)(n); }
void *realloc(void *p, size_t n) { if (refused()) { errno = ENOMEM; return 0; } return NEXT(realloc)(p, n); }
void *aligned_alloc(size_t a, size_t n) { if (refused()) { errno = ENOMEM; return 0; } \
return NEXT(aligned_alloc)(a, n); }
int posix_memalign(void **p, size_t a, size_t n) { return refused() ? ENOMEM : NEXT(posix_memalign)(p, a, n); }
"""

faults = []


def blame(what, done):
    """Notes that a run went otherwise than it should."""
    faults.append(f"{what}: status {done.returncode}, output {done.stdout!r}, errors {done.stderr!r}")


def run(words, **how):
    """Runs a command line to its end."""
    return subprocess.run(
        words, stdout=how.pop("stdout", subprocess.PIPE), stderr=subprocess.PIPE, timeout=60, check=False, **how
    )


def same(done, other):
    return (done.returncode, done.stdout, done.stderr) == (other.returncode, other.stdout, other.stderr)


def is_stopped(done):
    """Whether a report is whole, says that a step got no memory, and standard error says so too."""
    return (
        done.stdout.startswith(b"== ")
        and b": stop 00\n" in done.stdout
        and b"== memory" in done.stdout
        and not done.stderr
    )


def has_run(words, done, whole):
    """Whether a run is reported: its threads come to their ends in some order, or one has used up its budget while it
    waited for another that had the lock and was not given a processor."""
    is_spent = done.returncode == 4 and done.stdout.startswith(b"== thread 0: ") and b": budget\n" in done.stdout
    return words[1] == "run" and not done.stderr and (done.returncode == whole.returncode or is_spent)


def gives_up(done):
    """Whether an allocation failure is reported, and nothing else."""
    told = not done.stdout and (done.stderr == OUT_OF_MEMORY or done.stderr.startswith(b"txc: fault 73"))
    return done.returncode == 4 and (told or is_stopped(done))


def commands(txc, name, order):
    """The commands that run with a program."""
    file, schedule = f"{name}.c", ["--threads", "2", "--schedule", f"{name}.txt"]
    yield [txc, "check", file]
    yield [txc, "listing", file]
    yield [txc, "source", file, "--threads", "2", "--order", order]
    yield [txc, "outcomes", file, "--threads", "2"]
    yield [txc, "outcomes", file, "--threads", "2", "--refines", file]
    yield [txc, "outcomes", file, "--threads", "2", "--expect", f"{name}.list"]
    claim = ["--order-file", f"{name}.order", "--report", f"{name}.report"]
    yield [txc, "certify", file, "--threads", "2", *claim]
    yield [txc, "replay", file, *schedule]
    yield [txc, "replay", file, "--threads", "2", "--order", order]
    if name != "calls":  # of which a thousand steps are shown, by growths that are alike
        yield [txc, "replay", file, *schedule, "--timeline"]
        yield [txc, "replay", file, *schedule, "--picture"]
    yield [txc, "run", file, "--threads", "2", "--budget", "100000"]


def refuse_each(words, library):
    """Refuses each growth of a command line in turn, until twelve in a row are not met."""
    whole, refused, spared = run(words), 0, 0
    while spared < 12:
        refused += 1
        done = run(words, env={**os.environ, "LD_PRELOAD": library, "REFUSED": str(refused)})
        if same(done, whole) or has_run(words, done, whole):
            spared += 1
        elif gives_up(done):
            spared = 0
        else:
            return blame(f"{' '.join(words[1:])}, growth {refused} refused", done)


def refuse_growths(txc):
    if not shutil.which("gcc"):
        print("no gcc: no allocation failure is tried")
        return
    with open("refuses.c", "w", encoding="utf-8") as file:
        file.write(REFUSES)
    subprocess.run(["gcc", "-shared", "-fPIC", "-O1", "-o", "refuses.so", "refuses.c", "-ldl"], check=True)
    lines = [words for name, (_, _, order) in PROGRAMS.items() for words in commands(txc, name, order)]
    with ThreadPoolExecutor(os.cpu_count()) as pool:
        list(pool.map(lambda words: refuse_each(words, os.path.abspath("refuses.so")), lines))


def fits(room):
    """Files get no longer than this; a write beyond is an error and no signal."""

    def limit():
        signal.signal(signal.SIGXFSZ, signal.SIG_IGN)
        resource.setrlimit(resource.RLIMIT_FSIZE, (room, room))

    return limit


def fill_output(txc):
    """Standard output full after each byte of what it is to take."""
    for words in commands(txc, "prints", "0,1"):
        whole = run(words).stdout
        if words[1] == "run" or len(whole) > 2000:
            continue
        for room in range(len(whole)):
            with open("full", "wb+") as full:
                done = run(words, stdout=full, preexec_fn=fits(room))
                full.seek(0)
                written = full.read()
            if done.returncode != 4 or done.stderr != b"txc: cannot write\n" or not whole.startswith(written):
                blame(f"{' '.join(words[1:])}, {room} bytes fit, {written!r} written", done)
                break


def close_output(txc):
    words = [txc, "run", "cancels.c"]
    done = run(words, stdout=None, preexec_fn=lambda: os.close(1))
    if done.returncode != 4 or done.stderr != b"txc: cannot write\n":
        blame("standard output closed", done)
    reader, writer = os.pipe()
    os.close(reader)
    done = run(words, stdout=writer)
    os.close(writer)
    if done.returncode != 4 or done.stderr != b"txc: cannot write\n":
        blame("a pipe without a reader", done)


def feed(path, text):
    """Writes a text into a FIFO, a few bytes at a time."""
    with open(path, "wb", buffering=0) as fifo:
        for at in range(0, len(text), 7):
            fifo.write(text[at : at + 7])


def odd_files(txc):
    os.mkfifo("fifo.c")
    text = PROGRAMS["prints"][0].encode()
    feeding = threading.Thread(target=feed, args=("fifo.c", text))
    feeding.start()
    done = run([txc, "run", "fifo.c"])
    feeding.join()
    if not same(done, run([txc, "run", "prints.c"])):
        blame("a FIFO", done)
    os.mkdir("folder.c")
    shutil.copy("prints.c", "closed.c")
    os.chmod("closed.c", 0)
    for name in ("folder.c", "closed.c"):
        done = run([txc, "check", name])
        may_read = name == "closed.c" and os.access(name, os.R_OK)
        if not may_read and (
            (done.returncode, done.stdout, done.stderr) != (2, b"", f"txc: cannot read {name}\n".encode())
        ):
            blame(name, done)


def shrink(path, text, stop):
    """Makes a file shorter and longer, again and again."""
    while not stop.is_set():
        os.truncate(path, len(text) // 2)
        with open(path, "r+b") as file:
            file.write(text)


def shrinking_file(txc):
    text = PROGRAMS["prints"][0].encode() + b" " * 1_000_000
    with open("shrinks.c", "wb") as file:
        file.write(text)
    stop = threading.Event()
    shrinking = threading.Thread(target=shrink, args=("shrinks.c", text, stop))
    shrinking.start()
    for _ in range(50):
        done = run([txc, "check", "shrinks.c"])
        if not (
            done.returncode == 0 and done.stdout == b"accepted\n"
            or done.returncode in (1, 2) and done.stderr.startswith(b"txc: ")
        ):
            blame("a file that shrinks", done)
            break
    stop.set()
    shrinking.join()


def many_frames(txc):
    with open("frames.c", "w", encoding="utf-8") as file:
        file.write("void down(int k) { if (k > 0) down(k - 1); } void worker(int self) { down(62); }")
    done = run([txc, "run", "frames.c", "--threads", "64"])
    wanted = "".join(f"== thread {number}: ended\n" for number in range(64)) + "== memory\n"
    if (done.returncode, done.stdout.decode(), done.stderr) != (0, wanted, b""):
        blame("64 threads of 64 frames", done)


def in_space(space):
    """A program gets no more address space."""
    return lambda: resource.setrlimit(resource.RLIMIT_AS, (space, space))


def little_space(txc):
    """The report is whole and the same, or an error is reported. If not even the version is printed, the system has
    not loaded the program."""
    lines = [words for name, (_, _, order) in PROGRAMS.items() for words in commands(txc, name, order)]
    whole = [run(words) for words in lines]
    for space in range(20, 204, 4):
        if run([txc, "--version"], preexec_fn=in_space(space * MEBIBYTE)).returncode:
            continue
        for words, there in zip(lines, whole):
            done = run(words, preexec_fn=in_space(space * MEBIBYTE))
            if not same(done, there) and not has_run(words, done, there) and not gives_up(done):
                blame(f"{' '.join(words[1:])} in {space} MiB", done)


def main():
    txc = asked(__doc__, TXC).txc
    with tempfile.TemporaryDirectory() as folder:
        os.chdir(folder)
        for name, (text, schedule, order) in PROGRAMS.items():
            for file, content in ((f"{name}.c", text), (f"{name}.txt", schedule), (f"{name}.order", order)):
                with open(file, "w", encoding="utf-8") as opened:
                    opened.write(content)
            with open(f"{name}.report", "wb") as report:
                report.write(run([txc, "source", f"{name}.c", "--threads", "2", "--order", order]).stdout)
            with open(f"{name}.list", "wb") as listed:
                listed.write(run([txc, "outcomes", f"{name}.c", "--threads", "2"]).stdout)
        for part in (refuse_growths, fill_output, close_output, odd_files, shrinking_file, many_frames, little_space):
            part(txc)
        os.chdir(TOP)
    if faults:
        sys.exit("\n".join(faults))
    print("nothing crashed, and each error was reported")


if __name__ == "__main__":
    main()
