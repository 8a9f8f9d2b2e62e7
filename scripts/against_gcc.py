#!/usr/bin/env python3
"""Checks GCC's transactions (-fgnu-tm, libitm) with txc: reports each outcome of a program that no order of whole
transactions gives.

    scripts/against_gcc.py FILE [--threads T] [--runs N] [--pauses] [--all] ..
    scripts/against_gcc.py --generate SEED [--count N] [--threads T] [--keep FOLDER] ..
    scripts/against_gcc.py --tutorial [--txc PATH]

GCC builds the program at each level, with a harness (scripts/workloads/against.c) that calls `worker` in T threads N
times, each time from the initial values of the globals. Each build runs with each of libitm's methods. `txc source`
gives the allowed outcomes, order by order. A program that traps in one order is left out, since C does not define what
it does. A wrong outcome is reported with the allowed one that differs in the fewest words, and with that one's order.
The last line counts all runs: N for each build and method, or fewer if threads need more than 12 seconds, unless
--fresh is given.

--cc names another compiler that takes GCC's options, and --library a library in place of libitm that has GCC's ABI of
transactions. --report writes a self-contained C file for each program with a wrong outcome, whose `main` reports that
outcome (scripts/lib/gcc_reports.py).

--generate makes random programs and shrinks each that has a wrong outcome. --tutorial runs each call of this
script that a page of docs/ shows: with one thread GCC 12.2.0 has to print what the page shows; with more threads the
result depends on the schedule, and is only printed.

Exit status: 1 if there is a wrong outcome, 2 if a program is left out, an argument is invalid, or the compiler, its
library or txc is missing. txc is the program that --txc or $TXC names, the one that `rt run` or scripts/quick_build.py
makes, or `txc` on the path.
"""

import argparse
import collections
import glob
import os
import re
import shlex
import shutil
import signal
import subprocess
import sys
import tempfile
import time

from lib.gcc_reports import memory_code, report_commands, report_file
from lib.orders import LeftOut, Orders, report_of
from lib.programs import WEIGHTS, Program, shrunk, text_of
from lib.words import TOP, reader, txc, use

SHOWN = re.compile(r"^```\n\$ scripts/against_gcc\.py ([^\n]*)\n(.*?)^```$", re.M | re.S)
VERSION = "12.2.0"
LEVELS = "O0,O1,O2,O3"
METHODS = "default,serialirr,serialirr_onwrite,serial,gl_wt,ml_wt"
LEVEL = re.compile(r"O([0-3sgz]?|fast)")
# Before the program's text, so that its prints are kept, and a pause is no unsafe call.
BEFORE = """int against_print(const char *, ...);
__attribute__((transaction_pure)) void against_pause(void);
#define printf against_print
#line 1 "program.c"
"""
TRANSACTION = re.compile(r"(__transaction_(?:atomic|relaxed)(?:\s*\[\[outer\]\])?\s*\{)")
GLOBAL = re.compile(r"((?:signed\s+)?long\s+long(?:\s+int)?|unsigned int|signed int|unsigned|signed|int)\b(.*)$", re.S)
DECLARATOR = re.compile(r"\s*(\w+)\s*(?:\[\s*(\w+?)(?:[uU]|ll|LL)?\s*\])?")

# A wrong outcome: a report, what the build said, or what became of the run; in how many of the runs.
Wrong = collections.namedtuple("Wrong", "level method what count runs")
# What came of a program: its wrong outcomes, its orders, and how many runs were made.
Judged = collections.namedtuple("Judged", "found orders runs")


class Unusable(Exception):
    """Why nothing can be judged."""


def read(path):
    try:
        with open(path, encoding="utf-8") as file:
            return file.read()
    except (OSError, UnicodeDecodeError) as why:
        raise Unusable(f"cannot read {path}: {getattr(why, 'strerror', None) or 'it is not UTF-8'}") from why


def write(path, text):
    with open(path, "w", encoding="utf-8") as file:
        file.write(text)


# ---- what GCC makes of a program -------------------------------------------------------------------------------------


def size(text):
    """The value of an integer constant."""
    return int(text, 8) if re.match(r"0\d", text) else int(text, 0)


def globals_of(text):
    """(name, type, length or None) of each global: what stands outside of braces and parentheses."""
    text = re.sub(r"//[^\n]*|/\*.*?\*/", " ", text, flags=re.S)
    text, depth, level = re.sub(r"=\s*\{[^}]*\}", "", text), 0, []
    for it in text:
        depth -= it == "}"
        if depth == 0:
            level.append(";" if it in "{}" else it)
        depth += it == "{"
    for item in "".join(level).split(";"):
        found = GLOBAL.match(item.strip())
        if found and "(" not in item:
            kind = "unsigned" if found[1].startswith("unsigned") else "long long" if "long" in found[1] else "int"
            for it in found[2].split(","):
                name, length = DECLARATOR.match(it).groups()
                yield name, kind, size(length) if length else None


def gcc(asked, folder, *words):
    how = {"cwd": folder, "capture_output": True, "text": True, "errors": "replace"}
    return subprocess.run([*shlex.split(asked.cc), *words], check=False, **how)


def version_of(asked):
    """The version that the compiler tells, and its first line on itself."""
    try:
        version = gcc(asked, None, "-dumpfullversion").stdout.strip()
        return version, gcc(asked, None, "--version").stdout.partition("\n")[0]
    except OSError as why:
        raise Unusable(f"cannot run {asked.cc}: {why.strerror}") from why


def link_words(asked):
    """The words that link the library."""
    if not asked.library:
        return ["-litm"]
    library = os.path.abspath(asked.library)
    if not os.path.isfile(library):
        raise Unusable(f"cannot read {asked.library}: there is no such file")
    return [library, f"-Wl,-rpath,{os.path.dirname(library)}"]


def with_pauses(text):
    """A program's text that waits at random where it has marks, or where its transactions begin."""
    pauses = text.replace("/*pause*/", "against_pause();")
    return pauses if pauses != text else TRANSACTION.sub(r"\1 against_pause();", text)


class Builds:
    """A program built at each level, in a folder."""

    def __init__(self, folder, text, asked):
        self.folder, self.flags, self.threads, self.asked = folder, shlex.split(asked.flags), asked.threads, asked
        self.runs, self.is_fresh, self.made = asked.runs or (2 if asked.threads == 1 else 2000), asked.fresh, 0
        text = with_pauses(text) if asked.pauses else text
        write(f"{folder}/program.c", BEFORE + text)
        write(f"{folder}/memory.c", memory_code(globals_of(text)))
        harness = f"{TOP}/scripts/workloads/against.c"
        built = gcc(asked, folder, "-O1", "-w", "-pthread", "-c", harness, "memory.c")
        if built.returncode:
            raise Unusable(f"{asked.cc} does not build the harness: {built.stderr[:400]}")

    def at(self, level):
        """The program of a level, or what GCC said."""
        words = ["-std=gnu11", "-w", "-fgnu-tm", "-pthread", f"-{level}", *self.flags]
        built = gcc(self.asked, self.folder, *words, "-c", "program.c", "-o", f"{level}.o")
        if built.returncode == 0:
            objects, library = [f"{level}.o", "against.o", "memory.o"], link_words(self.asked)
            linked = gcc(self.asked, self.folder, "-pthread", *self.flags, *objects, *library, "-o", level)
            if linked.returncode:
                raise Unusable(f"{self.asked.cc} does not link the program: {linked.stderr.strip()[:400]}")
            return f"{self.folder}/{level}", None
        errors = [it for it in built.stderr.splitlines() if "error" in it]
        return None, (errors or [built.stderr.strip()])[0][:200]

    def outcomes(self, program, method):
        """The reports of all runs, counted, and what went wrong with the process, if anything did."""
        environment = {name: value for name, value in os.environ.items() if not name.startswith("ITM_")}
        if method != "default":
            environment["ITM_DEFAULT_METHOD"] = method
        words = [program, str(self.threads), str(self.runs), *["fresh"] * self.is_fresh]
        how = {"capture_output": True, "text": True, "check": False, "timeout": 60, "env": environment}
        try:
            done = subprocess.run(words, **how)
        except subprocess.TimeoutExpired:
            return collections.Counter(), "it does not end within 60 seconds"
        if "Unknown TM method" in done.stderr:
            raise Unusable(f"the library has no method {method}")
        counted = collections.Counter(map(report_of, done.stdout.split("== over\n")[:-1]))
        self.made += sum(counted.values())
        if done.returncode == 0:
            return counted, None
        said = done.stderr.strip().splitlines()[-1:]
        ended = f"status {done.returncode}" if done.returncode > 0 else signal.Signals(-done.returncode).name
        return counted, ": ".join([f"the process ends with {ended}", *said])


def judged(text, asked, first_only=False):
    """What comes of a program's text. With `first_only` it stops where something is wrong."""
    found = []
    with tempfile.TemporaryDirectory() as folder:
        file = f"{folder}/source.c"
        write(file, text)
        checked = subprocess.run([txc(), "check", file], capture_output=True, text=True, check=False)
        if checked.returncode:
            raise LeftOut(checked.stderr.strip().partition("\n")[0])
        orders = Orders(txc(), file, asked.threads)
        if asked.threads == 1 or asked.all:
            orders.look_at_all()
        builds = Builds(folder, text, asked)
        for level in asked.levels.split(","):
            program, error = builds.at(level)
            if error:
                found.append(Wrong(level, None, f"{asked.cc} does not build it: {error}", 1, 1))
            for method in asked.methods.split(",") if program else []:
                counted, ended = builds.outcomes(program, method)
                runs = sum(counted.values())
                found += [Wrong(level, method, it, counted[it], runs) for it in orders.unexplained(counted)]
                if ended and not (asked.no_deaths and "SIG" in ended):
                    found.append(Wrong(level, method, ended, 1, 1))
                if found and first_only:
                    return Judged(found, orders, builds.made)
        if found:
            orders.look_at_all()
    return Judged(found, orders, builds.made)


# ---- reports ---------------------------------------------------------------------------------------------------------


def counted_as(count, word):
    return f"{count} {word}" + "s" * (count != 1)


def shown(report):
    """The lines of a report: each thread's text in one, and the globals in one."""
    if isinstance(report, str):
        return [f"    {report}"]
    texts = [(thread, text.rstrip("\n").replace("\n", " | ")) for thread, text in enumerate(report.texts)]
    lines = [f"    thread {thread} prints {text}" for thread, text in texts if text]
    return [*lines, "    " + ", ".join(report.memory.splitlines())]


def where(wrongs, methods):
    """At which levels, by which methods and how often it came."""
    levels = collections.defaultdict(list)
    for it in wrongs:
        levels[it.level].append(it)
    every = [level for level, its in levels.items() if len(its) == methods and all(it.count == it.runs for it in its)]
    if every:
        yield "-" + ", -".join(every) + ", every method: every run"
    for level, its in levels.items():
        if level not in every and its[0].method is None:
            yield f"-{level}"
        elif level not in every:
            yield f"-{level}, " + ", ".join(f"{it.method}: {it.count} of {counted_as(it.runs, 'run')}" for it in its)


def told(it, asked):
    """The report of a program, line by line."""
    found, orders, runs = it
    by_what = collections.defaultdict(list)
    for it in found:
        by_what[it.what].append(it)
    for what, wrongs in by_what.items():
        yield "wrong outcome" if not isinstance(what, str) else "wrong"
        yield from (f"  {it}" for it in where(wrongs, len(asked.methods.split(","))))
        yield from shown(what)
        if not isinstance(what, str):
            report, order = orders.nearest(what)
            yield f"  nearest is the order {','.join(map(str, order))}:"
            yield from shown(report)
    if asked.all:
        for report, order in sorted(orders.found.items(), key=lambda it: it[1]):
            yield f"allowed, by the order {','.join(map(str, order))}"
            yield from shown(report)
    allowed = counted_as(len(orders.found), "outcome")
    known = f"{allowed} allowed" if orders.is_complete else f"{allowed} met, and allowed"
    yield f"{known}; {len(by_what)} wrong in {counted_as(runs, 'run')}"


def keep_report(name, text, it, asked):
    """Writes the report of a program that is wrong, and runs it once."""
    if not asked.report or not it.found:
        return
    os.makedirs(asked.report, exist_ok=True)
    text, variables = with_pauses(text) if asked.pauses else text, list(globals_of(text))
    write(f"{asked.report}/{name}.c", report_file(f"{name}.c", text, it, list(told(it, asked)), asked, variables))
    build, run = report_commands(f"{name}.c", it.found[0], asked)
    with tempfile.TemporaryDirectory() as folder:
        shutil.copy(f"{asked.report}/{name}.c", folder)
        how = {"cwd": folder, "shell": True, "capture_output": True, "text": True, "errors": "replace"}
        built = subprocess.run(build, check=False, **how)
        done = built if built.returncode else subprocess.run(run, check=False, **how)
    shows = "it tells the wrong outcome" if done.returncode else "it did not meet a wrong outcome when it was run"
    print(f"{asked.report}/{name}.c is the report: {shows}")


def judge_file(file, asked):
    """Reports what a file's program does under GCC. Returns the exit status."""
    text = read(file)
    it = judged(text, asked)
    print("\n".join(told(it, asked)))
    keep_report(os.path.splitext(os.path.basename(file))[0], text, it, asked)
    return 1 if it.found else 0


def is_still_wrong(first, asked, end):
    """Whether a smaller program is wrong in the same way, at the level and by the method of the first wrong outcome."""
    asked = argparse.Namespace(**{**vars(asked), "levels": first.level, "methods": first.method or asked.methods})

    def is_wrong(text):
        if time.monotonic() > end:
            raise TimeoutError
        try:
            found = judged(text, asked, first_only=True).found
        except LeftOut:
            return False
        return any(isinstance(it.what, str) == isinstance(first.what, str) for it in found)

    return is_wrong


def judge_by_chance(asked):
    """Makes programs, and shrinks those that are wrong. Gives the exit status."""
    weights = {name: int(value) for name, _, value in (it.partition("=") for it in asked.weights.split(",") if it)}
    if not set(weights) <= set(WEIGHTS):
        sys.exit(f"--weights has {', '.join(WEIGHTS)}")
    left_out = wrong = runs = 0
    for seed in range(asked.generate, asked.generate + asked.count):
        items = Program(seed, asked.threads, weights).items()
        try:
            it = judged(text_of(items), asked, first_only=True)
            runs += it.runs
            if it.found:
                items = shrunk(items, is_still_wrong(it.found[0], asked, time.monotonic() + asked.seconds))
                text, wrong, name = text_of(items), wrong + 1, f"seed{seed}_threads{asked.threads}"
                it = judged(text, asked)
                print(f"seed {seed}", text, *told(it, asked), sep="\n", flush=True)
                if asked.keep:
                    os.makedirs(asked.keep, exist_ok=True)
                    write(f"{asked.keep}/{name}.c", text)
                keep_report(name, text, it, asked)
        except LeftOut as why:
            left_out += 1
            print(f"seed {seed} is left out: {why}", file=sys.stderr)
    print(f"{counted_as(asked.count, 'program')}, {left_out} left out, {wrong} wrong in {counted_as(runs, 'run')}")
    return 1 if wrong else 0


def hold_pages(version):
    """Runs each call of this script that a page shows. Returns the exit status."""
    pages = ["README.md", *sorted(glob.glob("docs/*.md", root_dir=TOP))]
    shown = [(page, line, text) for page in pages for line, text in SHOWN.findall(read(f"{TOP}/{page}"))]
    if not shown:
        print("no page shows a call of this script with what it prints", file=sys.stderr)
    differs = 0 if shown else 1
    for page, line, text in shown:
        asked = words(shlex.split(line))
        came = "".join(f"{it}\n" for it in told(judged(read(f"{TOP}/{asked.file}"), asked), asked))
        if asked.threads > 1 or version != VERSION:
            print(f"$ {line}\n{came}", end="")
        elif came != text:
            differs = 1
            print(f"{page} does not show what this prints: {line}\n{came}", end="")
        else:
            print(f"as {page} shows: {line}")
    return differs


def words(given=None):
    """The words of the command line."""
    parser = reader(__doc__, usage="against_gcc.py (FILE | --generate SEED | --tutorial) [OPTION..]")
    what = parser.add_mutually_exclusive_group(required=True)
    what.add_argument("file", nargs="?", metavar="FILE")
    what.add_argument("--generate", type=int, metavar="SEED", help="judges random programs")
    what.add_argument("--tutorial", action="store_true", help="runs each call that a page of docs/ shows")
    parser.add_argument("--threads", type=int, default=1, metavar="T", help="1 to 64 [default: 1]")
    parser.add_argument("--runs", type=int, metavar="N", help="runs of a build [default: 2 with 1 thread, else 2000]")
    parser.add_argument("--cc", default="gcc", help="the compiler, with its own options [default: gcc]")
    parser.add_argument("--library", metavar="FILE", help="a shared or static library in place of libitm")
    parser.add_argument("--levels", default=LEVELS, help=f"of optimisation [default: {LEVELS}]")
    parser.add_argument(
        "--methods", help=f"of the library [default: {METHODS}; of another one, default]"
    )
    parser.add_argument("--flags", default="", help="more options for the compiler, as one word")
    parser.add_argument("--report", metavar="FOLDER", help="writes a C file there for each program that is wrong")
    parser.add_argument(
        "--pauses", action="store_true", help="waits at random at /*pause*/, or where transactions begin"
    )
    parser.add_argument("--fresh", action="store_true", help="starts threads for each run")
    parser.add_argument("--all", action="store_true", help="prints each allowed outcome")
    parser.add_argument("--no-deaths", action="store_true", help="ignores runs that a signal ends")
    parser.add_argument("--count", type=int, default=1, metavar="N", help="programs, from SEED on [default: 1]")
    parser.add_argument("--weights", default="", help="how often programs have a feature, as cancel=0,wide=8")
    parser.add_argument(
        "--seconds", type=int, default=60, metavar="N", help="for shrinking one program [default: 60]"
    )
    parser.add_argument("--keep", metavar="FOLDER", help="writes each shrunk program there")
    parser.add_argument("--txc", metavar="PATH", help="the program")
    asked = parser.parse_args(given)
    if not 1 <= asked.threads <= 64:
        parser.error("--threads is 1 to 64")
    if min(asked.count, asked.seconds, 1 if asked.runs is None else asked.runs) < 1:
        parser.error("--runs, --count and --seconds are 1 and more")
    if other := [it for it in asked.levels.split(",") if not LEVEL.fullmatch(it)]:
        parser.error(f"there is no level {other[0]}: the levels are O0, O1, O2, O3, Os, Og, Oz and Ofast")
    known = METHODS.split(",") + ["htm"]
    asked.methods = asked.methods or ("default" if asked.library else METHODS)
    if other := [it for it in asked.methods.split(",") if it not in known]:
        if not asked.library or not other[0]:
            parser.error(f"libitm has no method {other[0]}: its methods are {', '.join(known)}")
    return asked


def main():
    asked = words()
    use(asked.txc)
    try:
        version, asked.compiler = version_of(asked)
        print(asked.compiler, file=sys.stderr)
        if asked.tutorial:
            return hold_pages(version)
        return judge_file(asked.file, asked) if asked.file else judge_by_chance(asked)
    except LeftOut as why:
        print(f"left out: {why}")
    except (Unusable, OSError) as why:
        print(f"against_gcc.py: {why}", file=sys.stderr)
    return 2


if __name__ == "__main__":
    sys.exit(main())
