#!/usr/bin/env python3
"""Tries the mutants that the gate leaves out: the edits in mutants/, which the prover must refuse.

  scripts/mutants.py            tries all of them, crate by crate
  scripts/mutants.py CRATE..    tries those of these crates
  scripts/mutants.py CRATE/NAME..
                                tries these
  scripts/mutants.py --read     tries none, and fails if an edit's `old:` text does not occur exactly once in its file;
                                it reads those of must-fail/ too, which the gate tries only at its end
  scripts/mutants.py --tests [--jobs N] [--unchecked] CRATE..
                                runs the tests with each of them and with those of must-fail/, and proves nothing

An edit has the form of those of a crate's must-fail/, which the gate tries. It is applied to a copy of the crate's
files, over the libraries in the out/ folders of the crates below; `rt lib` builds those that are missing. Edits of
different functions are applied to one copy. These functions and what they call are checked (`rattle check --only`)
with what the crate's own out/incremental and earlier checks have, first without an edit. Each is proved or refused by
itself, since the check uses only the contracts of the others. A mutant that is not refused in this way is tried alone,
by a check of its functions, and by one of the whole crate if these are still proved.

Everything runs at the lowest priority. A verdict is printed at once, with its seconds of processor. It is kept in
out/mutants.json under a hash of the toolchain, of the crate's files, of those below it and of the edit. A mutant with a
kept verdict is not tried again. Several runs of different crates may work at the same time, and one more run reports
the verdicts of all. The names of all mutants are printed at the end. Exit status 1 if one is not refused. A mutant that
is refused for a name alone, since a proof file cites a name that the edit removes, shows nothing about its promise. One
that is refused at a limit of the prover shows little.

With --tests each mutant is compiled without proofs, as scripts/quick_tests.py does, with each crate of tests that names
the mutant's crate in crates.txt. If none of these tests fails, the other crates of tests above it follow until one
fails. First each crate of tests has to pass without a mutant. The results are kept in out/mutant_tests.json, so a run
that is stopped can continue. --jobs N tries N mutants at once [default: 1]; each needs up to 2 GB. --unchecked leaves
out the checks of bounds, sums that wrap and freed memory, which is faster, but a mutant that breaks memory safety may
then do anything. It prints which tests catch which mutant, few tests that catch all of these, and which mutants no
test catches. The last line is `N caught, M not caught`. Exit status 1 if a mutant cannot be compiled, or tests fail
without one.
"""

import fcntl
import glob
import hashlib
import json
import os
import re
import shutil
import signal
import subprocess
import sys
import tempfile
import threading
from concurrent.futures import ThreadPoolExecutor, as_completed

from gate_cost import below, has_tests, libraries, measure
from lib.words import TOP, reader
from quick_build import compare_logic, copy_sources, kit, make_links
from quick_tests import SECONDS, enlarge_stack, size_of, tried as tests_tried, tried_unchecked

EDITS = f"{TOP}/mutants"
KEPT = f"{TOP}/out/mutants.json"
KEPT_TESTS = f"{TOP}/out/mutant_tests.json"
PARTS = ("src", "specs", "proofs")
REFUSED, BY_NAME, AT_LIMIT = "refused", "refused for a name alone", "refused at a limit of the prover"
PASSES = "still proved"
UNREAD, UNCOMPILED, UNKNOWN = "cannot be applied", "does not compile", "not tried"
CAUGHT, MISSED = "caught", "not caught"
ERROR = re.compile(r"\berror[:[]")
FAILED_TEST = re.compile(r"^test (\S+) \.\.\. FAILED", re.M)
# With a mutant a test may run for ever. It may take so many seconds on the clock, or so many times as many as all tests
# of its crate take of processor without one.
LEAST_LIMIT, TIMES_LIMIT = 120, 10
IMPL = re.compile(r"(?:unsafe )?impl(?:<[^{]*?>)?\s+(?:(\w+)(?:<.*?>)?\s+for\s+)?&?(?:mut )?(\w+)(<[^{]*<)?")
# A line of the prover, by the file that it speaks of; `at` names the declaration that it refuses, if it could read it.
SAID = re.compile(r"(?:note: )?(?:\./)?(?P<file>\S+?):\d+:\d+: (?P<error>error: )?(?P<at>`[^`]*`: )?(?P<why>.*)")
NAMES_ALONE = re.compile(r"has no field|is not in scope|has no `|was not admitted|which was rejected")
# What it comes to of one function of those that `--only` names.
CHECKED = re.compile(r"fn \w+::(?P<name>\S+): (?P<how>.*)")
LIMIT = re.compile(r"antt ran out of (stack|the (steps|memory) that the check of one declaration may)|step limit \(")
NO_TEXT = re.compile(r"is not in scope|has no field|is no name|operand is missing|expected the end|cannot continue")


class NotApplied(Exception):
    """Why an edit cannot be applied."""


def edits_of(crate):
    return sorted(f"{EDITS}/{crate}/{it}" for it in os.listdir(f"{EDITS}/{crate}"))


def all_edits(crates):
    """Each edit with its crate: those of mutants/, and those that the gate tries."""
    yield from ((crate, edit) for crate in crates for edit in edits_of(crate))
    for edit in sorted(glob.glob(f"{TOP}/crates/*/must-fail/*.edit")):
        yield edit.split("/")[-3], edit


def read(path):
    with open(path, encoding="utf-8") as file:
        return file.read()


def name_of(edit):
    return os.path.relpath(edit, EDITS).removesuffix(".edit")


def edited(crate, edit, made=()):
    """The texts of the files that an edit changes, by their paths in the crate, and the functions in which it does.
    Texts that other edits made replace the crate's own, and are in the result."""
    texts, functions, path, old = dict(made), [], None, None
    for line in read(edit).splitlines():
        word, _, rest = line.partition(":")
        rest = rest.removeprefix(" ")
        if word == "file":
            path = rest
            if not os.path.isfile(f"{TOP}/crates/{crate}/{path}"):
                raise NotApplied(f"there is no crates/{crate}/{path}")
        elif word == "old":
            old = rest
        elif word == "new":
            text = texts.get(path) or read(f"{TOP}/crates/{crate}/{path}")
            if text.count(old) != 1:
                raise NotApplied(f"its old text occurs {text.count(old)} times in crates/{crate}/{path}")
            functions.append(function_at(path, text, text.index(old)))
            texts[path] = text.replace(old, rest)
    if not functions:
        raise NotApplied("it changes nothing")
    # (an import that is changed along with a function is tried with that)
    return texts, [it for it in functions if it] or [None]


def function_at(path, text, at):
    """The function that contains a place of a file, as `rattle check --only` names it, if there is one."""
    module = [it for it in path.removesuffix(".rt").split("/")[1:] if it not in ("lib", "main", "mod")]
    where, function = module, None
    for line in text[: text.find("\n", at)].split("\n"):
        if line.startswith("}"):
            where, function = module, None
        elif impl := IMPL.match(line):
            # The toolchain has a method by its type and this one's module, and by the types in it where there are some:
            # the end of the name will do.
            where = [] if impl[3] else [impl[2] + (impl[1] or "")]
        elif found := re.match(r"[^/]*\bfn (\w+)", line):
            function = "::".join([*where, found[1]])
    return function


def why_unread(crate, edit):
    """Why an edit cannot be applied, if so."""
    try:
        edited(crate, edit)
    except NotApplied as why:
        return str(why)
    return None


def sums(crates, named, parts=PARTS):
    """For each crate a hash of the toolchain, of its files in these parts, and of those of the crates below it."""
    kit_id = read(f"{kit()}/KIT-ID")
    rows = {row.partition(":")[0].strip(): row for row in read(f"{TOP}/crates.txt").splitlines()}
    own = {}
    for crate in {it for crate in crates for it in [crate, *below(crate, named)]}:
        made = hashlib.sha256(f"{kit_id} {rows[crate]}".encode())
        for part in parts:
            for path in sorted(glob.glob(f"{TOP}/crates/{crate}/{part}/**/*", recursive=True)):
                if os.path.isfile(path):
                    made.update(f"{os.path.relpath(path, TOP)}\0{read(path)}\0".encode())
        own[crate] = made.hexdigest()
    return {crate: " ".join(own[it] for it in [*below(crate, named), crate]) for crate in crates}


def words_of(crate, root, named):
    """How a crate is checked over what the out/ folders of those below it have."""
    toolchain, folder = kit(), lambda it: f"{TOP}/crates/{it}/out/rlib"
    words = [f"{toolchain}/bin/rattle", "check", "--crate-name", crate, root, "--links", f"{crate}=", "--jobs", "1"]
    row = next(it for it in read(f"{TOP}/crates.txt").splitlines() if it.partition(":")[0].strip() == crate)
    for it in ["std", *row.partition("#")[0].partition(":")[2].split()]:
        words += ["--extern", f"{it}={folder(it) if it in named else f'{toolchain}/rlibs'}/{it}.rlib"]
    for it in [f"{toolchain}/rlibs", *map(folder, below(crate, named))]:
        words += ["-L", f"dependency={it}"]
    words += ["--antt-project", f"{toolchain}/rattle/logic/antt-project.json"]
    return [*words, "--logic-built", f"{toolchain}/logic_built"]


def check(crate, texts, named, *more):
    """Checks a copy of the crate with these texts in place of its own; gives the status, the lines and the seconds."""
    with tempfile.TemporaryDirectory(prefix="mutant-") as room:
        for part in PARTS:
            if os.path.isdir(f"{TOP}/crates/{crate}/{part}"):
                shutil.copytree(f"{TOP}/crates/{crate}/{part}", f"{room}/{part}")
        for path, text in texts.items():
            with open(f"{room}/{path}", "w", encoding="utf-8") as file:
                file.write(text)
        root = "src/main.rt" if os.path.isfile(f"{room}/src/main.rt") else "src/lib.rt"
        with open(f"{room}/said", "w+", encoding="utf-8", errors="replace") as said:
            status, seconds, _ = measure([*words_of(crate, root, named), *more], room, said)
            said.seek(0)
            # (the first line is the command)
            return status, said.read().rstrip("\n").split("\n")[1:], seconds


def verdict(status, lines, texts):
    """What a check of an edited crate came to, and what it said first."""
    # (what is only noted or warned of refuses nothing)
    said = [it for it in map(SAID.match, lines) if it and not it["why"].startswith(("note: ", "warning: "))]
    for it in said:
        is_text = it["error"] and (it["file"] in texts or it["file"].startswith(("src/", "specs/")))
        if status == 1 and is_text and (not it["at"] or NO_TEXT.search(re.sub("`[^`]*`", "", it["why"]))):
            return UNCOMPILED, it[0]
    if status == 0:
        return PASSES, ""
    if status == 1 and re.match(r"logic=not-proved|only=\d+ proved=", lines[-1]):
        meant = [it for it in said if not it["file"].startswith("proofs/") or not NAMES_ALONE.search(it["why"])]
        # (a line of the code says it in words)
        first = sorted(meant or said, key=lambda it: not it["file"].startswith("src/"))
        return REFUSED if meant or not said else BY_NAME, first[0][0] if first else ""
    if status == 3 and any(LIMIT.search(it) for it in lines):
        return AT_LIMIT, said[0][0] if said else lines[-1]
    wrong = [it for it in lines if re.search(r"\berror\[[\w-]+\]", it)]
    if wrong and status == 1:
        return UNCOMPILED, wrong[0]
    return UNKNOWN, f"its check ended in status {status}: {lines[-1]}"


def parts_of(crate, can):
    """Parts edits among checks: those of one change different functions, and can be made in one text."""
    parts = []
    for edit, (_, functions) in can.items():
        if None in functions:
            continue
        for part in parts:
            known = {it for other in part for it in can[other][1]}
            if known.isdisjoint(functions) and all_edited(crate, [*part, edit]) is not None:
                part.append(edit)
                break
        else:
            parts.append([edit])
    return parts


def all_edited(crate, edits):
    """The texts that edits make together, or None where one changes what another has changed."""
    texts = {}
    for edit in edits:
        try:
            texts, functions = edited(crate, edit, texts)
        except NotApplied:
            return None
        if functions != edited(crate, edit)[1]:
            return None
    return texts


def tried_together(crate, part, can, named, kept):
    """Tries edits of different functions by checks of these alone and what they call, over what such checks have kept;
    gives of each that is refused by itself the reason, and the seconds."""
    texts, functions = all_edited(crate, part), [name for edit in part for name in dict.fromkeys(can[edit][1])]
    only = [it for name in functions for it in ("--only", name)]
    _, lines, seconds = check(crate, texts, named, *only, "--incremental", kept)
    refused, told = {}, refusals(lines, texts)
    for edit in part:
        whys = [why for name in can[edit][1] for of, why in told.items() if why and f"::{of}".endswith(f"::{name}")]
        refused.update({edit: whys[0]} if whys else {})
    if told or len(part) == 1:
        return refused, seconds
    # There is no verdict if one does not compile, a function is unknown, or the prover cannot take the whole.
    print(f"{crate}, {len(part)} at once: none is tried: {first_error(lines)[:200]}", flush=True)
    wrong = untried(lines, texts)
    others = [edit for edit in part if wrong.isdisjoint(can[edit][1])]
    half = len(part) // 2
    for some in (part[:half], part[half:]) if len(others) in (0, len(part)) else (others,):
        more, taken = tried_together(crate, some, can, named, kept)
        refused.update(more)
        seconds += taken
    return refused, seconds


def first_error(lines):
    return next((it for it in lines if ERROR.search(it)), lines[-1])


def untried(lines, texts):
    """The functions in which the compiler found an error, and those that the prover doesn't know by their names."""
    unknown = {it for line in lines for it in re.findall("has no function `([^`]*)`", line)}
    found = [it for it in map(re.compile(r"(?:\./)?(src/\S+\.rt):(\d+):\d+: error\[").match, lines) if it]
    ends = {it: len("\n".join(texts[it[1]].split("\n")[: int(it[2]) - 1])) for it in found if it[1] in texts}
    return unknown | {function_at(it[1], texts[it[1]], at + 1) for it, at in ends.items()}


def refusals(lines, texts):
    """For each function that a check reports, why it is refused, or nothing. Its answers are in its folder of proofs/,
    and other messages about it are right above its line. One that waits for another's proof is not refused."""
    told, above = {}, []
    for line in lines:
        of = CHECKED.match(line)
        if not of:
            above.append(line)
            continue
        folder = f"proofs/{of['name'].replace('::', '/')}/"
        own = [it for it in lines if it.removeprefix("./").startswith(folder)]
        own += [it for it in above if it.startswith("note: src/")]
        what, why = verdict(1, [*own, "logic=not-proved"], texts)
        is_refused = of["how"].startswith(("not proved", "no proof")) and what == REFUSED
        told[of["name"]], above = why if is_refused else "", []
    return told


def tried_alone(crate, texts, functions, named, kept):
    """Tries an edit by the functions that it changes, and by the whole crate where that tells nothing."""
    seconds = 0.0
    if None not in functions:
        only = [it for name in functions for it in ("--only", name)]
        status, lines, seconds = check(crate, texts, named, *only, "--incremental", kept)
        came = verdict(status, lines, texts)
        if came[0] not in (PASSES, UNKNOWN):
            return *came, seconds
    status, lines, more = check(crate, texts, named, "--incremental", kept)
    return *verdict(status, lines, texts), seconds + more


def linked(folder, to):
    """Copies what a check keeps, by links where these can be made: a check replaces such a file, and changes none."""

    def copy(one, other):
        try:
            os.link(one, other)
        except OSError:
            shutil.copy2(one, other)

    shutil.copytree(folder, to, copy_function=copy)


def tried(crate, edits, named, room):
    """Tries edits of a crate; gives of each its name, what it came to, why, and the seconds of processor."""
    can = {}
    for edit in edits:
        try:
            can[edit] = edited(crate, edit)
        except NotApplied as why:
            yield edit, UNREAD, str(why), 0.0
    own, base = f"{TOP}/crates/{crate}/out/incremental", f"{room}/{crate}"
    linked(own, base) if os.path.isdir(own) else os.mkdir(base)
    only = [it for name in {name for _, of in can.values() for name in of if name} for it in ("--only", name)]
    status, lines, seconds = check(crate, {}, named, *only, "--incremental", base)
    print(f"{crate}, as it is: {'NOT PROVED' if status else 'proved'}, {seconds:.0f} s", flush=True)
    if status:
        yield from ((edit, UNKNOWN, f"its functions are not proved without it: {lines[-1]}", 0.0) for edit in can)
        can = {}
    is_over = False
    while not is_over:
        # (what waits for the proof of another one's function does not wait in the next round)
        is_over = True
        for part in parts_of(crate, can):
            refused, seconds = tried_together(crate, part, can, named, base)
            print(f"{crate}, {len(part)} at once: {len(refused)} refused, {seconds:.0f} s", flush=True)
            for edit, why in refused.items():
                yield edit, REFUSED, why, seconds / len(part)
                del can[edit]
            is_over = is_over and (not refused or len(refused) == len(part))
    for edit, (texts, functions) in can.items():
        yield edit, *tried_alone(crate, texts, functions, named, base)
    shutil.rmtree(base)


def build_below(crate, named, built):
    """Builds the libraries below a crate where they do not lie in out/; says whether all are there."""
    for it in below(crate, named):
        if it not in built:
            words = ["rt", "lib", "--jobs", "1"]
            how = {"cwd": f"{TOP}/crates/{it}", "stdin": subprocess.DEVNULL, "capture_output": True, "text": True}
            ran = subprocess.run(words, check=False, **how)
            if ran.returncode:
                print(f"{it}, below {crate}, is not proved:\n{ran.stdout[-2000:]}{ran.stderr}", flush=True)
                return False
            built.add(it)
    return True


def all_kept(path=KEPT):
    return json.loads(read(path)) if os.path.isfile(path) else {}


def keep(key, came, path=KEPT):
    """Keeps the result of a try; other runs, of other crates, may do so at the same time."""
    os.makedirs(os.path.dirname(path), exist_ok=True)
    with open(f"{path}.lock", "w", encoding="utf-8") as lock:
        fcntl.flock(lock, fcntl.LOCK_EX)
        with open(f"{path}.new", "w", encoding="utf-8") as file:
            json.dump({**all_kept(path), key: came}, file, indent=0)
        os.replace(f"{path}.new", path)


def tell(edit, what, why, when):
    print(f"{name_of(edit)}: {what}, {when}{why and ': '}{why[:200]}", flush=True)


def try_all(chosen):
    """Tries edits, given by their crates, reports each and all, and returns the status."""
    os.nice(19)
    signal.signal(signal.SIGTERM, lambda *_: sys.exit("ended by a signal; what was tried is kept"))
    named, built, came = libraries(), set(), {}
    kept = all_kept()
    of_crate = sums(chosen, named)
    for crate, edits in chosen.items():
        keys = {it: hashlib.sha256(f"{of_crate[crate]} {it} {read(it)}".encode()).hexdigest() for it in edits}
        new = [it for it, key in keys.items() if key not in kept]
        came.update({it: kept[key][0] for it, key in keys.items() if key in kept})
        if len(keys) > len(new):
            print(f"{crate}: {len(keys) - len(new)} of {len(keys)} were tried before with the same files", flush=True)
        for it in (it for it, key in keys.items() if key in kept and kept[key][0] != REFUSED):
            tell(it, *kept[keys[it]], "tried before")
        if new and not build_below(crate, named, built):
            came.update(dict.fromkeys(new, UNKNOWN))
            continue
        with tempfile.TemporaryDirectory(prefix="mutants-") as room:
            for edit, what, why, seconds in tried(crate, new, named, room):
                came[edit] = what
                tell(edit, what, why, f"{seconds:.0f} s")
                if what != UNKNOWN:
                    keep(keys[edit], [what, why])
    return told(came)


def told(came):
    """Prints the verdicts of all, by name, the refused ones first; returns the status."""
    print()
    for what in (REFUSED, BY_NAME, AT_LIMIT, PASSES, UNREAD, UNCOMPILED, UNKNOWN):
        names = {}
        for edit in (it for it in came if came[it] == what):
            crate, name = name_of(edit).split("/")
            names.setdefault(crate, []).append(name)
        if names:
            print(f"{what}: {sum(map(len, names.values()))}")
            print("".join(f"  {crate}: {', '.join(of)}\n" for crate, of in names.items()), end="")
    return 1 if {*came.values()} - {REFUSED, BY_NAME, AT_LIMIT} else 0


class Tests:
    """The crates of tests, run with mutants. The result of a run is kept under a hash of all that it was made from."""

    def __init__(self, is_unchecked):
        self.named, self.is_unchecked, self.lock = libraries(), is_unchecked, threading.Lock()
        crates = [it for it in self.named if has_tests(f"{TOP}/crates/{it}")]
        self.sizes = {it: size_of(it) for it in crates}
        self.sums = sums(crates, self.named, ("src", "specs"))
        self.kept, self.whole = all_kept(KEPT_TESTS), {it: threading.Lock() for it in crates}

    def covering(self, crate):
        """The crates of tests that name a crate, and the others above it; the smallest first."""
        above = sorted((it for it in self.sizes if crate in [it, *below(it, self.named)]), key=self.sizes.get)
        direct = [it for it in above if crate in [it, *self.named[it]]]
        return direct, [it for it in above if it not in direct]

    def key(self, tests, edit):
        text = f"{read(edit)} {os.path.relpath(edit, TOP)}" if edit else ""
        return hashlib.sha256(f"{self.sums[tests]} {self.is_unchecked} {text}".encode()).hexdigest()

    def run(self, tests, limit, crate="", edit=""):
        """Runs a crate of tests with a mutant, or without one: whether it was compiled, the tests that failed, the
        seconds of processor, and why it was not compiled. The limit is in seconds for each test."""
        key = self.key(tests, edit)
        if key not in self.kept:
            with tempfile.TemporaryDirectory(prefix="txc-mutant-") as work:
                copy_sources(f"{work}/sources")
                make_links(kit(), f"{work}/kit")
                for path, text in edited(crate, edit)[0].items() if edit else ():
                    with open(f"{work}/sources/crates/{crate}/{path}", "w", encoding="utf-8") as file:
                        file.write(text)
                how = tried_unchecked if self.is_unchecked else tests_tried
                passed, result, seconds, text = how(tests, work, str(limit))
            is_run, why = result.startswith("test result: "), first_error(text.splitlines() or [""])
            failed = FAILED_TEST.findall(text) or ([] if passed or not is_run else ["(a test without a name)"])
            came = [is_run, failed, round(seconds), "" if is_run else why]
            # (other work of the machine may be why there is no result, or why tests fail without a mutant)
            if not (edit and (is_run or ERROR.search(why)) or passed):
                return came
            with self.lock:
                keep(key, came, KEPT_TESTS)
                self.kept[key] = came
        return self.kept[key]

    def limit(self, tests):
        """The limit for a test with a mutant, and why there is none: tests have to pass without a mutant."""
        with self.whole[tests]:
            is_kept = self.key(tests, "") in self.kept
            is_run, failed, seconds, why = self.run(tests, SECONDS)
        if not is_kept:
            print(f"{tests}, no mutant: {'passed' if is_run and not failed else 'FAILED'}, {seconds} s", flush=True)
        if is_run and not failed:
            return max(LEAST_LIMIT, TIMES_LIMIT * seconds), ""
        return 0, why or f"without a mutant {', '.join(failed)} fail"

    def try_one(self, crate, edit):
        """Runs the tests with a mutant: the verdict, the tests that catch it, the seconds of processor, and why it was
        not tried."""
        caught, seconds, (direct, others) = [], 0, self.covering(crate)
        if why := why_unread(crate, edit):
            return UNREAD, [], 0, why
        for tests in [*direct, *others]:
            if caught and tests not in direct:
                break
            limit, why = self.limit(tests)
            if not limit:
                return UNKNOWN, [], seconds, f"{tests}: {why}"
            is_run, failed, taken, why = self.run(tests, limit, crate, edit)
            seconds += taken
            if not is_run:
                return UNCOMPILED, [], seconds, f"{tests}: {why}"
            caught += [f"{tests}::{it}" for it in failed]
        why = "" if direct or others else "no crate of tests is above it"
        return CAUGHT if caught else MISSED, caught, seconds, why


def end_children(*_):
    """Ends what this process has started, and then itself."""
    for path in glob.glob(f"/proc/{os.getpid()}/task/*/children"):
        for pid in read(path).split():
            os.kill(int(pid), signal.SIGTERM)
    sys.exit("ended by a signal; what was tried is kept")


def few_tests(by_test):
    """Few tests that catch all mutants which some test catches: each next one catches most of those that are left."""
    chosen, left = [], {it for names in by_test.values() for it in names}
    while left:
        chosen.append(max(sorted(by_test), key=lambda it: len(left & set(by_test[it]))))
        left -= set(by_test[chosen[-1]])
    return chosen


def run_tests(chosen, jobs, is_unchecked):
    """Runs the tests with mutants, each given with its crate. Returns the exit status."""
    compare_logic()
    os.nice(19)
    enlarge_stack()
    signal.signal(signal.SIGTERM, end_children)
    tests, came, by_test = Tests(is_unchecked), {}, {}
    with ThreadPoolExecutor(jobs) as pool:
        runs = {pool.submit(tests.try_one, crate, edit): f"{crate}/{name_in(edit)}" for crate, edit in chosen}
        try:
            for run in as_completed(runs):
                name, (what, caught, seconds, why) = runs[run], run.result()
                came.setdefault(what, []).append(name)
                for it in caught:
                    by_test.setdefault(it, []).append(name)
                times = f" by {len(caught)} {'test' if len(caught) == 1 else 'tests'}" if caught else ""
                print(f"{name}: {what}{times}, {seconds} s{why and ': '}{why[:200]}", flush=True)
        except BaseException:
            pool.shutdown(cancel_futures=True)
            raise
    print("\nTests, and the mutants that they catch:")
    for it, names in sorted(by_test.items()):
        print(f"  {it}: {', '.join(sorted(names))}")
    if few := few_tests(by_test):
        print(f"{len(few)} of {len(by_test)} tests catch all of these: {', '.join(few)}")
    for what in (MISSED, UNREAD, UNCOMPILED, UNKNOWN):
        if what in came:
            print(f"{what}: {', '.join(sorted(came[what]))}")
    print(f"{len(came.get(CAUGHT, []))} caught, {len(came.get(MISSED, []))} not caught")
    return 1 if came.keys() - {CAUGHT, MISSED} else 0


def name_in(edit):
    return os.path.basename(edit).removesuffix(".edit")


def main():
    words = reader(__doc__)
    words.add_argument("--read", action="store_true")
    words.add_argument("--tests", action="store_true")
    words.add_argument("--jobs", type=int, default=1, metavar="N")
    words.add_argument("--unchecked", action="store_true")
    words.add_argument("crates", nargs="*", metavar="CRATE[/NAME]")
    given = words.parse_args()
    crates = sorted(os.listdir(EDITS))
    if given.read and (given.crates or given.tests):
        words.error("--read reads those of all crates, and runs none")
    edits = [*all_edits(crates)]
    if given.read:
        wrong = [f"{os.path.relpath(edit, TOP)}: {why}" for crate, edit in edits if (why := why_unread(crate, edit))]
        print("\n".join(wrong) or f"{len(edits)} mutants can be applied")
        return 1 if wrong else 0
    if given.tests and not given.crates:
        words.error("--tests needs crates or mutants")
    if not given.tests:
        edits = [it for it in edits if it[1].startswith(f"{EDITS}/")]
    known = {it for crate, edit in edits for it in (crate, f"{crate}/{name_in(edit)}")}
    if unknown := [it for it in given.crates if it not in known]:
        sys.exit(f"there are no mutants {', '.join(unknown)}")
    chosen = [it for it in edits if not given.crates or {it[0], f"{it[0]}/{name_in(it[1])}"} & {*given.crates}]
    if given.tests:
        return run_tests(chosen, given.jobs, given.unchecked)
    return try_all({crate: [edit for of, edit in chosen if of == crate] for crate, _ in chosen})


if __name__ == "__main__":
    sys.exit(main())
