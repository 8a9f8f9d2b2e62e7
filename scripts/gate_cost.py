#!/usr/bin/env python3
"""Measures what the gate costs, crate by crate, and writes the table of CONTRIBUTING.md.

  scripts/gate_cost.py --gate [CRATE..]         runs the gate once (.ci/run, or `rt ci` of the given crates and those below),
                                                passes on its output, and appends to docs/gate_cost.csv a line for each
                                                crate that was proved or had all its mutants tried
  scripts/gate_cost.py CRATE..                  measures crates one after another in copies, and appends a line for each
  scripts/gate_cost.py --part check CRATE..     measures one part alone: check, tests or mutants
  scripts/gate_cost.py --table                  prints the table: for each part of each crate the least measurement of the
                                                current files
  scripts/gate_cost.py --write                  writes the table into CONTRIBUTING.md

--gate samples the processes of the run five times a second and counts each, with all it started, to the crate and part it
works for. Time after the last sample is only in the total, which the system reports at the end. A run that fails appends
nothing. A fixed loop, run every ten seconds, measures the processor's speed: its median and best time are printed.
A crate measured alone is proved from nothing in a copy. The crates below are taken from their out/ folders (and proved
first, unmeasured, if they have none) with their proofs, whereas the gate reads only their statements. Each source gets one
more line in the copy, because a check otherwise reuses work on the same files kept elsewhere on the machine.
Seconds are of processor, over all processes; memory is the peak of any one process. --jobs N is the number of jobs of a
check [default: 2]. The output of its checks is in out/gate_cost_CRATE.log.
"""

import csv
import datetime
import os
import re
import resource
import shutil
import subprocess
import sys
import tempfile
import time

from lib.words import TOP, reader

CSV = f"{TOP}/docs/gate_cost.csv"
PAGE = f"{TOP}/CONTRIBUTING.md"
FIELDS = ["crate", "commit", "date", "check_s", "tests_s", "mutants", "mutants_s", "peak_mb"]
BEGIN, END = "<!-- measured: begin -->\n", "<!-- measured: end -->\n"


def libraries():
    """The crates of crates.txt, each with its dependencies among them, in the order of the file."""
    named = {}
    with open(f"{TOP}/crates.txt", encoding="utf-8") as file:
        for line in file:
            crate, colon, below = line.partition("#")[0].partition(":")
            if colon:
                named[crate.split()[0]] = below.split()
    return {crate: [it for it in below if it in named] for crate, below in named.items()}


def below(crate, named):
    """The crates below a crate, lowest first."""
    order = []
    for it in named[crate]:
        order += [more for more in [*below(it, named), it] if more not in order]
    return order


def measure(words, folder, log):
    """Runs a command; gives its status, the seconds of processor of all its processes,
    and the most megabytes of any one."""
    log.write(f"$ {' '.join(words)}\n")
    log.flush()
    process = subprocess.Popen(words, cwd=folder, stdin=subprocess.DEVNULL, stdout=log, stderr=subprocess.STDOUT)
    try:
        _, status, used = os.wait4(process.pid, 0)
    except BaseException:
        process.kill()
        raise
    process.returncode = os.waitstatus_to_exitcode(status) if hasattr(os, "waitstatus_to_exitcode") else status
    return process.returncode, used.ru_utime + used.ru_stime, used.ru_maxrss / 1024


def has_tests(folder):
    for at, _, files in os.walk(f"{folder}/src"):
        for name in files:
            with open(f"{at}/{name}", encoding="utf-8", errors="replace") as file:
                if re.search(r"#\s*\[\s*test\s*\]", file.read()):
                    return True
    return False


def add_remarks(folder):
    """Ends each source below a folder in one line more, so that nothing fits it that a check elsewhere
    on this machine keeps."""
    remarks = {".rt": "// Measured from nothing.", ".antt": "-- measured from nothing"}
    for at, _, names in os.walk(folder):
        for name in names:
            remark = remarks.get(os.path.splitext(name)[1])
            if remark:
                with open(f"{at}/{name}", "a", encoding="utf-8") as file:
                    file.write(f"{remark}\n")


def measured(crate, parts, jobs):
    """Measures a crate in a copy of what it needs."""
    named, row, peak = libraries(), {"crate": crate}, 0.0
    with tempfile.TemporaryDirectory(prefix="gate-cost-") as room:
        for name in ("crates.txt", "HANDLES"):
            if os.path.isfile(f"{TOP}/{name}"):
                shutil.copy2(f"{TOP}/{name}", room)
        os.makedirs(f"{room}/crates")
        needed = below(crate, named)
        for it in needed:
            shutil.copytree(f"{TOP}/crates/{it}", f"{room}/crates/{it}", symlinks=True)
        here = f"{room}/crates/{crate}"
        shutil.copytree(f"{TOP}/crates/{crate}", here, ignore=shutil.ignore_patterns("out"))
        add_remarks(here)
        with open(f"{room}/crates.txt", "w", encoding="utf-8") as file, open(
            f"{TOP}/crates.txt", encoding="utf-8"
        ) as whole:
            file.writelines(it for it in whole if (re.split(r"[\s:]", it) or [""])[0] in [*needed, crate])
        os.makedirs(f"{TOP}/out", exist_ok=True)
        with open(f"{TOP}/out/gate_cost_{crate}.log", "w", encoding="utf-8") as log:
            for it in needed:
                if measure(["rt", "lib", "--jobs", str(jobs)], f"{room}/crates/{it}", log)[0]:
                    sys.exit(f"{it} is not proved: see {log.name}")
            edits = [it for it in sorted(os.listdir(f"{here}/must-fail"))] if os.path.isdir(f"{here}/must-fail") else []
            edits = [it for it in edits if it.endswith(".edit")]
            row["mutants"] = len(edits)
            tries = {
                "check": (["rt", "check", "--jobs", str(jobs)], here, True),
                "tests": (["rt", "test", "--jobs", str(jobs)], here, has_tests(here)),
                "mutants": (["rt", "must-fail", crate], room, bool(edits)),
            }
            for part in parts:
                words, folder, is_there = tries[part]
                row[f"{part}_s"] = 0
                if is_there:
                    shutil.rmtree(f"{here}/out", ignore_errors=True)
                    status, seconds, most = measure(words, folder, log)
                    row[f"{part}_s"], peak = round(seconds), max(peak, most)
                    if status:
                        sys.exit(f"{crate}: {' '.join(words)} failed: see {log.name}")
                    print(
                        f"{crate} {part}: {seconds:.0f} s of processor, at most {most:.0f} MB in one process",
                        flush=True,
                    )
    row["peak_mb"] = round(peak)
    return row


def keep(row):
    commit = subprocess.run(
        ["git", "rev-parse", "--short", "HEAD"], cwd=TOP, stdout=subprocess.PIPE, text=True
    ).stdout.strip()
    row.update(commit=commit, date=datetime.date.today().isoformat())
    is_new = not os.path.isfile(CSV)
    with open(CSV, "a", encoding="utf-8", newline="") as file:
        writer = csv.DictWriter(file, FIELDS, restval="", lineterminator="\n")
        if is_new:
            writer.writeheader()
        writer.writerow(row)


def mutants(crate):
    """How many mutants of a crate the gate tries."""
    folder = f"{TOP}/crates/{crate}/must-fail"
    return len([it for it in os.listdir(folder) if it.endswith(".edit")]) if os.path.isdir(folder) else 0


def text_of(pid, name):
    try:
        with open(f"/proc/{pid}/{name}", "rb") as file:
            return file.read().decode(errors="replace")
    except OSError:
        return ""


def work_of(pid):
    """The crate and the part of the gate that a process works for; none where it is of no one crate."""
    words = text_of(pid, "cmdline").split("\0")
    try:
        folder = os.readlink(f"/proc/{pid}/cwd")
    except OSError:
        return None
    if "--crate-name" in words:
        return (
            words[words.index("--crate-name") + 1],
            "mutants" if "/rt-edit-" in folder else "tests" if "--test" in words else "check",
        )
    tests = [it[1] for it in (re.search(r"/bin/(\w+)_tests$", word) for word in words) if it]
    return (tests[0], "tests") if tests else None


def room_of(pid):
    """The folder in which the gate tries a mutant, for its process."""
    try:
        return re.sub(r"(/rt-edit-[^/]+)/.*", r"\1", os.readlink(f"/proc/{pid}/cwd"))
    except OSError:
        return None


def look(root, taken, most, proved):
    """Notes what each process that `root` started has taken so far, with all below it, in ticks, the most kilobytes of
    any one, and of which crates and parts something is proved or tried, and in which rooms."""
    stats, below = {}, {}
    for pid in filter(str.isdigit, os.listdir("/proc")):
        stat = text_of(pid, "stat").rpartition(")")[2].split()
        if stat:
            stats[pid] = stat
            below.setdefault(stat[1], []).append(pid)
    tops = [*below.get(str(root), [])]
    while tops:
        top = tops.pop()
        work = work_of(top)
        if work is None:
            # (the shell of .ci/run, and the `rt` that it started)
            tops += below.get(top, [])
            continue
        if "--crate-name" in text_of(top, "cmdline").split("\0"):
            proved.setdefault(work, set()).add(room_of(top))
        ticks, line = 0, [top]
        while line:
            pid = line.pop()
            line += below.get(pid, [])
            ticks += sum(int(it) for it in stats[pid][11:15])
            held = re.search(r"VmHWM:\s+(\d+)", text_of(pid, "status"))
            most[work] = max(most.get(work, 0), int(held[1]) if held else 0)
        key = top, stats[top][19], work
        taken[key] = max(taken.get(key, 0), ticks)


def fixed_loop():
    """The milliseconds of processor that a loop takes which is always the same."""
    start, number = time.thread_time(), 1
    for _ in range(200_000):
        number = number * 69069 % 4294967296 + 1
    return (time.thread_time() - start) * 1000


def gate(names):
    """Runs the gate, or its part for some crates, keeps a line for each crate that it worked for,
    and gives its status."""
    taken, most, proved, start, loops = {}, {}, {}, time.monotonic(), [fixed_loop()]
    # (named crates with as many checks at once, and jobs in each, as the whole gate)
    jobs = str(min(4, len(os.sched_getaffinity(0))))
    words, more = (["rt", "ci", *names], {"RT_JOBS": jobs}) if names else ([f"{TOP}/.ci/run"], {})
    run = subprocess.Popen(words, cwd=TOP, stdin=subprocess.DEVNULL, env={**os.environ, **more})
    while run.poll() is None:
        look(run.pid, taken, most, proved)
        if time.monotonic() > start + 10 * len(loops):
            loops.append(fixed_loop())
        time.sleep(0.2)
    used = resource.getrusage(resource.RUSAGE_CHILDREN)
    # (what a run that fails took may be less than a proof: it is not kept)
    for crate in [] if run.returncode else libraries():
        # (tests that an earlier run proved are run all the same)
        parts = [part for part in ("check", "tests", "mutants") if (crate, part) in proved]
        if len(proved.get((crate, "mutants"), ())) < mutants(crate) + 2 * (mutants(crate) > 1):
            # (some were kept; where there are more than one, a proof before them and one behind
            # have rooms of their own)
            parts = [part for part in parts if part != "mutants"]
        row = {"crate": crate, "mutants": mutants(crate)}
        for part in parts:
            ticks = sum(it for key, it in taken.items() if key[2] == (crate, part))
            row[f"{part}_s"] = round(ticks / os.sysconf("SC_CLK_TCK"))
        if parts:
            row["peak_mb"] = round(max(most[crate, part] for part in parts) / 1024)
            keep(row)
    minutes, seconds = round((time.monotonic() - start) / 60), used.ru_utime + used.ru_stime
    what = f"the gate's part for {' '.join(names)}" if names else "the gate"
    loop = f"a fixed loop took {sorted(loops)[len(loops) // 2]:.1f} ms of it at the median, {min(loops):.1f} at best"
    print(
        f"{what} {'failed' if run.returncode else 'passed'} in {minutes} minutes,"
        f" with {round(seconds / 60)} of processor; {loop}"
    )
    return run.returncode


def same_files(commit, crate, part):
    """Whether a crate has the files that it had at a commit, and for the part `mutants_s` all its mutants were there
    unchanged (with more of them it took more)."""

    def differ(*words):
        run = subprocess.run(
            ["git", "diff", "--name-only", "--no-renames", commit, *words],
            cwd=TOP,
            stdout=subprocess.PIPE,
            stderr=subprocess.DEVNULL,
        )
        return run.returncode or run.stdout

    here = f"crates/{crate}"
    if differ("--", f"{here}/src", f"{here}/specs", f"{here}/proofs"):
        return False
    return part != "mutants_s" or not differ("--diff-filter=d", "--", f"{here}/must-fail")


def table():
    """The table: of each part the least that it took of the files that the crate has now (what else a machine does adds
    up to a third), or if none was of these the last value (for mutants, only if their number is unchanged); the
    memory is the most of the same lines."""
    last, peaks, least = {}, {}, {}
    if os.path.isfile(CSV):
        with open(CSV, encoding="utf-8", newline="") as file:
            for row in csv.DictReader(file):
                crate = row["crate"]
                known = last.setdefault(crate, {})
                taken = {
                    part: int(row[part]) for part in ("check_s", "tests_s", "mutants_s") if row[part] not in ("", "0")
                }
                same = [part for part in taken if same_files(row["commit"], crate, part)]
                if row["mutants_s"] != "" and int(row["mutants"]) != mutants(crate):
                    row["mutants_s"] = ""
                known.update(
                    {field: row[field] for field in FIELDS if row[field] != ""}, mutants=mutants(crate)
                )
                for part in taken:
                    held = int(row["peak_mb"])
                    if part in same:
                        took, most = least.get((crate, part), (taken[part], 0))
                        least[crate, part] = min(took, taken[part]), max(most, held)
                        held = least[crate, part][1]
                    elif (crate, part) in least or row[part] == "":
                        continue
                    peaks.setdefault(crate, {})[part] = held
    for (crate, part), (took, _) in least.items():
        last[crate][part] = took
    for crate, known in last.items():
        known.update(
            {} if known["mutants"] else {"mutants_s": 0},
            **({} if has_tests(f"{TOP}/crates/{crate}") else {"tests_s": 0}),
        )
    number = lambda row, field: int(row.get(field) or 0)
    whole = lambda row: sum(number(row, field) for field in ("check_s", "tests_s", "mutants_s"))
    shown = lambda row, field: (
        "not measured" if field not in row else f"{int(row[field]):,}" if int(row[field]) else "–"
    )
    lines = [
        "| Crate | Check, s | Tests, s | Mutants | Mutants, s | Peak of one process, GB |",
        "|---|---|---|---|---|---|",
    ]
    crates = [it for it in libraries()]
    for crate in sorted((it for it in peaks if it in crates), key=lambda it: -whole(last[it])):
        row, peak = last[crate], max(peaks[crate].values()) / 1024
        lines.append(
            f"| `{crate}` | {shown(row, 'check_s')} | {shown(row, 'tests_s')} | {shown(row, 'mutants')}"
            f" | {shown(row, 'mutants_s')} | {f'{peak:.1f}' if peak else 'not measured'} |"
        )
    rows = [last[it] for it in crates if it in last]
    sums = [sum(number(row, field) for row in rows) for field in ("check_s", "tests_s", "mutants", "mutants_s")]
    minutes = (sums[0] + sums[1] + sums[3]) / 60
    most = max([max(peaks[it].values()) for it in crates if it in peaks] or [0]) / 1024
    lines.append(
        f"| all: {minutes:.0f} min | {sums[0]:,} | {sums[1]:,} | {sums[2]} | {sums[3]:,} | {most:.1f} |"
    )
    missing = [it for it in crates if it not in peaks]
    if missing:
        lines += ["", f"Not measured yet: {', '.join(f'`{it}`' for it in missing)}."]
    return "\n".join(lines) + "\n"


def write():
    with open(PAGE, encoding="utf-8") as file:
        page = file.read()
    if BEGIN not in page or END not in page:
        sys.exit("CONTRIBUTING.md has no place for the table")
    page = page[: page.index(BEGIN)] + BEGIN + "\n" + table() + "\n" + page[page.index(END) :]
    with open(PAGE, "w", encoding="utf-8") as file:
        file.write(page)


def main():
    words = reader(__doc__)
    words.add_argument("crates", nargs="*")
    words.add_argument("--part", action="append", choices=["check", "tests", "mutants"])
    words.add_argument("--jobs", type=int, default=2)
    words.add_argument("--gate", action="store_true")
    words.add_argument("--table", action="store_true")
    words.add_argument("--write", action="store_true")
    given = words.parse_args()
    unknown = [it for it in given.crates if it not in libraries()]
    if unknown:
        sys.exit(f"crates.txt names no {', '.join(unknown)}")
    status = gate(given.crates) if given.gate else 0
    for crate in () if given.gate else given.crates:
        keep(measured(crate, given.part or ["check", "tests", "mutants"], given.jobs))
    if given.table:
        print(table(), end="")
    if given.write:
        write()
    return status


if __name__ == "__main__":
    sys.exit(main())
