"""Runs commands side by side and reports how each ended, for .ci/quick and .ci/release."""

import os
import re
import subprocess
import threading
import time
from concurrent.futures import ThreadPoolExecutor

from lib.words import TOP


def name_of(step):
    """The file of the log of a step."""
    return re.sub(r"\W+", "_", os.path.basename(step[0]) + "".join(f" {it}" for it in step[1:] if "/" not in it))


def run(steps, logs, say):
    """Runs commands one after another until one fails. Yields whether each passed; those after it are not run, and are
    counted as failed."""
    for at, step in enumerate(steps):
        begun, path = time.monotonic(), f"{logs}/{name_of(step)}.log"
        with open(path, "w", encoding="utf-8") as log:
            status = subprocess.run(step, cwd=TOP, stdin=subprocess.DEVNULL, stdout=log, stderr=log).returncode
        say(status, time.monotonic() - begun, step, path)
        yield status == 0
        if status:
            for other in steps[at + 1 :]:
                say(None, 0, other, path)
                yield False
            return


def last_line(path):
    """The last line of a log."""
    with open(path, encoding="utf-8", errors="replace") as log:
        return (log.read().rstrip("\n").splitlines() or [""])[-1]


def said(status, seconds, step, path):
    """The report of a step that ended: a line of its own, then the last line that it printed, or all if it failed."""
    words = " ".join(os.path.relpath(it, TOP) if os.path.isabs(it) and it.startswith(TOP) else it for it in step)
    if status is None:
        return f"NOT RUN        {words}"
    if status == 0:
        return f"passed {seconds:5.0f} s {words}\n               {last_line(path)}"
    with open(path, encoding="utf-8", errors="replace") as log:
        return f"FAILED {seconds:5.0f} s {words}: status {status}\n{log.read()}"


def all_run(chains, folder, jobs):
    """Runs the commands of each chain one after another, as many chains at once as `jobs`. The logs are put into a
    folder of out/. Returns the exit status, 1 if a command failed."""
    logs, lock, begun = f"{TOP}/out/{folder}", threading.Lock(), time.monotonic()
    os.makedirs(logs, exist_ok=True)

    def say(*what):
        with lock:
            print(said(*what), flush=True)

    with ThreadPoolExecutor(jobs) as pool:
        results = [it for chain in pool.map(lambda steps: list(run(steps, logs, say)), chains) for it in chain]
    minutes = (time.monotonic() - begun) / 60
    print(f"{minutes:.1f} minutes on the clock; what each printed is in out/{folder}/")
    print(f"{results.count(True)} passed, {results.count(False)} failed", flush=True)
    return 0 if all(results) else 1
