#!/usr/bin/env python3
"""Compares pages of `txc explore` with the source, and the pages in docs/explore/ with what is written now.

  scripts/explore.py [--txc PATH] [--browser PATH]   compares
  scripts/explore.py --write [--txc PATH]            writes the pages of docs/explore/ again, and compares nothing

Node runs the script of each page: from every state, the turn of every thread. The memory, output and ends after the turn
must be those of `txc source` in a shortest order to the state and with this turn, and what the turn reads and writes must
be that of `txc trace`. The number of states, up to exchanges of threads that begin alike, must be that of `txc outcomes`,
which must list as many outcomes, and a stuck order if and only if the page has a stuck state. Properties must have the
values that `txc trace --property` reports.

A page of one order must have each of its states, and those one turn from them. The command on a page must have the
options `-D` of the call.

With --browser, Chromium opens each page of docs/explore/ at an order, and presses the buttons and keys that lead to it. It
must show the source's memory after that order.
"""

import json
import os
import re
import subprocess
import sys
import tempfile

from lib.words import TOP, TXC, asked

PAGES = f"{TOP}/docs/explore"
# Each page of the documents, and what writes it: README and TUTORIAL say so too.
SHOWN = {
    "seats.html": "examples/seats.c --threads 2 --order 1,0,0,1",
    "lock_broken.html": "examples/properties/lock_broken.c --threads 2 --always alone",
    "philosophers_broken.html": "examples/properties/philosophers_broken.c --threads 3 --always neighbours_wait",
}
COMPARED = [
    *SHOWN.values(),
    "examples/booking.c --threads 2",
    "examples/receipt.c --threads 3",
    "examples/withdraw.c --threads 2",
    "examples/counter.c --threads 8 --order 0,1,2,3,4,5,6,7,7",
]
# A program with a bound that the command line defines.
BOUND = "int x;\nvoid worker(int self) {\n    for (int i = 0; i < N; i++) { __transaction_atomic { x = x + 1; } }\n}\n"
NODE = r"""
const html = require("fs").readFileSync(process.argv[1], "utf8");
const data = JSON.parse(/<script type="application\/json" id="data">(.*?)<\/script>/s.exec(html)[1]);
const model = new Function(/<script id="model">(.*?)<\/script>/s.exec(html)[1] + "\nreturn modelOf;")()(data);
const search = model.search(0), turns = [], lacks = [];
for (const state of search.found)
  for (const thread of model.all) {
    if (model.next(state, thread) === null) { lacks.push(state); continue; }
    const order = [...model.orderTo(search.led, state), thread], path = model.path(order), last = path[order.length];
    turns.push({ order, ran: model.runs(state, thread), effects: model.effects(state, thread), memory: model.memory(last),
      threads: model.all.map(other => [model.rest(last, other).end || "waits", model.rest(last, other).printed]),
      values: data.properties.map(property => [property.name, property.values[last]]) });
  }
const passed = model.path(data.order);
const places = row => [...new Set(data.states[0][1])].map(
  place => model.all.filter(thread => data.states[0][1][thread] === place).map(thread => row[thread]).sort());
const apart = new Set(search.found.map(state => JSON.stringify([data.states[state][0], places(data.states[state][1])])));
console.log(JSON.stringify({ cells: data.cells, states: apart.size, outcomes: model.outcomes.size,
  are_all: data.are_all, options: data.options, passes: passed.length === data.order.length + 1,
  expands: !passed.some(state => lacks.includes(state)), stuck: model.can.includes(false), turns }));
"""
LAST = re.compile(r"^== outcomes: (\d+), stuck: (\d+), states: (\d+)", re.M)
ROW = re.compile(r'<tr(?: class="changed")?><td>(.*?)</td><td>(-?\d+)')
SAID = {"1": "holds", "0": "fails", "?": "takes more than 1000000 ticks"}


def out_of(txc, *words):
    """What the program prints."""
    return subprocess.run([txc, *words], capture_output=True, text=True, check=False, cwd=TOP).stdout


def page_of(txc, words):
    """The page that the program writes, and its words without the order and properties."""
    page = out_of(txc, "explore", *words.split())
    if not page.endswith("</html>\n"):
        sys.exit(f"txc explore {words}: no page")
    return page


def run_of(words):
    """The file, the number of threads and the definitions of a command line."""
    parts = words.split()
    defined = [at for at, word in enumerate(parts) if word == "-D"]
    return parts[:3] + [word for at in defined for word in parts[at:at + 2]]


def report_of(cells, turn):
    """The report of `txc source` for what the page shows after a turn."""
    lines = []
    for thread, (end, text) in enumerate(turn["threads"]):
        lines.append(f"== thread {thread}: {end}\n{text}")
        if text and not text.endswith("\n"):
            lines.append("\n")
    globals_ = {}
    for name, value in zip(cells, turn["memory"], strict=True):
        globals_.setdefault(name.partition("[")[0], []).append(str(value))
    return "".join(lines) + "== memory\n" + "".join(f"{name} = {' '.join(them)}\n" for name, them in globals_.items())


def touched_by(trace, count):
    """What the last of so many turns reads and writes, by a trace."""
    lines = trace.splitlines()
    names, marks = lines[0].split()[3:], lines[count + 1].split()[3:]
    if lines[count + 1].endswith("none: terminated"):
        return {}, {}
    pairs = list(zip(names, marks, strict=False))
    return ({name: mark for name, mark in pairs if mark not in (".",) and not mark.startswith(">")},
            {name: mark[1:] for name, mark in pairs if mark.startswith(">")})


def compare(txc, words):
    """Compares each turn of a page with the source. It exits if one differs."""
    with tempfile.NamedTemporaryFile("w", suffix=".html", encoding="utf-8") as file:
        file.write(page_of(txc, words))
        file.flush()
        done = subprocess.run(["node", "-e", NODE, file.name], capture_output=True, text=True, check=True)
    found = json.loads(done.stdout)
    run = run_of(words)
    if found["options"] != " ".join(run[3:]):
        sys.exit(f"{words}: the page has the options {found['options']}")
    if found["are_all"]:
        outcomes, stuck, states = LAST.search(out_of(txc, "outcomes", *run)).groups()
        if (found["states"], found["outcomes"], found["stuck"]) != (int(states), int(outcomes), stuck != "0"):
            sys.exit(f"{words}: {found['states']} states, {found['outcomes']} outcomes, stuck {found['stuck']}")
    elif not (found["passes"] and found["expands"]):
        sys.exit(f"{words}: the page lacks a state of its order, or one a turn from it")
    for turn in found["turns"]:
        order = ",".join(map(str, turn["order"]))
        report = out_of(txc, "source", *run, "--order", order)
        if report != report_of(found["cells"], turn):
            sys.exit(f"{words}, order {order}: the page has\n{report_of(found['cells'], turn)}and the source\n{report}")
        effects = turn["effects"]
        of_page = ({name: str(value) for name, value in effects["reads"]},
                   {name: str(value) for name, value, _ in effects["writes"]})
        trace = out_of(txc, "trace", *run, "--order", order)
        if of_page != touched_by(trace, len(turn["order"])):
            sys.exit(f"{words}, order {order}: the page has {of_page} of\n{trace}")
        for name, value in turn["values"]:
            shown = out_of(txc, "trace", *run, "--order", order, "--property", name).splitlines()
            if not any(re.match(rf"property {name}: {SAID[value]}(:|$)", line) for line in shown):
                sys.exit(f"{words}, order {order}: {name} is not {SAID[value]}")
    print(f"{words}: {found['states']} states, {len(found['turns'])} turns")


# Presses the buttons of an order's turns, then the keys that go one turn back and forward again.
CLICKS = """<script>
for (const thread of ORDER) document.querySelectorAll("#threads button")[thread].click();
for (const key of ["ArrowLeft", "ArrowRight"]) dispatchEvent(new KeyboardEvent("keydown", { key }));
</script>"""


def shown_by(browser, address):
    """The memory that the browser shows at an address."""
    flags = ["--headless", "--no-sandbox", "--disable-gpu", "--virtual-time-budget=5000", "--dump-dom"]
    done = subprocess.run([browser, *flags, address], capture_output=True, text=True, check=True)
    return dict(ROW.findall(done.stdout))


def browse(browser, txc, name, words):
    """Compares the memory that the browser shows with that of the source: at a link, and after clicks and keys."""
    run, order = run_of(words), "0,1,1"
    report = out_of(txc, "source", *run, "--order", order).partition("== memory\n")[2]
    cells = {}
    for line in report.splitlines():
        of, _, values = line.partition(" = ")
        them = values.split()
        cells.update({of: them[0]} if len(them) == 1 else {f"{of}[{at}]": it for at, it in enumerate(them)})
    with (
        open(f"{PAGES}/{name}", encoding="utf-8") as page,
        tempfile.NamedTemporaryFile("w", suffix=".html", encoding="utf-8") as clicked,
    ):
        clicked.write(page.read() + CLICKS.replace("ORDER", f"[{order}]"))
        clicked.flush()
        for address in (f"file://{PAGES}/{name}#order={order}", f"file://{clicked.name}#order="):
            found = shown_by(browser, address)
            if found != cells:
                sys.exit(f"{address}: the browser shows {found}, and the source leaves {cells}")
    print(f"{name}: shown by the browser, at a link and after clicks")


def main():
    browser = "--browser", {"metavar": "PATH", "help": "a Chromium, which opens the pages of docs/explore/"}
    given = asked(__doc__, "--write", browser, TXC)
    os.makedirs(PAGES, exist_ok=True)
    for name, words in SHOWN.items():
        page = page_of(given.txc, words)
        if given.write:
            with open(f"{PAGES}/{name}", "w", encoding="utf-8") as file:
                file.write(page)
            continue
        with open(f"{PAGES}/{name}", encoding="utf-8") as file:
            if file.read() != page:
                sys.exit(f"docs/explore/{name} is another page: scripts/explore.py --write writes it")
    if given.write:
        return 0
    for words in COMPARED:
        compare(given.txc, words)
    with tempfile.NamedTemporaryFile("w", suffix=".c", encoding="utf-8") as file:
        file.write(BOUND)
        file.flush()
        compare(given.txc, f"{file.name} --threads 2 -D N=2")
    if given.browser:
        for name, words in SHOWN.items():
            browse(given.browser, given.txc, name, words)
    return 0


if __name__ == "__main__":
    sys.exit(main())
