#!/usr/bin/env python3
"""Compares traces with the source: each program of examples/, examples/mistakes/ and examples/properties/, and random
programs, with one to four threads in random orders. The turns of `txc trace --order L` must be those of L. A value that
a turn reads must be the one that the turns before have left, and so must the value before a write. The last values must
be the globals of `txc source --order L`, and the ends of the threads those that it reports, with `next` for `waits`. This
is compared of the table, of the blocks of `--full` and of the objects of `--format json`; of the objects also the text
that each thread prints. Nothing is compared if the source's threads run out of ticks.

Each program of examples/mistakes/ has one question, `// txc: ..`, to which the answer is a counterexample. The file of
the same name that ends in .trace keeps the command line, and the report and trace that `txc outcomes --trace` prints. The
trace must have the memory of `txc source` after each turn. Its order must be a counterexample that needs all its turns:
Python evaluates the property, and searches for continuations in which all threads end. Changed copies must be refused,
with one more turn, or with the values before each write.

  scripts/traces.py [PROGRAMS] [--txc PATH]   compares all of this
  scripts/traces.py --kept [--txc PATH]       compares the kept traces only
  scripts/traces.py --write [--txc PATH]      writes the kept traces, and then compares them

PROGRAMS is the number of random programs.
"""

import collections
import glob
import json
import os
import random
import re
import sys
import tempfile

from lib.programs import Program, text_of
from lib.words import TOP, TXC, asked, count
from outcomes import placed
from turns import drawn_order, printed

ORDERS = 6
FOLDERS = ("examples", "examples/mistakes", "examples/properties")
# Orders of one search for a continuation in which all threads end.
MOST_ORDERS = 2000
END = re.compile(r"^== thread \d+: (\w+(?: \d+)?)$", re.M)
LAST = re.compile(r"^thread \d+: (next|ended|trap \d+)", re.M)
FOLD = re.compile(r"^(?:==|) *turns (\d+) to (\d+), (\d+) times$")
QUESTION = re.compile(r"^// txc: (--threads (\d+)(?: --(always|final) (\w+))?) \((fails|stuck)\)$", re.M)
ANSWER = re.compile(r"^== (?:not \w+|stuck) --order (\S+)\n", re.M)
TRACED = re.compile(r"^txc: with --order (\S+)\n", re.M)
VALUE = re.compile(r"(\w+(?:\[\d+\])?) = (-?\d+(?: -?\d+)*)")


def memory_of(report):
    """The value of each global and of each element of an array, by its name, as a report has them."""
    values = {}
    for line in report.partition("== memory\n")[2].splitlines():
        name, _, words = line.partition(" = ")
        values[name] = words
        for index, word in enumerate(words.split()):
            values[f"{name}[{index}]"] = word
    return values


def cells_of(memory):
    """The values of globals that are no arrays, and of elements of arrays."""
    return {name: word for name, word in memory.items() if ("[" in name) == (" " in memory[name.partition("[")[0]])}


def texts_of(report):
    """What each thread printed, as a report has it, with a line end added if the last line has none."""
    return re.split(r"^== thread \d+: .*\n", report.partition("== memory\n")[0], flags=re.M)[1:]


def unfolded(rows):
    """Rows of turns, with those that a row `turns A to B, N times` leaves out."""
    every = []
    for row in rows:
        fold = FOLD.match(row[0])
        if fold:
            first, last, times = map(int, fold.groups())
            every += every[first - last - 1 :] * (times - 1)
        else:
            every.append(row)
    return every


def table_turns(trace):
    """The first values and the turns of a table: each its thread, and its reads and writes by the names of columns."""
    lines = trace.splitlines()
    names = lines[0].split()[3:]
    values = dict(zip(names, lines[1].split(), strict=True)) if names else {}
    rows = [
        (line, line.split())
        for line in lines[2 if names else 1 :]
        if not line.startswith(("thread ", "property ", " " * 5))
    ]
    turns = []
    for line, words in unfolded(rows):
        marks = [] if line.endswith("none: terminated") else list(zip(names, words[3:], strict=False))
        reads = [(name, mark) for name, mark in marks if mark != "." and mark[0] != ">"]
        turns.append((words[1], reads, [(name, None, mark[1:]) for name, mark in marks if mark[0] == ">"]))
    return values, turns


def block_turns(trace):
    """The same of the blocks of `--full`."""
    first, *blocks = re.split(r"^(?=== turns? )", trace.partition("== last\n")[0], flags=re.M)
    values = dict(re.findall(r"^(\S+) = (\S+)$", first, re.M))
    turns = []
    for head, *lines in unfolded([block.splitlines() for block in blocks]):
        text = "\n".join(lines)
        reads = re.findall(r"^read (\S+) = (\S+)$", text, re.M)
        writes = re.findall(r"^wrote (\S+) = ([^\s,]+), (?:was (\S+)|as before)$", text, re.M)
        turns.append((head.split()[4], reads, [(name, was or word, word) for name, word, was in writes]))
    return values, turns


def object_turns(trace):
    """The same of the objects of `--format json`; the first values are not among them. The texts of the threads too."""
    turns, texts = [], collections.defaultdict(str)
    for one in map(json.loads, trace.splitlines()):
        if "turn" in one:
            texts[one["thread"]] += one["printed"]
        if one.get("turn"):
            reads = [(read["global"], str(read["value"])) for read in one["reads"]]
            writes = [(write["global"], str(write["before"]), str(write["after"])) for write in one["writes"]]
            turns.append((str(one["thread"]), reads, writes))
            if one["turn"] != len(turns):
                sys.exit(f"turn {len(turns)} has another number:\n{trace}")
    return {}, turns, texts


def last_values(trace, values, turns, order):
    """The values that turns leave, if they are those of an order, and read what was there."""
    if [turn[0] for turn in turns] != order:
        sys.exit(f"turns of {order}:\n{trace}")
    for number, (_, reads, writes) in enumerate(turns, 1):
        for name, word in reads + [(name, before) for name, before, _ in writes if before is not None]:
            if values.setdefault(name, word) != word:
                sys.exit(f"turn {number} finds {name} = {word}:\n{trace}")
        values.update({name: after for name, _, after in writes})
    return values


def compare_form(txc, words, form, report, status, order):
    """Compares one form of a trace with the source's report. It exits if they differ."""
    traced, trace, errors = printed(txc, "trace", *words, *form)
    if errors == "txc: fault 81\n" and not trace:
        return False
    if form == ["--format", "json"]:
        values, turns, texts = object_turns(trace)
        ends = [f"trap {one['trap']}" if "trap" in one else one["end"] for one in map(json.loads, trace.splitlines())
                if "turn" not in one and "thread" in one]
        said = [texts[number] for number in range(len(ends))]
        if [text + "\n" * (text[-1:] not in ("", "\n")) for text in said] != texts_of(report):
            sys.exit(f"texts of {words}:\n{trace}\nand the source:\n{report}")
    else:
        is_table = trace.startswith("turn thread at")
        values, turns = table_turns(trace) if is_table else block_turns(trace)
        ends = LAST.findall(trace if is_table else trace.partition("== last\n")[2])
    values, memory = last_values(trace, values, turns, order), memory_of(report)
    wanted = ["next" if end == "waits" else end for end in END.findall(report)]
    if errors or traced != status or ends != wanted or any(memory.get(name) != values[name] for name in values):
        sys.exit(f"trace {words} {form}:\n{trace}{errors}\nand the source:\n{report}")
    return True


def compare(txc, file, threads, order):
    """The result for one order: "same", or why nothing is compared. It exits if they differ."""
    words = [file, "--threads", str(threads), "--order", order]
    status, report, errors = printed(txc, "source", *words)
    if status not in (0, 3, 4) or errors:
        sys.exit(f"source {words}: {report}{errors}")
    if "spent" in END.findall(report):
        return "spent"
    taken = order.split(",") if order else []
    for form in ([], ["--full"], ["--format", "json"]):
        if not compare_form(txc, words, form, report, status, taken):
            return "too long"
    return "same"


class Mistake:
    """A program of examples/mistakes/, with its question."""

    def __init__(self, txc, file):
        self.txc, self.file, self.known = txc, file, {}
        with open(file, encoding="utf-8") as program:
            self.text = program.read()
        questions = QUESTION.findall(self.text)
        if len(questions) != 1:
            sys.exit(f"{file} does not have one question that fails or is stuck")
        [(self.words, self.threads, self.when, self.property, self.expected)] = questions

    def printed(self):
        """The text to keep: the command line, the report and the trace."""
        _, report, trace = printed(self.txc, "outcomes", self.file, *self.words.split(), "--trace")
        return f"$ txc outcomes {os.path.relpath(self.file, TOP)} {self.words} --trace\n{report}{trace}"

    def source(self, order):
        """The report of the source in an order, and the place of each thread that waits."""
        key = tuple(map(int, order))
        if key not in self.known:
            self.known[key] = placed(self.txc, self.file, self.threads, order)
        return self.known[key]

    def holds(self, memory):
        """Whether the property, one expression of C, holds in a memory, by Python."""
        text = re.search(rf"^int {self.property}\(void\) {{ return (.*); }}$", self.text, re.M)[1]
        text = re.sub(r"!(?!=)", " not ", text.replace("&&", " and ").replace("||", " or "))
        words = {name: list(map(int, values.split())) for name, values in memory.items() if "[" not in name}
        names = {name: values if len(values) > 1 else values[0] for name, values in words.items()}
        return bool(eval(text, {"__builtins__": {}}, names))

    def can_end(self, order):
        """Whether all threads end in a continuation of an order, by a search over orders.

        Orders are the same here if they leave the same report, and the turns of each thread found the same memories. A
        turn that changes neither the memory nor the place of its thread is not counted: it is a look that waits."""
        work, known = [(order, ((),) * int(self.threads))], set()
        while work:
            order, found = work.pop()
            report, places = self.source(order)
            if (report, found) in known:
                continue
            known.add((report, found))
            if not places:
                return True
            if len(known) > MOST_ORDERS:
                sys.exit(f"{self.file}: more than {MOST_ORDERS} orders continue {order}")
            memory = memory_of(report)
            for thread, place in places.items():
                then, after = self.source([*order, thread])
                if memory_of(then) != memory or after.get(thread) != place:
                    now = (*found[thread], tuple(memory.items()))
                    work.append(([*order, thread], (*found[:thread], now, *found[thread + 1 :])))
        return False

    def is_counterexample(self, order):
        """Whether an order shows the mistake."""
        if self.expected == "stuck":
            return not self.can_end(order)
        report, places = self.source(order)
        return not (self.when == "final" and places) and not self.holds(memory_of(report))

    def wrong_values(self, order, trace):
        """The places where a trace and the source differ: memory after a turn, ends, values of the property."""
        memories = [memory_of(self.source(order[:turns])[0]) for turns in range(len(order) + 1)]
        values, turns = table_turns(trace)
        if [turn[0] for turn in turns] != order:
            return [f"the turns are not those of {order}"]
        wrong, cells = [], {**cells_of(memories[0]), **values}
        for number, (_, reads, writes) in enumerate([(0, [], []), *turns]):
            wrong += [f"turn {number} reads {name} = {word}" for name, word in reads if cells[name] != word]
            cells.update({name: word for name, _, word in writes})
            if cells != cells_of(memories[number]):
                wrong.append(f"after turn {number} the source has {cells_of(memories[number])}")
        ends = END.findall(self.source(order)[0])
        if LAST.findall(trace) != ["next" if end == "waits" else end for end in ends]:
            wrong.append(f"the threads are {ends}")
        told = re.search(r"^property (\w+): fails: (.*)$", trace, re.M)
        if (told and told[1]) != (self.property if self.expected == "fails" else None):
            wrong.append("the last line is not that of the property")
        values = VALUE.findall(told[2]) if told else []
        return wrong + [f"{name} = {word} at the end" for name, word in values if memories[-1][name] != word]

    def wrong_in(self, text):
        """The faults of the text of a kept trace."""
        answers, traces = ANSWER.findall(text), TRACED.split(text)[1:]
        if not answers or traces[:1] != answers[:1] or len(traces) != 2:
            return ["it does not have the trace of its first answer"]
        wrong = []
        for answer in answers:
            order = answer.split(",")
            if f"--order {answer}\n{self.source(order)[0]}" not in text:
                wrong.append(f"the report of {answer} is not that of the source")
            if not self.is_counterexample(order):
                wrong.append(f"the order {answer} is no counterexample")
        order = answers[0].split(",")
        for at in range(len(order)):
            if self.is_counterexample(order[:at] + order[at + 1 :]):
                wrong.append(f"turn {at + 1} is not needed")
        return wrong + self.wrong_values(order, traces[1])

    def changed(self, text):
        """The text of a kept trace with one turn more, of each thread, and the text with the values before writes."""
        _, order, trace = TRACED.split(text)
        ask = ["--property", self.property] if self.expected == "fails" else []
        for thread in range(int(self.threads)):
            longer = f"{order},{thread}"
            words = ["trace", self.file, "--threads", self.threads, "--order", longer, *ask]
            reports = [self.source(it.split(","))[0] for it in (order, longer)]
            other = text.replace(trace, printed(self.txc, *words)[1])
            yield other.replace(f"--order {order}\n", f"--order {longer}\n").replace(*reports)
        yield text.replace(trace, before_writes(trace))


def before_writes(trace):
    """A table that shows the value before each write in place of the one after it."""
    values, _ = table_turns(trace)
    names, lines = list(values), []
    for line in trace.splitlines(keepends=True):
        words = re.split(r"(\s+)", line)
        if re.match(r" {0,4}\d", line):
            for at, name in enumerate(names):
                # (words are at even places, after an empty one, and the first three are no values)
                found = words[2 * at + 8]
                if found.startswith(">"):
                    words[2 * at + 8], values[name] = f">{values[name]}", found[1:]
        lines.append("".join(words))
    return "".join(lines)


def wrong_kept(txc, is_written):
    """The faults of the kept traces, and the number of programs."""
    wrong, files = [], sorted(glob.glob(f"{TOP}/examples/mistakes/*.c"))
    if not files:
        sys.exit("there is no program in examples/mistakes")
    for file in files:
        mistake, path = Mistake(txc, file), f"{file[:-2]}.trace"
        if is_written:
            with open(path, "w", encoding="utf-8") as trace:
                trace.write(mistake.printed())
        with open(path, encoding="utf-8") as trace:
            text = trace.read()
        found = mistake.wrong_in(text)
        if text != mistake.printed():
            found.append("this is not what its first line prints")
        found += ["a changed one is not refused" for other in mistake.changed(text) if not mistake.wrong_in(other)]
        wrong += [f"{os.path.relpath(path, TOP)}: {it}" for it in found]
    return wrong, len(files)


def main():
    given = asked(__doc__, count("programs", 100), "--kept", "--write", TXC)
    wrong, many = wrong_kept(given.txc, given.write)
    print("\n".join(wrong) or f"{many} kept traces are counterexamples")
    if wrong or given.kept or given.write:
        return 1 if wrong else 0
    chance, came = random.Random(0), collections.Counter()
    with tempfile.TemporaryDirectory(prefix="traces-") as room:
        files = sorted(it for folder in FOLDERS for it in glob.glob(f"{TOP}/{folder}/*.c"))
        for seed in range(1, given.programs + 1):
            files.append(f"{room}/{seed}.c")
            with open(files[-1], "w", encoding="utf-8") as program:
                program.write(text_of(Program(seed, 4, {}).items()))
        for file in files:
            for threads in (1, 2, 3, 4):
                for _ in range(ORDERS):
                    came[compare(given.txc, file, threads, drawn_order(chance, threads))] += 1
    print(", ".join(f"{many} {what}" for what, many in came.most_common()))
    return 0 if came["same"] else 1


if __name__ == "__main__":
    sys.exit(main())
