#!/usr/bin/env python3
"""Compares three files of tests, and documents, with examples/.

  scripts/examples.py           fails if one of the files is not what --write writes, or if a document shows what the
                                program does not print
  scripts/examples.py --write   writes the files

crates/serving_replays_tests/src/examples.rt runs each program of examples/, examples/against/ and examples/bench/. It
compares the output with the file of the same name that ends in .out, and the warnings with WARNED. It also runs each
transcript of examples/transcripts/: a file whose first line is a command line, `$ txc ..`, and whose rest is what a
terminal then shows. crates/lower_tests/src/of_meaning/examples.rt runs each program of examples/ from its tree and
compares with the same file; crates/lower_tests/src/of_lower/examples.rt compiles each program of examples/.

In a document, a block that begins with `$ txc run examples/NAME.c` must continue with NAME.out, and any other one that
begins with `$ txc` must be a transcript. The C in README.md and TUTORIAL.md must be that of files of examples/, and the
schedules in TUTORIAL.md those of examples/schedules/.
"""

import glob
import os
import re
import sys

from lib.words import TOP, asked

TESTS = os.path.join(TOP, "crates/serving_replays_tests/src/examples.rt")
MEANING_TESTS = os.path.join(TOP, "crates/lower_tests/src/of_meaning/examples.rt")
LOWER_TESTS = os.path.join(TOP, "crates/lower_tests/src/of_lower/examples.rt")
SHOWN = re.compile(r"^```\n(\$ txc [^\n]*\n)(.*?)^```$", re.M | re.S)
PROGRAM = re.compile(r"^```c\n(.*?)^```$", re.M | re.S)
RUN = re.compile(r"\$ txc run examples/((?:against/)?\w+)\.c\n")
# Globals of 64 bits: their names are words of these lines.
WIDE = re.compile(r"^(?:signed )?long long (.*);$", re.M)
# Tables of transcripts have at most so many rows, and these names.
MOST_ROWS = 18
PARTS = ("first", "second", "third", "fourth", "fifth", "sixth")
# Programs of which something is warned: it is what they show.
WARNED = ["examples/against/nested_cancel.c", "examples/seats.c", "examples/seats_checked.c"]
SCHEDULE = re.compile(r"^```\n((?:\d+ a?\d+\n)+)```$", re.M)


def read(path):
    with open(os.path.join(TOP, path), encoding="utf-8") as file:
        return file.read()


def names(pattern):
    return sorted(glob.glob(pattern, root_dir=TOP, recursive=True))


def programs():
    """Those of examples/, and those that are compared with other implementations or measured."""
    return [name for folder in ("", "against/", "bench/") for name in names(f"examples/{folder}*.c")]


def literal(text):
    return '"' + text.replace("\\", "\\\\").replace('"', '\\"').replace("\n", "\\n") + '"'


def data(text):
    """A literal of bytes."""
    return "b" + literal(text)


def row(literals, deep=4):
    gap = " " * deep
    return f"{gap}(\n" + "".join(f"{gap}    {it},\n" for it in literals) + f"{gap}),\n"


def transcript(path):
    """The words behind `$`, the source, the schedule or the order, the report or what else is compared, and what is shown."""
    first, shown = read(path).split("\n", 1)
    words = first.removeprefix("$ ")
    named = (r"(examples/\S+\.c)", r"--(?:schedule|order-file) (\S+)", r"--(?:report|refines|expect|admits) (\S+)")
    files = [re.search(name, words) for name in named]
    return words, *(read(found[1]) if found else "" for found in files), shown


def table(name, rows):
    return f"""fn {name}() -> &'static [Transcript] {{
    static ROWS: [Transcript; {len(rows)}] = [
{"".join(rows)}    ];
    &ROWS
}}

"""


def shown_test(which):
    return f"""#[test]
fn {which}_transcripts_show_what_they_should(rt: HostRuntime) {{
    assert_eq!(rt;
        wrong_transcript(&rt, rt.alloc(), {which}_transcripts()),
        None
    );
}}
"""


def tests():
    examples = [row([literal(name), data(read(name)), data(read(name[:-2] + ".out"))], 8) for name in programs()]
    transcripts = [
        row([literal(words), *map(data, shown)], 8)
        for words, *shown in map(transcript, names("examples/transcripts/*.txt"))
    ]
    # (the proof of a table grows faster than its rows)
    parts = [transcripts[at : at + MOST_ROWS] for at in range(0, len(transcripts), MOST_ROWS)]
    return f"""//! The programs of examples/ with what each prints, and its transcripts: written by scripts/examples.py.

use std::alloc::Global;
use std::sync::Wait;
use std::thread::Threads;
use test_serving::{{Served, request_of, serve_claim, serve_line}};

/// A program's file, its source, and what it prints.
type Example = (&'static str, &'static [u8], &'static [u8]);

/// The rows are in a function, so that only its own proof reads them.
fn examples() -> &'static [Example] {{
    static ROWS: [Example; {len(examples)}] = [
{"".join(examples)}    ];
    &ROWS
}}

/// Whether a source prints this, and nothing on standard error.
fn prints<H: Threads + Wait + Sync>(rt: &H, alloc: Global, source: &[u8], out: &[u8]) -> bool {{
    match serve_line(rt, alloc, "txc run a.c", source, b"", false) {{
        Some(served) => served.out.as_slice() == out && served.err.is_empty(),
        None => false,
    }}
}}

/// The first program that prints something else.
fn wrong_example<H: Threads + Wait + Sync>(rt: &H, alloc: Global) -> Option<&'static str> {{
    for (file, source, out) in examples() {{
        if !prints(rt, alloc, source, out) {{
            return Some(*file);
        }}
    }}
    None
}}

#[test]
fn examples_print_what_they_should(rt: HostRuntime) {{
    assert_eq!(rt; wrong_example(&rt, rt.alloc()), None);
}}

/// The programs that are warned of: what is warned of is what they show.
const WARNED: [&str; {len(WARNED)}] = [
{"".join(f"    {literal(name)},{chr(10)}" for name in WARNED)}];

/// Whether a program is among these.
fn is_to_be_warned_of(file: &str) -> bool {{
    for warned in WARNED.iter() {{
        if *warned == file {{
            return true;
        }}
    }}
    false
}}

/// Whether a source is accepted and warned of.
fn is_warned_of<H: Threads + Wait + Sync>(rt: &H, alloc: Global, source: &[u8]) -> bool {{
    match serve_line(rt, alloc, "txc check a.c --warn", source, b"", false) {{
        Some(served) => served.status == 0 && !served.err.is_empty(),
        None => false,
    }}
}}

/// The first program that is warned of and is not to be, or the other way round.
fn wrong_warning<H: Threads + Wait + Sync>(rt: &H, alloc: Global) -> Option<&'static str> {{
    for (file, source, _) in examples() {{
        if is_warned_of(rt, alloc, source) != is_to_be_warned_of(file) {{
            return Some(*file);
        }}
    }}
    None
}}

#[test]
fn examples_are_warned_of_where_they_show_it(rt: HostRuntime) {{
    assert_eq!(rt; wrong_warning(&rt, rt.alloc()), None);
}}

/// The command line, the source, the schedule or the order, the report, and what a terminal shows.
type Transcript = (
    &'static str,
    &'static [u8],
    &'static [u8],
    &'static [u8],
    &'static [u8],
);

{"".join(table(f"{which}_transcripts", part) for which, part in zip(PARTS, parts, strict=False))}/// The part of a line that a terminal shows once it is complete: what follows the last carriage return, since a line of
/// progress ends in blanks and a carriage return.
fn left_of(line: &[u8]) -> Option<&[u8]> {{
    line.rsplit(|byte| *byte == b'\\r').next()
}}

/// Whether this is what was served: the output, and then what remains of standard error.
fn shows(served: &Served, shown: &[u8]) -> bool {{
    let out = served.out.as_slice();
    shown.starts_with(out) && shown.get(out.len()..) == left_of(served.err.as_slice())
}}

/// Whether a terminal shows this of a command line.
fn is_shown<H: Threads + Wait + Sync>(
    rt: &H,
    alloc: Global,
    line: &str,
    source: &[u8],
    schedule: &[u8],
    report: &[u8],
    shown: &[u8],
) -> bool {{
    match request_of(alloc, line) {{
        Ok(request) => {{
            let served = serve_claim(rt, alloc, &request, source, schedule, report, true);
            shows(&served, shown)
        }}
        Err(_) => false,
    }}
}}

/// The first command line of which a terminal shows something else.
fn wrong_transcript<H: Threads + Wait + Sync>(
    rt: &H,
    alloc: Global,
    rows: &'static [Transcript],
) -> Option<&'static str> {{
    for (line, source, schedule, report, shown) in rows {{
        if !is_shown(rt, alloc, line, source, schedule, report, shown) {{
            return Some(*line);
        }}
    }}
    None
}}

{chr(10).join(shown_test(which) for which, _ in zip(PARTS, parts, strict=False))}"""


def told(source, out):
    """The contents of a report of one thread of a source: the number of its trap or 0, what it printed,
    and the words of memory."""
    end, rest = out.split("\n", 1)
    printed, memory = rest.split("== memory\n")
    trap = re.fullmatch("== thread 0: (?:ended|trap ([1-5]))", end)[1]
    wide = {name for line in WIDE.findall(source) for name in re.findall(r"\w+", line)}
    shown = [line.split(" = ") for line in memory.splitlines()]
    words = [int(word) % 2 ** (64 if name in wide else 32) for name, values in shown for word in values.split()]
    return f"            {trap or 0},\n            {literal(printed)},\n            &{words},\n"


def meaning_tests():
    examples = [
        f"        (\n            {literal(read(name))},\n{told(read(name), read(name[:-2] + '.out'))}        ),\n"
        for name in names("examples/*.c")
    ]
    return f"""//! The programs of examples/, each run alone from its tree: written by scripts/examples.py.

use crate::asserted::assert_none;
use meaning::{{SourceOutcome, ThreadEnd, ThreadReport, run_order}};
use separation::Accepted;
use std::alloc::Global;
use test_programs::accepted_of;

/// A program, the number of the trap in which it ends or 0, what it prints, and the words of the memory that it leaves.
type Row = (&'static str, u32, &'static str, &'static [u64]);

fn examples() -> &'static [Row] {{
    static EXAMPLES: [Row; {len(examples)}] = [
{"".join(examples)}    ];
    &EXAMPLES
}}

/// Entries enough for the transactions of each program.
const ALONE: [u32; 20] = [0; 20];

/// Whether a thread printed what the row says, and ended as it says.
fn is_report(report: &ThreadReport, row: &Row) -> bool {{
    let over = match report.end {{
        ThreadEnd::Ended => row.1 == 0,
        ThreadEnd::Trapped(why) => row.1 == why.number(),
        _ => false,
    }};
    over && report.text.as_slice() == row.2.as_bytes()
}}

/// Whether one thread has done what the row says.
fn has_done(outcome: &SourceOutcome, row: &Row) -> bool {{
    match outcome.threads.as_slice() {{
        [thread] => outcome.memory.as_slice() == row.3 && is_report(thread, row),
        _ => false,
    }}
}}

/// Whether one thread of a program does what the row says.
fn does_so(alloc: Global, accepted: &Accepted, row: &Row) -> bool {{
    match run_order(alloc, accepted, 1, ALONE.as_slice(), 100000) {{
        Ok(outcome) => has_done(&outcome, row),
        Err(_) => false,
    }}
}}

/// Whether one thread of a row's text does what the row says.
fn is_so(alloc: Global, row: &Row) -> bool {{
    match accepted_of(alloc, row.0) {{
        Some(accepted) => does_so(alloc, &accepted, row),
        None => false,
    }}
}}

/// The text of the first row that is not so.
fn first_other(alloc: Global, rows: &[Row]) -> Option<&'static str> {{
    for row in rows {{
        if !is_so(alloc, row) {{
            return Some(row.0);
        }}
    }}
    None
}}

#[test]
fn examples_leave_and_print_what_they_should(rt: HostRuntime) {{
    assert_none(&rt, first_other(rt.alloc(), examples()));
}}
"""


def lower_tests():
    examples = [f"        {literal(read(name))},\n" for name in names("examples/*.c")]
    return f"""//! The programs of examples/, and that each has a code: written by scripts/examples.py.

use crate::asserted::assert_none;
use crate::of_lower::codes::fault_of;
use std::alloc::Global;

/// The texts are in a function, so that only its own proof reads them.
pub fn examples() -> &'static [&'static str] {{
    static TEXTS: [&str; {len(examples)}] = [
{"".join(examples)}    ];
    &TEXTS
}}

/// The first of these texts that has no code.
fn has_none(alloc: Global, texts: &[&'static str]) -> Option<&'static str> {{
    for text in texts {{
        if fault_of(alloc, text).is_some() {{
            return Some(*text);
        }}
    }}
    None
}}

#[test]
fn each_example_has_code(rt: HostRuntime) {{
    assert_none(&rt, has_none(rt.alloc(), examples()));
}}
"""


def main():
    given = asked(__doc__, "--write")
    written = {TESTS: tests(), MEANING_TESTS: meaning_tests(), LOWER_TESTS: lower_tests()}
    if given.write:
        for path, text in written.items():
            with open(path, "w", encoding="utf-8") as file:
                file.write(text)
        return 0
    wrong = [
        f"{os.path.relpath(path, TOP)} is not what scripts/examples.py --write writes"
        for path, text in written.items()
        if read(path) != text
    ]
    transcripts = {read(name) for name in names("examples/transcripts/*.txt")}
    count = 0
    for document in ["README.md", *names("docs/*.md")]:
        for line, shown in SHOWN.findall(read(document)):
            count += 1
            run = RUN.fullmatch(line)
            if shown != read(f"examples/{run[1]}.out") if run else line + shown not in transcripts:
                wrong.append(f"{document} does not show what this prints: {line.strip()}")
    programs = {read(name) for name in names("examples/**/*.c")}
    for document in ("README.md", "docs/TUTORIAL.md"):
        wrong += [
            f"{document} shows a program that is no example: {text[:60]!r}"
            for text in PROGRAM.findall(read(document))
            if text not in programs
        ]
    schedules = {read(name) for name in names("examples/schedules/*.txt")}
    wrong += [
        f"docs/TUTORIAL.md shows a schedule that is no example: {text[:60]!r}"
        for text in SCHEDULE.findall(read("docs/TUTORIAL.md"))
        if text not in schedules
    ]
    print(
        "\n".join(wrong)
        or f"the examples are those of the tests, and {count} transcripts in documents are as they run"
    )
    return 1 if wrong else 0


if __name__ == "__main__":
    sys.exit(main())
