#!/usr/bin/env python3
"""Compares pictures of replays with their timelines and sources, and the pictures in the documents with what is drawn
now.

  scripts/pictures.py [SEEDS] [--txc PATH]           each program of examples/ by so many seeds, with two to four threads
  scripts/pictures.py --write [SEEDS] [--txc PATH]   draws the pictures of docs/pictures/ again, and replays nothing

Each picture has to fulfil these conditions:

  - it is XML;
  - its glyphs are titled by the lines of the timeline that have one: accesses, events, begins, ends and prints, up to
    access 400, or with `--from` among 400 accesses from that one on;
  - it has an arrow for each abort, titled by the accesses of the last store to the word that had changed, if that is
    drawn, and of the load that found it;
  - each box is titled by a line of the source, and by the text of a transaction that begins on it;
  - it has a box for each attempt that begins in what is drawn;
  - if all threads have ended and nothing is cut off, the order at its foot, given to `txc source --order`, leaves what
    the replay left.
"""

import glob
import os
import re
import subprocess
import sys
import xml.etree.ElementTree as xml

from lib.words import TOP, TXC, asked, count

SVG = "{http://www.w3.org/2000/svg}"
MOST = 400
LINE = re.compile(r"(\d+) (\d+) (.*)")
MARKED = re.compile(r"; |^\d+ (begin|commit|print)")
STORED = re.compile(r"; store (@\d+) = ")
LOADED = re.compile(r"; load (@\d+) = ")
BEGUN = re.compile(r"\d+ begin >\d+; load lock = \d*[02468]$")
TITLE = re.compile(r"line (\d+):\n(__transaction_\w+.*)", re.DOTALL)
ORDER = re.compile(r"(--order )?([\d,]+)")
# Each picture of the documents, and what draws it: README and TUTORIAL say so too.
SHOWN = {
    "seats.svg": "examples/seats.c --threads 2 --order 0,1,1,0",
    "audit.svg": "examples/audit.c --threads 2 --order 0,1,0",
    "counter.svg": "examples/counter.c --threads 2 --schedule examples/schedules/counter.txt",
    "booking.svg": "examples/booking.c --threads 2 --seed 3",
}


def out_of(txc, *words):
    """What the program prints."""
    done = subprocess.run([txc, *words], capture_output=True, text=True, check=False, cwd=TOP)
    if done.stderr:
        sys.exit(f"{' '.join(words)}: {done.stderr}")
    return done.stdout


def drawn_lines(timeline, first):
    """The lines of a timeline among the accesses that are drawn from this one on, or from the beginning."""
    for line in timeline.splitlines()[1:]:
        accesses, _, said = LINE.fullmatch(line).groups()
        if first <= int(accesses) < max(first, 1) + MOST:
            yield line, accesses, said


def arrows_of(timeline, first):
    """The titles of the arrows: for each abort that is drawn the last store to its word, if that is, and its load."""
    stored = {}
    for _, accesses, said in drawn_lines(timeline, first):
        if store := STORED.search(said):
            stored[store[1]] = accesses
        if said.endswith("; abort") and (store := stored.get(LOADED.search(said)[1])):
            yield f"access {store}, then access {accesses}"


def order_at_foot(root):
    """The order at the foot of a picture, as `--order` takes it; none where nothing took effect."""
    texts = ["".join(it.itertext()) for it in root.iter(f"{SVG}text")]
    begun = [at for at, text in enumerate(texts) if text.startswith("--order ")]
    order = ""
    for text in texts[begun[0]:] if begun else []:
        if not (found := ORDER.fullmatch(text)):
            break
        order += found[2]
    return order


def shown(source):
    """A source as a picture shows it: no carriage returns, and `?` for each character that is not printable ASCII."""
    text = source.replace("\r", "")
    return "".join(it if it in "\n\t" or " " <= it <= "~" else "?" for it in text)


def box_differs(title, lines):
    """Whether the title of a box is not that of a transaction on a line of the source."""
    found = TITLE.fullmatch(title)
    if not found:
        return True
    behind = "\n".join(lines[int(found[1]) - 1:])
    text = found[2].removesuffix(" ..") if len(found[2]) > 1000 else found[2]
    at = behind.find(text)
    return at < 0 or "\n" in behind[:at]


def left_by(report):
    """What a report tells behind what happened."""
    return report[report.index("== thread 0"):]


def differs(txc, file, words, first):
    """Why the picture of a replay from an access on is not what it should be, if it is not."""
    replay = ["replay", file, *words]
    drawn = out_of(txc, *replay, "--picture", *(["--from", str(first)] if first else []))
    timeline, _, report = out_of(txc, *replay, "--timeline").partition("== events\n")
    try:
        root = xml.fromstring(drawn)
    except xml.ParseError as why:
        return f"is not XML: {why}"
    titled = [it for it in root.iter(f"{SVG}g") if it.find(f"{SVG}title") is not None]
    arrows = [it.find(f"{SVG}title").text for it in titled if it.find(f"{SVG}polyline[@class='why']") is not None]
    boxes = [it.find(f"{SVG}title").text for it in titled if it.find(f"{SVG}rect") is not None]
    titles = [it.find(f"{SVG}title").text for it in titled if it.find(f"{SVG}title").text not in {*arrows, *boxes}]
    lines = list(drawn_lines(timeline, first))
    if titles != [line for line, _, said in lines if MARKED.search(said)]:
        return "has other glyphs than the timeline"
    if arrows != list(arrows_of(timeline, first)):
        return "has not an arrow for each abort, from the last store to its word"
    source = shown(open(f"{TOP}/{file}", encoding="utf-8", newline="").read()).split("\n")
    if any(box_differs(title, source) for title in boxes):
        return "has a box that is titled by no transaction on its line"
    if len(boxes) < sum(BEGUN.fullmatch(said) is not None for _, _, said in lines):
        return "has no box for an attempt"
    cut = int(timeline.splitlines()[-1].split()[0]) >= max(first, 1) + MOST
    if not cut and ": running" not in report and ": stop" not in report:
        threads = words[words.index("--threads") + 1]
        order = order_at_foot(root)
        if out_of(txc, "source", file, "--threads", threads, "--order", order) != left_by(report):
            return "has an order that leaves something else"
    return None


def main():
    given = asked(__doc__, "--write", count("seeds", 20), TXC)
    txc = given.txc
    wrong = 0
    told = "".join(open(f"{TOP}/{page}", encoding="utf-8").read() for page in ("README.md", "docs/TUTORIAL.md"))
    for name, replay in SHOWN.items():
        if f"txc replay {replay} --picture > {name}\n" not in told:
            wrong += 1
            print(f"no page says what draws docs/pictures/{name}: txc replay {replay} --picture > {name}")
        drawn = out_of(txc, "replay", *replay.split(), "--picture")
        path = f"{TOP}/docs/pictures/{name}"
        if given.write:
            with open(path, "w", encoding="utf-8") as file:
                file.write(drawn)
        elif open(path, encoding="utf-8").read() != drawn:
            wrong += 1
            print(f"docs/pictures/{name} is not what is drawn: scripts/pictures.py --write")
    if given.write:
        return
    for path in sorted(glob.glob(f"{TOP}/examples/*.c")):
        file, shown_so = os.path.relpath(path, TOP), 0
        for seed in range(1, given.seeds + 1):
            words = ["--threads", str(2 + seed % 3), "--seed", str(seed), "--steps", str(60 * seed)]
            for first in (0, 1 + 7 * seed):
                why = differs(txc, file, words, first)
                if why:
                    wrong += 1
                    print(f"{file}, seed {seed}, from {first}: the picture {why}")
                else:
                    shown_so += 1
        print(f"{file}: {shown_so} pictures")
    sys.exit(wrong > 0)


if __name__ == "__main__":
    main()
