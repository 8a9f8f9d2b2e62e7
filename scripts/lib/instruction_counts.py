"""The case `instructions` of scripts/bench.py: the processor's instructions of `txc run` with one thread, by `valgrind
--tool=callgrind`, which gives the same counts whatever else the machine does.

Each workload of examples/bench is run with two numbers of turns; the difference, divided by how much more was done, is
what one transaction, word or call takes, everything round it included.
"""
import os, re, shutil, subprocess, sys, tempfile

from lib.words import TOP


def calls(n):
    """How many calls of `fib` a call `fib(n)` makes, itself counted."""
    return 1 if n < 2 else 1 + calls(n - 1) + calls(n - 2)


NARROW = 'the same of `sum` in `int`'

# The counts: what one is of, the workload, a text in it, the number there, the two in its place, and how often the
# thing is done with each.
COUNTED = [
    ('a transaction of `counter`', 'counter', 'i < {}', 500000, (1000, 3000), lambda n: n),
    ('a word that `longread` reads', 'longread', 'i < {}', 5000, (10, 30), lambda n: 512 * n),
    ('a word that `disjoint` adds to', 'disjoint', 'i < {}', 40000, (100, 300), lambda n: 16 * n),
    ('an operation on `list`', 'list', 'i < {}', 40000, (400, 800), lambda n: n),
    ('a round of `sieve`', 'sieve', 'r < {}', 200, (2, 4), lambda n: n),
    ('a call in `fib`, with its return', 'fib', 'fib({})', 27, (10, 14), calls),
    ('a turn of `compute`', 'compute', 'i < {}', 1000, (10, 20), lambda n: 1000 * n),
    ('a turn of `sum`', 'sum', 'i < {}', 1000000, (10000, 20000), lambda n: n),
    (NARROW, 'sum', 'i < {}', 1000000, (10000, 20000), lambda n: n),
]


def counted(txc, text):
    """How many instructions a run of this source takes."""
    with tempfile.TemporaryDirectory() as place:
        file = os.path.join(place, 'counted.c')
        with open(file, 'w', encoding='utf-8') as to:
            to.write(text)
        words = ['valgrind', '--tool=callgrind', '--callgrind-out-file=/dev/null', txc, 'run', file]
        ran = subprocess.run(words, stdout=subprocess.DEVNULL, stderr=subprocess.PIPE, text=True)
    found = re.search(r'Collected : (\d+)', ran.stderr)
    if ran.returncode or not found:
        sys.exit(f'{" ".join(words)} ended with status {ran.returncode}: {ran.stderr[-300:]}')
    return int(found[1])


def measure(txc, _):
    """Prints the table. One round is enough."""
    if not shutil.which('valgrind'):
        sys.exit('valgrind is not installed')
    print('| What | Instructions |\n|---|---|')
    for what, name, place, number, (few, many), times in COUNTED:
        with open(os.path.join(TOP, 'examples', 'bench', name + '.c'), encoding='utf-8') as file:
            text = file.read()
        if what == NARROW:
            text = text.replace('long long', 'int').replace('%lld', '%d')
        if text.count(place.format(number)) != 1:
            sys.exit(f'examples/bench/{name}.c has {place.format(number)} not once')
        more = (
            counted(txc, text.replace(place.format(number), place.format(many)))
            - counted(txc, text.replace(place.format(number), place.format(few)))
        )
        print(f'| {what} | {round(more / (times(many) - times(few)))} |')
