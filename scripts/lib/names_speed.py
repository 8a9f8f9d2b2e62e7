"""The case `names` of scripts/bench.py: how long txc takes for names that are chosen to take long, compared with others
of the same length and number, and for long sums.

First `txc check` of a function with 31,000 locals, a source of 1 MiB. In one source all names have the same hash, if a
hash multiplies eight bytes by eight with a constant and no key (one factor is 0, so the rest of the name does not
matter). In another they do not. The key of txc's hash is computed from all names of the source, so both should take the
same time. Then `txc listing` of a function with 60,000 locals and 60,000 uses of one, the newest or the oldest, and of
1 MiB of sums, of 11 terms each and of 90, of globals, of locals and of constants. The figures are the least processor
time of the rounds.
"""

import os
import subprocess
import sys
import tempfile

COLLIDING = "aaaaaaaaaaaaassTNo3qMD1o"
OTHERS = "aaaaaaaaaaaaassTNo3qMD1_"


def locals_of(beginning):
    """A function with 31,000 locals whose names begin so and end in eight digits."""
    names = ",".join(f"{beginning}{10000000 + number}" for number in range(31000))
    return f"void worker(int self){{int {names};}}\n"


def uses_of(is_oldest):
    """A function with 60,000 locals, and 60,000 assignments of the oldest or the newest to itself."""
    others = [f"v{it:x}" for it in range(59999)]
    names = ",".join(["z", *others] if is_oldest else [*others, "z"])
    return f"void worker(int self){{int {names};{'z=z;' * 60000}}}\n"


def sums_of(term, terms):
    """A function of nearly 1 MiB that adds so many of these terms, again and again."""
    one = f"g={'+'.join([term] * terms)};\n"
    return f"int g;void worker(int self){{int v;__transaction_atomic{{\n{one * ((2**20 - 80) // len(one))}}}}}\n"


def used(words):
    """The processor time of a command, in seconds."""
    child = subprocess.Popen(words, stdout=subprocess.DEVNULL)
    _, status, usage = os.wait4(child.pid, 0)
    child.returncode = 0
    if status:
        sys.exit(f"{' '.join(words)}: status {os.waitstatus_to_exitcode(status)}")
    return usage.ru_utime + usage.ru_stime


def measure(program, rounds):
    """Prints a line for each source."""
    sources = [
        ("check", "31,000 names of one hash", locals_of(COLLIDING)),
        ("check", "31,000 others", locals_of(OTHERS)),
        ("listing", "60,000 locals, the newest used", uses_of(False)),
        ("listing", "60,000 locals, the oldest used", uses_of(True)),
        *(
            ("listing", f"sums of {terms} {what}", sums_of(term, terms))
            for what, term in (("globals", "g"), ("locals", "v"), ("constants", "1"))
            for terms in (11, 90)
        ),
    ]
    with tempfile.TemporaryDirectory() as folder:
        for at, (command, says, text) in enumerate(sources):
            path = f"{folder}/{at}.c"
            with open(path, "w", encoding="ascii") as file:
                file.write(text)
            least = min(used([program, command, path]) for _ in range(rounds))
            print(f"txc {command}, {says}: {len(text):,} bytes, {least:.2f} s")
