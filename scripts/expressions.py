#!/usr/bin/env python3
"""Compares random expressions of the three types of numbers with Python's numbers and with GCC.

    scripts/expressions.py [COUNT [SEED]] [--txc PATH]

Each of COUNT programs has six locals with values at the edges of their types, prints an expression over them, and
stores it in two globals. `txc run` and `txc source` have to print the value that the rules of docs/LANGUAGE.md give in
Python's unbounded numbers, or end in the trap that they give. Expressions that do not trap are also compiled by GCC
(`-fwrapv`), all in one program. SEED is the first random seed.
"""

import collections
import os
import random
import shutil
import subprocess
import sys
import tempfile

from lib.words import TXC, asked, count

INT, UNSIGNED, LONG_LONG = "int", "unsigned", "long long"
TYPES = [INT, UNSIGNED, LONG_LONG]
BITS = {INT: 32, UNSIGNED: 32, LONG_LONG: 64}
LIMIT = {INT: 2**31, UNSIGNED: 2**32, LONG_LONG: 2**63}
FORMAT = {INT: "%d", UNSIGNED: "%u", LONG_LONG: "%lld"}
SUFFIX = {INT: "", UNSIGNED: "u", LONG_LONG: "LL"}
LOCALS = {"a": INT, "b": UNSIGNED, "c": LONG_LONG, "d": INT, "e": UNSIGNED, "f": LONG_LONG}
EDGES = [0, 1, 2, 7, 31, 32, 63, 64, 100, 2**31 - 1, 2**31, 2**32 - 1, 2**32, 2**32 + 1, 2**40, 2**62, 2**63 - 1, 2**63]
COUNTS = [0, 1, 5, 31, 32, 40, 62, 63, 64]
COMPARED = {"<": int.__lt__, "<=": int.__le__, ">": int.__gt__, ">=": int.__ge__, "==": int.__eq__, "!=": int.__ne__}
BITWISE = {"&": int.__and__, "|": int.__or__, "^": int.__xor__}
RESULT = {"+": int.__add__, "-": int.__sub__, "*": int.__mul__}
DIVIDED = ["/", "%"]
SHIFTED = ["<<", ">>"]
BINARY = [*COMPARED, *BITWISE, *RESULT, *RESULT, *DIVIDED, *SHIFTED]

# `value` takes what the locals hold.
Expr = collections.namedtuple("Expr", "text of value")


class Trap(Exception):
    """An expression that traps, with the trap's number."""


def converted(of, number):
    """The number of a type that has the residue of this one."""
    word = number % 2 ** BITS[of]
    return word if word < LIMIT[of] else word - 2 ** BITS[of]


def fitted(of, number):
    """A result in its type: a signed one that is out of range is trap 1."""
    if of != UNSIGNED and converted(of, number) != number:
        raise Trap(1)
    return converted(of, number)


def common(of, other):
    """The type to which both operands are converted."""
    return LONG_LONG if LONG_LONG in (of, other) else UNSIGNED if UNSIGNED in (of, other) else INT


def divided(op, a, b):
    """A quotient towards 0, or what it leaves; where the quotient is out of range so is both."""
    if b == 0:
        raise Trap(2)
    quotient = abs(a) // abs(b) * (-1 if (a < 0) != (b < 0) else 1)
    return quotient, a - quotient * b if op == "%" else quotient


def constant(chance, of, number):
    """A constant of this type."""
    form = chance.choice(["{}", "{:#x}", "0{:o}"])
    plain = of == INT or of == LONG_LONG and number >= 2**32 and chance.random() < 0.5
    return Expr(form.format(number) + ("" if plain else SUFFIX[of]), of, lambda held: number)


def drawn_constant(chance):
    of = chance.choice(TYPES)
    number = chance.choice(EDGES) if chance.random() < 0.6 else chance.randrange(2 ** chance.choice([3, 8, 31, 32, 63]))
    while number >= LIMIT[of]:
        number //= 2
    return constant(chance, of, number)


def unary(op, e):
    values = {
        "!": lambda held: int(e.value(held) == 0),
        "~": lambda held: converted(e.of, ~e.value(held)),
        "-": lambda held: fitted(e.of, -e.value(held)),
        "+": e.value,
    }
    return Expr(f"{op}({e.text})", INT if op == "!" else e.of, values[op])


def shift(op, e, count):
    def value(held):
        number, by = e.value(held), count.value(held)
        if not 0 <= by < BITS[e.of]:
            raise Trap(5)
        return fitted(e.of, number << by) if op == "<<" else converted(e.of, number >> by)

    return Expr(f"(({e.text}) {op} ({count.text}))", e.of, value)


def binary(op, left, right):
    of = common(left.of, right.of)

    def value(held):
        a, b = converted(of, left.value(held)), converted(of, right.value(held))
        if op in COMPARED:
            return int(COMPARED[op](a, b))
        if op in BITWISE:
            return converted(of, BITWISE[op](a, b))
        if op in RESULT:
            return fitted(of, RESULT[op](a, b))
        quotient, number = divided(op, a, b)
        fitted(of, quotient)
        return fitted(of, number)

    return Expr(f"(({left.text}) {op} ({right.text}))", INT if op in COMPARED else of, value)


def logical(op, left, right):
    def value(held):
        is_first = left.value(held) != 0
        return int(is_first if is_first == (op == "||") else right.value(held) != 0)

    return Expr(f"(({left.text}) {op} ({right.text}))", INT, value)


def conditional(test, first, second):
    of = common(first.of, second.of)
    text = f"(({test.text}) ? ({first.text}) : ({second.text}))"
    return Expr(text, of, lambda held: converted(of, (first if test.value(held) != 0 else second).value(held)))


def drawn(chance, depth):
    """An expression of at most this depth."""
    what = chance.random()
    if depth == 0 or what < 0.12:
        name = chance.choice(list(LOCALS))
        return chance.choice([Expr(name, LOCALS[name], lambda held: held[name]), drawn_constant(chance)])
    first = drawn(chance, depth - 1)
    if what < 0.22:
        of = chance.choice(TYPES)
        return Expr(f"({of})({first.text})", of, lambda held: converted(of, first.value(held)))
    if what < 0.34:
        return unary(chance.choice("!~-+"), first)
    second = drawn(chance, depth - 1)
    if what < 0.40:
        return conditional(first, second, drawn(chance, depth - 1))
    if what < 0.46:
        return logical(chance.choice(["&&", "||"]), first, second)
    op = chance.choice(BINARY)
    if op not in SHIFTED:
        return binary(op, first, second)
    return shift(
        op,
        first,
        constant(chance, chance.choice([INT, LONG_LONG]), chance.choice(COUNTS)) if chance.random() < 0.7 else second,
    )


def written(of, number):
    """The text of a number of this type; the least one has no constant of its own."""
    least = -LIMIT[of] if of != UNSIGNED else 0
    return f"(-{-least - 1}{SUFFIX[of]} - 1)" if number == least < 0 else f"{number}{SUFFIX[of]}"


def held_values(chance):
    """What the locals hold."""
    numbers = [sign * edge for edge in EDGES for sign in (1, -1)]
    return {
        name: converted(
            of,
            chance.choice(numbers)
            if chance.random() < 0.6
            else chance.randrange(2**64) >> chance.choice([0, 8, 32, 60]),
        )
        for name, of in LOCALS.items()
    }


def body(held, e):
    """The declarations of the locals, and the statement that prints the expression."""
    declared = " ".join(f"{of} {name} = {written(of, held[name])};" for name, of in LOCALS.items())
    return f'{declared} printf("{FORMAT[e.of]}\\n", {e.text});'


def hold(txc, place, chance):
    """The body and value of a program that does not trap, or None; it ends where txc gives something else."""
    held, e, stored = held_values(chance), drawn(chance, chance.choice([2, 3, 4])), chance.choice(TYPES)
    text = (
        f"{stored} g, h; void worker(int self) {{ {body(held, e)} __transaction_atomic {{ g = {e.text}; h = g; }} }}\n"
    )
    try:
        value = e.value(held)
        left = converted(stored, value)
        wanted = f"== thread 0: ended\n{value}\n== memory\ng = {left}\nh = {left}\n"
    except Trap as trap:
        value = None
        wanted = f"== thread 0: trap {trap}\n== memory\ng = 0\nh = 0\n"
    file = os.path.join(place, "drawn.c")
    with open(file, "w", encoding="ascii") as to:
        to.write(text)
    for words in (["run", file], ["source", file, "--order", "0"]):
        done = subprocess.run([txc, *words], capture_output=True, text=True, check=False)
        if done.stdout != wanted:
            sys.exit(f"`txc {words[0]}` of\n{text}prints\n{done.stdout}{done.stderr}and should print\n{wanted}")
    return None if value is None else (body(held, e), value)


def hold_gcc(place, programs):
    """Ends where GCC gives another value."""
    functions = "".join(f"void drawn{i}(void) {{ {text} }}\n" for i, (text, _) in enumerate(programs))
    calls = "".join(f"drawn{i}(); " for i in range(len(programs)))
    file, program = os.path.join(place, "all.c"), os.path.join(place, "all")
    with open(file, "w", encoding="ascii") as to:
        to.write(f"#include <stdio.h>\n{functions}int main(void) {{ {calls}}}\n")
    subprocess.run(["gcc", "-w", "-fwrapv", "-o", program, file], check=True)
    printed = subprocess.run([program], capture_output=True, text=True, check=True).stdout.split()
    for (text, value), other in zip(programs, printed, strict=True):
        if str(value) != other:
            sys.exit(f"GCC gives {other} and not {value} of\n{text}")


def main():
    given = asked(__doc__, count("count", 300), count("seed", 1), TXC)
    chance = random.Random(given.seed)
    with tempfile.TemporaryDirectory() as place:
        programs = [found for found in (hold(given.txc, place, chance) for _ in range(given.count)) if found]
        has_gcc = shutil.which("gcc") is not None
        if has_gcc:
            hold_gcc(place, programs)
    print(
        f"{given.count} programs, of which {given.count - len(programs)} trap: `run` and `source` give what they should"
        + (", and GCC the same" if has_gcc else "")
    )


if __name__ == "__main__":
    main()
