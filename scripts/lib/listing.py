"""What `txc listing` prints, as data: functions, instructions and texts, the transactions that are open at a place, and
what operators on registers are in C. And the globals of a program, which a listing does not have.

native.py makes C for real threads from it, and spin.py a model for SPIN.
"""

import re
import subprocess
import sys

from lib.words import txc

TOKEN = re.compile(r'/\*.*?\*/|//[^\n]*|^[ \t]*#[^\n]*|"(?:\\.|[^"\\])*"|\w+|[^\w\s]', re.S | re.M)
TYPES = {"int": "s", "signed": "s", "unsigned": "u", "long": "l"}
SYMBOLS = {"and": "&", "or": "|", "xor": "^", "eq": "==", "ne": "!=", "lt": "<", "le": "<="}
CASTS = {"s": "S", "u": "U", "l": "L"}
TRAPPING = re.compile(r"(add|sub|mul|div|rem|shl|shr)\.([sul])")


class NoForm(Exception):
    """What of a program cannot be written as C."""


def read(path):
    with open(path, encoding="utf-8") as file:
        return file.read()


def write(path, text):
    with open(path, "w", encoding="utf-8") as file:
        file.write(text)


def printed(*words):
    """What txc prints."""
    done = subprocess.run([txc(), *words], capture_output=True, text=True, check=False)
    if done.returncode not in (0, 3, 4) or done.stderr:
        sys.stderr.write(done.stderr)
        sys.exit(done.returncode or 1)
    return done.stdout


# ---- globals -----------------------------------------------------------------------------------------------------


def types_of(source):
    """The type of each global, by name, by the grammar of docs/LANGUAGE.md: an item outside of braces that begins
    with a type, and whose first name has no `(` after it, declares globals."""
    words = [it for it in TOKEN.findall(source) if not it.startswith(("/*", "//", "#"))]
    words = [it for it in words if it.strip()]
    types, item, depth = {}, [], 0
    for at, word in enumerate(words):
        depth += (word in "{([") - (word in "})]")
        item.append(word)
        if depth == 0 and (word == ";" or word == "}" and words[at + 1 : at + 2] not in ([","], [";"])):
            types.update(globals_of(item))
            item = []
    return types


def globals_of(item):
    """The globals that an item declares, each with its type."""
    count = next((at for at, it in enumerate(item) if it not in TYPES), 0)
    if not count or item[count + 1] == "(":
        return
    kind = "l" if "long" in item[:count] else TYPES[item[0]]
    depth, begins = 0, True
    for word in item[count:]:
        if begins:
            yield word, kind
        depth += (word in "{([") - (word in "})]")
        begins = depth == 0 and word == ","


def globals_and_values(file):
    """Each global in order: its name, its type and its first values. `txc run` that makes no step prints the last."""
    memory = printed("run", file, "--budget", "0").partition("== memory\n")[2]
    types = types_of(read(file))
    rows = [line.partition(" =") for line in memory.splitlines()]
    if [name for name, _, _ in rows] != [*types]:
        raise NoForm(f"the globals {', '.join(types)} of the source are not those of its report")
    return [(name, types[name], [int(it) for it in values.split()]) for name, _, values in rows]


# ---- code --------------------------------------------------------------------------------------------------------


class Code:
    """A listing: functions (name, registers, first place, end), instructions (operation, operands) and texts."""

    def __init__(self, listing):
        self.instructions, self.texts, functions = [], [], []
        for line in listing.splitlines():
            word, _, rest = line.partition(" ")
            if word == "function":
                name, _, registers = rest.split(" ")
                functions.append((name, int(registers), len(self.instructions)))
            elif word == "text":
                self.texts.append(rest.partition(" ")[2])
            else:
                operation, *operands = rest.split(" ")
                self.instructions.append((operation, operands))
        ends = [*[it[2] for it in functions[1:]], len(self.instructions)]
        self.functions = [(*it, end) for it, end in zip(functions, ends)]
        self.parameters = {"worker": 1}
        for operation, operands in self.instructions:
            if operation == "call":
                self.parameters[operands[0]] = len(operands) - 2

    def next_of(self, place, opens):
        """The places that execution may reach next from a place, each with the begins that are open there."""
        operation, operands = self.instructions[place]
        if operation == "begin":
            return [(place + 1, (*opens, place))]
        if operation == "commit":
            return [(place + 1, opens[:-1])]
        if operation in ("cancel", "cancelx"):
            count = number(operands[0]) if operands else 1
            return [(number(self.instructions[opens[-count]][1][0]), opens[:-count])]
        if operation == "ret":
            return []
        goes_on = [] if operation == "jump" else [(place + 1, opens)]
        return goes_on + [(number(it), opens) for it in operands if it.startswith(">")]

    def opens(self, start):
        """Of each place that a way through a function comes to the begins that are open there, the outermost first."""
        found, left = {start: ()}, [start]
        while left:
            place = left.pop()
            for to, opens in self.next_of(place, found[place]):
                if to not in found:
                    found[to] = opens
                    left.append(to)
        return found


def number(operand):
    return int(operand[1:])


# ---- instructions on registers alone -----------------------------------------------------------------------------


def computed(operation, a, trap):
    """The instruction in C, over scripts/native/operators.h, if it uses registers alone; otherwise None. `trap` is the
    statement that ends the thread, with `{}` for the number of the trap."""
    word, _, of = operation.partition(".")
    if found := TRAPPING.fullmatch(operation):
        call = f"{found[1]}_{found[2]}({a[1]}, {a[2]}, &made)"
        return f"{{ uint64_t made; int why = {call}; if (SELDOM(why)) {trap.format('why')} {a[0]} = made; }}"
    if word in SYMBOLS:
        cast = CASTS.get(of, "")
        return f"{a[0]} = {cast}({a[1]}) {SYMBOLS[word]} {cast}({a[2]});"
    if operation in ("neg.s", "neg.l"):
        call = f"neg_{of}({a[1]}, &made)"
        return f"{{ uint64_t made; if (SELDOM({call})) {trap.format('OUT_OF_RANGE')} {a[0]} = made; }}"
    if operation == "const":
        return f"{a[0]} = UINT64_C({number(a[1])});"
    if operation == "check":
        return f"if (SELDOM({a[0]} >= {number(a[1])})) {trap.format('OUTSIDE')}"
    forms = {"move": "{1}", "neg.u": "U(-U({1}))", "not": "U(~U({1}))", "not.l": "~{1}", "low": "U({1})"}
    forms["ext"] = "(uint64_t)(int64_t)S({1})"
    return f"{a[0]} = {forms[operation].format(*a)};" if operation in forms else None
