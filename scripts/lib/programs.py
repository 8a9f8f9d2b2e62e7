"""Random programs, for txc and for GCC, and programs that are a little smaller.

A program is a tree, so that shrinking gives well-formed programs. No program traps, loops for ever or reads a location
that was not written: numbers are `unsigned` except for a few globals, indices are masked, divisors are odd, shifts are
by constants, locals have first values, and a loop's counter is not assigned in its body. `/*pause*/` marks where a
thread may wait while others run.

With the weight `wait` threads wait in loops around a transaction, for ever if no other thread ends the wait. The line
of such a transaction has the mark WAIT; an iteration reads no local that an earlier one wrote. With the weight `alike`
the threads of some programs all do the same, or begin alike and differ later, or are alike in two groups.
"""

import collections
import random
import re

# `form` has `{}` for each of `parts`. A statement with a `body` ends in its `tail`.
Expr = collections.namedtuple("Expr", "form parts")
Stmt = collections.namedtuple("Stmt", "form parts body tail")
# Where a statement stands: how many transactions and blocks are around it; whether an atomic one is around it in the
# text; whether what is unsafe, shared data, and leaving a loop may stand here; what a `return` gives; and whether an
# outer one is around it.
Place = collections.namedtuple("Place", "transactions depth is_atomic may_unsafe may_share in_loop returns in_outer")
# How often a random program has each feature, in addition to what all have; `room` is the number of statements of a
# transaction.
WEIGHTS = {
    "nest": 3,
    "relaxed": 2,
    "cancel": 2,
    "leave": 1,
    "call": 2,
    "room": 8,
    "wide": 2,
    "return": 1,
    "value": 2,
    "outer": 1,
    "wait": 0,
    "alike": 0,
}
WAIT = "/*wait*/"
# Waits: {g}, {h} are globals, {bit} is 1 or 2.
WAITS = [
    "while ((__transaction_atomic ({g}) & {bit}) == 0u) ;",
    "do {{ __transaction_atomic {{ l = {g} & {bit}; }} }} while (l != 0u);",
    "do {{ __transaction_atomic {{ l = {g} & {bit}; if (l == 0u) {g} |= {bit}; }} }} while (l != 0u);",
    "do {{ __transaction_atomic {{ l = {g} & {bit}; if (l != 0u) {g} ^= {bit}; }} }} while (l == 0u);",
    "do {{ __transaction_atomic {{ l = {g} & {bit}; {h} ^= {bit}; }} }} while (l == 0u);",
    "do {{ __transaction_atomic {{ {g} += {bit}; if (({g} & 2u) != 0u) __transaction_cancel; l = 0u; }} }} "
    "while (l != 0u);",
]
NUMBERS = ["0u", "1u", "2u", "3u", "5u", "7u", "10u", "100u", "4294967295u"]
# What GCC may make one wide access of, or a call of `memset`: {a}, {b} are arrays, {i} a new counter,
# {op} an assignment.
WIDE = 2 * ["for (int {i} = 0; {i} < 8; {i}++) {{ {a}[{i}] = 0u; }}"] + [
    "{a}[0] {op} {0}; {a}[1] {op} {1};",
    "{a}[0] {op} {0}; {a}[1] {op} {1}; {a}[2] {op} {0}; {a}[3] {op} 4u;",
    "{a}[2] {op} {0}; {a}[3] {op} {1};",
    "for (int {i} = 0; {i} < 4; {i}++) {{ {a}[{i}] {op} {0}; }}",
    "for (int {i} = 0; {i} < 8; {i}++) {{ {a}[{i}] {op} {0}; }}",
    "for (int {i} = 0; {i} < 8; {i}++) {{ {a}[{i}] = {b}[{i}]; }}",
    "for (int {i} = 0; {i} < 4; {i}++) {{ {a}[{i} + 2] {op} {b}[{i}] + 1u; }}",
]
ZERO, ONE = Expr("0u", []), Expr("1u", [])


def line(form, *parts):
    return Stmt(form, list(parts), None, "")


def block(form, parts, body):
    return Stmt(form, parts, body, "}")


class Program:
    """The random program of one seed."""

    def __init__(self, seed, threads, weights):
        self.chance, self.threads, self.weights = random.Random(seed), threads, {**WEIGHTS, **weights}
        self.names, self.functions, self.arrays, self.scalars, self.ints = 0, [], [], [], []
        self.compares = True

    def pick(self, things):
        return self.chance.choice(list(things))

    def happens(self, share):
        return self.chance.random() < share

    def name(self, letter):
        self.names += 1
        return f"{letter}{self.names}"

    # ---- expressions -------------------------------------------------------------------------------------------------

    def index(self, names, depth, shared):
        inner = self.expr(names, depth - 1, shared) if self.happens(0.5) else Expr(self.pick("0123") + "u", [])
        return Expr("({} & 3u)", [inner])

    def atom(self, names, depth, shared):
        atoms = [Expr(it, []) for it in names] * 2 + [Expr(self.pick(NUMBERS), [])]
        if shared:
            atoms += [Expr(it, []) for it in self.scalars] * 3 + [Expr(f"(unsigned){it}", []) for it in self.ints]
            if self.arrays and self.happens(0.4):
                return Expr(self.pick(self.arrays) + "[{}]", [self.index(names, depth, shared)])
        return self.pick(atoms)

    def value(self, names, depth):
        """A transaction that is an expression: shared data may occur in it, wherever it is itself."""
        # GCC 12.2.0 ends with an internal error if one contains a comparison
        kept, self.compares = self.compares, False
        made = Expr("__transaction_atomic ({})", [self.expr(names, depth)])
        self.compares = kept
        return made

    def expr(self, names, depth, shared=True):
        draw = self.chance.random()
        if depth > 0 and self.happens(self.weights["value"] * 0.04):
            return self.value(names, depth - 1)
        if depth <= 0 or draw < 0.35:
            return self.atom(names, depth, shared)

        def inner():
            return self.expr(names, depth - 1, shared)

        if draw < 0.85:
            return Expr("({} " + self.pick("+-*^&|+-") + " {})", [inner(), inner()])
        if draw < 0.9:
            return Expr("({} " + self.pick(["<<", ">>"]) + " " + self.pick("123") + ")", [inner()])
        if draw < 0.95 or not self.compares:
            return Expr("({} " + self.pick("/%") + " ({} | 1u))", [inner(), inner()])
        return Expr("({} ? {} : {})", [self.condition(names, depth - 1, shared), inner(), inner()])

    def condition(self, names, depth, shared=True):
        if self.happens(0.35):
            return Expr("(({} & 1u) != 0u)", [self.expr(names, depth, shared)])
        two = [self.expr(names, depth, shared), self.expr(names, depth, shared)]
        return Expr("({} " + self.pick(["==", "!=", "<", ">", "<="]) + " {})", two)

    # ---- statements --------------------------------------------------------------------------------------------------

    def stmts(self, names, room, place):
        inner, found = list(names), []
        for _ in range(self.chance.randint(1, 4)):
            if room[0] > 0:
                room[0] -= 1
                found.append(self.stmt(inner, room, place))
        return found

    def kinds(self, place, callable_):
        """What may stand here, as often as it is to be drawn."""
        weights, shared = self.weights, place.transactions > 0 or place.may_share
        nests = place.depth < 5 and place.transactions < 4
        counts = {
            "wide": weights["wide"] if shared and self.arrays else 0,
            "set": 8 if shared else 0,
            "array": 3 if shared and self.arrays else 0,
            "change": 3 if shared else 0,
            "int": 1 if shared and self.ints else 0,
            "local": 3,
            "declare": 2,
            "if": 3 if place.depth < 5 else 0,
            "for": 2 if place.depth < 5 else 0,
            "atomic": (weights["nest"] if place.transactions else 8) if nests else 0,
            "relaxed": weights["relaxed"] if nests and place.may_unsafe else 0,
            "outer": weights["outer"] if nests and not place.transactions else 0,
            "cancel": weights["cancel"] if place.is_atomic else 0,
            "leave": weights["leave"] if place.in_loop else 0,
            "return": weights["return"] if place.returns else 0,
            "print": 2 if place.may_unsafe else 0,
            "call": weights["call"] if callable_ else 0,
        }
        return [kind for kind, count in counts.items() for _ in range(count)]

    def stmt(self, names, room, place):
        shared = place.transactions > 0 or place.may_share
        able = [it for it in self.functions if it["unsafe"] <= place.may_unsafe and (shared or not it["shares"])]
        # GCC 12.2.0 has no outer transaction in another one
        able = [it for it in able if not (it["outer"] and place.transactions)]
        kind = self.pick(self.kinds(place, able))
        own = [it for it in names if it[0] in "lp"]
        if kind == "declare" or kind == "local" and not own:
            name = self.name("l")
            made = line(f"unsigned {name} = {{}};", self.expr(names, 2, shared))
            names.append(name)
            return made
        if kind == "local":
            return line(self.pick(own) + self.pick([" = ", " += ", " ^= "]) + "{};", self.expr(names, 2, shared))
        if kind in ("wide", "set", "array", "change", "int"):
            return self.write(kind, names, own)
        if kind in ("print", "call", "cancel", "leave", "return"):
            return self.leave_or_call(kind, names, own, able, place, shared)
        return self.block_of(kind, names, room, place, shared)

    def write(self, kind, names, own):
        """A statement that writes shared data."""
        if kind == "set":
            return line(self.pick(self.scalars) + " = {};/*pause*/", self.expr(names, 2))
        if kind == "int":
            return line(self.pick(self.ints) + " = (int)({} & 1023u);", self.expr(names, 2))
        if kind == "array":
            form = self.pick(self.arrays) + "[{}] " + self.pick(["=", "=", "+=", "^="]) + " {};/*pause*/"
            return line(form, self.index(names, 1, True), self.expr(names, 2))
        if kind == "change" and self.happens(0.3):
            return line(self.pick(self.scalars) + self.pick(["++", "--"]) + ";")
        if kind == "change":
            form = self.pick(self.scalars) + self.pick([" += ", " -= ", " ^= ", " *= "]) + "{};/*pause*/"
            return line(form, self.expr(names, 1))
        a, b, op = self.pick(self.arrays), self.pick(self.arrays), self.pick(["=", "=", "+=", "^="])
        form = self.pick(WIDE).replace("{a}", a).replace("{b}", b).replace("{op}", op).replace("{i}", self.name("i"))
        first = self.expr(own, 1, False) if self.happens(0.6) else ZERO
        return line(form + "/*pause*/", first, self.expr(own, 1, False))

    def leave_or_call(self, kind, names, own, able, place, shared):
        """A print, a call, a cancel, or what leaves a loop or a function."""
        if kind == "print":
            return line('printf("' + self.name("p") + ' %u\\n", {});', self.expr(names, 1, shared))
        if kind == "call":
            function = self.pick(able)
            parts = [self.expr(names, 1, shared) for _ in range(function["params"])]
            form = f"{function['name']}({', '.join('{}' for _ in parts)})"
            mode = "relaxed" if function["unsafe"] else "atomic"
            if not function["outer"] and self.happens(self.weights["value"] * 0.1):
                # in parentheses, since GCC 12.2.0 takes it for a block where a statement begins with it
                form = f"(__transaction_{mode} ({form}))"
            return line(f"{self.pick(own)} = {form};" if own and self.happens(0.8) else f"{form};", *parts)
        if kind == "cancel":
            cancel = line("__transaction_cancel" + (" [[outer]];" if place.in_outer and self.happens(0.5) else ";"))
            return cancel if self.happens(0.25) else block("if {} {{", [self.condition(names, 1)], [cancel])
        if kind == "leave":
            back = line(self.pick(["break;", "continue;"]))
        else:
            back = line("return;") if place.returns == "void" else line("return {};", self.expr(names, 1, shared))
        return block("if {} {{", [self.condition(names, 1, shared)], [back])

    def block_of(self, kind, names, room, place, shared):
        """A statement with others in it."""
        inside = place._replace(depth=place.depth + 1)
        if kind == "if":
            return block("if {} {{", [self.condition(names, 1, shared)], self.stmts(names, room, inside))
        if kind == "for":
            name = self.name("i")
            form = f"for (int {name} = 0; {name} < {self.pick('1233')}; {name}++) {{{{"
            return block(form, [], self.stmts([*names, f"(unsigned){name}"], room, inside._replace(in_loop=True)))
        inside = inside._replace(transactions=place.transactions + 1, is_atomic=kind != "relaxed")
        if kind != "relaxed":
            inside = inside._replace(may_unsafe=False, in_outer=place.in_outer or kind == "outer")
        word = "atomic [[outer]]" if kind == "outer" else kind
        return block(f"__transaction_{word} {{{{/*pause*/", [], self.stmts(names, room, inside))

    # ---- the whole ---------------------------------------------------------------------------------------------------

    def globals(self):
        for _ in range(self.chance.randint(2, 3)):
            self.scalars.append(self.name("g"))
            yield line(f"unsigned {self.scalars[-1]}" + self.pick(["", " = 1", " = 3", " = 10u"]) + ";")
        for _ in range(self.chance.randint(0, 1) + (self.weights["wide"] > 0)):
            self.arrays.append(self.name("a"))
            values = self.pick(["", " = {{1, 2, 3, 4}}", " = {{7, 7}}"])
            yield line(f"unsigned {self.arrays[-1]}[8]{values};")
        if self.happens(0.3):
            self.ints.append(self.name("n"))
            yield line(f"int {self.ints[-1]}" + self.pick(["", " = 5"]) + ";")

    def leads_to_outer(self, body):
        """Whether an outer transaction, or a call of a function that leads to one, is among these statements."""
        marks = ["atomic [[outer]]"] + [f"{it['name']}(" for it in self.functions if it["outer"]]
        return (
            any(mark in it.form for it in body for mark in marks)
            or any(self.leads_to_outer(it.body or []) for it in body)
        )

    def function(self, place):
        unsafe = self.weights["relaxed"] > 0 and self.happens(0.25)
        names = [self.name("p") for _ in range(self.chance.randint(0, 2))]
        made = {
            "name": self.name("f"),
            "params": len(names),
            "shares": self.happens(0.7),
            "unsafe": unsafe,
            "outer": False,
        }
        place = place._replace(may_share=made["shares"], may_unsafe=unsafe, returns="value")
        body = self.stmts(names, [6], place) + [line("return {};", self.expr(names, 1, made["shares"]))]
        made["outer"] = self.leads_to_outer(body)
        self.functions.append(made)
        return block(f"unsigned {made['name']}({', '.join('unsigned ' + it for it in names)}) {{{{", [], body)

    def transaction(self, names, place):
        if self.happens(self.weights["value"] * 0.06):
            return [line("l = {};", self.value(names, 2)), line('printf("v %u\\n", {});', Expr("l", []))]
        mode = "relaxed" if self.happens(self.weights["relaxed"] * 0.12) else "atomic"
        is_outer = mode == "atomic" and self.happens(self.weights["outer"] * 0.2)
        inside = place._replace(transactions=1, is_atomic=mode == "atomic", may_unsafe=mode == "relaxed", depth=1)
        inside = inside._replace(in_outer=is_outer)
        body = self.stmts(names, [self.weights["room"]], inside)
        if self.happens(0.7):
            body.append(line("l = {};", self.expr(names, 2)))
        made = block(f"__transaction_{mode}{' [[outer]]' * is_outer} {{{{/*pause*/", [], body)
        if self.happens(0.15):
            made = block("for (int i0 = 0; i0 < 2; i0++) {{", [], [made])
        return [made, line('printf("v %u\\n", {});', Expr("l", []))] if self.happens(0.7) else [made]

    def waits(self):
        """A loop around a transaction, or none."""
        if not self.weights["wait"] or not self.happens(0.2 * self.weights["wait"]):
            return []
        form = self.pick(WAITS) + WAIT
        drawn = (("{g}", self.scalars), ("{h}", self.scalars), ("{bit}", ["1u", "1u", "2u"]))
        for name, things in drawn:
            form = form.replace(name, self.pick(things))
        return [line(form)]

    def part(self, count, names, place):
        """So many transactions, with waits before them."""
        return [it for _ in range(count) for it in [*self.waits(), *self.transaction(names, place)]]

    def worker(self, names, place):
        """What several threads do: each something of its own, all the same, or both."""
        count = self.chance.randint(1, 2)
        kind = self.pick(["own", "same", "both", "groups"]) if self.weights["alike"] else "own"
        if kind == "same":
            return self.part(count, names, place)
        if kind == "groups":
            parts = [self.part(count, names, place) for _ in (0, 1)]
            return [block(f"if (self % 2 == {it}) {{{{", [], parts[it]) for it in (0, 1)]
        first = self.part(1, names, place) if kind == "both" else []
        return first + [
            block(f"if (self == {thread}) {{{{", [], self.part(count, names, place)) for thread in range(self.threads)
        ]

    def items(self):
        """Globals, functions, and a worker whose threads do one or two transactions each."""
        place = Place(0, 0, False, False, False, False, None, False)
        items = list(self.globals())
        for _ in range(self.chance.randint(0, 2) if self.weights["call"] else 0):
            items.append(self.function(place))
        place = place._replace(may_unsafe=True, returns="void")
        is_alike = self.weights["alike"] and self.happens(0.5)
        names, body = ["l"], [line("unsigned l = 1u;" if is_alike else "unsigned l = (unsigned)self;")]
        if self.threads > 1:
            body += self.worker(names, place)
        else:
            for _ in range(self.chance.randint(1, 3)):
                body += self.transaction(names, place) if self.happens(0.8) else self.stmts(names, [3], place)
        body.append(line('printf("l %u\\n", {});', Expr("l", [])))
        return [*items, block("void worker(int self) {{", [], body)]


def text_of(items):
    """The program's text."""
    found = []

    def spelled(expr):
        return expr.form.format(*map(spelled, expr.parts))

    def write(stmt, gap):
        found.append(gap + stmt.form.format(*map(spelled, stmt.parts)))
        if stmt.body is not None:
            for it in stmt.body:
                write(it, gap + "  ")
            found.append(gap + stmt.tail)

    for it in items:
        write(it, "")
    return "\n".join(found) + "\n"


# ---- shrinking -------------------------------------------------------------------------------------------------------


def smaller_exprs(expr):
    yield from expr.parts
    if expr not in (ZERO, ONE):
        yield from (ZERO, ONE)
    for at, it in enumerate(expr.parts):
        for small in smaller_exprs(it):
            yield Expr(expr.form, [*expr.parts[:at], small, *expr.parts[at + 1 :]])


def smaller(stmts):
    """Programs that are a little smaller, those first that lack most."""
    size = len(stmts) // 2
    while size > 1:
        for at in range(0, len(stmts), size):
            yield stmts[:at] + stmts[at + size :]
        size //= 2
    for at, it in enumerate(stmts):
        yield stmts[:at] + stmts[at + 1 :]
        if it.body is not None:
            yield stmts[:at] + it.body + stmts[at + 1 :]
    for at, it in enumerate(stmts):
        for body in smaller(it.body or []):
            yield stmts[:at] + [it._replace(body=body)] + stmts[at + 1 :]
        for part, expr in enumerate(it.parts):
            for small in smaller_exprs(expr):
                parts = [*it.parts[:part], small, *it.parts[part + 1 :]]
                yield stmts[:at] + [it._replace(parts=parts)] + stmts[at + 1 :]


def is_whole(text):
    """Whether each function with a value ends in a return: C says nothing of a value that was not given,
    and txc gives 0."""
    functions = re.findall(r"^unsigned \w+\(.*?^\}", text, re.M | re.S)
    return all(re.search(r"\n  return [^\n]*;\n\}$", it) for it in functions)


def shrunk(items, is_still):
    """The program made smaller as long as `is_still` holds of its text; `is_still` says when time
    is up by raising TimeoutError."""
    try:
        again = True
        while again:
            again = False
            for small in smaller(items):
                text = text_of(small)
                if is_whole(text) and is_still(text):
                    items, again = small, True
                    break
    except TimeoutError:
        pass
    return items
