"""Writes a program that a compiler's transactions run wrongly as one self-contained C file. It reports a wrong outcome,
and its head gives the commands, the compiler's version, the outcome and the allowed ones."""

import json
import os
import platform
import re
import shlex

from lib.words import TOP

HARNESS = f"{TOP}/scripts/workloads/against.c"
# How a number of each type is printed.
FORMS = {"int": "%d", "unsigned": "%u", "long long": "%lld"}
# Names of the harness that a program may have too.
OWN = """printed self chance threads runs fresh is_over arrived round_number draw wait_for meet go thread start join report
    tell read_words may_come""".split()
OWN = re.compile(rf'"(?:\\.|[^"\\])*"|//[^\n]*|\b(?:{"|".join(OWN)})\b')
RUNS = 100_000
# Before the program's text, where it prints and where it pauses.
PRINTS = "int against_print(const char *, ...);\n#define printf against_print\n"
PAUSES = "__attribute__((transaction_pure)) void against_pause(void);\n"
# After a program of one thread.
COMPARES = """\
#include <stdio.h>

static int is_wrong;

static void compare(const char *name, int index, long long is, long long may_be)
{
    if (is != may_be) {
        index < 0 ? printf("%s", name) : printf("%s[%d]", name, index);
        printf(" is %lld, and may be %lld alone\\n", is, may_be);
        is_wrong = 1;
    }
}
"""
# The same, where it prints.
COMPARES_TEXT = """\
#include <stdarg.h>
#include <string.h>

static char text[65536];
static size_t length;

int against_print(const char *format, ...)
{
    va_list list;
    va_start(list, format);
    int more = vsnprintf(text + length, sizeof text - length, format, list);
    va_end(list);
    length += more;
    return more;
}
"""
# Names of these that a program may have too.
COMPARED = re.compile(r'"(?:\\.|[^"\\])*"|\b(is_wrong|compare|text|length|may_be_\w+)\b')


def memory_code(variables):
    """The functions of the harness that know a program's globals: name, type, length or None of each."""
    declared, saved, reset, shown = [], [], [], []
    for name, kind, length in variables:
        bounds, form = "" if length is None else f"[{length}]", FORMS[kind]
        declared.append(f"extern {kind} {name}{bounds};\nstatic {kind} first_{name}{bounds};")
        saved.append(f"memcpy(&first_{name}, &{name}, sizeof {name});")
        reset.append(f"memcpy(&{name}, &first_{name}, sizeof {name});")
        if length is None:
            shown.append(f'fprintf(to, "{name} = {form}\\n", {name});')
        else:
            values = f'for (int i = 0; i < {length}; i++) fprintf(to, " {form}", {name}[i]);'
            shown.append(f'fprintf(to, "{name} ="); {values} putc(10, to);')
    functions = zip(("save(void)", "reset(void)", "show(FILE *to)"), (saved, reset, shown))
    bodies = [f"void against_{name}\n{{\n" + "\n".join(lines) + "\n}" for name, lines in functions]
    return "\n".join(["#include <stdio.h>", "#include <string.h>", *declared, *bodies]) + "\n"


def number(text):
    """A number of C: the least one has no constant of its own."""
    return "(-9223372036854775807ll - 1)" if text == "-9223372036854775808" else f"{text}ll"


def report_text(report):
    """The text of a report, as the harness writes it."""
    ends = enumerate(zip(report.ends, report.texts))
    return "".join(f"== thread {thread}: {end}\n{text}" for thread, (end, text) in ends) + f"== memory\n{report.memory}"


def one_thread_code(report, variables, prints):
    """The code after a program of one thread, which may give one report alone."""
    values = {name: words.split() for name, _, words in (it.partition(" =") for it in report.memory.splitlines())}
    tables, lines = [], []
    for name, _, length in variables:
        cells = [number(it) for it in values[name]]
        if length is None:
            lines.append(f'    compare("{name}", -1, {name}, {cells[0]});')
        else:
            tables.append(f"static const long long may_be_{name}[] = {{{', '.join(cells)}}};")
            lines.append(f"    for (int i = 0; i < {length}; i++)")
            lines.append(f'        compare("{name}", i, {name}[i], may_be_{name}[i]);')
    if prints:
        lines += [f"    if (strcmp(text, {json.dumps(report.texts[0])})) {{", '        printf("it prints\\n%s", text);']
        lines += ["        is_wrong = 1;", "    }"]
    body = ["int main(void)", "{", "    worker(0);", *lines, "    return is_wrong;", "}"]
    parts = [COMPARES, *[COMPARES_TEXT] * prints, "\n".join([*tables, *[""] * bool(tables), *body, ""])]
    return COMPARED.sub(lambda it: f"against_{it[1]}" if it[1] else it[0], "\n".join(parts))


def many_threads_code(reports, variables, asked):
    """The code after a program of more threads: the harness, and the allowed reports."""
    with open(HARNESS, encoding="utf-8") as file:
        harness = OWN.sub(lambda it: it[0] if it[0][0] in '"/' else f"against_{it[0]}", file.read())
    harness = re.sub(r"\A(//[^\n]*\n)+", "", harness)
    may_come = "".join(f" \\\n    {json.dumps(report_text(it))}," for it in reports)
    words = {"THREADS": asked.threads, "RUNS": asked.runs or RUNS, "FRESH": int(asked.fresh)}
    defined = "".join(f"#define {name} {value}\n" for name, value in words.items())
    return f"{defined}#define MAY_COME{may_come}\n\n{harness}\n{memory_code(variables)}"


def report_commands(name, wrong, asked):
    """The commands that build the file and run it, for one of its wrong outcomes."""
    program, library = os.path.splitext(name)[0], "-litm"
    if asked.library:
        path = os.path.abspath(asked.library)
        library = f"{shlex.quote(path)} -Wl,-rpath,{shlex.quote(os.path.dirname(path))}"
    flags = "".join(f" {it}" for it in asked.flags.split())
    method = f"ITM_DEFAULT_METHOD={wrong.method} " if wrong.method not in (None, "default") else ""
    build = f"{asked.cc} -std=gnu11 -w -fgnu-tm -pthread -{wrong.level}{flags} {name} {library} -o {program}"
    return build, f"{method}./{program}"


def report_file(name, text, judged, told, asked, variables):
    """The C file of a program, by its name, its text, its outcomes, the report on these, and its globals."""
    build, run = report_commands(name, judged.found[0], asked)
    head = [
        "An outcome that no order of whole transactions gives. If it occurs, this program says so and exits with 1.",
        "",
        f"{asked.compiler}, {platform.machine()}",
        f"    {build}",
        f"    {run}",
        "",
        "The result of many runs, and the allowed outcomes:",
        *(f"    {it}" for it in told),
    ]
    comment = "\n".join(f"   {it}".rstrip().replace("*/", "* /") for it in head)
    prints, pauses = "printf" in text, "against_pause" in text
    reports = sorted(judged.orders.found)
    if asked.threads == 1:
        behind = one_thread_code(reports[0], variables, prints)
    else:
        behind = many_threads_code(reports, variables, asked)
    parts = [f"/*\n{comment}\n*/\n", PRINTS * prints + PAUSES * pauses, f"{text.strip()}\n", "#undef printf\n" * prints]
    return "\n".join([*(it for it in parts if it), behind])
