#!/usr/bin/env python3
"""Compares the manual page and the completions in share/ with the command line of txc, crates/command/src/line.rt.

    scripts/command_line.py [--write]

With `--write` it writes share/txc.1 and the completions for bash, zsh and fish. Without it, it fails if one differs.
scripts/install.sh installs them.
"""

import collections
import os
import re
import sys

from lib.words import TOP, asked

LINE = f"{TOP}/crates/command/src/line.rt"
COMMANDS, EXPLANATIONS = f"{TOP}/docs/COMMANDS.md", f"{TOP}/crates/messages/src/explanations.rt"
FUNCTION = re.compile(r"^(?:pub )?fn (\w+).*?^\{\n(.*?)^\}", re.M | re.S)
TEXT = r'"((?:[^"\\]|\\.)*)"'
CALL = re.compile(
    rf"\b(?:(?:text|wanted)\(\s*alloc,\s*{TEXT},\s*{TEXT},\s*{TEXT}|flag\(\s*alloc,\s*{TEXT},\s*{TEXT}"
    rf"|short\('(\w)'\)\s*\.action\(ArgAction::Append\)\s*\.value_name\({TEXT}\)\s*\.help\({TEXT}"
    rf'|Arg::new\(alloc, "([A-Z]+)"\)|\.help\({TEXT}|(?:of_file|command_of)\(\s*alloc,\s*{TEXT},\s*{TEXT},\s*{TEXT}|(\w+)\(alloc)'
)
ADDED = re.compile(r"with_command\(.*\b(\w+)\(alloc\)\);?$", re.M)
STATUS = re.compile(r"^\| (\d) \| (.*) \|$", re.M)
# The words for a thread's end, which `explain` takes as well as the number of a fault.
WORD = re.compile(r'^        "(\w+)" => Some\($', re.M)

Option = collections.namedtuple("Option", "name value help")
# `takes` is the name of its first word, or None.
Command = collections.namedtuple("Command", "name about example takes options")

# Options whose value is a file, and those whose value is one of some words.
FILES, CHOICES = ["admits", "expect", "order-file", "refines", "report", "schedule"], {"format": ["short", "json", "github"]}
# The words of options of one command.
CHOICES_OF = {("test", "format"): ["github", "json"]}
HELP = Option("help", None, "Print help")
VERSION = Option("version", None, "Print version")


def read(path):
    with open(path, encoding="utf-8") as file:
        return file.read()


def plain(text):
    """The text of a string literal."""
    return text.replace("\\n", "\n").replace('\\"', '"').replace("\\\\", "\\")


def commands_of(source):
    """The program's command, and each other one."""
    bodies = dict(FUNCTION.findall(source))

    def command(function):
        """What the function makes, with what those that it calls make."""
        name = about = example = takes = None
        options = []
        for found in CALL.finditer(bodies[function]):
            option, value, help_, flag, of_flag, short, said_of, of_short, first, _, called, said, shown, other = found.groups()
            if option:
                options.append(Option(option, value, plain(help_)))
            elif flag:
                options.append(Option(flag, None, plain(of_flag)))
            elif short:
                options.append(Option(short, said_of, plain(of_short)))
            elif first:
                takes = first
            elif called:
                name, about, example = called, plain(said), plain(shown)
                if found[0].startswith("of_file"):
                    takes, options = "FILE", [*command("of_file").options, *options]
            elif other in bodies:
                made = command(other)
                name, about, example = made.name or name, made.about or about, made.example or example
                takes, options = takes or made.takes, [*options, *made.options]
        return Command(name, about, example, takes, options)

    return command("commandless"), [command(it) for it in ADDED.findall(bodies["program"])]


def ends():
    """The words that `explain` takes."""
    return WORD.findall(read(EXPLANATIONS))


def dashed(name):
    """An option with its dashes: one if its name is a letter."""
    return f"-{name}" if len(name) == 1 else f"--{name}"


def words_of(command):
    """The options of a command, with their dashes."""
    return " ".join(dashed(it.name) for it in [*command.options, HELP])


def choices(command, option):
    """The words that an option of a command takes, if these are fixed."""
    return CHOICES_OF.get((command, option), CHOICES.get(option, []))


def bash_choices():
    """The cases of options with fixed words."""
    for option, words in CHOICES.items():
        lines = [f"            words='{' '.join(words)}'"]
        for (command, its), others in CHOICES_OF.items():
            if its == option:
                lines.append(f"            [[ ${{COMP_WORDS[1]}} == {command} ]] && words='{' '.join(others)}'")
        yield f"        --{option})\n" + "\n".join(lines) + " ;;\n"


def bash_text(_, commands):
    """What bash reads."""
    with_value = [it for command in commands for it in command.options if it.value]
    free = sorted({dashed(it.name) for it in with_value} - {f"--{it}" for it in [*FILES, *CHOICES]})
    named = " ".join(it.name for it in commands)
    cases = "".join(f"                    {it.name}) words='{words_of(it)}' ;;\n" for it in commands)
    return f"""\
_txc() {{
    local word=${{COMP_WORDS[COMP_CWORD]}} words=
    case ${{COMP_WORDS[COMP_CWORD - 1]}} in
{"".join(bash_choices())}        --{" | --".join(FILES)}) ;;
        {" | ".join(free)}) return ;;
        *)
            if ((COMP_CWORD == 1)); then
                words='{named} --help --version'
            elif [[ $word == -* ]]; then
                case ${{COMP_WORDS[1]}} in
{cases}                esac
            elif [[ ${{COMP_WORDS[1]}} == explain ]] && ((COMP_CWORD == 2)); then
                words='{' '.join(ends())}'
            fi ;;
    esac
    if [[ $words ]]; then
        mapfile -t COMPREPLY < <(compgen -W "$words" -- "$word")
    elif [[ ${{COMP_WORDS[1]}} != explain ]]; then
        compopt -o filenames
        mapfile -t COMPREPLY < <(compgen -f -- "$word")
    fi
}}
complete -F _txc txc
"""


def quoted(text):
    """A word in quotation marks of a shell."""
    return "'" + text.replace("'", "'\\''") + "'"


def zsh_option(option, command=""):
    told = option.help.replace("\\", "\\\\").replace("[", "\\[").replace("]", "\\]")
    action = "_files" if option.name in FILES else f"({' '.join(choices(command, option.name))})"
    behind = f":{option.value}:{'' if action == '()' else action}" if option.value else ""
    many = "*" if len(option.name) == 1 else ""
    return quoted(f"{many}{dashed(option.name)}[{told}]{behind}")


def zsh_text(_, commands):
    """What zsh reads."""
    described = "".join(f"                {quoted(f'{it.name}:{it.about}')}\n" for it in commands)
    cases = []
    for it in commands:
        words = [zsh_option(option, it.name) for option in [*it.options, HELP]]
        files = "*:FILE:_files" if it.name == "test" else "1:FILE:_files"
        words.append(quoted(files) if it.takes == "FILE" else quoted(f"1:{it.takes}:({' '.join(ends())})"))
        cases.append(f"                {it.name}) _arguments " + " \\\n                    ".join(words) + " ;;\n")
    return f"""\
#compdef txc
_txc() {{
    local line state
    _arguments -C {zsh_option(HELP)} {zsh_option(VERSION)} '1:command:->command' '*::word:->words'
    case $state in
        command)
            local -a commands=(
{described}            )
            _describe command commands ;;
        words)
            case $line[1] in
{"".join(cases)}            esac ;;
    esac
}}
_txc "$@"
"""


def fish_text(_, commands):
    """What fish reads."""
    lines = ["complete -c txc -f"]
    for option in (HELP, VERSION):
        lines.append(f"complete -c txc -n __fish_use_subcommand -l {option.name} -d {quoted(option.help)}")
    for it in commands:
        lines.append(f"complete -c txc -n __fish_use_subcommand -a {it.name} -d {quoted(it.about)}")
        seen = f"complete -c txc -n '__fish_seen_subcommand_from {it.name}'"
        lines.append(f"{seen} -F" if it.takes == "FILE" else f"{seen} -a {quoted(' '.join(ends()))}")
        for option in [*it.options, HELP]:
            takes = " -r -F" if option.name in FILES else " -x" if option.value else ""
            words = choices(it.name, option.name)
            takes += f" -a {quoted(' '.join(words))}" if words else ""
            form = "-s" if len(option.name) == 1 else "-l"
            lines.append(f"{seen} {form} {option.name}{takes} -d {quoted(option.help)}")
    return "\n".join(lines) + "\n"


def roff(text):
    """A text of a manual page."""
    text = text.replace("\\", "\\e").replace("-", "\\-").replace("`", "").replace("\n", "\n.br\n")
    return re.sub(r"^([.'])", r"\\&\1", text, flags=re.M).replace("\n\\&.br\n", "\n.br\n")


def man_text(program, commands):
    """The manual page."""
    version = re.search(r'const VERSION: &str = "([^"]*)"', read(LINE))[1]
    pages = read(COMMANDS)
    synopses = [it.replace("\\|", "|") for it in re.findall(r"^\| `(txc [^`]*)` \|", pages, re.M)]
    lines = [f'.TH TXC 1 "" "txc {version}"', ".SH NAME", f"txc \\- {roff(program.about[0].lower() + program.about[1:])}"]
    lines.append(".SH SYNOPSIS")
    lines += [f"{roff(it)}\n.br" for it in synopses]
    lines += ["txc \\-\\-help, txc COMMAND \\-\\-help, txc \\-\\-version", ".SH COMMANDS"]
    for it in commands:
        lines += [f".SS {it.name}", f"{roff(it.about)}."]
        for option in it.options:
            value = f" \\fI{option.value}\\fR" if option.value else ""
            lines += [".TP", f"\\fB{roff(dashed(option.name))}\\fR{value}", roff(option.help)]
        example = it.example.partition("\n")[2].strip()
        lines += [".PP", f"Example: {roff(example)}"]
    lines += [".SH EXIT STATUS"]
    for status, when in STATUS.findall(pages):
        lines += [".TP", f"\\fB{status}\\fR", roff(when)]
    lines += [".SH FILES", "One of the files that a command reads may be \\-, standard input."]
    return "\n".join(lines) + "\n"


FORMS = {
    "txc.1": ('.\\" Written by scripts/command_line.py.\n', man_text),
    "txc.bash": ("# Completes the words of txc. Written by scripts/command_line.py.\n", bash_text),
    "_txc": ("# Completes the words of txc. Written by scripts/command_line.py.\n", zsh_text),
    "txc.fish": ("# Completes the words of txc. Written by scripts/command_line.py.\n", fish_text),
}


def main():
    given = asked(__doc__, "--write")
    program, commands = commands_of(read(LINE))
    differs = False
    for name, (head, form) in FORMS.items():
        text = form(program, commands)
        first, _, rest = text.partition("\n")
        text = f"{first}\n{head}{rest}" if name == "_txc" else head + text
        path = f"{TOP}/share/{name}"
        if given.write:
            os.makedirs(os.path.dirname(path), exist_ok=True)
            with open(path, "w", encoding="utf-8") as file:
                file.write(text)
        elif not os.path.exists(path) or read(path) != text:
            differs = True
            print(f"share/{name} is not what crates/command/src/line.rt has: scripts/command_line.py --write")
    sys.exit(differs)


if __name__ == "__main__":
    main()
