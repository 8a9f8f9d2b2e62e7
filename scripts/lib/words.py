"""Reads the command line of a script, with the script's docstring as help, and finds the program that it names."""

import argparse
import os
import shutil
import sys

TOP = os.path.dirname(os.path.dirname(os.path.dirname(os.path.abspath(__file__))))
BUILT = f"{TOP}/crates/txc/out/txc"


def reader(says, **how):
    """The parser of the command line of a script with this docstring."""
    form = argparse.RawDescriptionHelpFormatter
    return argparse.ArgumentParser(description=says, formatter_class=form, allow_abbrev=False, **how)


def asked(says, *arguments):
    """The command line of a script with this docstring, parsed. An argument is the name of an option without a value,
    or a name with how argparse takes it. If TXC is one of them, `txc` is the path of a program that exists."""
    words = reader(says)
    for it in arguments:
        name, how = (it, {"action": "store_true"}) if isinstance(it, str) else it
        words.add_argument(name, **how)
    given = words.parse_args()
    if TXC in arguments:
        given.txc = os.path.abspath(given.txc or os.environ.get("TXC") or BUILT)
        if not os.path.isfile(given.txc):
            words.error(f"there is no {given.txc}: cd crates/txc && rt run -- --version")
    return given


def count(name, default, least=0):
    """An argument that is a number, and need not be given."""

    def number(text):
        if not text.isdecimal() or int(text) < least:
            raise argparse.ArgumentTypeError(f"{text} is no number from {least} on")
        return int(text)

    help_ = f"[default: {default}]" if default is not None else None
    return name, {"nargs": "?", "type": number, "default": default, "metavar": name.upper(), "help": help_}


# The option that names the program.
TXC = "--txc", {
    "metavar": "PATH",
    "help": "the program [default: $TXC, or crates/txc/out/txc, which `cd crates/txc && rt run -- --version` builds];"
    " out/txc of scripts/quick_build.py will do",
}


def use(path):
    """Makes the program at a path, if one is given, the one that `txc` returns."""
    if path and not os.path.isfile(path):
        print(f"{os.path.basename(sys.argv[0])}: there is no {path}", file=sys.stderr)
        sys.exit(2)
    if path:
        os.environ["TXC"] = os.path.abspath(path)


def txc():
    """The program that $TXC names, or one that is found."""
    for it in (os.environ.get("TXC"), BUILT, f"{TOP}/out/txc", shutil.which("txc")):
        if it and os.path.isfile(it):
            return it
    print(f"{os.path.basename(sys.argv[0])}: there is no txc: scripts/quick_build.py makes one", file=sys.stderr)
    sys.exit(2)
