"""SPIN's verifiers: of hand-written models (examples/promela) and of models that scripts/spin.py makes of programs."""

import hashlib
import os
import re
import subprocess
import sys

import spin
from lib.listing import read, write
from lib.words import TOP

MODELS = f"{TOP}/examples/promela"
# How a verifier is compiled: for comparisons in little time, and as users do.
QUICK, FAST = ("-O0",), ("-O2",)
FINISHED = re.compile(r"depth reached \d+, errors: (\d+)$", re.M)
STORED = re.compile(r"^ *(\d+) states, stored$", re.M)


def output_of(folder, *command):
    """What a command prints in a folder, on both streams; its exit status may be any."""
    how = {"stdout": subprocess.PIPE, "stderr": subprocess.STDOUT, "text": True, "errors": "replace"}
    return subprocess.run(command, cwd=folder, check=False, **how).stdout


def compiled(folder, name, *words):
    """Compiles a file of a folder; ends if nothing comes of it."""
    said = output_of(folder, "gcc", "-w", *words, "-o", name)
    if not os.path.exists(f"{folder}/{name}"):
        sys.exit(f"gcc makes no {name} in {folder}:\n{said}")
    return f"{folder}/{name}"


def hand_written(folder, model, threads, *words, how=(*QUICK, "-DPRINTF")):
    """The verifier of a hand-written model, which prints what it reaches; the words are for SPIN."""
    said = output_of(folder, "spin", "-a", *words, f"-DN={threads}", f"{MODELS}/{model}.pml")
    if not os.path.exists(f"{folder}/pan.c"):
        sys.exit(f"spin -a {model}.pml:\n{said}")
    return compiled(folder, f"{model}{threads}", *how, "-DSAFETY", "pan.c")


def generated(folder, file, threads, *flags, asked=(), how=QUICK):
    """The verifier of a program's model. SPIN's part is compiled once for all models that are equal."""
    name = f"{os.path.basename(file).removesuffix('.c')}{threads}"
    spin.written(file, f"{folder}/{name}.pml", threads, asked)
    model = read(f"{folder}/{name}.pml").partition("\n")[2]
    part = f"pan-{hashlib.sha256((model + ' '.join(how)).encode()).hexdigest()[:16]}"
    if not os.path.exists(f"{folder}/{part}.o"):
        write(f"{folder}/{part}.pml", model)
        said = output_of(folder, "spin", "-a", f"{part}.pml")
        if not os.path.exists(f"{folder}/pan.c"):
            sys.exit(f"spin -a of the model of {file}:\n{said}")
        compiled(folder, f"{part}.o", *how, "-DSAFETY", "-c", "pan.c")
    program = f"{name}{''.join(flags)}"
    return compiled(folder, program, *how, *flags, f"{part}.o", f"{name}.c")


def verified(verifier, *words):
    """What a verifier prints, and its number of errors; ends if it does not come to its end."""
    printed = output_of(os.path.dirname(verifier), verifier, *words)
    found = FINISHED.search(printed)
    if not found or "max search depth too small" in printed:
        sys.exit(f"{' '.join([verifier, *words])} does not search all states:\n{printed[-3000:]}")
    return printed, int(found[1])
