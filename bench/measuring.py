"""What the benchmarks share: the build of the proved programs, and measuring them and their peers in processor time."""

import os
import resource
import shutil
import subprocess
import sys

HERE = os.path.dirname(os.path.abspath(__file__))
sys.path.insert(0, os.path.dirname(HERE))
from streams import built, whole_number
import words
from words import Parser

# How often something may be asked for; the program takes no number of 2^32, and a run of many is one more.
TIMES = whole_number(1, 1_000_000_000)
LIBBSON = ("libbson-1.0", "bson2", "libbson-2.0")


def children_seconds():
    """The processor time that ended child processes took."""
    used = resource.getrusage(resource.RUSAGE_CHILDREN)
    return used.ru_utime + used.ru_stime


def timed(command):
    """What the command prints, and the processor seconds of its whole process."""
    before = children_seconds()
    run = subprocess.run(command, capture_output=True, text=True, check=True)
    return run.stdout.strip(), children_seconds() - before


def least_seconds(call, count, runs):
    """What a call printed, and the least seconds of one of many: a run of many less a run of one."""
    once = many = float("inf")
    for _ in range(runs):
        printed, seconds = call(1)
        once = min(once, seconds)
        _, seconds = call(count + 1)
        many = min(many, seconds)
    return printed, max(many - once, 1e-9) / count


def compiled_with_libbson(folder, name):
    """Builds a C program of this folder, and returns its path, or None where libbson isn't there."""
    if shutil.which("cc") is None or shutil.which("pkg-config") is None:
        return None
    for library in LIBBSON:
        words = ["pkg-config", "--cflags", "--libs", library]
        found = subprocess.run(words, capture_output=True, text=True)
        if found.returncode == 0:
            made = os.path.join(folder, name)
            source = os.path.join(HERE, f"{name}.c")
            subprocess.run(["cc", "-O2", "-o", made, source, *found.stdout.split()], check=True)
            return made
    return None
