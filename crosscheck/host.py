#!/usr/bin/env python3
"""Compares the fixed host calls of host.cases with libguyekpan.a as it was built last.

The status is 1 if an answer or a string differs, if a call needs more stack than guyekpan.h says, or if host.c cannot be built.
"""

import itertools
import os
import subprocess
import sys

HERE = os.path.dirname(os.path.abspath(__file__))
TOP = os.path.dirname(HERE)
OUT = os.path.join(HERE, "out")

CASES = os.path.join(HERE, "host.cases")
LIBRARY = os.path.join(TOP, "crates", "guyekpan", "out", "libguyekpan.a")
# The program in C that reads host calls, one to a line, without " = " and what follows, and writes the results, one to a line.
SOURCE = os.path.join(HERE, "host.c")


class Stop(Exception):
    """A difference, or a program that cannot be built or run."""


def build_host(library):
    """Builds host.c over the library, and answers where the program lies."""
    os.makedirs(OUT, exist_ok=True)
    # Not out/host: that has the cases.
    program = os.path.join(OUT, "host-program")
    # Without -z now the loader would look up the C library's functions during the calls, on their stack.
    command = ["cc", "-O2", "-Wall", "-Wextra", "-Wl,-z,now", "-I", os.path.join(TOP, "include"), "-o", program, SOURCE, library]
    built = subprocess.run(command, capture_output=True, text=True)
    if built.returncode:
        raise Stop(f"host.c is not built:\n{built.stderr[-2000:]}")
    return program


def ran(program, lines):
    """A program that was given these lines and has ended."""
    given = "".join(line + "\n" for line in lines)
    return subprocess.run([program], input=given, capture_output=True, text=True, timeout=600)


def answers(program, lines):
    """What a program writes, line by line, and how it ended if that was not well."""
    done = ran(program, lines)
    got = done.stdout.splitlines()
    if done.returncode:
        got.append(f"(the program ended with status {done.returncode}: {done.stderr[-500:].strip()})")
    return got


def compare(title, calls, expected, got):
    """Stops at the first answer that differs from what is expected."""
    rows = itertools.zip_longest(calls, expected, got, fillvalue="(nothing)")
    for number, (call, want, have) in enumerate(rows):
        if want != have:
            raise Stop(f"{title}, answer {number + 1}\n  call     {call}\n  expected {want}\n  got      {have}")


def compare_calls(title, program, lines):
    """Lets the program make the host calls of these cases, and compares the results."""
    calls, expected = zip(*(case.split(" = ") for case in lines))
    compare(title, calls, expected, answers(program, calls))


def main():
    with open(CASES) as file:
        lines = [line.rstrip("\n") for line in file if not line.startswith("#")]
    try:
        compare_calls("host.cases", build_host(LIBRARY), lines)
    except Stop as stop:
        print(f"DIFFERENT: {stop}")
        return 1
    print(f"host calls: all {len(lines)} as the second implementation answers")
    return 0


if __name__ == "__main__":
    sys.exit(main())
