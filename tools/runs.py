#!/usr/bin/env python3
"""Runs each program as its folder crates/PROGRAM/runs/RUN says, and compares what it writes and how it ends.

A run has the files args (one word a line), stdout, stderr and status; a file that is not there counts as empty, and status as 0. The
program runs in crates/PROGRAM/data. `rt ci` makes one run of each program: its files lie in the crate's own folder.
"""

import glob
import os
import subprocess
import sys

TOP = os.path.dirname(os.path.dirname(os.path.abspath(__file__)))


def text_of(folder, name):
    path = os.path.join(folder, name)
    if not os.path.exists(path):
        return ""
    with open(path) as file:
        return file.read()


def build(crate):
    """Proves and builds a program, and answers where it lies."""
    program = os.path.join(crate, "out", os.path.basename(crate))
    made = subprocess.run(["rt", "check"], cwd=crate, capture_output=True, text=True)
    if made.returncode == 0:
        # This runs the program too, without arguments, and ends as that does.
        made = subprocess.run(["rt", "run"], cwd=crate, stdin=subprocess.DEVNULL, capture_output=True, text=True)
        if os.path.exists(program):
            return program
    sys.exit(f"{crate} is not built:\n{made.stdout[-2000:]}{made.stderr[-2000:]}")


def differences(crate, program, run):
    """What a run does otherwise than its folder says."""
    args = text_of(run, "args").splitlines()
    done = subprocess.run([program, *args], cwd=os.path.join(crate, "data"), stdin=subprocess.DEVNULL, capture_output=True, text=True, timeout=120)
    status = int(text_of(run, "status") or 0)
    got = {"stdout": done.stdout, "stderr": done.stderr, "status": done.returncode}
    wanted = {"stdout": text_of(run, "stdout"), "stderr": text_of(run, "stderr"), "status": status}
    return [f"{run}, {what}: wanted\n{wanted[what]}\nand got\n{got[what]}" for what in got if got[what] != wanted[what]]


def main():
    crates = sorted({os.path.dirname(runs) for runs in glob.glob(os.path.join(TOP, "crates", "*", "runs"))})
    count, found = 0, []
    for crate in crates:
        program = build(crate)
        for run in sorted(glob.glob(os.path.join(crate, "runs", "*"))):
            count += 1
            found += differences(crate, program, run)
    print("\n".join(found + [f"{count} stored runs, {len(found)} differences"]))
    return 1 if found or not count else 0


if __name__ == "__main__":
    sys.exit(main())
