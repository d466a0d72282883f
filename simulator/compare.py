#!/usr/bin/env python3
"""Compares programs with the simulator, byte for byte.

    python3 simulator/compare.py [--count N] [--first S] PROGRAM...

Each PROGRAM is a command line in one argument (quote it if it has arguments
of its own) that reads a history from standard input and writes to standard
output what docs/RULES.md says. Each gets each history of the set of
histories.py. The simulator goes through each history once, with the audit.

For each difference the number of the history, the first differing line and both versions of it
are printed. A program that ends with a status other than 0, or does not end
within a minute, differs too. The last line says how many outputs were compared
and how many differ; if any does, or an audit fails, the status is 1.
"""

import argparse
import os
import re
import shlex
import subprocess
import sys
import time
from concurrent.futures import ThreadPoolExecutor

sys.path.insert(0, os.path.dirname(os.path.abspath(__file__)))

import histories
import simulate
from audit import AuditFailure

WORKERS = 2
PATIENCE = 60   # seconds for one run of a program
LINE = re.compile(rb"[^\n]*\n|[^\n]+")
SHOWN = 10      # differences of one program that are printed; all are counted


def run_program(command, history):
    """What the program printed, and what was wrong with its ending (None: nothing)."""
    try:
        done = subprocess.run(command, input=history, timeout=PATIENCE,
                              stdout=subprocess.PIPE, stderr=subprocess.DEVNULL)
    except subprocess.TimeoutExpired as late:
        return late.stdout or b"", f"did not end within {PATIENCE} seconds"
    if done.returncode != 0:
        return done.stdout, f"ended with status {done.returncode}"
    return done.stdout, None


def first_difference(expected, printed):
    """Line number and the two lines, each with its line end; None if all is equal."""
    ours = LINE.findall(expected)
    theirs = LINE.findall(printed)
    for number in range(max(len(ours), len(theirs))):
        our_line = ours[number] if number < len(ours) else None
        their_line = theirs[number] if number < len(theirs) else None
        if our_line != their_line:
            return number + 1, our_line, their_line
    return None


def shown(line):
    if line is None:
        return "(no such line)"
    return ascii(line.decode("latin-1"))


def difference(program, seed, expected, printed, ending):
    """A text about the difference, or None."""
    differing = first_difference(expected, printed)
    if differing is None and ending is None:
        return None
    text = [f"history {seed} ({histories.kind_of(seed).__name__}): {program}"]
    if ending is not None:
        text.append(f"  {ending}")
    if differing is not None:
        number, our_line, their_line = differing
        text.append(f"  first differing line: {number}")
        text.append(f"  simulator: {shown(our_line)}")
        text.append(f"  program:   {shown(their_line)}")
    text.append(f"  again: python3 simulator/histories.py --print {seed} | {program}")
    return "\n".join(text)


def compare(programs, seeds):
    """For each program the list of its differences."""
    commands = [shlex.split(program) for program in programs]

    def one(index, seed, history, expected):
        printed, ending = run_program(commands[index], history)
        return index, difference(programs[index], seed, expected, printed, ending)

    with ThreadPoolExecutor(WORKERS) as workers:
        jobs = []
        for seed in seeds:
            history = histories.history(seed)
            try:
                expected = simulate.run(history, audit=True)
            except AuditFailure as failure:
                raise AuditFailure(f"history {seed}: {failure}")
            for index in range(len(programs)):
                jobs.append(workers.submit(one, index, seed, history, expected))
        differences = [[] for _ in programs]
        for job in jobs:
            index, found = job.result()
            if found is not None:
                differences[index].append(found)
    return differences


def main():
    parser = argparse.ArgumentParser(description="Compare programs with the simulator.")
    histories.arguments_for_a_set(parser)
    parser.add_argument("program", nargs="+", help="a command line, in one argument")
    options = parser.parse_args()
    begun = time.time()
    seeds = range(options.first, options.first + options.count)
    try:
        differences = compare(options.program, seeds)
    except AuditFailure as failure:
        print("audit failed:", failure)
        return 1
    except OSError as error:
        print("cannot run:", error)
        return 1
    for found in differences:
        for text in found[:SHOWN]:
            print(text)
        if len(found) > SHOWN:
            print(f"  and {len(found) - SHOWN} more")
    for program, found in zip(options.program, differences):
        print(f"{program}: {len(seeds)} histories compared, {len(found)} differ")
    differing = sum(len(found) for found in differences)
    print(f"histories {seeds.start} to {seeds.stop - 1}, {time.time() - begun:.1f} s")
    print(f"{len(seeds) * len(options.program)} compared, {differing} differ")
    return 1 if differing else 0


if __name__ == "__main__":
    sys.exit(main())
