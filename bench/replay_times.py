#!/usr/bin/env python3
# Times two programs that replay scripts: replay_times.py OURS THEIRS ROUNDS LINES FOLDER. Makes three scripts in the folder, runs both on
# each by turns, and prints what each took of the processor for a line, reading and writing included: SV frames of eight streams; the same
# with a count that stands still, so that all but the first of each stream are refused; and the script of seed 7 of tests/differential,
# which has every call.
import itertools
import os
import resource
import statistics
import subprocess
import sys

HERE = os.path.dirname(os.path.abspath(__file__))
sys.path.insert(0, os.path.join(os.path.dirname(HERE), "tests", "differential"))
import scripts


# SV frames of eight streams, whose counts go on or stand still.
def sv_lines(lines, going):
    for k in range(lines):
        count = k // 8 % 65536 if going else 7
        yield f'inspect_sv 02000000000{k % 8} "M0{k % 8}0" {count} 4000 - {k} 0 0\n'


# The scripts by what they have.
def kinds(lines):
    return {
        "SV frames": sv_lines(lines, True),
        "refused SV frames": sv_lines(lines, False),
        "mixed calls": itertools.islice(scripts.lines(7), lines),
    }


# Seconds of the processor that a program takes for a script.
def seconds(program, path):
    before = resource.getrusage(resource.RUSAGE_CHILDREN)
    with open(path, "rb") as script:
        subprocess.run([program], stdin=script, stdout=subprocess.DEVNULL, check=True)
    after = resource.getrusage(resource.RUSAGE_CHILDREN)
    return after.ru_utime - before.ru_utime + after.ru_stime - before.ru_stime


# The row of a table: best and median time of each program for a line, and the ratio of the best.
def row(name, path, ours, theirs, rounds, lines):
    times = zip(*((seconds(theirs, path), seconds(ours, path)) for _ in range(rounds)))
    theirs, ours = ([t / lines * 1e9 for t in taken] for taken in times)
    cells = [f"{min(t):.0f} / {statistics.median(t):.0f}" for t in (theirs, ours)]
    print(f"| {name} | {cells[0]} | {cells[1]} | {min(ours) / min(theirs):.2f} |", flush=True)


def main(ours, theirs, rounds, lines, folder):
    print(f"\n{rounds} runs of scripts of {lines} calls; best / median, nanoseconds of the processor a line; ratios of the best times\n")
    print("| script | the Rust driver | replay | ratio |")
    print("|---|---|---|---|", flush=True)
    for name, script in kinds(lines).items():
        path = os.path.join(folder, "script")
        with open(path, "w") as file:
            file.writelines(script)
        row(name, path, ours, theirs, rounds, lines)


if __name__ == "__main__":
    main(sys.argv[1], sys.argv[2], int(sys.argv[3]), int(sys.argv[4]), sys.argv[5])
