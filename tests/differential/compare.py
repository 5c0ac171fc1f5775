#!/usr/bin/env python3
# Compares our replay with the Rust driver on scripts made from a seed: compare.py OURS THEIRS COUNTED DIR SEED CALLS
# The three are programs; COUNTED is the driver over the counted copy of the Rust, for the tally. Besides CALLS calls a tenth as many are compared in
# which frames are heard twice. Scripts are made in pieces in DIR, which keeps the tally as tally.json and, after a difference, the calls that show it as
# difference.script.
# Exit status: 0 no difference, 1 a difference.
import filecmp
import itertools
import os
import re
import subprocess
import sys
import time

import copies
import malformed
import scripts
import tally

PIECE = 500_000
NEW = ("new\n", "new_strict\n")


# Runs a program on a script, and answers its exit status and the milliseconds that it took.
def answer(program, script, lines, **variables):
    began = time.monotonic()
    with open(script, "rb") as given, open(lines, "wb") as written:
        status = subprocess.run([program], stdin=given, stdout=written, env={**os.environ, **variables}).returncode
    return status, round((time.monotonic() - began) * 1000)


# A program's lines for a script, and behind them its exit status.
def lines_of(program, script):
    done = subprocess.run([program], input=script, stdout=subprocess.PIPE)
    return done.stdout.split(b"\n") + [b"exit status %d" % done.returncode]


# Where two lists of lines begin to differ, and both lines; nothing if they do not.
def first_unequal(ours, theirs):
    both = enumerate(itertools.zip_longest(ours, theirs, fillvalue=b"no line"))
    return next(((number, *pair) for number, pair in both if pair[0] != pair[1]), None)


# Where two programs' lines for a script begin to differ.
def difference(programs, script):
    return first_unequal(*(lines_of(program, script) for program in programs))


# Whether two programs' lines for these calls differ.
def differs(programs, calls):
    return difference(programs, "".join(calls).encode()) is not None


# The calls without those that can be left out while the difference stays: parts first, then single calls.
def cut_down(programs, calls):
    size = max(1, len(calls) // 2)
    while True:
        at, before = 0, len(calls)
        while at < len(calls):
            fewer = calls[:at] + calls[at + size :]
            if fewer and differs(programs, fewer):
                calls = fewer
            else:
                at += size
        if size == 1 and len(calls) == before:
            return calls
        size = max(1, size // 2)


# The calls of a piece up to a line: those of its history, or all of them if the history alone shows no difference.
def calls_up_to(programs, calls, number):
    calls = calls[: number + 1]
    start = max((at for at, call in enumerate(calls) if call in NEW), default=0)
    return calls[start:] if differs(programs, calls[start:]) else calls


# The number of the first line in which two files differ, from 0.
def first_difference(ours, theirs):
    with open(ours, "rb") as left, open(theirs, "rb") as right:
        pairs = itertools.zip_longest(left, right)
        return next((number for number, (a, b) in enumerate(pairs) if a != b), None)


# Prints a script and where two programs' lines for it differ, and keeps the script.
def show(programs, script, path):
    with open(path, "wb") as file:
        file.write(script)
    number, ours, theirs = difference(programs, script)
    print(script.decode(errors="backslashreplace").rstrip("\n") if len(script) < 20_000 else f"(a script of {len(script)} octets)")
    print(f"line {number + 1} of the answers:\nours:     {shown(ours)}\nthe Rust: {shown(theirs)}\nkept in {path}")


def shown(line):
    return line.decode(errors="backslashreplace")


# Shows the difference in a piece, cut down.
def show_piece(programs, calls, number, folder):
    history = calls_up_to(programs, calls, number)
    short = cut_down(programs, history)
    print(f"cut down to {len(short)} of the {len(history)} calls of its history:")
    show(programs, "".join(short).encode(), os.path.join(folder, "difference.script"))


# So many lines of a script without end, in pieces.
def pieces(source, many):
    while many > 0:
        yield list(itertools.islice(source, min(many, PIECE)))
        many -= PIECE


# Compares one piece. Answers the milliseconds of ours and of theirs, or nothing after a difference.
def compare_piece(programs, counted, folder, calls, first, counts):
    paths = {name: os.path.join(folder, name) for name in ("script", "ours.lines", "theirs.lines", "counted.lines", "counts")}
    with open(paths["script"], "w") as file:
        file.writelines(calls)
    ours = answer(programs[0], paths["script"], paths["ours.lines"])
    theirs = answer(programs[1], paths["script"], paths["theirs.lines"])
    copy = answer(counted, paths["script"], paths["counted.lines"], COUNTS=paths["counts"])
    if theirs[0] or copy[0] or not filecmp.cmp(paths["counted.lines"], paths["theirs.lines"], False):
        print(f"FAILED: the Rust ended with status {theirs[0]}, its counted copy with {copy[0]}, or their lines differ")
        return None
    if ours[0] or not filecmp.cmp(paths["ours.lines"], paths["theirs.lines"], False):
        number = first_difference(paths["ours.lines"], paths["theirs.lines"])
        print(f"DIFFERENT: ours ended with status {ours[0]}" if number is None else f"DIFFERENT at call {first + number}")
        if number is not None:
            show_piece(programs, calls, number, folder)
        return None
    tally.add(counts, paths["counts"])
    for path in paths.values():
        os.remove(path)
    print(f"calls {first} to {first + len(calls) - 1}: no difference (ours {ours[1]} ms, the Rust {theirs[1]} ms)", flush=True)
    return ours[1], theirs[1]


# Compares the script of a seed, and answers whether no difference was found.
def compare_calls(programs, counted, folder, seed, many, counts):
    done, took = 0, [0, 0]
    for calls in pieces(scripts.lines(seed), many):
        times = compare_piece(programs, counted, folder, calls, done + 1, counts)
        if times is None:
            return False
        done += len(calls)
        took = [a + b for a, b in zip(took, times)]
    print(f"seed {seed}: {done} calls compared, 0 differences; ours took {took[0]} ms, the Rust {took[1]} ms")
    return True


# Compares scripts in which frames are heard twice, and answers whether there is no difference and each second copy is refused as request 1 says.
def compare_copies(programs, folder, seed, many):
    heard = 0
    for piece in pieces(copies.lines(seed), many):
        calls, second = zip(*piece)
        ours, theirs = (lines_of(program, "".join(calls).encode()) for program in programs)
        unequal = first_unequal(ours, theirs)
        if unequal:
            print("DIFFERENT at a frame heard twice:")
            show_piece(programs, list(calls), unequal[0], folder)
            return False
        for at in (at for at in range(1, len(calls)) if second[at]):
            if not copies.is_refused(calls[at], theirs[at - 1], theirs[at]):
                print(f"FAILED: the second copy {calls[at]}is answered {shown(theirs[at])}\nafter {shown(theirs[at - 1])}")
                return False
            heard += 1
    print(f"{heard} frames heard twice in {many} calls, 0 differences, each second copy refused as request 1 says", flush=True)
    return True


# Why the last line of some answers says that a line is malformed; nothing, if it does not.
def why_malformed(lines):
    found = re.fullmatch(rb"malformed line \d+: (.*)", lines[-3]) if len(lines) > 2 else None
    return re.sub(r"\d+", "K", found[1].decode()) if found else None


# Compares the small scripts about the form of lines, and answers whether no difference was found.
def compare_malformed(programs, folder, counts):
    many = bad = 0
    for many, (script, is_bad) in enumerate(malformed.scripts(), 1):
        ours, theirs = (lines_of(program, script) for program in programs)
        if first_unequal(ours, theirs):
            print(f"DIFFERENT at small script {many}:")
            show(programs, script, os.path.join(folder, "difference.script"))
            return False
        why = why_malformed(theirs)
        if is_bad and not why:
            print(f"FAILED: a line of small script {many} is meant to be malformed, and is not by the Rust driver")
            return False
        if why:
            bad += 1
            counts["malformed line", why] += 1
    print(f"{many} small scripts compared, {bad} with a malformed line, 0 differences", flush=True)
    return True


def main(ours, theirs, counted, folder, seed, many):
    counts = tally.empty()
    counts.update({("malformed line", why): 0 for why in tally.MALFORMED})
    programs = (ours, theirs)
    many = int(many)
    same = compare_malformed(programs, folder, counts) and compare_copies(programs, folder, seed, many // 10)
    same = same and compare_calls(programs, counted, folder, seed, many, counts)
    if same:
        tally.show(counts)
        tally.save(counts, os.path.join(folder, "tally.json"))
    return 0 if same else 1


if __name__ == "__main__":
    sys.exit(main(*sys.argv[1:]))
