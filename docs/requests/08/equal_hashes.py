#!/usr/bin/env python3
# Compares the answers of two programs to equal_hashes.script with equal_hashes.ours and equal_hashes.rust: equal_hashes.py OURS THEIRS HASH_OF
# There, unlike in the other scripts, an address uses two names of one hash, and the answers differ. HASH_OF prints the Rust's hashes of names: it
# must have for each name what hashes.py has.
# Exit status: 0 all is as recorded, 1 not.
import os
import subprocess
import sys

import compare
import hashes

HERE = os.path.dirname(os.path.abspath(__file__))


def read(name):
    with open(os.path.join(HERE, name), "rb") as file:
        return file.read()


# A name as a script has it, in hexadecimal digits if it is no text.
def shown(name):
    return f'"{name.decode()}"' if name.isalnum() else name.hex().upper()


# The Rust's hash of each name, if it is the one that hashes.py has of all of them.
def rust_hashes(program, names):
    done = subprocess.run([program, *(name.hex() for name in names)], stdout=subprocess.PIPE, text=True, check=True)
    found = dict(zip(names, done.stdout.split()))
    if found != {name: f"{hashes.fnv1a_32(name):08X}" for name in names}:
        sys.exit(f"FAILED: the Rust's hashes of names are {found}")
    return found


# Says which names have one hash, by the Rust.
def show_hashes(program, calls):
    names = dict.fromkeys(hashes.name_of(call.split()[2]) for call in calls if call.startswith("inspect_goose"))
    by_hash = {}
    for name, value in rust_hashes(program, names).items():
        by_hash.setdefault(value, []).append(name)
    for value, alike in by_hash.items():
        if len(alike) > 1:
            print(f"{' and '.join(map(shown, alike))}: the Rust's hash of each is {value}")


# A program's answers to the script, if they are the recorded ones.
def answers(program, recorded):
    lines = compare.lines_of(program, read("equal_hashes.script"))
    unequal = compare.first_unequal(lines, read(recorded).split(b"\n") + [b"exit status 0"])
    if unequal:
        number, line, other = unequal
        sys.exit(f"FAILED: answer {number + 1} to equal_hashes.script is\n{compare.shown(line)}\nand in {recorded}\n{compare.shown(other)}")
    return lines


def main(ours, theirs, hash_of):
    lines = read("equal_hashes.script").decode().splitlines()
    show_hashes(hash_of, [line for line in lines if line and not line.startswith("#")])
    pairs = list(zip(answers(ours, "equal_hashes.ours"), answers(theirs, "equal_hashes.rust")))
    allowed = [other for own, other in pairs if own.startswith(b"allowed")]
    refused = sum(other.startswith(b"refused") for other in allowed)
    print(f"names of one hash: the Rust refuses {refused} of the {len(allowed)} GOOSE frames that are allowed here")


if __name__ == "__main__":
    main(*sys.argv[1:])
