#!/usr/bin/env python3
# Makes a script of calls to compare two monitors by. The same seed gives the same script.
#     scripts.py SEED COUNT > FILE     COUNT calls: random histories, and by turns some of each listed kind until these are used up
import itertools
import random
import sys

import histories
import listed

# How many calls of a listed kind stand together, and of random histories between them, at least.
LISTED_TURN, RANDOM_TURN = 400, 1500


# Takes whole histories, until they have so many calls or there are no more.
def turn(source, many):
    taken = []
    for history in source:
        taken += history
        if len(taken) >= many:
            break
    return taken


# The lines of a script without end.
def lines(seed):
    rng = random.Random(f"{seed} histories")
    endless = histories.endless(rng)
    kinds = [listed.histories(make(random.Random(f"{seed} {make.__name__}"))) for make in listed.MAKERS]
    while kinds:
        yield from turn(endless, RANDOM_TURN)
        for kind in kinds[:]:
            taken = turn(kind, LISTED_TURN)
            yield from taken
            if len(taken) < LISTED_TURN:
                kinds.remove(kind)
    yield from itertools.chain.from_iterable(endless)


if __name__ == "__main__":
    sys.stdout.writelines(itertools.islice(lines(sys.argv[1]), int(sys.argv[2])))
