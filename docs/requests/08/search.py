#!/usr/bin/env python3
# Searches for the shortest names of one FNV-1a hash: search.py
# A step takes a state and an octet to (state ^ octet) * PRIME, and PRIME has an inverse. So u with an octet and v with an octet have one hash if
# and only if the states behind u and v are alike but for their low octets, and the two octets differ as these do. Names are listed without the
# last octet.
import itertools
import string

from calls import MOST_32
from hashes import BASIS, PRIME, fnv1a_32, step

INVERSE = pow(PRIME, -1, MOST_32 + 1)
OCTETS, LETTERS = bytes(range(256)), "".join(sorted(string.digits + string.ascii_letters)).encode()


# The names of up to so many octets, with the states behind them, by the upper three octets of these.
def by_state(octets, most):
    found, level = {}, [(b"", BASIS)]
    for n in range(most + 1):
        if n:
            level = [(u + bytes((octet,)), step(state, octet)) for u, state in level for octet in octets]
        for pair in level:
            found.setdefault(pair[1] >> 8, []).append(pair)
    return found


# The names of one octet more than those of a table that have this hash.
def having(table, value):
    before = value * INVERSE & MOST_32
    return [u + bytes(((state ^ before) & 255,)) for u, state in table.get(before >> 8, ())]


# The shorter name of a pair first, of equal lengths the one that is first in order.
def ordered(pair):
    return tuple(sorted(pair, key=lambda octets: (len(octets), octets)))


# All pairs of one hash among the names of one octet more than those of a table, in octets of an alphabet, and the empty name.
def pairs(table, octets):
    some = set(octets)
    yield from ((b"", other) for other in having(table, BASIS) if other[-1] in some)
    for alike in table.values():
        for (u, one), (v, other) in itertools.combinations(alike, 2):
            yield from (ordered((u + bytes((a,)), v + bytes((a ^ one ^ other,)))) for a in octets if a ^ one ^ other in some)


# The first pair of one hash of a name in a list and one of four octets.
def first_of_four(table, names):
    for short in names:
        before = fnv1a_32(short) * INVERSE & MOST_32
        longer = [other + bytes((octet,)) for octet in OCTETS for other in having(table, before ^ octet) if len(other) == 3]
        if longer:
            return short, min(longer)
    return None


def shown(pair):
    names = (f'"{octets.decode()}"' if octets.isalnum() else octets.hex().upper() for octets in pair)
    return " and ".join(names) + f", hash {fnv1a_32(pair[0]):08X}"


def main():
    table = by_state(OCTETS, 2)
    print(f"pairs of one hash among the names of 0 to 3 octets: {sum(1 for _ in pairs(table, OCTETS))}")
    short = (b"", *(bytes((octet,)) for octet in OCTETS))
    print(f"the first of a name of 0 or 1 octets and one of 4: {shown(first_of_four(table, short))}")
    letters = min(pairs(by_state(LETTERS, 3), LETTERS), key=lambda pair: (len(pair[0] + pair[1]), pair))
    print(f"the first of names of up to 4 letters and digits: {shown(letters)}")


if __name__ == "__main__":
    main()
