# Frames heard twice (request 1): random histories in which a copy of each GOOSE, SV and raw frame stands behind it, equal but for its time, and what
# the second copy must be answered, by document 01's list of refusals.
import itertools
import random
import re

import histories
from calls import MOST_64

# The place of the time among the words of a call, and the code of a replay (refusals 13 and 18).
FRAMES = {"inspect_goose": (6, 3), "inspect_sv": (6, 26), "inspect_raw_sv": (1, 26)}
# The codes of the refusals before the check of the stream: 9, 10 and 15; 14; 11 and 16.
BEFORE = ([6], [28], [29])
ANSWER = re.compile(rb"(allowed|refused) source")
CODE = re.compile(rb" \[(\d+) ")


# The same frame, heard at another time.
def copy(line, rng):
    words = line.split()
    at = FRAMES[words[0]][0]
    ahead = rng.choice((0, 1, 9, 4000, 8000, rng.getrandbits(40), -1, -rng.getrandbits(40)))
    words[at] = str(rng.choice((min(max(int(words[at]) + ahead, 0), MOST_64), rng.getrandbits(64))))
    return " ".join(words) + "\n"


# The lines of a script without end, and for each whether it is a second copy.
def lines(seed):
    rng = random.Random(f"{seed} copies")
    for line in itertools.chain.from_iterable(histories.endless(rng)):
        yield line, False
        if line.split(None, 1)[0] in FRAMES:
            yield copy(line, rng), True


# Whether an answer allows the frame, its codes, and whether the frame was unreadable.
def verdict(line):
    return ANSWER.search(line)[1] == b"allowed", [int(code) for code in CODE.findall(line)], line.startswith(b"error")


# Whether the answer to a second copy is what the first one's answer asks for.
def is_refused(call, first, second):
    _, codes, unreadable = verdict(first)
    ended = unreadable or codes in BEFORE
    return verdict(second) == (False, codes if ended else [FRAMES[call.split(None, 1)[0]][1]], unreadable)
