# The FNV-1a hash. By it the Rust tells the GOOSE streams of an address apart; our monitor goes by the whole name. So that both give one answer, in
# the GOOSE frames of a history no address uses two names of one hash. The makers of scripts keep to this, and `Check` tests it.
import functools
import sys

from calls import MOST_32

BASIS, PRIME = 0x811C9DC5, 0x01000193


# The state behind one octet more; behind a name's last octet it is the hash.
def step(state, octet):
    return (state ^ octet) * PRIME & MOST_32


@functools.lru_cache(1 << 16)
def fnv1a_32(octets):
    return functools.reduce(step, octets, BASIS)


# The octets that a word of a script has.
def octets_of(word):
    if word == "-":
        return b""
    return word[1:-1].encode() if word[0] == '"' else bytes.fromhex(word)


# The name that a word of a script has: as many octets as are stated, 64 at most.
@functools.lru_cache(1 << 16)
def name_of(word):
    stated, colon, rest = word.partition(":") if word[0] != '"' else ("", "", word)
    if not colon:
        return octets_of(word)
    return octets_of(rest).ljust(64, b"\0")[: int(stated)]


# Tests that no address uses two names of one hash in the GOOSE frames of one history, and counts the histories.
class Check:
    def __init__(self):
        self.histories, self.used = 0, {}

    # Takes the next lines of a script, all well formed.
    def add(self, lines):
        for line in map(str.lstrip, lines):
            if line.startswith("inspect_goose"):
                _, mac, word, _ = line.split(None, 3)
                self.use(octets_of(mac), name_of(word))
            elif line.startswith("new"):
                self.histories, self.used = self.histories + 1, {}

    def use(self, mac, octets):
        other = self.used.setdefault((mac, fnv1a_32(octets)), octets)
        if other != octets:
            names = f"{other.hex() or '-'} and {octets.hex() or '-'}"
            sys.exit(f"FAILED: in history {self.histories} the address {mac.hex()} uses {names}, two names of the hash {fnv1a_32(octets):08X}")

    # What was found.
    def said(self):
        return f"no address uses two names of one hash in the GOOSE frames of any of {self.histories} histories"
