# Listed histories: each way over the boundaries of a check, one after the other. Every maker yields the lines of calls; a history begins with
# `new` or `new_strict`. MAKERS has them all, each a function of a source of chance.
import itertools

import calls
import frames
from calls import MOST_16, MOST_32, MOST_64, call, goose, goose_publisher, mms, mms_rule, name, sv, sv_publisher

MAC, OTHER = b"\x00\x0a\x0b\x0c\x0d\x0e", b"\x00\x0a\x0b\x0c\x0d\x0f"
NAME = name(b"M1")
READ, CONCLUDE, SELECT, CANCEL = 1, 10, 11, 12
# Two pairs of names, each of one FNV-1a hash.
COLLIDING = (b"h9Gc", b"THad", b"S0Fc", b"wCbd")
TIMES = (0, 1, 999_999, 1_000_000, MOST_32, MOST_32 + 1, (1 << 63) - 1, 1 << 63, MOST_64 - 1, MOST_64)


# Every raw number's service.
def services(_):
    yield calls.new()
    yield from (call("service", raw) for raw in range(256))


# The intervals of schedules at their boundaries.
def intervals(_):
    some = (0, 1, 3, 2999, 3000, 4000, 5000, 5001, 1_000_000, MOST_32 - 1, MOST_32)
    steps = (0, 1, 7, 8, 9, 30, 31, 32, 33, MOST_32)
    schedules = itertools.product((0, 1, 4000, MOST_32), (0, 1, 1_000_000, MOST_32), (0, 1, 25, 100, 255))
    for schedule, sq in itertools.product(schedules, steps):
        yield calls.new()
        for observed, expected in itertools.product(some, (0, 1, 4000, MOST_32)):
            yield calls.interval(*schedule, sq, observed, expected)


# Buckets by themselves: few and many tokens, also more than the capacity, about the time of the next token and at the ends of the times.
def consumptions(_):
    for capacity in (0, 1, 2, 3, 7, 10, 999, 1000, 32768, MOST_16 - 1, MOST_16):
        yield calls.new()
        one = -(-1_000_000 // max(capacity, 1))
        overflow = MOST_64 // max(capacity, 1)
        later = (0, 1, one - 1, one, one + 1, 2 * one - 1, 2 * one, 999_999, 1_000_000, 1_000_001, overflow - 1, overflow, overflow + 1)
        for tokens, refilled in itertools.product((0, 1, 2, capacity, MOST_16), (0, 5, 1 << 40, MOST_64)):
            for time in (0, max(refilled - 1, 0), *(refilled + by for by in later), MOST_64):
                yield calls.bucket(tokens, capacity, refilled, min(time, MOST_64))


# Every two counts of the boundaries, with several limits of the gap.
def counts(_):
    some = (0, 1, 2, 254, 255, 256, 257, 258, 7232, 7233, 7234, 32765, 32766, 32767, 32768, 32769, 40000)
    some += (65279, 65280, 65534, 65535)
    for limit, first, second in itertools.product((0, 1, 255, 256, 32768, 65535), some, some):
        yield calls.new()
        yield call("set_sv_max_smp_cnt_gap", limit)
        for count in (first, second, second, (second + 1) % 65536, first):
            yield sv(MAC, NAME, count)


# The gap about its limit, for each limit of the boundaries.
def gaps(_):
    for limit, by in itertools.product((1, 2, 3, 16, 255, 256, 257, 32766, 32767, 65534), (-1, 0, 1)):
        yield calls.new()
        yield call("set_sv_max_smp_cnt_gap", limit)
        yield from (sv(MAC, NAME, 0), sv(MAC, NAME, limit + by), sv(MAC, NAME, min(limit + by + limit, MOST_16)))


# Every two pairs of stNum and sqNum of the boundaries.
def states(_):
    numbers = (0, 1, 2, 1 << 31, MOST_32 - 1, MOST_32)
    pairs = list(itertools.product(numbers, numbers))
    for first, second in itertools.product(pairs, pairs):
        yield calls.new()
        for pair in (first, second, second, first, (second[0], min(second[1] + 1, MOST_32))):
            yield goose(MAC, NAME, *pair)


# Every sqNum of the boundaries at the edges of its interval, with several schedules.
def retransmissions(_):
    schedules = [(4000, 1_000_000, 25), (1, 1, 0), (0, 5, 100), (7, 0, 50), (3, MOST_32, 255), (MOST_32, MOST_32, 0)]
    schedules += [(MOST_32, MOST_32, 255)]
    schedules += [(2, MOST_32, 100), (4000, 1_000_000, 0), (4000, 1_000_000, 99), (4000, 1_000_000, 101), (1 << 31, MOST_32, 33)]
    for (initial, most, percent), sq in itertools.product(schedules, (1, 2, 7, 8, 9, 30, 31, 32, 33, MOST_32)):
        expected = min(initial << min(sq, 31), most)
        slack = expected * percent // 100
        edges = {expected + way * slack + by for way in (-1, 0, 1) for by in (-1, 0, 1)}
        edges |= {0, 1, MOST_32 - 1, MOST_32, MOST_32 + 1, 1 << 40}
        for distance, enforce, start in itertools.product(sorted(edges), (0, 1), (0, 5_000_000)):
            if distance >= -start:
                yield calls.new()
                yield calls.schedule(initial, most, percent, enforce)
                yield goose(MAC, NAME, 7, 0, 0, start)
                yield goose(MAC, NAME, 7, sq, 0, start + distance)


# Every two pairs of a clock, with several limits, from the frames of both kinds.
def clocks(_):
    pairs = [(0, 0), (0, 1), (0, MOST_32), (1, 0), (1, 1), (2, 0), (9, 5), (10, 4), (10, 5), (10, 6), (11, 0), (12, 9), (13, 0)]
    pairs += [(MOST_32, 0), (MOST_32, MOST_32)]
    for limit, first, second in itertools.product((0, 1, 2, 3, 10, MOST_32 - 1, MOST_32), pairs, pairs):
        yield calls.new()
        yield call("set_time_max_forward_jump_s", limit)
        yield goose(MAC, NAME, 1, 0, 0, 0, first)
        yield sv(MAC, NAME, 1, clock=second)
        yield goose(MAC, NAME, 1, 1, 0, 0, first)
        yield sv(OTHER, NAME, 2, clock=second)
        yield sv(MAC, NAME, 2, clock=second)


# A clock alert and each alert that can follow it: checking goes on, and a later check adds its own.
def alerts_together(_):
    for strict, jump, gap, enforce in itertools.product((0, 1), (0, 1), (0, 1), (0, 1)):
        for second, count, rate in itertools.product((4, 5, 6, 9), (4, 5, 6, 9, 40000), (0, 80, 81)):
            yield calls.new(strict)
            yield call("set_time_max_forward_jump_s", jump)
            yield call("set_sv_max_smp_cnt_gap", gap)
            yield calls.schedule(4000, 1_000_000, 25, enforce)
            yield sv_publisher(MAC, b"M1", 80)
            yield sv(MAC, NAME, 5 if count < 40000 else 40000, 80, clock=(5, 5))
            yield sv(MAC, NAME, count if count < 40000 else 7233, rate, time=9, clock=(second, 5))
            yield goose(MAC, NAME, 5, 5, 0, 0, (second, 5))
            yield goose(MAC, NAME, 5, count % 40000, 0, 100, (5, 5))


# The octets of an SV frame of these numbers.
def octets_of(mac, svid, count, rate, data_set, clock):
    fields = (frames.tlv(0x80, svid), frames.tlv(0x81, data_set), frames.tlv(0x82, count.to_bytes(2, "big")))
    fields += (frames.tlv(0x84, clock[0].to_bytes(4, "big") + clock[1].to_bytes(3, "big")), frames.tlv(0x86, rate.to_bytes(2, "big")))
    return frames.around(b"".join(fields), source=mac)


# Every verdict on an SV frame, by raw frames: publishers, reservation, clock, count and rate.
def raw_verdicts(_):
    for strict, mac, svid, data_set in itertools.product((0, 1), (MAC, OTHER), (b"M1", b"M2"), (b"", b"D1")):
        for seconds, count, rate in itertools.product((4, 5, 9), (5, 6, 9, 40000), (0, 80, 81)):
            yield calls.new(strict)
            yield from (call("set_time_max_forward_jump_s", 2), call("set_sv_max_smp_cnt_gap", 2), sv_publisher(MAC, b"M1", 80))
            yield from (mms(SELECT, 11, name(b"D1"), kind=0), goose(mac, NAME, 1, 1, 0, 0, (5, 5)))
            yield calls.raw_sv(7, octets_of(MAC, b"M1", 5, 80, b"D1", (5, 5)))
            yield calls.raw_sv(8, octets_of(mac, svid, count, rate, data_set, (seconds, 5)))


# Every raw number with masks of the monitor and of a rule, strict and not.
def masks(_):
    some = (0, 1, 2, 0x8000, 0x7FFF, 0xFFFE, 0xFFFF, 0x1234)
    for strict, whole, rule in itertools.product((0, 1), some, some):
        yield calls.new(strict)
        yield call("set_mms_service_mask", whole)
        yield mms_rule(rule, 0, 0)
        for raw in (*range(20), 127, 128, 143, 144, 254, 255):
            yield mms(READ, raw, NAME)


# Every service with each way of being read-only.
def writes(_):
    for strict, whole, one, mask in itertools.product((0, 1), (0, 1), (0, 1), (0xFFFF, 0x00FF)):
        yield calls.new(strict)
        yield call("set_mms_read_only", whole)
        yield mms_rule(mask, one, 0)
        for service, raw in itertools.product((*range(15), 100, 255), (0, 1, 2, 5, 8, 11, 200)):
            yield mms(service, raw, NAME, client=service)


# Rules that several of fit: the first MMS rule applies, the last SV rule's rate counts, an empty GOOSE name fits any name.
def several_rules(_):
    for first, second in itertools.product((0, 1, 0x0002, 0x0004, 0xFFFD, 0xFFFF), repeat=2):
        for read_only, strict in itertools.product((0, 1), (0, 1)):
            yield calls.new(strict)
            yield from (mms_rule(first, read_only, 0), mms_rule(second, 1 - read_only, 1))
            yield from (mms(service, raw, NAME, raw, 0) for service, raw in itertools.product((1, 2, 2), (0, 1, 2, 15, 16)))
    names = (b"", b"M1", b"M1\0", b"M")
    for first, second, strict in itertools.product(names, names, (0, 1)):
        yield calls.new(strict)
        yield from (sv_publisher(MAC, first, 80), sv_publisher(OTHER, second, 0), sv_publisher(MAC, second, 4000))
        yield from (goose_publisher(MAC, first), goose_publisher(OTHER, second))
        for count, (mac, other, rate) in enumerate(itertools.product((MAC, OTHER, bytes(6)), names, (0, 80, 4000))):
            yield from (sv(mac, name(other), count, rate), goose(mac, name(other), 1, count))


# Every stated length of each name: rules, streams and reservations take those above 64 as 64.
def lengths(_):
    octets = bytes(range(1, 65))
    for stated in range(256):
        yield calls.new()
        written, kept = name(octets, stated), octets[: min(stated, 64)]
        yield mms(SELECT, 11, written, client=1, kind=1)
        yield mms(SELECT, 11, written, client=2, kind=0)
        yield from (goose_publisher(MAC, kept), sv_publisher(MAC, kept, 80))
        for other in (stated, 63, 64, 65, 255, 0, 1):
            for mac in (MAC, OTHER):
                yield goose(mac, name(octets, other), 1, stated)
                yield sv(mac, name(octets, other), stated, 80, written)
                yield sv(mac, NAME, stated, 4000, name(octets, other))
        yield from (mms(CANCEL, 12, written, client=2, kind=0), sv(OTHER, written, 999, 80, written), goose(OTHER, written, 2, 0))


# Rule lists at their ends, with names at and over the most.
def full_rules(_):
    names = (b"", b"A", bytes(63), bytes(64), bytes(65), bytes(range(66)), bytes(200), b"n" * 255, b"n" * 256, b"n" * 320)
    for octets, many in itertools.product(names, (15, 16, 17)):
        yield calls.new()
        for i in range(many):
            yield from (mms_rule(1 << (i % 16), i % 2, i), goose_publisher(MAC, b"A%d" % i), sv_publisher(MAC, b"A%d" % i, i))
        yield from (mms_rule(0xFFFF, 1, 1), goose_publisher(OTHER, octets), sv_publisher(OTHER, octets, 9))
        written = name(octets, min(len(octets), 255))
        for mac in (MAC, OTHER):
            for other in (written, name(b"A3")):
                yield from (goose(mac, other, 1, 1), sv(mac, other, 1, 9))
        yield call("reset")
        yield from (goose_publisher(OTHER, octets), sv_publisher(OTHER, octets, 9), goose(MAC, written, 0, 0), sv(MAC, written, 0))


# Sixteen keys, some of them used again, one or two more, then all of them once more: in each of the four tables.
def full_tables(rng):
    for _ in range(300):
        keys = [bytes([i]) for i in range(18)]
        used = keys[:16] + rng.choices(keys[:16], k=rng.randrange(30)) + keys[16 : rng.choice((16, 17, 18))]
        probes = rng.sample(keys, len(keys))
        yield calls.new()
        yield mms_rule(0xFFFF, 0, 2)
        for n, key in enumerate(used + probes):
            mac, written = b"\x02\0\0\0\0" + key, name(key)
            yield sv(MAC, written, 100 if n < len(used) else 100 - n % 2)
            yield goose(MAC, written, 5, n)
            yield goose(mac, NAME, 5, 5 if n < len(used) else n % 7, 0, 0, (100 - n % 5, n))
            yield mms(READ, 1, written, key[0], rng.choice((0, 499_999, 500_000)))


# Names of one hash: they share a GOOSE stream, and have different SV streams, rules and reservations.
def equal_hashes(_):
    for first, second in itertools.permutations(COLLIDING, 2):
        for mac, st, sq in itertools.product((MAC, OTHER), (4, 5, 6), (6, 7, 8)):
            yield calls.new()
            yield from (mms(SELECT, 11, name(first), client=1), mms(SELECT, 11, name(first), client=1, kind=0))
            yield from (goose(MAC, name(first), 5, 7), goose(mac, name(second), st, sq), goose(MAC, name(first), 5, 8))
            yield from (sv(MAC, name(first), 5, 0, name(first)), sv(mac, name(second), 5, 0, name(second)))
            yield from (goose_publisher(MAC, first), goose(mac, name(second), 9, 9), goose(mac, name(first), 9, 9))


# A bucket of each capacity, emptied, and asked again about the time of its next token.
def rates(_):
    for rate, start in itertools.product((1, 2, 3, 7, 10, 999, 1000), (0, 5, 1 << 40)):
        one = -(-1_000_000 // rate)
        about = (0, 1, one - 1, one, one + 1, 2 * one - 1, 2 * one, 999_999, 1_000_000, 1_000_001)
        for later in (*about, MOST_64 // rate, MOST_64 // rate + 1):
            yield from (calls.new(), mms_rule(0xFFFF, 0, rate))
            yield from (mms(READ, 1, NAME, 9, start) for _ in range(min(rate, 12) + 1))
            yield from (mms(READ, 1, NAME, 9, min(start + later, MOST_64)) for _ in range(3))
            yield from (mms(READ, 1, NAME, 9, max(start - 1, 0)), mms(READ, 1, NAME, 9, MOST_64), mms(READ, 1, NAME, 9, 0))


# The calls that change or use a reservation, of two clients, two addresses and both kinds.
def reservation_calls():
    for client, kind in itertools.product((1, 2), (1, 0)):
        yield mms(SELECT, 11, NAME, client=client, kind=kind)
        yield mms(CANCEL, 12, NAME, client=client, kind=kind)
    for client in (1, 2):
        yield mms(CONCLUDE, 10, calls.NO_NAME, client=client)
        yield mms(SELECT, 11, calls.NO_NAME, client=client, kind=client % 2)
    for mac in (MAC, OTHER):
        yield goose(mac, NAME, 9, 9)
        yield sv(mac, calls.NO_NAME, 9, 0, NAME)


# Every three of these calls after a reservation of either kind, then a use by each address.
def reservations(_):
    some = list(reservation_calls())
    for kind, three in itertools.product((1, 0), itertools.product(some, repeat=3)):
        yield calls.new()
        yield mms(SELECT, 11, NAME, client=1, kind=kind)
        yield from three
        for mac in (OTHER, MAC):
            yield from (goose(mac, NAME, 9, 9), sv(mac, calls.NO_NAME, 9, 0, NAME))
        yield from (goose(MAC, calls.NO_NAME, 9, 9), sv(OTHER, NAME, 9))


# A full reservation table: taken over, refused, released one by one and all at once.
def full_reservations(_):
    for many, kinds, clients in itertools.product((15, 16, 17, 18), (1, 2), (1, 2, 3)):
        for way in range(6):
            yield calls.new()
            yield from (mms(SELECT, 11, name(b"N%d" % i), client=i % clients, kind=i % kinds) for i in range(many))
            yield from (goose(MAC, name(b"N%d" % i), 1, i) for i in range(many))
            yield (
                mms(SELECT, 11, name(b"N3"), client=9, kind=3 % kinds),
                mms(CANCEL, 12, name(b"N3"), client=3 % clients, kind=3 % kinds),
                mms(CANCEL, 12, name(b"N3"), client=9, kind=3 % kinds),
                mms(CONCLUDE, 10, calls.NO_NAME, client=0),
                mms(CONCLUDE, 10, name(b"N3"), client=3 % clients, kind=3 % kinds),
                mms(SELECT, 11, calls.NO_NAME, client=2, kind=0),
            )[way]
            yield from (mms(SELECT, 11, name(b"X%d" % i), client=5, kind=i % 2) for i in range(many // 2))
            yield from (goose(OTHER, name(b"%c%d" % (c, i)), 2, i) for c, i in itertools.product(b"NX", range(many)))
            yield from (sv(mac, NAME, i, 0, name(b"N%d" % i)) for i, mac in itertools.product(range(many), (MAC, OTHER)))


# Every setting, rule and table in use, then a reset: what it keeps, and what is as new.
def resets(_):
    for strict, value in itertools.product((0, 1), (0, 1)):
        for wanted in range(1 << 6):
            on = [wanted >> bit & 1 for bit in range(6)]
            yield calls.new(strict)
            yield from (
                call("set_mms_service_mask", 0x1FFE * on[0]), call("set_mms_read_only", on[1]), call("set_block_test_frames", on[2]),
            )
            yield from (call("set_sv_max_smp_cnt_gap", 2 * on[3]), calls.schedule(3000, 900_000, 10, on[4]))
            yield call("set_time_max_forward_jump_s", 5 * on[5])
            if value:
                yield from (mms_rule(0x0002, 0, 1), goose_publisher(MAC, b"M1"), sv_publisher(MAC, b"M1", 80))
            yield mms(SELECT, 11, NAME, client=1)
            yield from (goose(MAC, NAME, 5, 5, 0, 9, (9, 9)), sv(MAC, NAME, 5, 80, NAME, 9, (9, 9)))
            yield call("reset")
            yield from (mms(2, 2, NAME, 1, 9), mms(READ, 0, NAME, 1, 9), mms(READ, 1, NAME, 1, 9), mms(READ, 1, NAME, 1, 9))
            yield from (
                goose(OTHER, NAME, 5, 5, 1, 9, (9, 9)), goose(OTHER, NAME, 5, 5, 0, 9, (8, 9)), goose(OTHER, NAME, 5, 6, 0, 99, (99, 9)),
            )
            yield from (sv(OTHER, NAME, 5, 81, NAME, 9, (9, 9)), sv(OTHER, NAME, 8, 81, NAME, 9, (20, 9)), call("totals"))


# Times, numbers and clocks at the ends of their widths.
def extremes(_):
    ends = (0, 1, MOST_32 - 1, MOST_32)
    for time, number, other in itertools.product(TIMES, ends, ends):
        yield calls.new()
        yield from (mms_rule(0xFFFF, 0, MOST_16), calls.schedule(MOST_32, MOST_32, 255, 1))
        yield call("set_time_max_forward_jump_s", other)
        yield mms(255, 255, NAME, number, time, other, 1)
        yield mms(SELECT, 255, NAME, number, MOST_64 - time, other, 0)
        yield from (
            goose(b"\xff" * 6, NAME, number, other, 1, time, (number, other)),
            goose(b"\xff" * 6, NAME, other, number, 0, 0, (other, number)),
        )
        yield goose(b"\xff" * 6, NAME, number, min(other + 1, MOST_32), 1, MOST_64, (number, other))
        yield from (
            sv(b"\xff" * 6, NAME, number % 65536, MOST_16, NAME, time, (other, number)), sv(MAC, NAME, other % 65536, 1, NAME, MOST_64),
        )


# A maker of the frames of one listed kind, by turns read only and inspected.
def of_frames(make):
    def lines(rng):
        for number, octets in enumerate(make(rng)):
            if number % 50 == 0:
                yield calls.new()
            time = rng.choice(TIMES) if number % 7 == 0 else rng.getrandbits(rng.randrange(1, 65))
            yield (calls.raw_sv if number % 2 else calls.parse_sv)(time, octets)

    lines.__name__ = "frames_" + make.__name__
    return lines


MAKERS = (services, intervals, consumptions, counts, gaps, states, retransmissions, clocks, alerts_together, raw_verdicts)
MAKERS += (
    masks, writes, several_rules, lengths, full_rules, full_tables, equal_hashes, rates, reservations, full_reservations, resets, extremes,
)
MAKERS += tuple(map(of_frames, frames.LISTED))


# The histories of some lines, each a list that begins with a new monitor.
def histories(lines):
    history = []
    for line in lines:
        if line.startswith("new") and history:
            yield history
            history = []
        history.append(line)
    if history:
        yield history
