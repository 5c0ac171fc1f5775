# Random histories of calls, with few keys, so that tables fill and give way and names, addresses and clients meet. `endless` yields them, each
# a list of lines that begins with `new` or `new_strict`.
import itertools
import struct

import calls
import frames
from calls import MOST_16, MOST_32, MOST_64, call, goose_publisher, mms_rule, sv_publisher
from listed import COLLIDING, TIMES

SIZES = (1, 2, 3, 5, 15, 16, 17, 18, 24, 40)


# Names that are easy to mix up: empty, one within another, with zeros at the end, alike but for one octet, of one hash.
def some_names(rng, many):
    long = rng.randbytes(64)
    names = [b"", b"A", b"A\0", b"A\0\0", b"B", long, long[:63], long[:62] + b"\0", bytes(64), bytes(1), *COLLIDING]
    names += [long[:i] + bytes([long[i] ^ 1]) + long[i + 1 :] for i in (0, 31, 63)]
    names += [b"IED%d/LLN0$GO$gcb%d" % (i // 4, i % 4) for i in range(40)]
    rng.shuffle(names)
    return ([long] if rng.random() < 0.3 else []) + names[:many]


# Addresses that are easy to mix up: alike but for one octet.
def some_macs(rng, many):
    base = rng.randbytes(6)
    macs = [base, bytes(6), b"\xff" * 6, base[::-1]]
    macs += [base[:i] + bytes([base[i] ^ bit]) + base[i + 1 :] for i in range(6) for bit in (1, 0x80)]
    macs += [base[:4] + struct.pack(">H", i) for i in range(40)]
    rng.shuffle(macs)
    return macs[:many]


# One monitor's life: its keys, its settings, and what was last sent under each key.
class History:
    def __init__(self, rng):
        self.rng = rng
        self.names = some_names(rng, rng.choice(SIZES))
        self.macs = some_macs(rng, rng.choice(SIZES))
        self.invokes = [rng.choice((0, 1, MOST_32, rng.getrandbits(32))) if i < 3 else i for i in range(rng.choice(SIZES))]
        self.clients = [0, 1, MOST_32, *range(2, 30)][: rng.choice((1, 2, 3, 17, 30))]
        self.rates = rng.choice(((1,), (1, 2), (0, 1, 3), (2, 10, 1000), (0, 65535, 7)))
        self.gap = self.jump = 0
        self.schedule = (4000, 1_000_000, 25)
        self.counts, self.states, self.clocks, self.asked = {}, {}, {}, {}
        self.now = rng.choice((0, 1_000_000, rng.getrandbits(40), rng.choice(TIMES)))
        self.steady = rng.random() < 0.6
        self.clocked = rng.choice((0, 0.3, 0.9))
        self.renumber = rng.choice((0.001, 0.02, 0.2))
        self.tested = rng.choice((0, 0.1))
        self.weights = rng.choice(((1, 1, 1, 1), (8, 1, 1, 0), (1, 8, 1, 0), (0, 1, 8, 2), (3, 3, 0, 1), (0, 1, 1, 0), (1, 0, 2, 4)))
        if rng.random() < 0.2:
            self.meet()

    # Few names, addresses and clients, so that they meet over the same control blocks.
    def meet(self):
        self.names, self.macs, self.clients = self.names[:2], self.macs[:2], self.clients[:2]
        self.weights = (3, 2, 2, 1)

    # A name as a frame states it: at times longer than it is, and with anything behind its end.
    def stated(self, octets):
        length = len(octets)
        if length == 64 and self.rng.random() < 0.3:
            length = self.rng.choice((64, 65, 66, 127, 128, 254, 255))
        if self.rng.random() < 0.2:
            octets += self.rng.choice((bytes(64), self.rng.randbytes(64)))[: self.rng.choice((1, 64))]
        return calls.name(octets, length)

    # The time of the next call: a little later, now and then earlier, or anything.
    def time(self):
        chance = self.rng.random()
        if not self.steady and chance < 0.03:
            self.now = self.rng.choice(TIMES)
        elif not self.steady and chance < 0.1:
            self.now -= self.rng.choice((1, 4000, 1_000_000, self.rng.getrandbits(30)))
        else:
            self.now += self.rng.choice((0, 0, 1, 100, 4000, 99_999, 100_000, 499_999, 500_000, 1_000_000, self.rng.getrandbits(21)))
        self.now = min(max(self.now, 0), MOST_64)
        return self.now

    # The pair of the clock of an address: about the last one, about the limit, or none.
    def clock(self, mac):
        if self.rng.random() >= self.clocked:
            return (0, 0)
        seconds, fraction = self.clocks.get(mac, (self.rng.choice((0, 1, 1000, MOST_32 - 1)), 0))
        ahead = self.rng.choice((0, 0, 0, 0, 0, 1, 1, 1, -1, self.jump, self.jump + 1, self.rng.getrandbits(32)))
        more = self.rng.choice((0, 1, 1, 1, 1, 1, -1, 1 << 24, self.rng.getrandbits(32)))
        pair = (min(max(seconds + ahead, 0), MOST_32), min(max(fraction + more, 0), MOST_32))
        pair = self.rng.choice(((0, 0), (0, 1), (MOST_32, MOST_32))) if self.rng.random() < 0.02 else pair
        self.clocks[mac] = pair if pair != (0, 0) else (seconds, fraction)
        return pair

    # The next count of a stream: mostly the next one, or about a boundary.
    def count(self, name):
        last = self.counts.get(name)
        if last is None or self.rng.random() < self.renumber:
            last = self.rng.choice((0, 1, 255, 256, 3999, 7233, 32767, 32768, 40000, 65278, 65279, 65280, 65534, 65535))
        step = 1
        if self.rng.random() < 0.3:
            about = (0, 2, 255, 256, 257, self.gap, self.gap + 1, -1, -32765, -32766, -32767, -32768, 32767, 32768, 32769)
            step = self.rng.choice((*about, self.rng.getrandbits(16)))
        count = (last + step) % 65536
        if self.rng.random() < 0.05:
            count = self.rng.choice((0, 1, 255, 256, 257, 65535))
        self.counts[name] = count if count > last or last - count > 32766 else last
        return count

    # The next numbers of a GOOSE stream with the time of its frame: a repetition at an edge of its interval, a new state, or an old one.
    def state(self, key):
        now = self.time()
        if key not in self.states or self.rng.random() < self.renumber:
            self.states[key] = (self.rng.choice((0, 1, 5, MOST_32 - 1, MOST_32)), self.rng.choice((0, 0, 5, 30, MOST_32 - 1, MOST_32)), now)
            return self.states[key]
        st, sq, seen = self.states[key]
        way = self.rng.random()
        if way < 0.45:
            sq += self.rng.choice((1, 1, 1, 1, 1, 2, 24, 31))
            now = self.edge(sq, seen) if self.rng.random() < 0.8 else now
        elif way < 0.7:
            st, sq = st + self.rng.choice((1, 1, 1, 2, 1000)), self.rng.choice((0, 0, 0, 1, 5))
        elif way < 0.9:
            st, sq = st + self.rng.choice((0, 0, 0, -1)), sq + self.rng.choice((0, 0, -1, 1))
        else:
            st, sq = self.rng.choice((0, st, MOST_32)), self.rng.choice((0, sq, MOST_32))
        st, sq = min(max(st, 0), MOST_32), min(max(sq, 0), MOST_32)
        self.states[key] = max(self.states[key], (st, sq, now))
        return st, sq, now

    # A time at an edge of the interval of a sqNum, after that of the last frame.
    def edge(self, sq, seen):
        initial, most, percent = self.schedule
        expected = min(initial << min(sq, 31), most)
        slack = expected * percent // 100
        at = seen + expected + self.rng.choice((-slack - 1, -slack, 0, slack, slack + 1, slack, -slack, MOST_32))
        return min(max(at, 0), MOST_64)

    # The time of a request: about that of the next token of the invoke id's bucket.
    def request_time(self, invoke):
        now = self.time()
        if invoke in self.asked and self.rng.random() < 0.6:
            rate = max(self.rng.choice(self.rates), 1)
            ahead = self.rng.choice((0, 0, 0, 1, 1_000_000 // rate - 1, 1_000_000 // rate, 1_000_000 // rate + 1, 1_000_000, -1))
            now = min(max(self.asked[invoke] + ahead, 0), MOST_64)
        self.asked[invoke] = now
        return now

    def mms(self):
        service = self.rng.choice((1, 1, 2, 5, 6, 8, 10, 11, 11, 11, 11, 12, 12, self.rng.randrange(256)))
        raw = service if self.rng.random() < 0.7 else self.rng.choice((0, 1, 2, 11, 15, 16, 255, self.rng.randrange(256)))
        invoke = self.rng.choice(self.invokes)
        name = self.rng.choice(self.names)
        if service in (10, 12) and self.rng.random() < 0.3:
            name = b""
        time, client = self.request_time(invoke), self.rng.choice(self.clients)
        return calls.mms(service, raw, self.stated(name), invoke, time, client, self.rng.randrange(2))

    def goose(self):
        mac, name = self.rng.choice(self.macs), self.rng.choice(self.names)
        st, sq, now = self.state((mac, name))
        return calls.goose(mac, self.stated(name), st, sq, self.rng.random() < self.tested, now, self.clock(mac))

    def sv(self):
        mac, name = self.rng.choice(self.macs), self.rng.choice(self.names)
        data_set = self.stated(self.rng.choice((b"", self.rng.choice(self.names))))
        rate = self.rng.choice((0, 80, 80, 4000, 65535))
        return calls.sv(mac, self.stated(name), self.count(name), rate, data_set, self.time(), self.clock(mac))

    # A good frame of one of the streams, in octets.
    def octets(self):
        mac, name = self.rng.choice(self.macs), self.rng.choice(self.names)
        parts = [frames.tlv(0x80, name)] if name or self.rng.random() < 0.5 else []
        parts += [frames.tlv(0x82, struct.pack(">H", self.count(name)))]
        if self.rng.random() < 0.4:
            parts.append(frames.tlv(0x81, self.rng.choice(self.names)))
        seconds, fraction = self.clock(mac)
        if seconds or fraction:
            parts.append(frames.tlv(0x84, struct.pack(">I", seconds) + (fraction % (1 << 24)).to_bytes(3, "big") + b"\x0a"))
        if self.rng.random() < 0.4:
            parts.append(frames.tlv(0x86, struct.pack(">H", self.rng.choice((0, 80, 4000)))))
        self.rng.shuffle(parts)
        tags = self.rng.choice((b"", b"\x81\x00\x80\x00"))
        return frames.around(b"".join(parts), tags=tags, padding=bytes(self.rng.choice((0, 0, 7))), source=mac)

    # A raw frame: mostly good, or damaged, cut, or of a kind of its own.
    def raw(self):
        octets = self.octets()
        way = self.rng.random()
        if way < 0.1:
            at = self.rng.randrange(len(octets))
            octets = octets[:at] + bytes([self.rng.choice((*frames.EDGES, self.rng.randrange(256)))]) + octets[at + 1 :]
        elif way < 0.2:
            octets = octets[: self.rng.randrange(len(octets))]
        elif way < 0.3:
            octets = next(self.rng.choice(frames.ENDLESS)(self.rng))
        make = calls.parse_sv if self.rng.random() < 0.2 else calls.raw_sv
        return make(self.time(), octets)

    # One of the set calls.
    def setting(self):
        which = self.rng.randrange(9)
        if which == 0:
            mask = self.rng.choice((0, 0, 0xFFFF, 0xFFFE, 0x0FFE, 0x1FFF, self.rng.getrandbits(16)))
            return call("set_mms_service_mask", mask)
        if which < 3:
            return call(("set_mms_read_only", "set_block_test_frames")[which - 1], int(self.rng.random() < 0.3))
        if which < 5:
            self.gap = self.rng.choice((0, 1, 2, 255, 256, 32767, 65535))
            return call("set_sv_max_smp_cnt_gap", self.gap)
        if which < 7:
            self.jump = self.rng.choice((0, 1, 2, 1000, MOST_32 - 1, MOST_32))
            return call("set_time_max_forward_jump_s", self.jump)
        intervals = (0, 1, 3, 4000, 1_000_000, 1 << 31, MOST_32)
        other = (self.rng.choice(intervals), self.rng.choice(intervals), self.rng.choice((0, 1, 25, 99, 100, 255)))
        self.schedule = self.rng.choice(((4000, 1_000_000, 25), other))
        return calls.schedule(*self.schedule, self.rng.random() < 0.8)

    # One of the add calls.
    def addition(self):
        which = self.rng.randrange(3)
        name, mac = self.rng.choice(self.names), self.rng.choice(self.macs)
        if self.rng.random() < 0.05:
            name = self.rng.randbytes(self.rng.choice((64, 65, 66, 128, 256, 300)))
        if which == 0:
            mask = self.rng.choice((0, 0xFFFF, 0xFFFF, 0x0006, 0x1800, 0x0800, self.rng.getrandbits(16)))
            return mms_rule(mask, self.rng.random() < 0.2, self.rng.choice(self.rates))
        if which == 1:
            return goose_publisher(mac, self.rng.choice((b"", name)))
        return sv_publisher(mac, name, self.rng.choice((0, 80, 80, 4000)))

    # One of the calls that leave the monitor as it is.
    def question(self):
        which = self.rng.randrange(4)
        if which == 0:
            return call("totals")
        if which == 1:
            return call("service", self.rng.randrange(256))
        if which == 2:
            initial, most, percent = self.schedule
            sq, expected = self.rng.choice((0, 1, 8, 31, 32, self.rng.getrandbits(32))), self.rng.getrandbits(self.rng.randrange(33))
            slack = expected * percent // 100
            observed = expected + self.rng.choice((-slack - 1, -slack, 0, slack, slack + 1))
            return calls.interval(initial, most, percent, sq, min(max(observed, 0), MOST_32), expected)
        capacity = self.rng.choice((*self.rates, self.rng.getrandbits(16)))
        time = self.time() + self.rng.choice((0, 1, 1_000_000 // max(capacity, 1), 1_000_000, MOST_64 // max(capacity, 1)))
        return calls.bucket(self.rng.choice((0, 0, 1, capacity, MOST_16)), capacity, self.now, min(time, MOST_64))

    # Rules for every pair of address and name, as far as the lists go.
    def covering(self):
        named = self.rng.random() < 0.5
        yield from (goose_publisher(mac, name) for mac, name in itertools.product(self.macs, self.names[:4] if named else [b""]))
        yield from (sv_publisher(mac, name, self.rng.choice((0, 80))) for mac, name in itertools.product(self.macs, self.names[:4]))
        yield mms_rule(0xFFFF, 0, self.rng.choice(self.rates))

    # The calls before the first frame.
    def beginning(self):
        yield calls.new(self.rng.random() < 0.33)
        yield from (self.setting() for _ in range(self.rng.choice((0, 0, 1, 3, 8))))
        way = self.rng.random()
        if way < 0.3:
            yield from (self.addition() for _ in range(self.rng.choice((1, 2, 5, 20, 60))))
        elif way < 0.5:
            yield from itertools.islice(self.covering(), 80)
        elif way < 0.7:
            yield mms_rule(0xFFFF, 0, self.rng.choice(self.rates))

    def frame(self):
        return self.rng.choices((self.mms, self.goose, self.sv, self.raw), self.weights)[0]()

    # The whole history: so many frames, and how often a call that is none comes between them.
    def calls(self, many, changing):
        yield from self.beginning()
        for _ in range(many):
            chance = self.rng.random()
            if chance < changing:
                yield self.setting()
            elif chance < changing * 1.3:
                yield self.addition()
            elif chance < changing * 1.4:
                yield call("reset")
            elif chance < changing * 1.5:
                yield self.question()
            else:
                yield self.frame()


# Raw frames of one kind to one monitor, by turns read only and inspected.
def of_frames(rng, many):
    yield calls.new(rng.random() < 0.1)
    history = History(rng)
    for number, octets in enumerate(itertools.islice(rng.choice(frames.ENDLESS)(rng), many)):
        yield (calls.raw_sv if number % 2 else calls.parse_sv)(history.time(), octets)


# Random histories without end: most of them short, some long.
def endless(rng):
    while True:
        many = rng.choice((5, 10, 20, 40, 40, 80, 80, 150, 150, 300, 300, 1000))
        if rng.random() < 0.005:
            many = rng.choice((10_000, 10_000, 10_000, 100_000))
        if rng.random() < 0.1:
            yield list(of_frames(rng, min(many, 300)))
        else:
            yield list(History(rng).calls(many, rng.choice((0, 0.001, 0.01, 0.05))))
