# Makers of sampled-values frames, good and damaged, for the calls parse_sv and inspect_raw_sv. LISTED makers end by themselves, ENDLESS ones
# do not; each takes a source of chance, and yields the octets of a frame.
import itertools

FIELDS = (0x80, 0x81, 0x82, 0x84, 0x86)
TAGS = FIELDS + (0x30, 0x60, 0xA2, 0x83, 0x85, 0x87, 0x88, 0x00, 0x02, 0x1E, 0x1F, 0x3F, 0x9F, 0xBF, 0xFF, 0xA0, 0xA1, 0x61)
EDGES = (0x00, 0x01, 0x02, 0x1F, 0x30, 0x60, 0x7F, 0x80, 0x81, 0x82, 0x83, 0x84, 0x85, 0x86, 0xA2, 0xBF, 0xFE, 0xFF)
SPANS = (*range(0, 71), *range(120, 141), *range(250, 261))


# The length octets for n: the fewest, or in the long form with so many further octets.
def length(n, further=None):
    if further is None:
        further = 0 if n < 0x80 else 1 if n < 0x100 else 2
    if further == 0:
        return bytes([n])
    return bytes([0x80 + further]) + n.to_bytes(further, "big")


# An element.
def tlv(tag, content, further=None):
    return bytes([tag]) + length(len(content), further) + content


# A whole frame around an APDU. `stated` is the header's length field where it is not the right one.
def frame(apdu, tags=b"", ethertype=b"\x88\xba", stated=None, padding=b"", source=b"\x00\x0a\x0b\x0c\x0d\x0e"):
    n = min(len(apdu) + 8, 0xFFFF) if stated is None else stated
    head = b"\x01\x0c\xcd\x04\x00\x01" + source + tags + ethertype
    return head + b"\x40\x00" + n.to_bytes(2, "big") + bytes(4) + apdu + padding


# A frame around the octets of an ASDU, with its wrappers.
def around(asdu, **more):
    return frame(tlv(0x60, b"\x80\x01\x01" + tlv(0xA2, tlv(0x30, asdu))), **more)


# The 39-octet frame of the scope document.
DOCUMENT = around(b"\x80\x02M1\x82\x02\x01\xf4")


# The content of a field: of any length that it takes, or now and then of another.
def content(rng, tag):
    if rng.random() < 0.02:
        return rng.randbytes(rng.choice(SPANS))
    if tag in (0x80, 0x81):
        return rng.randbytes(rng.choice((0, 1, 2, 5, 31, 63, 64, rng.randrange(65))))
    if tag == 0x82:
        return rng.randbytes(2)
    if tag == 0x84:
        return rng.randbytes(rng.choice((0, 3, 4, 5, 6, 7, 8, 8, 9, rng.randrange(20))))
    if tag == 0x86:
        n = rng.randrange(1, 5)
        most = 1 << (8 * n)
        value = rng.choice((0, 0xFFFF, 0x10000, 0x10001, most - 1)) if rng.random() < 0.2 else rng.randrange(0x10000)
        return (value % most).to_bytes(n, "big")
    return rng.randbytes(rng.randrange(12))


# One field, mostly with the fewest length octets.
def field(rng, tag):
    c = content(rng, tag)
    return tlv(tag, c, rng.randrange(2, 5) if rng.random() < 0.1 else None)


# An ASDU with each field at most once and a count.
def good_asdu(rng):
    tags = [t for t in (0x80, 0x81, 0x82, 0x83, 0x84, 0x85, 0x86, 0x87) if t == 0x82 or rng.random() < 0.7]
    return b"".join(field(rng, t) for t in tags)


# Some good frames to damage and cut: the document's, one with every field, and one with a tag and padding.
def good_frames(rng):
    whole = b"".join(
        (
            tlv(0x80, b"MU01-stream-A"),
            tlv(0x81, b"MU01/LLN0$dataset"),
            tlv(0x82, b"\x12\x34"),
            tlv(0x83, bytes(4)),
            tlv(0x84, b"\x65\x43\x21\x00\xab\xcd\xef\x0a"),
            tlv(0x85, b"\x02"),
            tlv(0x86, b"\x0f\xa0"),
            tlv(0x87, rng.randbytes(16)),
        )
    )
    yield DOCUMENT
    yield around(whole)
    yield around(whole, tags=b"\x81\x00\x80\x00", padding=bytes(7))
    yield frame(tlv(0xA2, whole, 4))
    yield frame(tlv(0x60, tlv(0x80, b"\x01", 1) + tlv(0xA2, tlv(0x30, whole, 2), 3), 2))
    for _ in range(3):
        yield around(good_asdu(rng))


# A few frames for each rule about the header and the wrappers.
def header_reasons():
    count = b"\x82\x02\x01\xf4"
    for n in (0, 1, 13, 14, 15, 17, 18, 21, 22, 25, 26, 30):
        yield DOCUMENT[:n]
        yield around(count, tags=b"\x81\x00\x00\x01")[:n]
    for kind in (b"\x88\xb8", b"\x88\xba", b"\x81\x00"):
        yield around(count, ethertype=kind)
        yield around(count, ethertype=kind, tags=b"\x81\x00\x00\x01")
    for n in (0, 7, 8, 24, 25, 26):
        yield DOCUMENT[:16] + n.to_bytes(2, "big") + DOCUMENT[18:]
    for apdu in ("", "60", "6080", "6000", "6002a200", "a200", "a2023000", "a2023005", "800101"):
        yield frame(bytes.fromhex(apdu))
    for apdu in (b"\x80\x05\x01" + tlv(0xA2, count), b"\x1f\x00" + tlv(0xA2, count), tlv(0xA2, b"\x30")):
        yield frame(apdu)
    for bad in map(bytes.fromhex, ("81", "8200", "830000", "8400", "80", "85", "83010000", "84ffffffff", "05", "8105")):
        yield from (frame(b"\x60" + bad), frame(b"\x80" + bad), frame(tlv(0xA2, b"\x30" + bad)), around(count + b"\x87" + bad))


# A few frames for each rule about a field.
def field_reasons(rng):
    count = b"\x82\x02\x01\xf4"
    for bad in map(bytes.fromhex, ("80", "1f00", "8080", "80850000000000", "80ff", "808200", "808400010000")):
        yield around(count + bad)
        yield around(bad + count)
    for bad in (b"\x82\x83\x01\x00\x00", b"\x82\x03\x01\xf4", b"\x82\x03\x01\xf4\x00", b"\x82\x01\x01", b"\x82\x00", b"\x86\x00"):
        yield around(count + bad)
    for tag, n in itertools.product((0x80, 0x81, 0x84, 0x87), (0, 3, 4, 6, 7, 63, 64, 65, 130)):
        yield around(tlv(tag, rng.randbytes(n)) + count)
    for rate in (b"\xff\xff", b"\x00\x00\xff\xff", b"\x01\x00\x00", b"\x00\x01\x00\x00", b"\xff", b"\xff\xff\xff\xff", bytes(5)):
        yield around(count + tlv(0x86, rate))
    for asdu in (b"", b"\x80\x02M1", b"\x82\x84\x00\x00\x00\x02\x01\xf4", b"\x82\x85\x00\x00\x00\x00\x02\x01\xf4"):
        yield around(asdu)
    for tag in FIELDS:
        first, second = (tlv(tag, rng.randbytes(n)) for n in {0x82: (2, 2), 0x84: (8, 4), 0x86: (2, 1)}.get(tag, (9, 4)))
        yield from (around(count + first + second), around(count + second + first), around(first + count + second))


# A few frames with more than one A2 or ASDU, or with something behind them.
def list_reasons():
    count = b"\x82\x02\x01\xf4"
    other = tlv(0xA2, tlv(0x30, tlv(0x82, b"\x00\x07")))
    for apdu in (other + tlv(0xA2, count), tlv(0xA2, count) + other, tlv(0xA2, b"") + other, other + b"\x1f"):
        yield from (frame(apdu), frame(tlv(0x60, apdu)), frame(tlv(0x60, apdu) + b"\x1f"), frame(apdu, padding=other))
    for behind in (tlv(0x30, b"\x82\x02\x00\x08"), b"\x1f", tlv(0x30, b"\x1f")):
        yield from (frame(tlv(0xA2, tlv(0x30, count) + behind)), frame(tlv(0xA2, count + behind)))


# A few frames for each reason to refuse and each rule of reading, with their neighbours on the other side.
def reasons(rng):
    yield from header_reasons()
    yield from field_reasons(rng)
    yield from list_reasons()


# Every tag and first length octet at the front of the ASDU, with what they ask for behind them, in an otherwise good frame.
def heads(rng):
    rest = tlv(0x80, b"after") + tlv(0x82, b"\x01\xf4") + tlv(0x86, b"\x50")
    for tag, first in itertools.product(range(256), range(256)):
        n = rng.randrange(4)
        more = first - 0x80
        asked = rng.randbytes(first) if first < 0x80 else n.to_bytes(more, "big") + rng.randbytes(n) if 0 < more < 9 else b""
        asdu = bytes((tag, first)) + asked + rest
        yield around(asdu) if rng.random() < 0.5 else frame(tlv(0xA2, asdu))


# Every tag and first length octet before good fields, and at the front of the APDU or of the content of 60, A2 and 30.
def bare_heads(rng):
    count = tlv(0x82, b"\x01\xf4")
    for tag, first in itertools.product(range(256), range(256)):
        head = bytes((tag, first))
        place = rng.randrange(4)
        if place == 0:
            yield frame(head + tlv(0xA2, count))
        elif place == 1:
            yield frame(tlv(0x60, head + tlv(0xA2, count)))
        elif place == 2:
            yield frame(tlv(0xA2, head + count))
        else:
            yield around(head + tlv(0x81, b"names") + count)


# Every cut of good frames: plain, with the header's length field set to the cut, and of the APDU, the A2 and the ASDU within.
def cuts(rng):
    for good in good_frames(rng):
        at = 18 if good[12:14] == b"\x81\x00" else 14
        for n in range(len(good) + 1):
            yield good[:n]
            if n >= at + 4:
                yield good[: at + 2] + (n - at).to_bytes(2, "big") + good[at + 4 : n]
        inner = good[at + 8 :]
        for n in range(len(inner) + 1):
            yield frame(tlv(0x60, inner[:n]))
            yield frame(tlv(0xA2, inner[:n]))
            yield around(inner[:n])
            yield around(b"\x82\x02\x00\x07" + inner[:n])


# Each field at each content length, alone, before and after a count, with each form of length that fits.
def spans(rng):
    count = tlv(0x82, b"\x00\x2a")
    for tag, n, further in itertools.product(FIELDS, SPANS, (None, 1, 2, 3, 4)):
        if further == 1 and n > 0xFF:
            continue
        yield around(tlv(tag, rng.randbytes(n), further) + count)
        yield around(count + tlv(tag, rng.randbytes(n), further))
        yield around(count + tlv(tag, bytes(max(0, n - 2)) + rng.randbytes(min(n, 2)), further))
    for value, n in itertools.product((0, 1, 80, 255, 256, 4000, 65534, 65535, 65536, 65537, 1 << 24, (1 << 32) - 1), range(1, 6)):
        if value < 1 << (8 * n):
            yield around(count + tlv(0x86, value.to_bytes(n, "big")))


# Each octet of good frames set to boundary values and to random ones.
def damaged(rng):
    for good in good_frames(rng):
        for at in range(len(good)):
            near = ((good[at] + 1) & 255, (good[at] - 1) & 255, rng.randrange(256), rng.randrange(256))
            for value in EDGES + near:
                yield good[:at] + bytes([value]) + good[at + 1 :]


# The document's frame with each octet at each value, and its other lengths.
def document(rng):
    for at, value in itertools.product(range(len(DOCUMENT)), range(256)):
        yield DOCUMENT[:at] + bytes([value]) + DOCUMENT[at + 1 :]
    for n in range(64):
        yield DOCUMENT[:16] + n.to_bytes(2, "big") + DOCUMENT[18:]
        yield DOCUMENT + rng.randbytes(n)


# All first length octets with 0 to 6 further octets, at each of the four levels.
def first_lengths(rng):
    count = tlv(0x82, b"\x01\xf4")
    for first, n, filled in itertools.product(range(256), range(7), range(4)):
        small = bytes(max(0, n - 1)) + bytes([len(count)] if n else [])
        octets = bytes([first]) + (small, bytes(n), b"\xff" * n, rng.randbytes(n))[filled]
        yield frame(b"\x60" + octets + tlv(0xA2, count))
        yield frame(b"\xa2" + octets + count)
        yield frame(tlv(0xA2, b"\x30" + octets + count))
        yield around(b"\x81" + octets + count)


# Lengths about 65535 and 65536: stated only, and with as much content as a frame holds.
def large(rng):
    count = tlv(0x82, b"\x01\xf4")
    about = (255, 256, 65534, 65535, 65536, 65537, 1 << 24, (1 << 32) - 1)
    for n, further, tag in itertools.product(about, (1, 2, 3, 4), FIELDS + (0x87,)):
        if n < 1 << (8 * further):
            yield around(count + bytes([tag]) + length(n, further) + bytes(64))
            yield frame(tlv(0x60, bytes([0xA2]) + length(n, further) + count))
    for total, further in itertools.product((255, 256, 4096, 32767, 32768, *range(65500, 65532, 2), 65513, 65535), (2, 3, 4)):
        for tag in (0x84, 0x87, 0x80):
            yield frame(tlv(0xA2, count + tlv(tag, bytes(max(0, total - 20)), further), further))
            yield frame(tlv(tag, bytes(max(0, total - 30)), further) + tlv(0xA2, count))
    for pad in (0, 1, 65535 - 39 - 1, 65535 - 39, 65536, 131_000 - 39):
        yield DOCUMENT + bytes(pad)
    for stated in (65507, 65508, 65520, 65521, 65522, 65535):
        yield DOCUMENT[:16] + stated.to_bytes(2, "big") + DOCUMENT[18:] + bytes(65535 - 39)


# EtherTypes near 88BA and 8100, with no tag, one tag and two, each cut about the header.
def ethertypes(rng):
    near = [bytes((0x88, x)) for x in range(256)] + [bytes((x, 0xBA)) for x in range(256)]
    near += [bytes((0x81, x)) for x in range(256)] + [bytes((x, 0x00)) for x in range(256)]
    one = [b"", b"\x81\x00" + rng.randbytes(2), b"\x88\xa8" + rng.randbytes(2), b"\x81\x01\x00\x00", b"\x91\x00\x00\x00"]
    asdu = tlv(0x80, b"tagged") + tlv(0x82, b"\x00\x09")
    for tags, kind in itertools.product(one, near):
        yield around(asdu, tags=tags, ethertype=kind)
    for first, second in itertools.product(one[1:], one[1:]):
        good = around(asdu, tags=first + second)
        yield from (good, good[:26], good[:30])
    for tags, n in itertools.product(one, range(40)):
        yield around(asdu, tags=tags)[:n]


# The header's length field about its limits, with and without padding.
def header_lengths(rng):
    for good, pad in itertools.product(list(good_frames(rng)), (0, 1, 2, 8, 21)):
        at = 18 if good[12:14] == b"\x81\x00" else 14
        exact = len(good) - at
        for n in (*range(10), *range(exact - 3, exact + pad + 4), 255, 256, 65535, rng.randrange(65536)):
            yield good[: at + 2] + n.to_bytes(2, "big") + good[at + 4 :] + rng.randbytes(pad)


# Fields again and again in any order: shorter names after longer ones, several counts, times and rates. Without end.
def repeats(rng):
    while True:
        tags = rng.choices(FIELDS, k=rng.randrange(1, 9))
        if rng.random() < 0.9:
            tags.insert(rng.randrange(len(tags) + 1), 0x82)
        yield around(b"".join(field(rng, t) for t in tags), source=rng.randbytes(6))


# Frames with wrappers left out, repeated, empty, or with something before or after. Without end.
def structures(rng):
    def sides(octets):
        before = field(rng, rng.choice(TAGS)) if rng.random() < 0.2 else b""
        after = rng.choice((b"", field(rng, rng.choice(TAGS)), rng.randbytes(rng.randrange(5)))) if rng.random() < 0.4 else b""
        return before + octets + after

    while True:
        asdus = [good_asdu(rng) if rng.random() < 0.95 else b"" for _ in range(rng.choice((1, 1, 1, 2, 3)))]
        wrapped = b"".join(tlv(0x30, sides(a)) if rng.random() < 0.8 else a for a in asdus)
        lists = [sides(wrapped)] + [tlv(0x30, good_asdu(rng)) for _ in range(rng.choice((0, 0, 0, 1, 2)))]
        if rng.random() < 0.1:
            lists.insert(0, b"")
        body = b"".join(tlv(0xA2, x, rng.choice((None, None, 2, 3, 4))) for x in lists)
        apdu = tlv(0x60, sides(b"\x80\x01\x01" + body)) if rng.random() < 0.7 else sides(body)
        yield frame(apdu + rng.choice((b"", b"", rng.randbytes(3))), padding=bytes(rng.choice((0, 0, 5))), source=rng.randbytes(6))


# Lengths in more octets than they need, at every level. Without end.
def long_forms(rng):
    while True:
        tags = [t for t in FIELDS if t == 0x82 or rng.random() < 0.5]
        asdu = b"".join(tlv(t, content(rng, t), rng.choice((None, 2, 3, 4))) for t in tags)
        forms = [rng.choice((None, 2, 3, 4)) for _ in range(3)]
        yield frame(tlv(0x60, tlv(0xA2, tlv(0x30, asdu, forms[0]), forms[1]), forms[2]))


# Random octets behind good heads, from all values or from those that mean something. Without end.
def noise(rng):
    some = bytes(EDGES + TAGS + FIELDS + (3, 4, 5, 6, 7, 8))
    while True:
        n = rng.randrange(rng.choice((4, 8, 16, 64)))
        octets = rng.randbytes(n) if rng.random() < 0.3 else bytes(rng.choices(some, k=n))
        place = rng.randrange(5)
        if place == 0:
            yield frame(octets)
        elif place == 1:
            yield frame(tlv(0x60, octets))
        elif place == 2:
            yield frame(tlv(0xA2, octets))
        else:
            yield around(tlv(0x82, b"\x01\xf4") + octets if place == 3 else octets)


# Two to four octets of good frames set to other values, dropped or doubled. Without end.
def twice_damaged(rng):
    good = list(good_frames(rng))
    while True:
        octets = bytearray(rng.choice(good))
        for _ in range(rng.randrange(2, 5)):
            at = rng.randrange(len(octets))
            way = rng.randrange(4)
            if way == 0:
                del octets[at]
            elif way == 1:
                octets.insert(at, octets[at])
            else:
                octets[at] = rng.choice(EDGES) if way == 2 else rng.randrange(256)
        yield bytes(octets)


# A random element, with elements in it down to a depth.
def tree(rng, depth):
    tag = rng.choice(TAGS) if rng.random() < 0.9 else rng.randrange(256)
    if depth == 0 or rng.random() < 0.3:
        return tlv(tag, content(rng, tag), rng.choice((None, None, None, 2)))
    inner = b"".join(tree(rng, depth - 1) for _ in range(rng.randrange(4)))
    return tlv(tag, inner, rng.choice((None, None, None, 2, 4)))


# Random elements within elements, at each place of a frame. Without end.
def trees(rng):
    while True:
        some = b"".join(tree(rng, rng.randrange(4)) for _ in range(rng.randrange(1, 4)))
        place = rng.randrange(4)
        if place == 0:
            yield frame(some)
        elif place == 1:
            yield frame(tlv(0x60, some + tlv(0xA2, good_asdu(rng))))
        elif place == 2:
            yield frame(tlv(0xA2, some + good_asdu(rng)))
        else:
            yield around(good_asdu(rng) + some)


LISTED = (reasons, heads, bare_heads, cuts, spans, damaged, document, first_lengths, large, ethertypes, header_lengths)
ENDLESS = (repeats, structures, long_forms, noise, twice_damaged, trees)
