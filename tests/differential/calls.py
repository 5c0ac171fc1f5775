# The text of the calls of docs/SCRIPT.md, a line each, for the makers of scripts. A name or address is passed as octets; `name` states its
# length.
import functools

MOST_16, MOST_32, MOST_64 = (1 << 16) - 1, (1 << 32) - 1, (1 << 64) - 1
# The longest line that a script may have, without its line feed.
LONGEST_LINE = 262_143


# Whether octets can stand as text between quotation marks.
def is_text(octets):
    return all(0x21 <= octet <= 0x7E and octet != 0x22 for octet in octets)


# Octets as a script has them. Those that are text are text two times of three, and one of five others has digits of upper case.
@functools.lru_cache(4096)
def octets_word(octets):
    if not octets:
        return "-"
    total = sum(octets)
    if total % 3 and is_text(octets):
        return '"' + octets.decode() + '"'
    return octets.hex().upper() if total % 5 == 0 else octets.hex()


# A name: of its own length, or of a stated one, with any octets behind its end.
def name(octets, stated=None):
    octets = octets[:64]
    return octets_word(octets) if stated is None or stated == len(octets) else f"{stated}:{octets_word(octets)}"


NO_NAME = name(b"")


def call(word, *arguments):
    return " ".join((word, *map(str, arguments))) + "\n"


def new(strict=0):
    return "new_strict\n" if strict else "new\n"


def schedule(initial, most, percent, enforce):
    return f"set_retx_schedule {initial} {most} {percent} {int(enforce)}\n"


def mms_rule(mask, read_only, rate):
    return f"add_mms_rule {mask} {int(read_only)} {rate}\n"


def goose_publisher(mac, octets):
    return f"add_goose_publisher {octets_word(mac)} {octets_word(octets)}\n"


def sv_publisher(mac, octets, rate):
    return f"add_sv_publisher {octets_word(mac)} {rate} {octets_word(octets)}\n"


def mms(service, raw, domain, invoke=1, time=0, client=1, kind=1):
    return f"inspect_mms {service} {raw} {domain} {invoke} {time} {client} {int(kind)}\n"


def goose(mac, reference, st, sq, test=0, time=0, clock=(0, 0)):
    return f"inspect_goose {octets_word(mac)} {reference} {st} {sq} {int(test)} {time} {clock[0]} {clock[1]}\n"


def sv(mac, svid, count, rate=0, data_set=NO_NAME, time=0, clock=(0, 0)):
    return f"inspect_sv {octets_word(mac)} {svid} {count} {rate} {data_set} {time} {clock[0]} {clock[1]}\n"


def raw_sv(time, octets):
    return f"inspect_raw_sv {time} {octets.hex() or '-'}\n"


def parse_sv(time, octets):
    return f"parse_sv {time} {octets.hex() or '-'}\n"


def interval(initial, most, percent, sq, observed, expected):
    return f"interval {initial} {most} {percent} {sq} {observed} {expected}\n"


def bucket(tokens, capacity, refilled, time):
    return f"bucket {tokens} {capacity} {refilled} {time}\n"
