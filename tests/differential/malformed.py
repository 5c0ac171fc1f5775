# Small scripts about the form of lines: each kind of malformed line, at each argument of each call, and unusual lines that are well formed.
# `scripts` yields each with whether it is malformed. A malformed line ends the run, so each is a script of its own.
import itertools

from calls import LONGEST_LINE

# The arguments of each call: a number by its width, or the name of another kind.
ARGUMENTS = {
    **{name: () for name in ("new", "new_strict", "reset", "totals")},
    "set_mms_service_mask": (16,),
    "set_mms_read_only": ("flag",),
    "set_block_test_frames": ("flag",),
    "set_sv_max_smp_cnt_gap": (16,),
    "set_retx_schedule": (32, 32, 8, "flag"),
    "set_time_max_forward_jump_s": (32,),
    "add_mms_rule": (16, "flag", 16),
    "add_goose_publisher": ("address", "octets"),
    "add_sv_publisher": ("address", 16, "octets"),
    "inspect_mms": (8, 8, "name", 32, 64, 32, "flag"),
    "inspect_goose": ("address", "name", 32, 32, "flag", 64, 32, 32),
    "inspect_sv": ("address", "name", 16, 16, "name", 64, 32, 32),
    "inspect_raw_sv": (64, "octets"),
    "parse_sv": (64, "octets"),
    "service": (8,),
    "interval": (32, 32, 8, 32, 32, 32),
    "bucket": (16, 16, 64, 64),
}
PLAIN = {"flag": b"1", "octets": b"4d31", "address": b"02000000000a", "name": b"4d31"}
NO_OCTETS = (b"0", b"0g", b"g0", b"abc", b'"', b'"a', b'a"', b'"a"b"', b'"a"b', b'"\x7f"', b'"\xc3\xa4"', b'"\x00"', b'"\x0b"', b"0x12")
NO_OCTETS += (b"--", b"-0", b"12-", b"'ab'", b"4d31:", b"\xe4\xf6", b"/0", b":0", b"@0", b"G0", b"`0", b'"a b"', b'"a\tb"')
NO_NUMBERS = (
    b"-1", b"+1", b"1.0", b"1_0", b"0x1", b"a", b"1a", b"a1", b'"1"', b"-", b"/", b":", b"9" * 20, b"0" * 21, b"0" * 20 + b"1", b"9" * 40,
)
NO_NAMES = (
    b"00" * 65, b'"' + b"n" * 65 + b'"', b"256:4d", b"1:", b":4d", b":", b"-1:4d", b"1:2:4d", b"a:4d", b"1:" + b"00" * 65, b'1:"', b"+1:-",
)
NO_NAMES += (b"0" * 21 + b":-", b'"a":4d', b"1:4", b"1:-0", b'1:"a', b"1::4d", b"00" * 200, b"1 :4d", b"999:-", b"9" * 20 + b":-")
NAMES = (
    b"-", b'""', b"255:-", b"0:-", b'0:""', b'5:""', b"0:" + b"5a" * 64, b"64:" + b"5A" * 64, b"65:" + b"5a" * 64, b"5a" * 64, b'"a:b"',
    b'3:"a:b"',
)
NAMES += (
    b"0" * 18 + b"02:4d31", b"7:4D5f", b'"' + b"~" * 64 + b'"', b'"!#$%&\'()*+,-./:;<=>?@[]^_`{|}~"', b'"-"', b'2:"4d31"', b"001:4d31",
    b'1:"#"',
)
OCTETS = (b"-", b'""', b"4D", b"4d", b'"!#~"', b'"0:"', b"aBcDeF0123456789", b'"' + b"x" * 65 + b'"', b"00" * 65)


# Words that are no argument of a kind.
def wrong(kind):
    if kind == "flag":
        return (b"2", b"00", b"01", b"10", b"true", b"-", b'"1"', b"-1", b"+0", b"9" * 25)
    if kind == "octets":
        return NO_OCTETS
    if kind == "address":
        return (
            *NO_OCTETS, b"-", b'""', b"0200000000", b"02000000000a0b", b'"abcde"', b'"abcdefg"', b"6:02000000000a", b"02:00:00:00:00:0a",
        )
    if kind == "name":
        return (*NO_OCTETS[:-2], *NO_NAMES)
    return (*NO_NUMBERS, b"%d" % (1 << kind), b"%d" % ((1 << kind) + 7), b"%d0" % (1 << kind))


# Unusual words that are arguments of a kind.
def unusual(kind):
    if kind == "flag":
        return (b"0", b"1")
    if kind == "octets":
        return OCTETS
    if kind == "address":
        return (b"02000000000A", b'"abcdef"', b'"~~!#%6"', b"ffFFffFFffFF")
    if kind == "name":
        return NAMES
    return (b"0", b"%d" % ((1 << kind) - 1), (b"%d" % ((1 << kind) - 1)).rjust(20, b"0"), b"007", b"0" * 20)


def plain(kind):
    return PLAIN.get(kind, b"7")


# A line of a call with one argument in place of a plain one.
def line(name, kinds, at=None, word=b""):
    words = [plain(kind) for kind in kinds]
    if at is not None:
        words[at] = word
    return b" ".join((name.encode(), *words))


# Malformed lines of every call: without an argument, with a wrong one, and with one too many.
def bad_lines():
    for name, kinds in ARGUMENTS.items():
        whole = line(name, kinds).split(b" ")
        yield from (b" ".join(whole[: n + 1]) for n in range(len(kinds)))
        yield from (line(name, kinds) + more for more in (b" 1", b" #", b" -", b"\t\r0", b" 1 2"))
        for at, kind in enumerate(kinds):
            yield from (line(name, kinds, at, word) for word in wrong(kind))
            yield b" ".join(whole[: at + 1] + [b"?"])
    yield from (
        b"New", b"news", b"ne", b"inspect", b"inspect_sv_ 1", b'"new"', b"-", b"new,", b"reset\x00", b"set", b"\x0bnew", b"x" * 1000, b"0",
        b"totals#",
    )
    yield from (
        b"new\x0c", b"\xef\xbb\xbfnew", b"SERVICE 1", b"service_ 1", b"servic 1", b"inspect-sv", b"add_rule 1 1 1", b"parse_goose 1 00",
    )


# Well formed lines of every call with an unusual argument.
def odd_lines():
    for name, kinds in ARGUMENTS.items():
        for at, kind in enumerate(kinds):
            yield from (line(name, kinds, at, word) for word in unusual(kind))


# A call in a line of so many octets: spaces fill it.
def filled(size, call=b"totals"):
    return call + b" " * (size - len(call))


# Scripts about the layout of lines and the end of the script.
def layouts():
    yield from (
        b"", b"\n", b" \t\r\n", b"#", b"# only\n#this", b"\n\n\ntotals", b"totals", b"totals\n", b"totals\n\n", b"totals\n#end",
        b"totals\n  ",
    )
    yield from (
        b"\t totals\r\n \r\n\tservice\t8 \r\n", b"service\r8\rtotals\n", b"  #x\n#\xff\xfe\x00\ntotals\n", b"#new 1 2 3\nnew\n",
        b"totals\rnew\n",
    )
    for size in (LONGEST_LINE - 1, LONGEST_LINE, LONGEST_LINE + 1, 2 * LONGEST_LINE, 3 * LONGEST_LINE):
        for end in (b"", b"\n", b"\nservice 8\n"):
            yield b"totals\n" + filled(size) + end
            yield b"totals\n" + filled(size, b"#") + end
            yield b"totals\n" + b" " * size + end
            frame = b"parse_sv 7 " + b"5a" * ((size - 11) // 2)
            yield b"totals\n" + frame + b" " * (size - len(frame)) + end
    yield b"totals\n" * 40_000 + filled(LONGEST_LINE) + b"\n" + b"service 8\n" * 30_000 + b"service 256\n"


# Every script, with whether it is about a malformed line.
def scripts():
    before, after = b"# before\n\nservice 8\r\n  new_strict\n", b"\nservice 8\ntotals\n"
    yield from ((before + bad + after, True) for bad in bad_lines())
    yield from ((before + bad, True) for bad in itertools.islice(bad_lines(), 0, None, 37))
    odd = list(odd_lines())
    yield from ((before + b"\n".join(odd[at : at + 10]) + after, False) for at in range(0, len(odd), 10))
    yield from ((script, False) for script in layouts())
