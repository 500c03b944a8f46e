#!/usr/bin/env python3
"""Writes the input of crates/explain_cases: sessions parted by form feeds, from a fixed seed."""
import random
import sys

TOP = 65535
KNOBS = [-65536, -65535, -32768, -1, 0, 1, 3276, 3277, 32767, 32768, 65534, 65535]


def vector_line(vector):
    return "\t".join(["V"] + [str(x) for x in vector]).encode()


def near_border(rng, places, theta):
    """A vector whose least and greatest measure lie within one of the border of the edges."""
    least = rng.randrange(TOP + 1)
    greatest = min(TOP, max(least, TOP - theta - least + rng.choice([-1, 0, 1])))
    rest = [rng.randint(least, greatest) for _ in range(places)]
    for measure in (least, greatest):
        for _ in range(rng.randint(1, 2)):
            rest[rng.randrange(places)] = measure
    return rest


def vectors(rng, places, theta, count):
    for _ in range(count):
        kind = rng.randrange(4)
        if kind == 0:
            yield [rng.randrange(TOP + 1) for _ in range(places)]
        elif kind == 1:
            few = rng.sample(range(TOP + 1), 2)
            yield [rng.choice(few) for _ in range(places)]
        elif kind == 2:
            yield [rng.choice([0, 1, TOP - 1, TOP]) for _ in range(places)]
        else:
            yield near_border(rng, places, theta)


def bad_lines(places):
    """Lines that a session of so many places refuses, one for each reason and form."""
    good = ["1"] * places
    yield b""
    yield b"\t"
    yield b"V"
    yield b"v\t1"
    yield b"VV\t1"
    yield b" V\t1"
    yield b"D\t2\t0"
    yield b"W\t0\t1"
    yield b"\xff\t1"
    yield b"V" + b"\t1" * (places + 1)
    yield b"V" + b"\t1" * (places - 1)
    yield b"V" + b"\t" * places
    yield b"V" + b"\t1" * places + b"\t"
    for form in ["", "01", "00", "+1", "-1", "-0", "1 ", " 1", "1.0", "0x1", "a", "\u0661", "1\r"]:
        yield ("V\t" + "\t".join([form] + good[1:])).encode()
        yield ("V\t" + "\t".join(good[:-1] + [form])).encode()
    for size in ["65536", "99999", "4294967296", "18446744073709551616", "9" * 40]:
        yield ("V\t" + "\t".join([size] + good[1:])).encode()
        yield ("V\t" + "\t".join(good[:-1] + [size])).encode()
    yield ("V\t" + "\t".join(["65536"] * (places - 1) + ["x"])).encode()
    for length in (254, 255, 256, 257, 511, 512, 5000):
        yield b"V" + b"\t" + b"7" * (length - 2)
        yield b"Q" * length


BAD_OPENINGS = [
    b"", b"D", b"D\t2", b"D\t2\t0\t0", b"d\t2\t0", b"V\t1\t2", b"DD\t2\t0", b"D\t\t0", b"D\t2\t", b"D\t0\t0", b"D\t17\t0",
    b"D\t65535\t0", b"D\t65536\t0", b"D\t99999999999999999999\t0", b"D\t02\t0", b"D\t+2\t0", b"D\t-2\t0", b"D\t2\t65536",
    b"D\t2\t-65537", b"D\t2\t-0", b"D\t2\t+0", b"D\t2\t00", b"D\t2\t-", b"D\t2\t--1", b"D\t2\t-01", b"D\t2\t1-", b"D\t2\t0 ",
    b"D\t2\t99999999999999999999", b"D\t2\t-99999999999999999999", b"D\t0\t65536", b"D\t17\t65536", b"D\tx\t65536",
    b"D\t65536\tx", b"D\t17\tx", b"D" + b"\t1" * 127, b"D\t" + b"1" * 253, b"D\t" + b"1" * 254, b"D\t2\t" + b"1" * 252,
    b"D\t2\t-" + b"1" * 250, b"D\t2\t-" + b"1" * 251,
]


# the vectors of the eight keys that docs/RULES.md marks
MARKED = [
    (0, [6554, 39321]), (0, [39321, 58982]), (3276, [13107, 49151]), (3277, [13107, 49151]), (0, [9, 5, 5]),
    (-65535, [65535, 65535]), (-65536, [65535, 65535]), (65535, [0, 0]),
]


def sessions(rng):
    for theta, vector in MARKED:
        yield b"D\t%d\t%d\n" % (len(vector), theta) + vector_line(vector)
    yield b"\n".join(BAD_OPENINGS)
    yield b""
    yield b"\n"
    yield b"D\t1\t0"
    yield b"D\t1\t0\n\n"
    for places in range(1, 17):
        for theta in rng.sample(KNOBS, 4) + [rng.randint(-65536, 65535)]:
            lines = [b"D\t%d\t%d" % (places, theta)]
            lines += [vector_line(v) for v in vectors(rng, places, theta, 24)]
            yield b"\n".join(lines) + rng.choice([b"", b"\n"])
    for places in (1, 2, 5, 16):
        lines = [rng.choice(BAD_OPENINGS), b"D\t%d\t0" % places]
        for line in bad_lines(places):
            lines.append(line)
            if rng.randrange(3) == 0:
                lines += [vector_line(v) for v in vectors(rng, places, 0, 1)]
        yield b"\n".join(lines)


if __name__ == "__main__":
    sys.stdout.buffer.write(b"\f".join(sessions(random.Random(20041))))
