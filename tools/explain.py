#!/usr/bin/env python3
"""The explain program a second time, in another language and with no code in common, to check the proved one against.

It follows the rules of docs/RULES.md. The same author wrote both programs, so a rule misread once may be misread in both.

Reads sessions from standard input, parted by form feeds, and prints what explain must print for each.
"""
import re
import sys

GRID_TOP = 65535
STRETCH = 65536
MOST_LINES = 1_000_000
PLAIN = re.compile(rb"0|[1-9][0-9]*")
SIGNED = re.compile(rb"0|-?[1-9][0-9]*")


class Refused(Exception):
    def __init__(self, number, layer, field):
        super().__init__(number, layer, field)
        self.answer = (number, layer, field)


def number(field, place, form=PLAIN, low=0, high=65535, size=18):
    if not form.fullmatch(field):
        raise Refused(17, "text", place)
    value = int(field)
    if not low <= value <= high:
        raise Refused(size, "text", place)
    return value


def key_parts(vector, theta):
    least, greatest = min(vector), max(vector)
    if least + theta < GRID_TOP - greatest:
        edge, measure = "low", least
    else:
        edge, measure = "high", greatest
    place = vector.index(measure)
    return STRETCH * place + measure, place, edge


class Session:
    def __init__(self):
        self.setting = None
        self.counts = []

    def letter(self):
        return b"V" if self.setting else b"D"

    def answer(self, line):
        if len(line) > 255:
            raise Refused(14, "text", 0)
        first, *fields = line.split(b"\t")
        if first != self.letter():
            raise Refused(15, "text", 1)
        if self.setting is None:
            return self.opened(fields)
        return self.explained(fields)

    def opened(self, fields):
        if len(fields) != 2:
            raise Refused(16, "text", 0)
        places = number(fields[0], 2, size=1)
        theta = number(fields[1], 3, form=SIGNED, low=-65536, size=2)
        if not 1 <= places <= 16:
            raise Refused(1, "window", 0)
        self.setting = (places, theta)
        self.counts = [{"low": 0, "high": 0} for _ in range(places)]
        return []

    def explained(self, fields):
        places, theta = self.setting
        if len(fields) != places:
            raise Refused(16, "text", 0)
        vector = [number(field, i + 2) for i, field in enumerate(fields)]
        key, place, edge = key_parts(vector, theta)
        self.counts[place][edge] += 1
        return [key, place, edge]


def run(data):
    lines = data.split(b"\n")
    if lines[-1] == b"":
        lines.pop()
    session = Session()
    for n, line in enumerate(lines[:MOST_LINES], 1):
        letter = session.letter().decode()
        try:
            words = [n, letter, 0] + session.answer(line)
        except Refused as refused:
            fault = refused.answer
            words = [n, "-" if fault[0] in (14, 15) else letter, *fault]
        print(*words, sep="\t")
    if session.setting:
        print("place", "low", "high", sep="\t")
        for place, count in enumerate(session.counts):
            print(place, count["low"], count["high"], sep="\t")


if __name__ == "__main__":
    for part in sys.stdin.buffer.read().split(b"\f"):
        run(part)
