#!/usr/bin/env python3
"""s3w2_timed_logs.py SEED NUMBER: random logs with frame times; as a program, one that plays to its end.

A log is a score of s3w2_logs.py with a stamp before each line: its `C` lines are gaps, drawn from 0, 1, 999, 1,000, 1,001, 2,000 and
small ones, and frames have up to 64 lines, many of them just so many. Half have one bad line, first, last or anywhere: malformed (17), of
a register above 2,303 (27), with a stamp below the one before it (18), the 65th of its frame (19), alone or as many of these at once as
one line can be; some end without byte 10. `plain` is the same log without stamps, its times written as `C` lines.
"""
import random
import sys

sys.dont_write_bytecode = True
import s3w2_logs  # noqa: E402

MOST = 64
GAPS = [0, 1, 999, 1000, 1001, 2000]
STAMPS = ["", "01", "00", "-1", "+1", " 1", "1 ", "4294967296", "18446744073709551616", "x", "1.0", "\0"]


def gap(rng):
    return rng.choice(GAPS) if rng.random() < 0.12 else rng.choice([0, 1, 1, 2, 3, rng.randrange(40)])


def body(rng):
    """A line that may be due: any but a `C` line."""
    while True:
        line = s3w2_logs.line(rng)
        if line[0] != "C":
            return line


def crowd(rng, stamp, lines):
    """As many lines as a frame may have, or a few fewer, at the last stamp."""
    while sum(1 for s, _ in lines[-MOST:] if s == stamp) < MOST:
        if rng.random() < 0.002:
            break
        lines.append((stamp, body(rng)))


def is_bad(line):
    """Whether a line of a score is bad: it has one bad line at times."""
    fields = line.split(",")
    wide = {"W": 3, "M": 3, "R": 2, "P": 2, "V": 2}.get(fields[0])
    if wide != len(fields):
        return True
    if not all(f.isdigit() and f.isascii() and len(f) < 11 and (f == "0" or f[0] != "0") for f in fields[1:]):
        return True
    if fields[0] == "V":
        return int(fields[1]) > 4
    if int(fields[1]) > (0xFFFFFFFF if fields[0] == "M" else 2303):
        return True
    return wide == 3 and int(fields[2]) > 255


def good(rng, seed, number):
    """The stamped lines of a score, none of them bad."""
    lines, stamp = [], gap(rng)
    for line in s3w2_logs.score(seed, number) + [body(rng) for _ in range(rng.randrange(40))]:
        if line == "" or line[0] not in "WMRPV" or is_bad(line):
            stamp += gap(rng)
            if rng.random() < 0.1 and lines:
                crowd(rng, stamp, lines)
            continue
        if sum(1 for s, _ in lines[-MOST:] if s == stamp) == MOST:
            stamp += max(1, gap(rng))
        lines.append((stamp, line))
    return lines[: rng.choice([0, 1, 2, 70, 10000, 10000, 10000])]


def malformed(rng):
    kind = rng.randrange(6)
    if kind < 2:
        return f"C,{rng.choice([1, 2, 1000, 0, 1001])}"
    if kind == 2:
        return "R," + "1" * rng.choice([10, 15, 16, 17, 26, 27, 28, 70000])
    return s3w2_logs.malformed(rng)


def bad_line(rng, lines, place):
    """The lines before a place, more of them where its frame is to be full, a bad line there, and what is wrong with it."""
    before = lines[:place]
    last = before[-1][0] if before else 0
    wrong = {n for n in (17, 27, 18, 19) if rng.random() < 0.45} or {rng.choice([17, 27, 18, 19])}
    if 18 in wrong and 19 in wrong:
        wrong.discard(rng.choice([18, 19]))
    if 18 in wrong and last == 0:
        wrong.discard(18)
        wrong.add(17)
    stamp = str(last + rng.choice([0, 1, 5]))
    if 18 in wrong:
        stamp = str(rng.choice([0, last - 1, rng.randrange(last)]))
    if 19 in wrong:
        while sum(1 for s, _ in before[-MOST:] if s == last) < MOST:
            before.append((last, body(rng)))
        stamp = str(last)
    rest = s3w2_logs.unmapped(rng) if 27 in wrong else body(rng)
    text = f"{stamp},{rest}"
    if 17 in wrong:
        kind = rng.randrange(5)
        if kind == 0:
            text = f"{rng.choice(STAMPS)},{rest}"
        elif kind == 1:
            text = f"{stamp}{rng.choice(['', ';', ' ,', ',,', ':'])}{rest}"
        elif kind == 2:
            text = rng.choice(["", ",", "1", "1,", stamp])
        elif 27 in wrong:
            text = f"{stamp},{rest}{rng.choice([',', ' ', ',0', 'x'])}"
        else:
            text = f"{stamp},{malformed(rng)}"
    return before, text, frozenset(wrong)


class Log:
    """A timed log, the plain one with its times as `C` lines where no line is bad, and what is wrong with its bad line."""

    def __init__(self, seed, number):
        rng = random.Random(f"{seed} {number} timed")
        lines = good(rng, seed, number)
        self.wrong, self.place, self.open = frozenset(), None, False
        text, rest = None, []
        if rng.random() < 0.5:
            at = rng.choice([0, len(lines), rng.randrange(len(lines) + 1), rng.randrange(len(lines) + 1)])
            rest = lines[at:]
            lines, text, self.wrong = bad_line(rng, lines, at)
            self.place = "first" if not lines else "last" if not rest else "among others"
        self.lines = lines
        whole = [f"{stamp},{line}" for stamp, line in lines] + ([text] if text is not None else [])
        whole += [f"{stamp},{line}" for stamp, line in rest]
        self.text = "".join(each + "\n" for each in whole).encode("latin-1")
        if self.text and (not rest) and rng.random() < 0.2:
            self.text, self.open = self.text[:-1], True
            if self.text == b"" or self.text[-1:] == b"\n":
                self.open = False

    def gaps(self):
        stamps = [0] + [stamp for stamp, _ in self.lines]
        return [b - a for a, b in zip(stamps, stamps[1:])]

    def crowds(self):
        counts = {}
        for stamp, _ in self.lines:
            counts[stamp] = counts.get(stamp, 0) + 1
        return sum(1 for n in counts.values() if n == MOST)

    def plain(self):
        out = []
        for each, (_, line) in zip(self.gaps(), self.lines):
            out += ["C,1000"] * (each // 1000) + ([f"C,{each % 1000}"] if each % 1000 else []) + [line]
        return "".join(each + "\n" for each in out + (["C,1"] if out else [])).encode("latin-1")


def main():
    if len(sys.argv) != 3:
        sys.exit(__doc__)
    number = int(sys.argv[2])
    while True:
        log = Log(sys.argv[1], number)
        if not log.wrong and not log.open and log.lines:
            break
        number += 1
    sys.stdout.buffer.write(log.text)


if __name__ == "__main__":
    main()
