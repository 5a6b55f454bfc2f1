#!/usr/bin/env python3
"""sqv4_texts.py SEED NUMBER: text NUMBER of a seed, as sqv4_make reads them.

A first line variant,rate,volume,index and a sample a line: sample counts around 0, 1, 62, 63, 64, 126 and 127, volumes 1 and 255, indexes 0
and 88 among them; silence, noise, sines, steps and ramps, loud and quiet. One text in ten is refused for its terms or has a line that is malformed.
"""
import math
import random
import sys

EDGES = [0, 1, 2, 61, 62, 63, 64, 65, 125, 126, 127, 128]
LOWEST, HIGHEST = -32768, 32767


def clamp(x):
    return max(LOWEST, min(HIGHEST, round(x)))


def count(rng):
    return rng.choice(EDGES) if rng.random() < 0.7 else rng.randrange(400)


def samples(rng, n):
    peak = rng.choice([1, 10, 100, 1000, 10000, 32767, 32768, rng.randrange(1, 32769)])
    kind = rng.randrange(6)
    if kind == 0:
        return [rng.choice([0, 0, peak, -peak]) if rng.random() < 0.1 else 0 for _ in range(n)]
    if kind == 1:
        return [rng.randint(-peak, peak) for _ in range(n)]
    if kind == 2:
        turn, start = rng.uniform(0.001, math.pi), rng.uniform(0, math.tau)
        return [peak * math.sin(start + k * turn) for k in range(n)]
    if kind == 3:
        length = rng.randrange(1, 40)
        return [peak if k // length % 2 else -peak for k in range(n)]
    if kind == 4:
        slope = rng.uniform(-2000, 2000)
        return [(k * slope + 32768) % 65536 - 32768 for k in range(n)]
    value, found = 0, []
    for _ in range(n):
        value = clamp(value + rng.gauss(0, peak / 20 + 1))
        found.append(value)
    return found


def terms(rng):
    variant = rng.randrange(3)
    rate = rng.choice([1, 8000, 48000, 4294967295, rng.randrange(1, 1 << 32)])
    volume = rng.choice([1, 2, 127, 128, 254, 255]) if rng.random() < 0.4 else rng.randrange(1, 256)
    index = rng.choice([0, 1, 87, 88]) if rng.random() < 0.4 else rng.randrange(89)
    return [variant, rate, volume, index]


def spoiled_terms(rng, fields):
    place = rng.randrange(4)
    fields[place] = rng.choice([[3, 255, 256, -1], [0, 4294967296, -1], [0, 256, -1, 300], [89, 90, 255, 256, -1]][place])


def spoiled_lines(rng, lines):
    place = rng.randrange(len(lines))
    kind = rng.randrange(8)
    line = lines[place]
    lines[place] = [line + b" ", b"", b"-0", b"0" + line, line + b",1", b"32768", b"-32769", b"x" * rng.choice([1, 20, 21, 70000])][kind]
    return rng.random() < 0.5


def text(seed, number):
    rng = random.Random(f"{seed}/{number}")
    fields = terms(rng)
    lines = [str(clamp(x)).encode() for x in samples(rng, count(rng))]
    way = rng.random()
    if way < 0.05:
        spoiled_terms(rng, fields)
    lines.insert(0, ",".join(map(str, fields)).encode())
    whole = True
    if way > 0.95:
        whole = spoiled_lines(rng, lines)
    body = b"\n".join(lines) + (b"\n" if whole else b"")
    return b"" if way > 0.999 else body


def main():
    if len(sys.argv) != 3:
        sys.exit(__doc__)
    sys.stdout.buffer.write(text(int(sys.argv[1]), int(sys.argv[2])))


if __name__ == "__main__":
    main()
