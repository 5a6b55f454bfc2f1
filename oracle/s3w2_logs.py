#!/usr/bin/env python3
"""s3w2_logs.py SEED NUMBER LENGTH: random logs; as a program, one score with LENGTH lines behind its voices.

A log of `log` has up to some thousands of lines, with runs of writes in some, and plays to its end; or it has one bad line
somewhere: a malformed one (empty, cut short, too long, with a leading zero, a sign, a space, a number out of range, a field too many
or too few), or one that names a register above 2,303. A log of `score` sets voices up first, so that they sound: wavetables under
every modulation, PCM, noise, streams of every version with loops, queues in part full; then it goes on with random lines among frames.
"""
import random
import sys

sys.dont_write_bytecode = True
import sqv4_files  # noqa: E402

BAD = ["", "C", "C,", "C,0", "C,1001", "C,01", "C,+1", "C,-1", "C, 1", "C,1 ", "C,1\r", "C,1,", "C,1,1", "c,1", "CC,1", ",1", "V,5", "V,", "W,1",
       "W,1,", "W,1,256", "W,01,1", "W,1,01", "W,4294967296,1", "W,1,1,1", "W,,1", "W;1,1", "M,1", "M,1,256", "M,4294967296,0", "R,", "R,1,1", "R,-1",
       "R,4294967296", "R,18446744073709551616", "P,00", "P", "Q,1", "F,1,1", "W,4294967295,2555", "C,1\0", "\0", "R,\xb2", "W,2304,256", "W,2304",
       "R,2304,1", "P,2304,", "P,02304", "r,2304"]


def address(rng):
    """A register's address."""
    kind = rng.randrange(8)
    if kind == 0:
        return rng.choice([0, 2047, 2048, 2302, 2303])
    if kind < 3:
        return rng.randrange(2048)
    return 2048 + rng.randrange(256)


def ram_address(rng):
    return rng.choice([rng.randrange(65536), rng.randrange(300), address(rng), 2304, 65535, 65536, 4294967295, rng.randrange(1 << 32)])


def line(rng):
    kind = rng.randrange(20)
    if kind < 10:
        return f"W,{address(rng)},{rng.choice([0, 1, 2, 3, 4, 5, 128, 255, rng.randrange(256)])}"
    if kind < 12:
        return f"M,{ram_address(rng)},{rng.randrange(256)}"
    if kind < 14:
        return f"R,{address(rng)}"
    if kind < 16:
        return f"P,{address(rng)}"
    if kind < 17:
        return f"V,{rng.randrange(5)}"
    return f"C,{rng.choice([1, 1, 2, 3, rng.randrange(1, 60), rng.choice([256, 257, 999, 1000]) if rng.random() < 0.1 else 1])}"


def malformed(rng):
    kind = rng.randrange(10)
    if kind == 0:
        return "R," + "1" * rng.choice([15, 16, 17, 30, 70000])
    if kind == 1:
        good = line(rng)
        place = rng.randrange(len(good) + 1)
        return good[:place] + rng.choice("0x ,-\r\t") + good[place:]
    return rng.choice(BAD)


def unmapped(rng):
    """A well-formed line of a register that is not there."""
    above = rng.choice([2304, 2304, 2305, 65535, 65536, 4294967295, rng.randrange(2304, 1 << 32)])
    return rng.choice([f"W,{above},{rng.randrange(256)}", f"R,{above}", f"P,{above}"])


def bad(rng):
    return unmapped(rng) if rng.random() < 0.4 else malformed(rng)


def writes(rng):
    """Writes of one kind in a row, around the 256 that the port plays at a time."""
    count = rng.choice([2, 255, 256, 257, 258, 512, 513, rng.randrange(700)])
    if rng.random() < 0.5:
        return [f"W,{address(rng)},{rng.randrange(256)}" for _ in range(count)]
    return [f"M,{ram_address(rng)},{rng.randrange(256)}" for _ in range(count)]


def log(seed, number):
    rng = random.Random(f"{seed} {number}")
    count = rng.choice([0, 1, 2, 10, 100, rng.randrange(1000), rng.randrange(12000)])
    lines = [line(rng) for _ in range(count)]
    if rng.random() < 0.25:
        lines[:0] = [each for ch in range(8) for each in sounding(rng, ch, rng.choice([0, 1, 2, 4, 5, 5]), 4, True)] + ["C,100"]
    for _ in range(rng.choice([0, 0, 1, 4])):
        place = rng.randrange(len(lines) + 1)
        lines[place:place] = writes(rng)
    if rng.random() < 0.4:
        lines.insert(rng.randrange(len(lines) + 1), bad(rng))
    text = "".join(each + "\n" for each in lines).encode("latin-1")
    return text[:-1] if text and rng.random() < 0.1 else text


def number(ch, offset, value, width):
    """A register of several bytes, the highest first."""
    return [f"W,{2048 + 32 * ch + offset + k},{value >> 8 * (width - 1 - k) & 255}" for k in range(width)]


def stream(rng, version, variant, fragments):
    """A mono file, and the size of a fragment."""
    per = sqv4_files.samples_of(version)
    samples = per * fragments - rng.choice([0, 1, rng.randrange(per)])
    file = sqv4_files.header(version, variant, 1, 48000, samples)
    size = 0
    for first in range(0, samples, per):
        part = sqv4_files.fragment(rng, version, variant, min(per, samples - first))
        size = len(part)
        file += part
    return file, size


def queue(rng, ch, loud=False):
    lines = []
    for _ in range(rng.choice([1, 20, rng.randrange(200), 1024 if rng.random() < 0.1 else 3])):
        high = rng.choice([127, 128]) if loud else rng.randrange(256)
        lines += [f"W,{2048 + 32 * ch + 12},{high}", f"W,{2048 + 32 * ch + 13},{rng.randrange(256)}"]
    return lines


def sounding(rng, ch, kind, version, loud=False):
    """A voice that sounds: its registers, and what it plays; a loud one at full volume, on both sides."""
    start, lines = 8192 * ch, []
    end, loop = start + rng.randrange(1, 300), start + rng.randrange(0, 200)
    if kind == 0:
        lines += [f"W,{256 * ch + rng.randrange(256)},{rng.randrange(256)}" for _ in range(rng.randrange(40))]
    elif kind == 1:
        lines += [f"M,{start + k},{rng.randrange(256)}" for k in range(rng.randrange(60))]
    elif kind == 4:
        file, size = stream(rng, 3 if version > 2 else rng.choice([1, 2]), rng.randrange(3), rng.randrange(1, 9))
        lines += [f"M,{start + k},{byte}" for k, byte in enumerate(file)]
        end = start + len(file)
        loop = rng.choice([0, start, start + 16 + size * rng.randrange((len(file) - 16) // size)])
    elif kind == 5:
        lines += queue(rng, ch, loud)
    frequency = rng.choice([rng.randrange(65536), rng.randrange(3000), 48000 if kind == 4 else rng.randrange(9)])
    lines += number(ch, 2, kind, 1) + number(ch, 0, frequency, 2) + number(ch, 3, rng.choice([255, rng.randrange(256)]), 1)
    if loud:
        lines += number(ch, 3, 255, 1)
    lines += number(ch, 4, 255 if loud else rng.randrange(256), 1) + number(ch, 5, rng.randrange(7) << 3 | rng.randrange(8), 1)
    lines += number(ch, 6, rng.choice([rng.randrange(65536), rng.randrange(300)]), 2) + number(ch, 8, rng.randrange(65536), 2)
    lines += number(ch, 0x0B, rng.randrange(2), 1) + number(ch, 0x1A, rng.randrange(8), 1)
    return lines + number(ch, 0x10, start, 3) + number(ch, 0x13, end, 3) + number(ch, 0x16, loop, 3) + number(ch, 0x19, rng.choice([1, 3, 3]), 1)


def score(seed, number, length=0):
    """The lines of a score: eight voices of every kind and `length` lines behind them; where that is 0, up to four voices and 120
    lines, or eight loud voices, whose sum often goes over."""
    rng = random.Random(f"{seed} {number} score")
    version = rng.choice([2, 3, 4] if length else range(5))
    loud = rng.random() < 0.25
    kinds = rng.sample([0, 0, 1, 2, 4, 4, 5, 5], 8 if length or loud else rng.randrange(1, 5))
    queues = [ch for ch, kind in enumerate(kinds) if kind == 5] or range(8)
    lines = [f"V,{version}"]
    for ch, kind in enumerate(kinds):
        lines += sounding(rng, ch, kind, version, loud)
    for _ in range(length or rng.randrange(120)):
        kind = rng.randrange(12)
        if kind < 7:
            lines.append(f"C,{rng.choice([1, 1, 2, 3, rng.randrange(1, 60), rng.randrange(1, 120)])}")
        elif kind < 8:
            lines += queue(rng, rng.choice(queues))[:8]
        elif kind < 9:
            lines.append(f"R,{2048 + 32 * rng.randrange(8) + rng.randrange(32)}")
        else:
            lines.append(line(rng))
    if not length and rng.random() < 0.1:
        lines.insert(rng.randrange(len(lines) + 1), bad(rng))
    return lines


class Tally:
    """What the logs that were compared print: how many there are, how they end, how many peaks a clamped frame cannot have, how many
    frames they have."""

    def __init__(self):
        self.logs, self.frames, self.over, self.bad = 0, 0, 0, {b"17": 0, b"27": 0}

    def add(self, printed):
        last = printed[:-1].split(b"\n")[-1].split(b",")
        self.logs += 1
        self.frames += printed.count(b"F")
        if last[0] == b"bad":
            self.bad[last[2]] += 1
        elif max(int(side) for side in last[1:]) > 32768:
            self.over += 1

    def __str__(self):
        ends = f"{self.bad[b'17']} ended by a bad line with 17, {self.bad[b'27']} with 27, {self.over} with a peak over 32768"
        return f"{self.logs} logs ({ends}), {self.frames} frames"


def main():
    if len(sys.argv) != 4 or not sys.argv[3].isdigit():
        sys.exit(__doc__)
    for each in score(sys.argv[1], sys.argv[2], int(sys.argv[3])):
        print(each)


if __name__ == "__main__":
    main()
