#!/usr/bin/env python3
"""sqv4_files.py SEED COUNT [--small] [--only N]: random SQV4 files, valid and damaged, the same for the same SEED.

Writes COUNT files to standard output as the program sqv4_vectors reads them: each after its length in 4 bytes, low
byte first. With --small no file has more than 200 samples a channel. With --only N, the file of number N alone (from 0),
without its length.
"""
import random
import sys

EDGES = [0, 1, 2, 62, 63, 64, 65, 126, 127, 128, 129]
VOLUMES = [0, 1, 127, 128, 254, 255]
HUGE = [0xFFFFFFFF, 0xFFFFFFFE, 0xFFFFFFC1, 0xFFFFFFC0, 0x80000000, 0x7FFFFFFF, 0x10000000]


def bits_of(variant):
    return 4 if variant == 0 else 3


def samples_of(version):
    return 63 if version == 3 else 64


def payload_size(version, variant):
    return (samples_of(version) * bits_of(variant) + 7) // 8


def header(version, variant, channels, rate, samples):
    return bytearray(b"SQV4" + bytes([version, variant, channels, 0])
                     + rate.to_bytes(4, "little") + samples.to_bytes(4, "little"))


def codes(rng, bits):
    """An endless supply of codes: free ones, or runs that drive the predictor and the step index to their ends."""
    kind = rng.randrange(4)
    sign = rng.randrange(2) << (bits - 1)
    while True:
        if kind == 0 or rng.random() < 0.02:
            yield rng.randrange(1 << bits)
        elif kind == 1:
            yield sign | ((1 << (bits - 1)) - 1)
        elif kind == 2:
            yield rng.randrange(2) << (bits - 1)
        else:
            yield sign | rng.randrange(1 << (bits - 1))
            if rng.random() < 0.1:
                sign ^= 1 << (bits - 1)


def fragment(rng, version, variant, count):
    """A fragment of `count` samples, with what is behind them zero."""
    bits = bits_of(variant)
    packed = 0
    supply = codes(rng, bits)
    for place in range(count):
        packed |= next(supply) << (place * bits)
    volume = rng.choice(VOLUMES) if rng.random() < 0.4 else rng.randrange(256)
    start = [volume]
    if version == 3:
        start.append(rng.choice([0, 1, 87, 88]) if rng.random() < 0.2 else rng.randrange(89))
    return bytes(start) + packed.to_bytes(payload_size(version, variant), "little")


def sample_count(rng, small):
    if rng.random() < 0.7:
        return rng.choice(EDGES)
    if small or rng.random() < 0.9:
        return rng.randrange(200)
    return rng.randrange(4000)


def kind_of_file(rng):
    return rng.randrange(1, 4), rng.randrange(3), rng.randrange(1, 3)


def valid(rng, small):
    version, variant, channels = kind_of_file(rng)
    samples = sample_count(rng, small)
    rate = rng.choice([1, 48000, 0xFFFFFFFF, rng.randrange(1, 1 << 32)])
    out = header(version, variant, channels, rate, samples)
    first = 0
    while first < samples:
        count = min(samples - first, samples_of(version))
        for _ in range(channels):
            out += fragment(rng, version, variant, count)
        first += count
    return out


def flipped(rng, small):
    out = valid(rng, small)
    place = rng.randrange(len(out))
    out[place] ^= 1 << rng.randrange(8)
    return out


def other_byte(rng, small):
    out = valid(rng, small)
    out[rng.randrange(len(out))] = rng.randrange(256)
    return out


def other_header_byte(rng, small):
    out = valid(rng, small)
    out[rng.randrange(16)] = rng.choice([0, 1, 2, 3, 4, 255, rng.randrange(256)])
    return out


def truncated(rng, small):
    out = valid(rng, small)
    return out[:len(out) - rng.choice([1, 2, 25, 26, 33, 34, rng.randrange(len(out) + 1)])]


def extended(rng, small):
    return valid(rng, small) + rng.randbytes(rng.choice([1, 2, 25, 26, 33, 34, rng.randrange(70)]))


def random_bytes(rng, small):
    return rng.choice([b"", b"SQV4", b"SQV4\3", b"SQV4\3\0\1\0"]) + rng.randbytes(rng.randrange(80))


def huge_count(rng, small):
    out = valid(rng, True)
    out[12:16] = rng.choice(HUGE + [rng.randrange(1 << 32)]).to_bytes(4, "little")
    return out


def zero_rate(rng, small):
    out = valid(rng, small)
    out[8:12] = bytes(4)
    return out


def spoiled(rng, small):
    """Several faults in the fragments: step indexes above 88 and bits behind the last code."""
    version, variant, channels = kind_of_file(rng)
    size = payload_size(version, variant) + (2 if version == 3 else 1)
    samples = rng.choice([1, 2, 62, 65, 100, 126, 128, 129, 190])
    pieces = -(-samples // samples_of(version)) * channels
    out = header(version, variant, channels, 1, samples)
    for place in range(pieces):
        count = min(samples - place // channels * samples_of(version), samples_of(version))
        piece = bytearray(fragment(rng, version, variant, count))
        if rng.random() < 0.3:
            if version == 3 and rng.randrange(2):
                piece[1] = rng.choice([88, 89, 255, rng.randrange(256)])
            else:
                used = count * bits_of(variant) + 8 * (size - payload_size(version, variant))
                bit = rng.choice([used, used - 1, 8 * size - 1, rng.randrange(8 * size)])
                if bit < 8 * size:
                    piece[bit // 8] |= 1 << bit % 8
        out += piece
    return out


MAKERS = [(valid, 40), (flipped, 12), (other_byte, 8), (other_header_byte, 8), (truncated, 8), (extended, 6),
          (random_bytes, 5), (huge_count, 4), (zero_rate, 1), (spoiled, 14)]


def file(seed, number, small=False):
    """File `number` of a seed."""
    rng = random.Random(f"{seed}/{number}")
    maker = rng.choices([m for m, _ in MAKERS], [w for _, w in MAKERS])[0]
    return bytes(maker(rng, small))


def long_file(seed, number, frames):
    """A file of so many fragments a channel; in some a bit is changed, a step index is 89, the last byte's high bits are set, or a byte is
    missing or too much."""
    rng = random.Random(f"{seed} long {number}")
    version, variant, channels = number % 3 + 1, rng.randrange(3), rng.randrange(1, 3)
    per = samples_of(version)
    samples = per * frames - rng.choice([0, 1, rng.randrange(per)])
    parts = [fragment(rng, version, variant, min(per, samples - first)) for first in range(0, samples, per) for _ in range(channels)]
    made = bytearray(header(version, variant, channels, 48000, samples) + b"".join(parts))
    change = rng.randrange(6)
    if change == 0:
        made[rng.randrange(len(made))] ^= 1 << rng.randrange(8)
    elif change == 1:
        made[17 + len(parts[0]) * rng.randrange(len(parts))] = 89
    elif change == 2:
        made[-1] |= 192
    elif change == 3:
        made = made[:-1] if rng.random() < 0.5 else made + b"x"
    return bytes(made)


def framed(data):
    return len(data).to_bytes(4, "little") + data


def main():
    words = sys.argv[1:]
    small = "--small" in words
    only = None
    if "--only" in words:
        place = words.index("--only")
        only = int(words[place + 1])
        del words[place:place + 2]
    words = [w for w in words if w != "--small"]
    if len(words) != 2:
        sys.exit(__doc__)
    seed, count = int(words[0]), int(words[1])
    out = sys.stdout.buffer
    if only is not None:
        out.write(file(seed, only, small))
        return
    for number in range(count):
        out.write(framed(file(seed, number, small)))


if __name__ == "__main__":
    main()
