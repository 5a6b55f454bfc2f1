#!/usr/bin/env python3
"""logs.py FOLDER: writes the logs that bench/run times, the same every time."""
import pathlib
import random
import sys

sys.path.insert(0, str(pathlib.Path(__file__).resolve().parent.parent / "oracle"))
sys.dont_write_bytecode = True
import sqv4_files  # noqa: E402

rng = random.Random("s3w2")


def number(ch, offset, value, width):
    """A register of several bytes, the highest first."""
    return [f"W,{2048 + 32 * ch + offset + k},{value >> 8 * (width - 1 - k) & 255}" for k in range(width)]


def voice(ch, waveform, frequency, modulation=0, target=0, param_1=0, param_2=0, control=0):
    return (number(ch, 2, waveform, 1) + number(ch, 0, frequency, 2) + number(ch, 3, 255 - 9 * ch, 1)
            + number(ch, 4, [0xFF, 0xC8, 0x8C, 0xF0, 0x0F, 0x97, 0xAA, 0x5F][ch], 1)
            + number(ch, 5, modulation << 3 | target, 1) + number(ch, 6, param_1, 2) + number(ch, 8, param_2, 2)
            + number(ch, 0x1A, control, 1))


def wavetable(ch):
    return [f"W,{256 * ch + i},{rng.randrange(256)}" for i in range(256)]


def ram(start, data):
    return [f"M,{start + i},{b}" for i, b in enumerate(data)]


def addresses(ch, start, end, loop, control):
    return number(ch, 0x10, start, 3) + number(ch, 0x13, end, 3) + number(ch, 0x16, loop, 3) + number(ch, 0x19, control, 1)


FREQUENCIES = [440, 441, 3000, 60000, 12345, 700, 25000, 1999]


def wave(ch):
    modulation = [0, 1, 2, 3, 4, 5, 6, 0][ch]
    return wavetable(ch) + voice(ch, 0, FREQUENCIES[ch], modulation, (ch + 1) % 8, 3000, 0, [0, 0, 0, 0, 4, 0, 1, 2][ch])


def pcm(ch):
    start = 4096 * ch
    data = [rng.randrange(256) for _ in range(4000)]
    return (ram(start, data) + voice(ch, 1, FREQUENCIES[ch], [0, 1, 0, 5, 6, 0, 1, 0][ch], (ch + 3) % 8, 900, 0, [0, 0, 4, 0, 0, 0, 0, 0][ch])
            + addresses(ch, start, start + 4000, start + 100 * ch, 3))


def noise(ch):
    return voice(ch, 2, FREQUENCIES[ch], [0, 1, 0, 5, 6, 1, 0, 0][ch], 0, 0x41 + ch, 0x1235)


def stream(ch):
    variant = ch % 3
    samples = 63 * 40 + 11 * ch
    out = sqv4_files.header(3, variant, 1, 48000, samples)
    first = 0
    while first < samples:
        out += sqv4_files.fragment(rng, 3, variant, min(63, samples - first))
        first += 63
    start = 2048 * ch
    size = 34 if variant == 0 else 26
    frequency = [500, 1500, 2000, 3000, 6000, 12000, 1000, 4000][ch]
    return (ram(start, out) + voice(ch, 4, frequency, 0, 0, 0, 0, [0, 0, 0, 4, 0, 0, 0, 0][ch])
            + addresses(ch, start, start + len(out), start + 16 + size * ch, 3))


def fifo(ch):
    lines = voice(ch, 5, 20 * ch + 100)
    for _ in range(2048):
        lines += [f"W,{2048 + 32 * ch + 12},{rng.randrange(256)}", f"W,{2048 + 32 * ch + 13},{rng.randrange(256)}"]
    return lines


KINDS = {"wave": [wave] * 8, "pcm": [pcm] * 8, "noise": [noise] * 8, "stream": [stream] * 8, "fifo": [fifo] * 8,
         "mixed": [wave, stream, pcm, noise, wave, stream, fifo, wave]}


def main():
    folder = pathlib.Path(sys.argv[1])
    folder.mkdir(parents=True, exist_ok=True)
    for name, makers in KINDS.items():
        lines = [line for ch, make in enumerate(makers) for line in make(ch)]
        (folder / f"{name}.log").write_text("".join(line + "\n" for line in lines))


if __name__ == "__main__":
    main()
