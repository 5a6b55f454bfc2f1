#!/usr/bin/env python3
"""s3w2_scripts.py SEED COUNT LENGTH [--calls] [--pairs | --apart]: random lists of calls for s3w2_script, the same for the same words.

Writes COUNT lists over a RAM of LENGTH bytes to standard output, one after the other. Each begins with an N line and ends
with the state of every voice and a sum over the RAM. With --calls no line sets a voice's state. With --pairs the calls are made on both
cores, and now and then on one that is not there; with --apart too, but no byte of a stream is written once it has begun.
"""
import random
import sys

sys.dont_write_bytecode = True
import sqv4_files  # noqa: E402

LENGTHS = [256, 4096, 65536, 1048576]
OTHER_LENGTHS = [512, 1024, 131072, 524288, 16777216]
FREQUENCIES = [0, 1, 2, 3, 100, 440, 1000, 6000, 11999, 12000, 12001, 24000, 47999, 48000, 48001, 60000, 65534, 65535]
PHASES = [0, 1, (1 << 29) - 1, 1 << 29, (1 << 37) - 1, 1 << 37, (1 << 63), (1 << 64) - 1, (1 << 64) - (1 << 29)]
BYTES = [0, 1, 2, 3, 4, 5, 6, 7, 8, 15, 16, 31, 32, 127, 128, 129, 254, 255]
QUEUED = [20, 21, 22, 23, 25]  # of a state's fields held, hold, sub-tick, latch and count: zero on a chip without a FIFO


class List:
    """One list of calls."""

    def __init__(self, seed, number, length, states=True, cores="one"):
        self.rng = random.Random(f"{seed}/{number}/{length}" + ("" if cores == "one" else f"/{cores}"))
        self.sums = random.Random(f"{seed}/{number}/{length}/{cores}/sums")
        self.length = length
        self.apart = cores == "apart"
        self.pairs = cores != "one"
        self.states = states and not self.apart
        self.core = 0
        self.loud = self.pairs and self.rng.random() < 0.3
        self.high = self.loud and self.rng.random() < 0.5
        self.lines = []
        self.version = 4
        self.streams = []
        self.odd = set()  # cores and channels of voices in states that are not accepted

    def put(self, code, *fields):
        self.lines.append(",".join([code, *map(str, fields)]))

    def name_core(self, core):
        self.core = core
        self.put("k", core)

    def any_core(self):
        """Mostly one of the two."""
        if self.pairs and self.rng.random() < 0.4:
            self.name_core(self.rng.choice([2, 3, 255, 4294967295]) if self.rng.random() < 0.05 else self.rng.randrange(2))

    def real_core(self):
        if self.core > 1:
            self.name_core(self.rng.randrange(2))

    def is_free(self, start, count):
        """Whether no byte of a stream is among these, where that is asked for."""
        return not self.apart or all(start + count <= s or e <= start for s, e in self.streams)

    def byte(self):
        return self.rng.choice(BYTES) if self.rng.random() < 0.5 else self.rng.randrange(256)

    def channel(self):
        """Mostly one of the eight."""
        if self.rng.random() < 0.06:
            return self.rng.choice([8, 9, 15, 255, 256, 4294967295])
        return self.rng.randrange(8)

    def frequency(self):
        return self.rng.choice(FREQUENCIES) if self.rng.random() < 0.7 else self.rng.randrange(65536)

    def address(self):
        if self.rng.random() < 0.1:
            return self.rng.choice([self.length - 1, self.length, 1 << 20, 1 << 24, (1 << 24) - 1, 4294967295])
        return self.rng.randrange(self.length)

    # ---- registers

    def control(self, ch, offset, value):
        """A register of a voice, written by its address or by its channel."""
        if self.rng.random() < 0.7:
            self.put("W", 0x800 + 32 * ch + offset, value)
        elif offset < 0x10 or offset == 0x1A:
            self.put("C", ch, offset, value)
        else:
            self.put("Q", ch, offset - 0x10, value)

    def write_frequency(self, ch):
        f = self.frequency()
        self.control(ch, 0, f >> 8)
        self.control(ch, 1, f & 255)

    def write_address(self, ch, first, value):
        for k in range(3):
            self.control(ch, first + k, value >> (16 - 8 * k) & 255)

    def write_modulation(self, ch):
        kind = self.rng.choice([0, 1, 1, 2, 2, 3, 4, 5, 5, 6, 6, 7, self.rng.randrange(32)])
        target = self.rng.choice([ch, self.rng.randrange(8), self.rng.randrange(8)])
        self.control(ch, 5, kind << 3 | target)
        if self.rng.random() < 0.4:
            self.control(ch, 0x0B, self.byte())
        for k in range(6, 10):
            if self.rng.random() < 0.6:
                self.control(ch, k, self.byte())

    def write_wavetable(self, ch):
        for _ in range(self.rng.randrange(1, 6)):
            at = self.rng.choice([0, 1, 2, 30, 31, 32, 63, 64, 127, 128, 254, 255, self.rng.randrange(256)])
            if self.rng.random() < 0.6:
                self.put("W", 256 * ch + at, self.byte())
            else:
                self.put("T", self.channel(), at, self.byte())

    def load(self, start, data):
        if not self.is_free(start, len(data)):
            return
        for k in range(0, len(data), 180):
            self.put("B", start + k, *data[k:k + 180])

    # ---- streams

    def file(self):
        """A file, and the places of its fragments."""
        rng = self.rng
        if rng.random() < 0.12:
            makers = [m for m, _ in sqv4_files.MAKERS]
            return bytes(rng.choice(makers)(rng, True))[:self.length], []
        wanted = [3] if self.version >= 3 else [1, 2]
        version = rng.choice(wanted) if rng.random() < 0.93 else rng.randrange(1, 4)
        variant = rng.randrange(3)
        per = sqv4_files.samples_of(version)
        size = sqv4_files.payload_size(version, variant) + (2 if version == 3 else 1)
        room = (min(self.length, 1200) - 16) // size
        samples = rng.choice([0, 1, 2, per - 1, per, per + 1, 2 * per, 2 * per + 1, rng.randrange(1, 9 * per)])
        samples = min(samples, room * per)
        channels = 2 if rng.random() < 0.03 and samples == 0 else 1
        out = sqv4_files.header(version, variant, channels, rng.choice([1, 48000]), samples)
        places = []
        first = 0
        while first < samples:
            places.append(len(out))
            count = min(samples - first, per)
            out += sqv4_files.fragment(rng, version, variant, count)
            first += count
        if rng.random() < 0.06:
            out[rng.randrange(len(out))] ^= 1 << rng.randrange(8)
        return bytes(out), places

    def start_stream(self, ch):
        rng = self.rng
        data, places = self.file()
        start = rng.choice([0, self.length - len(data), rng.randrange(self.length - len(data) + 1)])
        end = start + len(data)
        if not self.is_free(start, len(data)):
            return
        self.load(start, data)
        loop = rng.choice([0, start] + [start + p for p in places] * 2)
        if rng.random() < 0.06:
            loop = rng.choice([loop + 1, start + 15, end, end + 1, self.address()])
        if rng.random() < 0.04:
            start, end = rng.choice([(end, start), (start, end + 1), (start, start), (start + 1, end), (0, self.length + 1)])
        self.write_address(ch, 0x10, start & 0xFFFFFF)
        self.write_address(ch, 0x13, end & 0xFFFFFF)
        self.write_address(ch, 0x16, loop & 0xFFFFFF)
        self.control(ch, 2, 4)
        self.control(ch, 0x19, rng.choice([1, 3, 3, 3]))
        f = rng.choice([0, 500, 3000, 6000, 12000, 12000, 20000, 65535, rng.randrange(12000)])
        self.control(ch, 0, f >> 8)
        self.control(ch, 1, f & 255)
        self.streams.append((start, end))

    # ---- voices

    def start_voice(self, ch):
        rng = self.rng
        kind = rng.choice([0, 0, 0, 1, 1, 1, 2, 2, 3, 4, 4, 4, 4, 5, 5, 6, self.byte()])
        self.control(ch, 3, self.byte() if rng.random() < 0.5 else 255)
        self.control(ch, 4, self.byte() if rng.random() < 0.7 else 255)
        self.write_modulation(ch)
        if rng.random() < 0.3:
            self.control(ch, 0x1A, self.byte())
        if kind == 4 and rng.random() < 0.9:
            self.start_stream(ch)
            return
        self.control(ch, 2, kind)
        self.write_frequency(ch)
        if kind == 0:
            self.write_wavetable(ch)
        if kind == 1 or rng.random() < 0.1:
            start = self.address()
            end = rng.choice([start, start + 1, start + 2, start + rng.randrange(40), self.length, self.address()])
            self.write_address(ch, 0x10, start & 0xFFFFFF)
            self.write_address(ch, 0x13, end & 0xFFFFFF)
            self.write_address(ch, 0x16, rng.choice([0, start, start + 1, end, self.address()]) & 0xFFFFFF)
            self.load(start % self.length, [self.byte() for _ in range(min(40, self.length - start % self.length))])
            self.control(ch, 0x19, rng.choice([1, 1, 3, 3, 3, self.byte()]))
        if kind == 5:
            for _ in range(rng.randrange(6)):
                self.push(ch)
            if rng.random() < 0.7:
                f = rng.choice([0, 0, 1, 2, 5])
                self.control(ch, 0, 0)
                self.control(ch, 1, f)

    def shout(self, ch):
        """A voice as loud as one can be: a queue of one sample, or a table of one byte, high on one core and low on the other."""
        rng = self.rng
        high = (self.core == 0) == self.high
        self.control(ch, 3, 255)
        self.control(ch, 4, 255)
        self.control(ch, 5, 0)
        kind = 5 if self.version >= 2 and rng.random() < 0.7 else 0
        self.control(ch, 2, kind)
        if kind == 5:
            for _ in range(rng.randrange(1, 4)):
                self.control(ch, 0x0C, 0x7F if high else 0x80)
                self.control(ch, 0x0D, 0xFF if high else 0)
            self.control(ch, 0, 255)
        else:
            self.put("W", 256 * ch, 255 if high else 0)

    def push(self, ch):
        self.control(ch, 0x0C, self.byte())
        self.control(ch, 0x0D, self.byte())

    # ---- states that no call need reach

    def state(self, ch, waveform=None, start=None, end=None):
        rng = self.rng
        loud = [0, 1, -1, 127, -128, 32767, -32768, rng.randrange(-32768, 32768)]
        if waveform is None:
            waveform = rng.choice([0, 1, 2, 3, 5 if self.version >= 2 else 0])
        if start is None:
            start, end = self.address() & 0xFFFFFF, self.address() & 0xFFFFFF
        phase = rng.choice(PHASES) if rng.random() < 0.3 else rng.choice([rng.randrange(1 << 40), rng.randrange(1 << 64)])
        if waveform == 4 and rng.random() < 0.85:
            phase = rng.randrange(1 << 39)
        fields = [
            self.frequency(), waveform, self.byte(), self.byte(), rng.randrange(7), rng.randrange(8), rng.randrange(2),
            rng.randrange(65536), rng.randrange(65536), start, end, self.address() & 0xFFFFFF, self.byte(),
            rng.randrange(8), int(rng.random() < 0.9), phase, rng.randrange(1 << 35),
            rng.choice([0, 1, 0x12D4803C, rng.randrange(1 << 32)]), rng.choice(loud),
            rng.choice([0, 65280, 65279, rng.randrange(65281)]), rng.choice(loud), rng.choice([0, 0, 1, 65535]),
            rng.randrange(4), self.byte(), rng.choice([0, 1, 2047, 2000, rng.randrange(2048)]),
            rng.choice([0, 0, 1, 3, 2047, 2048, rng.randrange(2049)]), rng.randrange(1, 1 << 31),
            rng.choice([0, rng.randrange(1, 1 << 31)]),
        ]
        if self.version < 2:
            for k in QUEUED:
                fields[k] = 0
        return fields

    def queue_up(self, fields):
        """Something in the queue of a chip without a FIFO: one of the five or all of them, now and then with a fault before them."""
        rng = self.rng
        nonzero = {20: [1, -1, 32767, -32768], 21: [1, 65535], 22: [1, 2, 3], 23: [1, 255, rng.randrange(1, 256)], 25: [1, 2047, 2048]}
        for k in QUEUED if rng.random() < 0.15 else [rng.choice(QUEUED)]:
            fields[k] = rng.choice(nonzero[k])
        if rng.random() < 0.3:
            k, x = rng.choice([(5, 8), (13, 8), (19, 65281)])
            fields[k] = x

    def set_state(self, ch):
        fields = self.state(ch)
        self.odd.discard((self.core, ch))
        if self.rng.random() < 0.08:
            k, x = self.rng.choice([(5, 8), (6, 2), (9, 1 << 24), (10, 1 << 24), (11, 1 << 24), (13, 8), (16, 1 << 35),
                                    (19, 65281), (21, 65536), (22, 4), (24, 2048), (25, 2049), (1, 5)])
            fields[k] = x
            if (k, self.version) not in [(1, 2), (1, 3), (1, 4)]:
                self.odd.add((self.core, ch))
        elif self.version < 2 and self.rng.random() < 0.25:
            self.queue_up(fields)
            self.odd.add((self.core, ch))
        self.put("E", ch, *fields)
        self.put("F", ch, 0, *[0] * 12)

    def set_stream_state(self, ch):
        """A stream voice with a cache of any contents over whatever the RAM has."""
        rng = self.rng
        version, variant = rng.randrange(1, 4), rng.randrange(3)
        per = sqv4_files.samples_of(version)
        size = sqv4_files.payload_size(version, variant) + (2 if version == 3 else 1)
        frames = rng.randrange(min((self.length - 16) // size, 12) + 1)
        samples = max(0, frames * per - rng.choice([0, 0, 1, per - 1, rng.randrange(per)]))
        length = 16 + frames * size
        start = rng.randrange(self.length - length + 1)
        end = start + length
        fields = self.state(ch, 4, start, end)
        self.odd.discard((self.core, ch))
        if rng.random() < 0.7:
            fields[15] = rng.randrange(max(1, samples) << 29)
        half = lambda parity: rng.choice([0] + [f + 1 for f in range(parity, frames, 2)] * 2)
        cache = [1, version, variant + 1, samples, per, size, per * rng.randrange(max(1, frames)), half(0), half(1),
                 rng.randrange(frames + 1), rng.choice([0, 32767, -32768, rng.randrange(-32768, 32768)]),
                 rng.randrange(89), rng.randrange(1, 1 << 31)]
        if rng.random() < 0.08:
            self.odd.add((self.core, ch))
            k = rng.choice([1, 2, 3, 4, 5, 6, 7, 8, 9, 11, 13, 14])
            if k == 13:
                fields[1] = rng.choice([0, 1, 2, 3])
            elif k == 14:
                fields[10] = rng.choice([start, end + 1, end + size]) & 0xFFFFFF
            else:
                cache[k] = {1: 0, 2: 0, 3: samples + per, 4: 127 - per, 5: size + 1, 6: per * frames + 1, 7: 2, 8: 1,
                            9: frames + 1, 11: 89}[k]
        elif rng.random() < 0.3:
            self.load(start, [rng.randrange(256) for _ in range(min(length, 400))])
        self.put("E", ch, *fields)
        self.put("F", ch, *cache)

    # ---- calls

    def sound(self):
        rng = self.rng
        k = rng.randrange(10)
        frames = rng.choice([0, 1, 2, 3, 5, 8, 16, 30, rng.randrange(60)])
        if rng.random() < 0.02:
            frames = rng.choice([255, 256, 257, 300, 513, 600])
        other = frames if rng.random() < 0.7 else rng.randrange(frames + 3)
        seed = rng.randrange(1, 1 << 31)
        if k < 2:
            self.put("G", self.channel())
        elif k < 5:
            length = 32 * frames if rng.random() < 0.93 else rng.choice([0, 31, 33, 16 * frames, 32 * frames + 32, 32 * frames + 1])
            self.put("S", frames, min(length, 16384)) if frames <= 512 else self.put("S", 3, 96)
        else:
            self.put("XYYyy"[k - 5], frames, other, seed)
        if self.sums.random() < 0.03:
            self.put("s", self.sums.choice([0, 1, 2, 30, 256, 999, 1000, 1001, 2000, 2300, self.sums.randrange(3000)]))

    def read(self):
        rng = self.rng
        k = rng.randrange(10)
        if k == 9:
            k = rng.choice([0, 4, 9])
        register = rng.choice([rng.randrange(0x800), 0x800 + rng.randrange(256), 0x80A + 32 * rng.randrange(8),
                               rng.choice([0x7FF, 0x900, 0x8FF, 0xFFFF, 0xFFFFFFFF])])
        if k == 0:
            self.put("R", register)
        elif k == 1:
            self.put("P", register)
        elif k == 2:
            self.put("m", self.address())
        elif k == 3:
            self.put("t", self.channel(), self.byte())
        elif k == 4:
            self.put("c", self.channel(), rng.choice([rng.randrange(32), 0x0A, self.byte()]))
        elif k == 5:
            self.put("q", self.channel(), rng.choice([rng.randrange(12), self.byte()]))
        elif k == 6:
            self.put(rng.choice("wi"), self.channel())
        elif k == 7:
            self.put("A", rng.choice([rng.randrange(8), self.byte()]), rng.choice([0, 1, self.byte()]), self.byte())
        elif k == 8:
            self.put("U", *self.name()) if rng.random() < 0.8 else self.put("u", rng.randrange(5))
        else:
            self.put("O", rng.choice([0, 32767, 32768, -32768, -32769, 2147483647, -2147483648, rng.randrange(-99999, 99999)]))

    def name(self):
        """A version's name, or something near one, with white around it."""
        rng = self.rng
        white = [" ", "\t", "\n", "\r", "\x0b", "\x0c", "\x85", "\xa0", "\u1680", "\u2000", "\u200a", "\u2028", "\u2029",
                 "\u202f", "\u205f", "\u3000", "\u200b", "\x1c", "\u180e", "\ufeff", "\u2001", "\x08", "\x0e"]
        around = lambda: "".join(rng.choice(white) for _ in range(rng.choice([0, 0, 1, 2])))
        middle = rng.choice(["1", "1.0", "2", "2.0", "2.1", "3", "3.0", "3.1", "3.1", "2.1", "1.1", "4", "0", "3.2", "3.", "",
                             ".1", "31", "3.10", "v", "3,1"])
        data = bytearray((around() + rng.choice(["", "", "v", "V", "vV", "v "]) + middle + around()).encode())
        if data and rng.random() < 0.15:
            data[rng.randrange(len(data))] = rng.choice([rng.randrange(256), 0xC2, 0xE2, 0x80])
        return data or [32]

    def poke(self, address):
        if self.is_free(address, 1):
            self.put("M", address, self.byte())

    def write(self):
        rng = self.rng
        k = rng.randrange(14)
        if k < 3:
            self.put("W", rng.choice([rng.randrange(0x900), 0x800 + rng.randrange(256)]), self.byte())
        elif k == 3:
            self.put("W", rng.choice([0x8FF, 0x900, 0x1000, 0xFFFFFFFF]), self.byte())
        elif k == 4:
            self.put("C", self.channel(), rng.choice([rng.randrange(32), self.byte()]), self.byte())
        elif k == 5:
            self.put("Q", self.channel(), rng.choice([rng.randrange(12), self.byte()]), self.byte())
        elif k < 9 and self.streams:
            start, end = rng.choice(self.streams)
            at = rng.choice([start, end - 1, end, max(0, start - 1), rng.randrange(start, end) if start < end else start])
            self.poke(at & 0xFFFFFFFF)
        elif k < 10:
            self.poke(self.address())
        elif k == 10:
            self.push(rng.randrange(8))
        elif k == 11:
            self.control(rng.randrange(8), 0x0A, self.byte())
        elif k == 12:
            self.write_frequency(rng.randrange(8))
        else:
            self.write_modulation(rng.randrange(8))

    def rare(self):
        rng = self.rng
        k = rng.randrange(12)
        if k < 2:
            version = rng.randrange(5)
            self.put("V", version)
            if not self.odd:
                self.version = version
        elif k == 2:
            self.put("Z")
            self.streams = []
        elif k == 3:
            self.put("z", self.channel())
        elif k < 9 and not self.states:
            self.start_stream(rng.randrange(8))
        elif k < 6:
            self.set_state(rng.randrange(8))
        elif k < 9:
            self.set_stream_state(rng.randrange(8))
        elif k == 9:
            ram = rng.choice([self.length, 0, 1, 255, 257, self.length - 1, min(self.length + 1, 1000000), 300000])
            self.put("l", ram, rng.choice([32768, 32768, 0, 16384, 32767, 32769]))
            for _ in range(rng.randrange(1, 6)):
                rng.choice([self.read, self.write, self.sound])()
            self.put("l", self.length, 32768)
        elif k == 10:
            self.put("N", rng.randrange(5), rng.choice([0, 1, 255, 257, 258, 5000, 1000000]))
            self.read()
            self.write()
            self.new()
        else:
            self.start_stream(rng.randrange(8))

    def new(self):
        self.version = self.rng.choice([0, 1, 2, 3, 4, 4])
        self.streams = []
        self.odd = set()
        self.core = 0
        self.put("N", self.version, self.length)

    def mend(self):
        """Every voice in an accepted state again."""
        for core in self.cores():
            for ch in range(8):
                self.put("E", ch, *self.state(ch, 0, 0, 0))
                self.put("F", ch, 0, *[0] * 12)
        self.odd = set()

    def cores(self):
        """Each core in turn, named where there are two."""
        for core in range(2 if self.pairs else 1):
            if self.pairs:
                self.name_core(core)
            yield core

    def made(self):
        rng = self.rng
        self.new()
        for core in self.cores():
            for ch in range(8):
                if self.loud and rng.random() < 0.8:
                    self.shout(ch)
                elif rng.random() < 0.75:
                    self.start_voice(ch)
        calls = rng.randrange(40, 90)
        while calls > 0:
            calls -= 1
            self.any_core()
            k = rng.random()
            if k < 0.42:
                self.sound()
            elif k < 0.62:
                self.write()
            elif k < 0.75:
                self.read()
            elif k < 0.85:
                self.start_voice(rng.randrange(8))
            elif k < 0.93:
                self.real_core()
                self.rare()
            else:
                self.real_core()
                self.put("D", rng.randrange(8))
            if self.odd and rng.random() < 0.3:
                self.mend()
        for core in self.cores():
            for ch in range(8):
                self.put("D", ch)
        self.put("l", self.length, 32768)
        self.put("K")
        return self.lines


def lines(seed, number, length, states=True, cores="one"):
    """List `number` of a seed, over a RAM of a length; without `states` no line sets a voice's state."""
    return List(seed, number, length, states, cores).made()


def beyond(seed, length, cores):
    """A list without set states, and behind it every call that names a core on cores that are not there, with all voices after each core."""
    made = lines(seed, "beyond", length, False, cores)
    for core in (2, 3, 8, 255, 256, 65536, 4294967295):
        made.append(f"k,{core}")
        for ch in (0, 5, 7, 8):
            block = 0x800 + 32 * ch
            made += [f"W,{block + k},{k + 1}" for k in range(27)] + [f"W,{256 * ch + 3},9", f"R,{block + 10}", f"R,{block + 3}", f"P,{256 * ch}"]
            made += [f"{code},{ch},{k},7" for code in "CQT" for k in (0, 2, 3, 9, 10)] + [f"{code},{ch},{k}" for code in "cqt" for k in (0, 3, 9)]
            made += [f"{code},{ch}" for code in "wiGz"]
        made += [line for k in range(2) for line in [f"k,{k}"] + [f"D,{ch}" for ch in range(8)]]
    return made


def main():
    words = [w for w in sys.argv[1:] if not w.startswith("--")]
    if len(words) != 3:
        sys.exit(__doc__)
    seed, count, length = map(int, words)
    cores = "apart" if "--apart" in sys.argv else "pairs" if "--pairs" in sys.argv else "one"
    for number in range(count):
        made = lines(seed, number, length, "--calls" not in sys.argv, cores)
        sys.stdout.write("".join(line + "\n" for line in made))


if __name__ == "__main__":
    main()
