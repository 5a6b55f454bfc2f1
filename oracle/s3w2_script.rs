// Plays a script of calls on two of the original chips over one RAM: reads lines from standard input, prints each call's answer.
// README.md lists the lines. Until a k line names core 1 the second chip is left alone and the first one's own calls are made. Behind it
// a RAM write is made through both chips (with the argument --one through the one that the last k line names), the sides are those of
// both `clock_mixed_into_i32` added, and under V1 the second chip is not clocked. With --over it says on standard error how many sides
// of pairs were clamped, and how many of them differ where each chip is clamped before the sum.
//
// With the argument --stale it says on standard error after which lines a voice's cache holds anything else than a new
// `initialize_sqv4` and decoding would give it; with --queued after which lines a voice of a V1 or V2 chip has anything in its
// queue, and of how many lines it looked at such a chip.
mod sgu {
    pub mod s3w2;
    pub mod sqv4;
}
use sgu::s3w2::*;
use std::io::{BufWriter, Read, Write};

fn version_of(n: i128) -> SguVersion {
    [SguVersion::V1, SguVersion::V2, SguVersion::V2_1, SguVersion::V3, SguVersion::V3_1][n as usize]
}

/// The numbers of a seed: 16 bits each.
struct Seeded(u64);

impl Seeded {
    fn next(&mut self) -> u16 {
        self.0 = (self.0 * 1103515245 + 12345) % 2147483648;
        ((self.0 >> 8) % 65536) as u16
    }
}

/// Which voices are active, before a call.
fn on(chips: &[S3w2Sound; 2]) -> [bool; 16] {
    std::array::from_fn(|v| chips[v / 8].channels[v % 8].is_on())
}

/// The voices that were and are so no more, bit 8 k + n for channel n of core k.
fn ended(was: [bool; 16], chips: &[S3w2Sound; 2]) -> i128 {
    (0..16).map(|v| i128::from(was[v] && !chips[v / 8].channels[v % 8].is_on()) << v).sum()
}

fn clamped(x: i32) -> i16 {
    x.clamp(-32768, 32767) as i16
}

fn is_ram_length(n: usize) -> bool {
    n.is_power_of_two() && (256..=16_777_216).contains(&n)
}

struct Player {
    chips: [S3w2Sound; 2],
    core: usize,
    paired: bool,
    one: bool,
    over: u64,
    twice: u64,
    ram: usize,
    queues: usize,
    bad_queue: [bool; 16],
}

type Answer = Result<Vec<i128>, i128>;

impl Player {
    fn state(&self, ram: Option<usize>) -> Result<(), i128> {
        let fine = (0..16).all(|v| {
            let chip = &self.chips[v / 8];
            !self.bad_queue[v] && chip.channels[v % 8].is_accepted(chip.version, ram)
        });
        if fine { Ok(()) } else { Err(3) }
    }

    fn check(&self, takes_ram: bool, takes_queues: bool) -> Result<(), i128> {
        if takes_ram && !is_ram_length(self.ram) {
            return Err(1);
        }
        if takes_queues && self.queues != 32768 {
            return Err(2);
        }
        self.state(takes_ram.then_some(self.ram))
    }

    fn make(&mut self, f: &[i128]) -> Answer {
        let length = f[1] as usize;
        *self = Player { one: self.one, over: self.over, twice: self.twice, ..Player::new(version_of(f[0])) };
        self.ram = length;
        if !is_ram_length(length) {
            return Err(1);
        }
        assert_eq!(length, PCM_RAM_SIZE);
        Ok(vec![])
    }

    fn new(version: SguVersion) -> Player {
        let ram = std::rc::Rc::new(std::cell::RefCell::new(vec![0x55; PCM_RAM_SIZE]));
        let chips = std::array::from_fn(|_| S3w2Sound::with_version(ram.clone(), version));
        Player {
            chips, core: 0, paired: false, one: false, over: 0, twice: 0, ram: PCM_RAM_SIZE, queues: 32768, bad_queue: [false; 16],
        }
    }

    fn poke(&mut self, address: u32, value: u8) {
        if self.one {
            return self.chips[self.core.min(1)].write_pcm_ram(address, value);
        }
        for chip in &mut self.chips {
            chip.write_pcm_ram(address, value);
        }
    }

    /// What a call on a core above 1 answers.
    fn none(code: u8) -> Option<Answer> {
        match code {
            b'R' | b'P' | b't' | b'c' | b'q' | b'w' | b'i' => Some(Ok(vec![0])),
            b'G' => Some(Ok(vec![0, 0])),
            b'W' | b'C' | b'Q' | b'T' | b'z' => Some(Ok(vec![])),
            _ => None,
        }
    }

    fn call(&mut self, code: u8, f: &[i128]) -> Answer {
        let u = |k: usize| f[k] as usize;
        let b = |k: usize| f[k] as u8;
        let a = |k: usize| f[k] as u32;
        let none = Ok(vec![]);
        let (ram, queues) = match code {
            b'Z' | b'M' | b'm' | b'B' => (true, false),
            b'W' | b'C' => (false, true),
            b'G' | b'S' | b'X' | b'Y' | b'y' | b's' => (true, true),
            _ => (false, false),
        };
        if !matches!(code, b'N' | b'k' | b'A' | b'O' | b'U' | b'u' | b'l' | b'E' | b'F' | b'D' | b'K') {
            self.check(ram, queues)?;
        }
        if self.core > 1 {
            if let Some(answer) = Player::none(code) {
                return answer;
            }
        }
        let past = |ch: usize, chip: &S3w2Sound| ch > 7 && chip.version == SguVersion::V3_1;
        let core = self.core.min(1);
        let c = &mut self.chips[core];
        let one = |x: i128| Ok(vec![x]);
        match code {
            b'N' => return self.make(f),
            b'k' => (self.core, self.paired) = (u(0), self.paired || u(0) == 1),
            b'V' => self.chips.iter_mut().for_each(|c| c.set_version(version_of(f[0]))),
            b'Z' => self.chips.iter_mut().for_each(|c| c.reset()),
            b'z' => c.reset_channel(u(0)),
            b'W' => c.write_register(a(0), b(1)),
            b'R' => return one(c.read_register(a(0)).into()),
            b'P' => return one(c.peek_register(a(0)).into()),
            b'M' => self.poke(a(0), b(1)),
            b'm' => return one(c.read_pcm_ram(a(0)).into()),
            b'B' => {
                for (i, &x) in f[1..].iter().enumerate() {
                    self.poke(a(0) + i as u32, x as u8);
                }
            }
            b'T' => c.write_channel_wavetable(u(0), b(1), b(2)),
            b't' => return one(c.read_channel_wavetable(u(0), b(1)).into()),
            b'C' => c.write_channel_control(u(0), b(1), b(2)),
            b'c' => return one(c.read_channel_control(u(0), b(1)).into()),
            b'Q' => c.write_channel_pcm_reg(u(0), b(1), b(2)),
            b'q' => return one(c.read_channel_pcm_reg(u(0), b(1)).into()),
            b'A' => return one(S3w2Sound::convert_to_absolute_channel_address(b(0), b(1), b(2)) as i128),
            b'w' => return one(if past(u(0), c) { 0 } else { c.wavetable_length(u(0)) as i128 }),
            b'i' => return one(if past(u(0), c) { 0 } else { c.interpolates(u(0)).into() }),
            b'G' => {
                if core == 1 && c.version == SguVersion::V1 {
                    return Ok(vec![0, 0]);
                }
                let was = on(&self.chips);
                let sample = self.chips[core].generate_sample(u(0)).into();
                return Ok(vec![sample, (ended(was, &self.chips) != 0).into()]);
            }
            b'U' => {
                let bytes: Vec<u8> = f.iter().map(|&x| x as u8).collect();
                return one(std::str::from_utf8(&bytes).ok().and_then(SguVersion::parse).map_or(9, |v| v as i128));
            }
            b'u' => {
                let v = version_of(f[0]);
                return Ok(vec![v.core_count() as i128, v.has_34si22().into()]);
            }
            b'O' => return one(saturate_output(f[0] as i32).into()),
            b'S' => return self.stems(u(0), u(1)),
            b'X' | b'Y' => return self.sides(code, u(0), u(1), f[2] as u64),
            b'y' => return self.wide_sides(u(0), u(1), f[2] as u64),
            b's' => return self.summed(u(0)),
            b'l' => (self.ram, self.queues) = (u(0), u(1)),
            b'E' => self.set_state(u(0), &f[1..]),
            b'F' => self.set_cache(u(0), &f[1..]),
            b'D' => return Ok(c.channels[u(0)].shown()),
            b'K' => {
                let ram = c.pcm_ram.borrow();
                return one(ram.iter().fold(0u64, |sum, &x| (sum * 31 + u64::from(x)) % 4294967296).into());
            }
            _ => panic!("unknown code {}", code as char),
        }
        none
    }

    /// Whether the second chip is clocked.
    fn second(&self) -> bool {
        self.paired && self.chips[1].version != SguVersion::V1
    }

    fn stems(&mut self, frames: usize, length: usize) -> Answer {
        if length % 32 != 0 || length / 32 != frames {
            return Err(14);
        }
        let was = on(&self.chips);
        let first = self.chips[0].clock(frames);
        let second = self.second().then(|| self.chips[1].clock(frames));
        let mut all = vec![ended(was, &self.chips)];
        for i in 0..frames {
            for ch in 0..8 {
                all.extend([i128::from(first[ch][0][i]), i128::from(first[ch][1][i])]);
            }
            for ch in 0..8 {
                let stem = |hand: usize| second.as_ref().map_or(0, |s| i128::from(s[ch][hand][i]));
                all.extend([stem(0), stem(1)]);
            }
        }
        Ok(all)
    }

    /// Both chips' frames ahead of the clamp, added.
    fn sums(&mut self, n: usize) -> (Vec<i32>, Vec<i32>) {
        let (mut l, mut r) = (vec![0; n], vec![0; n]);
        let (mut l2, mut r2) = (vec![0; n], vec![0; n]);
        self.chips[0].clock_mixed_into_i32(&mut l, &mut r);
        if self.second() {
            self.chips[1].clock_mixed_into_i32(&mut l2, &mut r2);
        }
        for (x, y) in l.iter_mut().zip(l2).chain(r.iter_mut().zip(r2)) {
            let each = i32::from(clamped(*x)) + i32::from(clamped(y));
            *x += y;
            self.over += u64::from(i32::from(clamped(*x)) != *x);
            self.twice += u64::from(clamped(each) != clamped(*x));
        }
        (l, r)
    }

    fn mix_into(&mut self, l: &mut [i16], r: &mut [i16]) {
        if !self.paired {
            return self.chips[0].clock_mixed_into(l, r);
        }
        let (a, b) = self.sums(l.len().min(r.len()));
        for (x, y) in l.iter_mut().zip(a).chain(r.iter_mut().zip(b)) {
            *x = x.saturating_add(clamped(y));
        }
    }

    fn sides(&mut self, code: u8, left: usize, right: usize, seed: u64) -> Answer {
        let mut s = Seeded(seed);
        let mut l: Vec<i16> = (0..left).map(|_| s.next() as i16).collect();
        let mut r: Vec<i16> = (0..right).map(|_| s.next() as i16).collect();
        let n = left.min(right);
        if code == b'Y' {
            self.mix_into(&mut l, &mut r);
        } else if self.paired {
            let (a, b) = self.sums(n);
            for (x, y) in l.iter_mut().zip(a).chain(r.iter_mut().zip(b)) {
                *x = clamped(y);
            }
        } else {
            let (a, b) = self.chips[0].clock_mixed(n);
            l[..n].copy_from_slice(&a);
            r[..n].copy_from_slice(&b);
        }
        Ok(l.iter().chain(&r).map(|&x| x.into()).collect())
    }

    /// The sums of both sides' values over frames, clocked 1,000 at a time.
    fn summed(&mut self, frames: usize) -> Answer {
        let (mut a, mut b) = (0i64, 0i64);
        let mut left = frames;
        while left > 0 {
            let n = left.min(1000);
            let (mut l, mut r) = ([0i16; 1000], [0i16; 1000]);
            self.mix_into(&mut l[..n], &mut r[..n]);
            a += l[..n].iter().map(|&x| i64::from(x)).sum::<i64>();
            b += r[..n].iter().map(|&x| i64::from(x)).sum::<i64>();
            left -= n;
        }
        Ok(vec![a.into(), b.into()])
    }

    fn wide_sides(&mut self, left: usize, right: usize, seed: u64) -> Answer {
        let mut s = Seeded(seed);
        let mut wide = |_| (u32::from(s.next()) << 16 | u32::from(s.next())) as i32;
        let mut l: Vec<i32> = (0..left).map(&mut wide).collect();
        let mut r: Vec<i32> = (0..right).map(&mut wide).collect();
        let was = on(&self.chips);
        if self.paired {
            let (a, b) = self.sums(left.min(right));
            for (x, y) in l.iter_mut().zip(a).chain(r.iter_mut().zip(b)) {
                *x = x.wrapping_add(y);
            }
        } else {
            self.chips[0].clock_mixed_into_i32(&mut l, &mut r);
        }
        let set = ended(was, &self.chips);
        Ok(std::iter::once(set).chain(l.iter().chain(&r).map(|&x| x.into())).collect())
    }

    fn set_state(&mut self, ch: usize, f: &[i128]) {
        let c = &mut self.chips[self.core.min(1)].channels[ch];
        c.set_state(f);
        let (head, count) = (f[24] as usize, f[25] as usize);
        let mut s = Seeded(f[26] as u64);
        c.fifo = (0..count).map(|_| s.next() as i16).collect();
        self.bad_queue[8 * self.core.min(1) + ch] = head > 2047 || count > 2048;
        let mut s = Seeded(f[27] as u64);
        for slot in c.wavetable.iter_mut() {
            *slot = if f[27] == 0 { 128 } else { (s.next() % 256) as u8 };
        }
    }

    fn set_cache(&mut self, ch: usize, f: &[i128]) {
        let mut s = Seeded(f[12] as u64);
        let samples: Vec<i16> = (0..128).map(|_| if f[12] == 0 { 0 } else { s.next() as i16 }).collect();
        self.chips[self.core.min(1)].channels[ch].set_cache(f, &samples);
    }
}

fn main() {
    let word = std::env::args().nth(1);
    let looks = word.as_deref() == Some("--stale");
    let counts = word.as_deref() == Some("--queued");
    let one = std::env::args().any(|w| w == "--one");
    let over = std::env::args().any(|w| w == "--over");
    let mut looked = 0;
    let mut text = String::new();
    std::io::stdin().read_to_string(&mut text).unwrap();
    let mut out = BufWriter::new(std::io::stdout().lock());
    let mut player = Player { one, ..Player::new(SguVersion::V3_1) };
    for (number, line) in text.lines().enumerate() {
        let mut words = line.split(',');
        let code = words.next().unwrap().as_bytes()[0];
        let fields: Vec<i128> = words.map(|w| w.parse().unwrap()).collect();
        let told = match player.call(code, &fields) {
            Err(n) => format!(",no,{n}"),
            Ok(values) => values.iter().map(|v| format!(",{v}")).collect(),
        };
        writeln!(out, "{}{told}", code as char).unwrap();
        for v in (0..16).filter(|_| looks) {
            if player.chips[v / 8].is_stale(v % 8) {
                eprintln!("stale: voice {v} after line {}, {line}", number + 1);
            }
        }
        if counts && matches!(player.chips[0].version, SguVersion::V1 | SguVersion::V2) {
            looked += 1;
            for v in (0..16).filter(|v| player.chips[v / 8].channels[v % 8].is_queued()) {
                eprintln!("queued: voice {v} after line {}, {line}", number + 1);
            }
        }
    }
    if over {
        eprintln!("over {} twice {}", player.over, player.twice);
    }
    if counts {
        eprintln!("looked at a chip of V1 or V2 after {looked} lines");
    }
}
