// Document 01's log program, played on the original chip: reads a log from standard input, prints what `s3w2-log` prints. With
// `--save` it prints what `s3w2-save` prints; with `--after N` what `s3w2-load` prints of the lines behind the first N, on the state
// in which those leave the chip. With `--second FILE` before these a second chip over the same RAM has played the log of that file: from
// then on both are clocked (under V1 the first alone), a byte of the RAM is written through both, and a version is set on both.
mod sgu {
    pub mod s3w2;
    pub mod sqv4;
}
use sgu::s3w2::*;
use std::io::{BufWriter, Read, Write};

/// The numbers of bad lines: document 01's of a malformed one, document 02's of one with an address above the last register.
const MALFORMED: u8 = 17;
const UNMAPPED: u8 = 27;

/// A plain decimal numeral of at most `most`, without leading zeros.
fn number(field: &[u8], most: u32) -> Result<u32, u8> {
    let fine = !field.is_empty() && field.iter().all(u8::is_ascii_digit) && (field.len() == 1 || field[0] != b'0');
    let text = std::str::from_utf8(field).ok().filter(|_| fine).ok_or(MALFORMED)?;
    text.parse().ok().filter(|&n| n <= most).ok_or(MALFORMED)
}

/// The address of a register, 0 to 2,303; the chip's own calls take any other too.
fn register(address: u32) -> Result<u32, u8> {
    Some(address).filter(|&a| a <= 2303).ok_or(UNMAPPED)
}

struct Player {
    chips: [S3w2Sound; 2],
    paired: bool,
    core: usize,
    peak: (i32, i32),
}

impl Player {
    fn new() -> Player {
        let ram = std::rc::Rc::new(std::cell::RefCell::new(vec![0; PCM_RAM_SIZE]));
        let chips = std::array::from_fn(|_| S3w2Sound::with_version(ram.clone(), SguVersion::V3_1));
        Player { chips, paired: false, core: 0, peak: (0, 0) }
    }

    /// Has the second chip alone play a log.
    fn play_second(&mut self, log: &[u8]) {
        (self.paired, self.core) = (true, 1);
        for line in log.strip_suffix(b"\n").unwrap().split(|&b| b == 10) {
            self.play(line, &mut std::io::sink()).unwrap();
        }
        self.core = 0;
    }

    fn clock(&mut self, frames: u32, out: &mut impl Write) {
        let (mut left, mut right) = (vec![0i32; frames as usize], vec![0i32; frames as usize]);
        if self.core == 0 {
            self.chips[0].clock_mixed_into_i32(&mut left, &mut right);
        }
        if self.paired && self.chips[1].version != SguVersion::V1 {
            self.chips[1].clock_mixed_into_i32(&mut left, &mut right);
        }
        for (&l, &r) in left.iter().zip(&right) {
            writeln!(out, "F,{},{}", saturate_output(l), saturate_output(r)).unwrap();
            self.peak.0 = self.peak.0.max(l.abs());
            self.peak.1 = self.peak.1.max(r.abs());
        }
    }

    /// Plays a line without its closing byte 10; tells the number of a bad one.
    fn play(&mut self, line: &[u8], out: &mut impl Write) -> Result<(), u8> {
        let fields: Vec<&[u8]> = line.split(|&b| b == b',').collect();
        let chip = &mut self.chips[self.core];
        match *fields.as_slice() {
            [b"W", a, v] => {
                let (a, v) = (number(a, u32::MAX)?, number(v, 255)? as u8);
                chip.write_register(register(a)?, v);
            }
            [b"M", a, v] => {
                let (a, v) = (number(a, u32::MAX)?, number(v, 255)? as u8);
                self.chips.iter_mut().for_each(|chip| chip.write_pcm_ram(a, v));
            }
            [b"R", a] => {
                let a = register(number(a, u32::MAX)?)?;
                writeln!(out, "R,{a},{}", chip.read_register(a)).unwrap();
            }
            [b"P", a] => {
                let a = register(number(a, u32::MAX)?)?;
                writeln!(out, "P,{a},{}", chip.peek_register(a)).unwrap();
            }
            [b"C", n] => self.clock(number(n, 1000).and_then(|n| if n > 0 { Ok(n) } else { Err(MALFORMED) })?, out),
            [b"V", v] => {
                let versions = [SguVersion::V1, SguVersion::V2, SguVersion::V2_1, SguVersion::V3, SguVersion::V3_1];
                let version = versions[number(v, 4)? as usize];
                self.chips.iter_mut().for_each(|chip| chip.set_version(version));
            }
            _ => return Err(MALFORMED),
        }
        Ok(())
    }
}

/// Document 01's session text, with the RAM's length in the head and the second core's voices as document 02 has them, then the RAM.
fn save([chip, second]: &[S3w2Sound; 2], out: &mut impl Write) {
    writeln!(out, "S3W2,{},{}", chip.version as u8, chip.pcm_ram.borrow().len()).unwrap();
    for (voice, channel) in chip.channels.iter().chain(&second.channels).enumerate() {
        // the fields up to the latch, the cache, then wavetable, queue count, queue
        let fields = channel.shown();
        let end = 293 + fields[292] as usize;
        let line: Vec<String> = fields[..24].iter().chain(&fields[36..end]).map(i128::to_string).collect();
        writeln!(out, "{voice},{}", line.join(",")).unwrap();
    }
    out.write_all(&chip.pcm_ram.borrow()).unwrap();
}

fn main() {
    let mut words: Vec<String> = std::env::args().skip(1).collect();
    let mut player = Player::new();
    if words.first().is_some_and(|word| word == "--second") {
        player.play_second(&std::fs::read(&words[1]).unwrap());
        words.drain(..2);
    }
    let saves = words == ["--save"];
    let silent: usize = if words.len() == 2 && words[0] == "--after" { words[1].parse().unwrap() } else { 0 };
    let mut text = Vec::new();
    std::io::stdin().read_to_end(&mut text).unwrap();
    let mut out = BufWriter::new(std::io::stdout().lock());
    let mut lines = text.split_inclusive(|&b| b == 10);
    for line in lines.by_ref().take(silent) {
        player.play(line.strip_suffix(b"\n").unwrap(), &mut std::io::sink()).unwrap();
    }
    player.peak = (0, 0);
    for (k, line) in lines.enumerate() {
        let played = line.strip_suffix(b"\n").ok_or(MALFORMED).and_then(|line| player.play(line, &mut out));
        if let Err(why) = played {
            writeln!(out, "bad,{},{why}", k + 1).unwrap();
            return;
        }
    }
    if saves {
        return save(&player.chips, &mut out);
    }
    writeln!(out, "peak,{},{}", player.peak.0, player.peak.1).unwrap();
}
