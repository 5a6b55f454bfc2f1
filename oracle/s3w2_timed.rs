// Document 02's log with frame times, played on the original chip: reads a log from standard input, prints what `s3w2-timed` prints. It goes
// frame by frame: the lines that are due at a frame, then that one frame. It knows no `C` lines.
mod sgu {
    pub mod s3w2;
    pub mod sqv4;
}
use sgu::s3w2::*;
use std::io::{BufWriter, Read, Write};

/// The numbers of bad lines: document 01's of a malformed one, document 02's of an address above the last register, of a stamp below the one
/// before it, of the 65th line of a frame.
const MALFORMED: u8 = 17;
const UNMAPPED: u8 = 27;
const LATE: u8 = 18;
const CROWDED: u8 = 19;

enum Call {
    Write(u32, u8),
    WriteRam(u32, u8),
    Read(u32),
    Peek(u32),
    Version(usize),
}

/// A plain decimal numeral of at most `most`, without leading zeros.
fn number(field: &[u8], most: u32) -> Result<u32, u8> {
    let fine = !field.is_empty() && field.iter().all(u8::is_ascii_digit) && (field.len() == 1 || field[0] != b'0');
    let text = std::str::from_utf8(field).ok().filter(|_| fine).ok_or(MALFORMED)?;
    text.parse().ok().filter(|&n| n <= most).ok_or(MALFORMED)
}

/// The address of a register, 0 to 2,303.
fn register(address: u32) -> Result<u32, u8> {
    Some(address).filter(|&a| a <= 2303).ok_or(UNMAPPED)
}

/// A line without its closing byte 10: when it is due, and what it asks for.
fn taken(line: &[u8]) -> Result<(u32, Call), u8> {
    let fields: Vec<&[u8]> = line.split(|&b| b == b',').collect();
    let (first, rest) = fields.split_first().unwrap();
    let stamp = number(first, u32::MAX)?;
    let call = match *rest {
        [b"W", a, v] => {
            let (a, v) = (number(a, u32::MAX)?, number(v, 255)? as u8);
            Call::Write(register(a)?, v)
        }
        [b"M", a, v] => Call::WriteRam(number(a, u32::MAX)?, number(v, 255)? as u8),
        [b"R", a] => Call::Read(register(number(a, u32::MAX)?)?),
        [b"P", a] => Call::Peek(register(number(a, u32::MAX)?)?),
        [b"V", v] => Call::Version(number(v, 4)? as usize),
        _ => return Err(MALFORMED),
    };
    Ok((stamp, call))
}

/// The lines before the first bad one, and which that is, and why.
fn score(text: &[u8]) -> (Vec<(u32, Call)>, Option<(usize, u8)>) {
    let mut lines: Vec<(u32, Call)> = Vec::new();
    for line in text.split_inclusive(|&b| b == 10) {
        let (stamp, call) = match line.strip_suffix(b"\n").ok_or(MALFORMED).and_then(taken) {
            Ok(found) => found,
            Err(why) => return bad(lines, why),
        };
        if lines.last().is_some_and(|before| stamp < before.0) {
            return bad(lines, LATE);
        }
        if lines.iter().rev().take_while(|before| before.0 == stamp).count() == 64 {
            return bad(lines, CROWDED);
        }
        lines.push((stamp, call));
    }
    (lines, None)
}

fn bad(lines: Vec<(u32, Call)>, why: u8) -> (Vec<(u32, Call)>, Option<(usize, u8)>) {
    let number = lines.len() + 1;
    (lines, Some((number, why)))
}

fn apply(chip: &mut S3w2Sound, call: &Call, out: &mut impl Write) {
    const VERSIONS: [SguVersion; 5] = [SguVersion::V1, SguVersion::V2, SguVersion::V2_1, SguVersion::V3, SguVersion::V3_1];
    match *call {
        Call::Write(a, v) => chip.write_register(a, v),
        Call::WriteRam(a, v) => chip.write_pcm_ram(a, v),
        Call::Read(a) => writeln!(out, "R,{a},{}", chip.read_register(a)).unwrap(),
        Call::Peek(a) => writeln!(out, "P,{a},{}", chip.peek_register(a)).unwrap(),
        Call::Version(v) => chip.set_version(VERSIONS[v]),
    }
}

/// One frame.
fn sound(chip: &mut S3w2Sound, peak: &mut (i32, i32), out: &mut impl Write) {
    let (mut left, mut right) = ([0i32], [0i32]);
    chip.clock_mixed_into_i32(&mut left, &mut right);
    writeln!(out, "F,{},{}", saturate_output(left[0]), saturate_output(right[0])).unwrap();
    *peak = (peak.0.max(left[0].abs()), peak.1.max(right[0].abs()));
}

fn main() {
    let mut text = Vec::new();
    std::io::stdin().read_to_end(&mut text).unwrap();
    let mut out = BufWriter::new(std::io::stdout().lock());
    let ram = std::rc::Rc::new(std::cell::RefCell::new(vec![0; PCM_RAM_SIZE]));
    let mut chip = S3w2Sound::with_version(ram, SguVersion::V3_1);
    let mut peak = (0, 0);
    let (lines, stop) = score(&text);
    if let Some(&(last, _)) = lines.last() {
        let mut next = 0;
        for frame in 0..=last {
            while next < lines.len() && lines[next].0 == frame {
                apply(&mut chip, &lines[next].1, &mut out);
                next += 1;
            }
            if frame < last || stop.is_none() {
                sound(&mut chip, &mut peak, &mut out);
            }
        }
    }
    match stop {
        Some((number, why)) => writeln!(out, "bad,{number},{why}").unwrap(),
        None => writeln!(out, "peak,{},{}", peak.0, peak.1).unwrap(),
    }
}
