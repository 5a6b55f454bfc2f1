// What the Rattle program sqv4_make writes, made by a plain writer over the original's own decode_code and apply_volume.
//
//   sqv4_make            one text on standard input; writes the file, or a line that says why there is none
//   sqv4_make --batch    any number of texts, each after its length in 4 bytes, low byte first; writes each answer in the same way,
//                        and on standard error how many samples were written, how often two codes were equally near and nearest of all,
//                        and how many samples were met exactly
//   sqv4_make --decode   texts and files in turn, each after its length: the original decodes each file, and what it gives must be
//                        the values that the plain writer chose for the text before it; prints how many files were decoded

mod sgu {
    pub mod sqv4;
}
use sgu::sqv4::{self, State, Variant};
use std::io::{self, Read, Write};

const MOST: usize = 1_048_576;

#[derive(Default)]
struct Counts {
    samples: u64,
    ties: u64,
    exact: u64,
}

/// A file and the values that were chosen for its samples.
struct Made {
    file: Vec<u8>,
    values: Vec<i16>,
}

struct Terms {
    variant: Variant,
    rate: u32,
    volume: u8,
    index: u8,
}

/// Plain decimal without leading zeros, a minus sign only before a number below zero.
fn numeral(text: &[u8], low: i64, high: i64) -> Option<i64> {
    let text = std::str::from_utf8(text).ok()?;
    let value: i64 = text.parse().ok()?;
    (value.to_string() == text && (low..=high).contains(&value)).then_some(value)
}

fn terms(line: &[u8]) -> Option<Terms> {
    let fields: Vec<&[u8]> = line.split(|&b| b == b',').collect();
    let [variant, rate, volume, index] = fields[..] else { return None };
    Some(Terms {
        variant: Variant::try_from(numeral(variant, 0, 2)? as u8).ok()?,
        rate: numeral(rate, 0, u32::MAX as i64)? as u32,
        volume: numeral(volume, 0, 255)? as u8,
        index: numeral(index, 0, 255)? as u8,
    })
}

/// What a text says, or the number of its first line that is none.
fn parse(text: &[u8]) -> Result<(Terms, Vec<i16>), usize> {
    let mut lines: Vec<&[u8]> = text.split(|&b| b == b'\n').collect();
    let rest = lines.pop().unwrap();
    let Some((first, others)) = lines.split_first() else { return Err(1) };
    let terms = terms(first).ok_or(1usize)?;
    let mut samples = Vec::new();
    for (place, line) in others.iter().enumerate() {
        samples.push(numeral(line, i16::MIN as i64, i16::MAX as i64).ok_or(place + 2)? as i16);
    }
    if rest.is_empty() { Ok((terms, samples)) } else { Err(lines.len() + 1) }
}

fn bits(variant: Variant) -> usize {
    if variant == Variant::H { 4 } else { 3 }
}

/// Of all codes the one whose value after volume is nearest to the sample, the first of several: the code, the state after it, the value.
fn choose<const COUNTED: bool>(terms: &Terms, state: State, sample: i16, counts: &mut Counts) -> (u8, State, i32) {
    let mut best = None;
    let mut least = i32::MAX;
    let mut again = false;
    for code in 0..1u8 << bits(terms.variant) {
        let mut next = state;
        let value = sqv4::apply_volume(sqv4::decode_code(3, terms.variant, &mut next, code), terms.volume as i32);
        let far = (value - sample as i32).abs();
        if far < least {
            best = Some((code, next, value));
            least = far;
            again = false;
        } else if COUNTED && far == least {
            again = true;
        }
    }
    if COUNTED {
        counts.samples += 1;
        counts.ties += again as u64;
        counts.exact += (least == 0) as u64;
    }
    best.unwrap()
}

fn write<const COUNTED: bool>(terms: &Terms, samples: &[i16], counts: &mut Counts) -> Made {
    let width = bits(terms.variant);
    let payload = if width == 4 { 32 } else { 24 };
    let mut file = sqv4::header_bytes(terms.variant, 1, terms.rate, samples.len() as u32).to_vec();
    let mut values = Vec::new();
    for fragment in samples.chunks(63) {
        let mut state = State { predictor: 0, index: terms.index as usize };
        let mut packed = vec![0u8; payload];
        for (place, &sample) in fragment.iter().enumerate() {
            let (code, next, value) = choose::<COUNTED>(terms, state, sample, counts);
            for bit in 0..width {
                packed[(place * width + bit) / 8] |= (code >> bit & 1) << (place * width + bit) % 8;
            }
            state = next;
            values.push(value as i16);
        }
        file.extend([terms.volume, terms.index]);
        file.extend(packed);
    }
    Made { file, values }
}

fn length(terms: &Terms, samples: usize) -> usize {
    samples.div_ceil(63) * if bits(terms.variant) == 4 { 34 } else { 26 } + 16
}

/// The file of a text, or the line that says why there is none.
fn make<const COUNTED: bool>(text: &[u8], counts: &mut Counts) -> Result<Made, String> {
    let (terms, samples) = parse(text).map_err(|line| format!("bad,{line},17\n"))?;
    if terms.rate == 0 || terms.volume == 0 || terms.index > 88 || samples.len() > u32::MAX as usize {
        return Err("refused,20\n".into());
    }
    if length(&terms, samples.len()) > MOST {
        return Err("refused,21\n".into());
    }
    Ok(write::<COUNTED>(&terms, &samples, counts))
}

fn answer<const COUNTED: bool>(text: &[u8], counts: &mut Counts) -> Vec<u8> {
    make::<COUNTED>(text, counts).map_or_else(String::into_bytes, |made| made.file)
}

fn parts(mut input: &[u8]) -> Vec<&[u8]> {
    let mut found = Vec::new();
    while let Some((length, rest)) = input.split_first_chunk::<4>() {
        let (part, behind) = rest.split_at(u32::from_le_bytes(*length) as usize);
        found.push(part);
        input = behind;
    }
    found
}

fn decode_all(input: &[u8]) {
    let mut decoded = 0;
    for (number, pair) in parts(input).chunks(2).enumerate() {
        let Ok(made) = make::<false>(pair[0], &mut Counts::default()) else { continue };
        match sqv4::decode(pair[1]) {
            Ok(audio) if audio.samples == made.values && audio.channels == 1 => decoded += 1,
            _ => {
                println!("file {number} does not decode to the values chosen");
                std::process::exit(1);
            }
        }
    }
    println!("{decoded}");
}

fn main() -> io::Result<()> {
    let mut input = Vec::new();
    io::stdin().lock().read_to_end(&mut input)?;
    let mut out = io::BufWriter::new(io::stdout().lock());
    let mut counts = Counts::default();
    match std::env::args().nth(1).as_deref() {
        Some("--decode") => decode_all(&input),
        Some("--batch") => {
            for text in parts(&input) {
                let made = answer::<true>(text, &mut counts);
                out.write_all(&(made.len() as u32).to_le_bytes())?;
                out.write_all(&made)?;
            }
            eprintln!("{} {} {}", counts.samples, counts.ties, counts.exact);
        }
        _ => out.write_all(&answer::<false>(&input, &mut counts))?,
    }
    out.flush()
}
