// What the Rattle programs sqv4_dump and sqv4_vectors print, printed by the original decoder.
//
//   sqv4_dump            one file on standard input
//   sqv4_dump --batch    any number of files on standard input, each after its length in 4 bytes, low byte first

mod sgu {
    pub mod sqv4;
}
use sgu::sqv4::{self, Error, Header};
use std::io::{self, Read, Write};

/// The longest file of a batch, and the longest one by itself.
const MOST: usize = 1_048_576;
const MOST_ALONE: usize = 16_777_216;

/// The number of document 01's table, with its values.
fn refusal(error: &Error) -> Vec<usize> {
    match *error {
        Error::TruncatedHeader => vec![4],
        Error::InvalidMagic => vec![5],
        Error::UnsupportedVersion(value) => vec![6, value as usize],
        Error::InvalidVariant(value) => vec![7, value as usize],
        Error::InvalidChannels(value) => vec![8, value as usize],
        Error::InvalidReservedByte(value) => vec![9, value as usize],
        Error::ZeroSampleRate => vec![10],
        Error::InvalidFileLength { expected, actual } => vec![11, expected, actual],
        Error::InvalidStepIndex(index) => vec![12, index as usize],
        Error::NonZeroPadding => vec![13],
        Error::MisalignedInterleavedSamples | Error::TooManySamples | Error::SizeOverflow => {
            unreachable!("{error:?} is no answer of the file check")
        }
    }
}

fn accepted(header: &Header, samples: &[i16], out: &mut impl Write) -> io::Result<()> {
    writeln!(
        out,
        "file,{},{},{},{},{}",
        header.version,
        header.variant as u8,
        header.channels,
        header.sample_rate,
        header.samples_per_channel
    )?;
    for sample in samples {
        writeln!(out, "{sample}")?;
    }
    Ok(())
}

fn refused(error: &Error, out: &mut impl Write) -> io::Result<()> {
    write!(out, "refused")?;
    for value in refusal(error) {
        write!(out, ",{value}")?;
    }
    writeln!(out)
}

fn dump(data: &[u8], most: usize, out: &mut impl Write) -> io::Result<()> {
    if data.len() > most {
        return writeln!(out, "too long");
    }
    match (sqv4::inspect(data), sqv4::decode(data)) {
        (Ok(header), Ok(audio)) => accepted(&header, &audio.samples, out),
        (Err(error), Err(again)) if error == again => refused(&error, out),
        _ => panic!("inspect and decode do not agree"),
    }
}

/// Every file of a batch, up to one that is too long or that the end of the input cuts short.
fn batch(input: &[u8], out: &mut impl Write) -> io::Result<()> {
    let mut rest = input;
    while !rest.is_empty() {
        let Some((length, after)) = rest.split_first_chunk::<4>() else {
            return writeln!(out, "cut short");
        };
        let length = u32::from_le_bytes(*length) as usize;
        if length > MOST {
            return writeln!(out, "too long");
        }
        if after.len() < length {
            return writeln!(out, "cut short");
        }
        dump(&after[..length], MOST, out)?;
        rest = &after[length..];
    }
    Ok(())
}

fn main() -> io::Result<()> {
    let mut input = Vec::new();
    io::stdin().lock().read_to_end(&mut input)?;
    let mut out = io::BufWriter::new(io::stdout().lock());
    if std::env::args().nth(1).as_deref() == Some("--batch") {
        batch(&input, &mut out)?;
    } else {
        dump(&input, MOST_ALONE, &mut out)?;
    }
    out.flush()
}
