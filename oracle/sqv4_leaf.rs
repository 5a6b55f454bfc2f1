// What the Rattle program sqv4_leaf prints, printed by the original. Where a call panics, `panics` stands behind its two numbers: they and
// the samples are then what the call had stored before.

mod sgu {
    pub mod sqv4;
}
use sgu::sqv4::{self, State, Variant};
use std::io::{self, Read, Write};
use std::panic::{AssertUnwindSafe, catch_unwind};

const CALL: usize = 256;
const NUMBERS: usize = 64;

fn number(call: &[u8], k: usize) -> usize {
    usize::from_le_bytes(call[8 * k..8 * k + 8].try_into().unwrap())
}

/// Makes a call: what it gives, or what it leaves where it panics.
fn answer(call: &[u8], out: &mut [i16]) -> (usize, usize, bool) {
    let version = call[8];
    let variant = Variant::try_from(call[16]).unwrap();
    let mut state = State { predictor: number(call, 3) as u16 as i16 as i32, index: number(call, 4) };
    let slice = &call[NUMBERS..NUMBERS + number(call, 6)];
    let mut code = 0;
    let made = catch_unwind(AssertUnwindSafe(|| match call[0] {
        0 => code = sqv4::unpack_code(slice, number(call, 3), number(call, 4)),
        1 => assert_eq!(sqv4::decode_code(version, variant, &mut state, call[40]), state.predictor),
        2 => sqv4::decode_fragment(variant, slice, out),
        _ => sqv4::decode_legacy_fragment(version, variant, &mut state, slice, out),
    }));
    let panics = made.is_err();
    if call[0] == 0 { (code as usize, 0, panics) } else { (state.predictor as u16 as usize, state.index, panics) }
}

fn main() -> io::Result<()> {
    std::panic::set_hook(Box::new(|_| {}));
    let mut input = Vec::new();
    io::stdin().lock().read_to_end(&mut input)?;
    let mut out = io::BufWriter::new(io::stdout().lock());
    for call in input.chunks_exact(CALL) {
        let mut samples = vec![12345i16; number(call, 7)];
        let (first, second, panics) = answer(call, &mut samples);
        writeln!(out, ",{first},{second}{}", if panics { ",panics" } else { "" })?;
        for sample in samples {
            writeln!(out, "{sample}")?;
        }
    }
    out.flush()
}
