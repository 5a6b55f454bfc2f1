// What the Rattle program s3w2_notes prints, printed by the original: `frequency` of music/stream.rs without base note and rate. The
// function is private there and its module takes the whole of the studio's sources, so build copies the function's text to frequency.rs.
//
//   s3w2_notes            sum,frequency for each sum of note and semitones, -128 to 382
//   s3w2_notes --pairs    note,semitones,frequency for each of the 65,536 pairs

include!("frequency.rs");

fn main() {
    if std::env::args().nth(1).as_deref() == Some("--pairs") {
        for note in 0..=255u8 {
            for semitones in -128..=127i8 {
                println!("{note},{semitones},{}", frequency(note, semitones, None, None));
            }
        }
        return;
    }
    for sum in -128..=382i32 {
        let note = sum.clamp(0, 255);
        println!("{sum},{}", frequency(note as u8, (sum - note) as i8, None, None));
    }
}
