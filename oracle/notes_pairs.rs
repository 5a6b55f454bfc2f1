// The port's side of compare_notes: note,semitones,frequency for each of the 65,536 pairs, by the proved function of the static
// library notes_c, which `rt lib` makes.

#[link(name = "notes", kind = "static")]
unsafe extern "C" {
    safe fn frequency(note: u8, semitones: i8) -> u16;
}

fn main() {
    for note in 0..=255u8 {
        for semitones in -128..=127i8 {
            println!("{note},{semitones},{}", frequency(note, semitones));
        }
    }
}
