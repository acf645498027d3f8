//! How many pairs of bytes are compared where texts are compared from the back,
//! request W-203 of document 02, in its own words.

/// "Compare lengths first, then bytes from the last to the first." The pairs
/// compared: "none at unequal lengths, else up to and with the first unequal, or
/// all".
pub fn pairs_compared(a: &[u8], b: &[u8]) -> usize {
    if a.len() != b.len() {
        return 0;
    }
    let mut compared = 0;
    for at in (0..a.len()).rev() {
        compared += 1;
        if a[at] != b[at] {
            break;
        }
    }
    compared
}

/// The longest texts that [`summary`] counts.
const MOST: usize = 300;

/// The sum's modulus: the largest prime below 2 to the 32nd.
const MODULUS: u64 = 4_294_967_291;

/// What crates/vectors_pairs prints of the proved call: for each length the count
/// of equal texts, a sum over the counts with one unequal pair at each place, one
/// with all pairs in front of it unequal too, and the count of a text with its own
/// back.
pub fn summary() -> String {
    (0..=MOST).map(line).collect()
}

fn line(length: usize) -> String {
    let text: Vec<u8> = (0..length).map(|at| (at % 251) as u8).collect();
    let equal = pairs_compared(&text, &text);
    let one = sum(&text, |at| at..at + 1);
    let front = sum(&text, |at| 0..at + 1);
    let back = pairs_compared(&text, text.get(1..).unwrap_or_default());
    format!("{length} {equal} {one} {front} {back}\n")
}

/// The sum over the counts of a text and one with other bytes in a stretch, which
/// each place of the text gives.
fn sum(text: &[u8], stretch: fn(usize) -> std::ops::Range<usize>) -> u64 {
    let counts = (0..text.len()).map(|at| {
        let mut changed = text.to_vec();
        for byte in &mut changed[stretch(at)] {
            *byte = other(*byte);
        }
        pairs_compared(text, &changed)
    });
    counts.fold(0, |sum, count| (sum * 257 + count as u64 + 1) % MODULUS)
}

/// Another byte, in its highest bit or in its lowest ones.
fn other(byte: u8) -> u8 {
    match byte < 128 {
        true => byte + 128,
        false => byte - 127,
    }
}
