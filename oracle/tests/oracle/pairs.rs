//! The pairs compared from the back, by the findings on W-203.

use oracle::generate::slices::{MOST, slices};
use oracle::pairs::pairs_compared;
use oracle::rng::Rng;

#[test]
fn w203_1_the_count() {
    for (a, b, count) in [
        ("", "", 0),
        ("a", "", 0),
        ("tile", "tiles", 0),
        ("tile", "tile", 4),
        ("tile", "pile", 4),
        ("tile", "till", 1),
        ("tile", "tale", 3),
        ("tile", "tire", 2),
    ] {
        assert_eq!(pairs_compared(a.as_bytes(), b.as_bytes()), count, "{a} {b}");
        assert_eq!(pairs_compared(b.as_bytes(), a.as_bytes()), count, "{b} {a}");
    }
}

/// The two bytes of µ and õ end alike, and a text is counted beyond 255 bytes.
#[test]
fn w203_2_bytes_of_any_length() {
    assert_eq!(pairs_compared("µ".as_bytes(), "õ".as_bytes()), 2);
    assert_eq!(pairs_compared("µm".as_bytes(), "µm".as_bytes()), 3);
    let long = vec![b'x'; 70_000];
    let mut other = long.clone();
    other[0] = b'y';
    assert_eq!(pairs_compared(&long, &long), 70_000);
    assert_eq!(pairs_compared(&long, &other), 70_000);
    other[0] = b'x';
    other[69_000] = b'y';
    assert_eq!(pairs_compared(&long, &other), 1_000);
}

/// A text that is the other's back is another text, of which no pair is compared.
#[test]
fn w203_4_a_back_is_another_text() {
    for front in 1..300 {
        let whole = [vec![b'f'; front], b"back".to_vec()].concat();
        assert_eq!(pairs_compared(&whole, b"back"), 0, "{front}");
    }
}

/// Drawn pairs reach every sort: unequal lengths, equal, and common backs from
/// none to hundreds of bytes; and the count tells equal from unequal.
#[test]
fn slices_of_every_sort() {
    let mut rng = Rng::new(203);
    let mut counts = [0; 6];
    for _ in 0..5_000 {
        let [a, b] = slices(&mut rng);
        assert!(a.len() <= MOST && b.len() <= MOST);
        let compared = pairs_compared(&a, &b);
        let back = (a.iter().rev().zip(b.iter().rev())).take_while(|(x, y)| x == y);
        let back = back.count();
        let sort = match (a.len() == b.len(), a == b) {
            (false, _) => (0, 0),
            (_, true) => (1, a.len()),
            (_, false) if back == 0 => (2, 1),
            (_, false) if back < 8 => (3, back + 1),
            (_, false) if back < 255 => (4, back + 1),
            _ => (5, back + 1),
        };
        assert_eq!(compared, sort.1, "{a:?} {b:?}");
        counts[sort.0] += 1;
    }
    assert!(counts.iter().all(|&count| count > 200), "{counts:?}");
}

/// The lines that the proved call is held to: those of the shortest texts, by hand.
#[test]
fn the_lines_of_the_summary() {
    let summary = oracle::pairs::summary();
    let lines: Vec<&str> = summary.lines().collect();
    assert_eq!(lines.len(), 301);
    // One pair counts 1; of two the first is reached second: (2 + 1) * 257 + 1 + 1.
    assert_eq!(lines[..3], ["0 0 0 0 0", "1 1 2 2 0", "2 2 773 773 0"]);
    for (length, line) in lines.iter().enumerate() {
        let numbers: Vec<&str> = line.split(' ').collect();
        let whole = length.to_string();
        assert_eq!([numbers[0], numbers[1], numbers[4]], [&whole, &whole, "0"]);
        assert_eq!(numbers[2], numbers[3], "the pairs in front are not reached");
    }
}
