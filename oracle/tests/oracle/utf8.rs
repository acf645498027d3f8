//! Pools of UTF-8, by the findings on W-206.

use oracle::answers::ROOM;
use oracle::generate::encode::Encoded;
use oracle::generate::findings::utf8;
use oracle::generate::sequences::{character, ill_formed, row_of};
use oracle::reader::{Refusal, judged_pool, read};
use oracle::rng::Rng;
use oracle::{Owner, Side, utf8_vectors};

/// What every fixed record of this label gets, number and place, on all its sides.
fn refusals(label: &str) -> Vec<(u32, usize)> {
    let mut found = Vec::new();
    for fixed in utf8::records() {
        if fixed.label == label {
            found.extend((fixed.sides.iter()).map(|&side| answer(&fixed.record, side)));
        }
    }
    assert!(!found.is_empty(), "{label} is no label");
    found
}

/// Number and place; 0 and 0 for a record that can be read.
fn answer(record: &Encoded, side: Side) -> (u32, usize) {
    match read(side, &record.stream, &record.pool) {
        Ok(_) => (0, 0),
        Err(Refusal { number, place }) => (number, place),
    }
}

/// That all records of these labels get these numbers and places.
fn assert_all(cases: &[(&str, (u32, usize))]) {
    for (label, expected) in cases {
        let found = refusals(label);
        assert!(found.iter().all(|a| a == expected), "{label}: {found:?}");
    }
}

#[test]
fn w206_1_the_first_byte_of_the_first() {
    assert_all(&[
        ("w206.1 a third byte that does not fit", (7, 6)),
        ("w206.1 a fourth byte that does not fit", (7, 6)),
        ("w206.1 a control byte in place of a tail", (7, 6)),
        ("w206.1 a control byte before a stray tail", (7, 5)),
        ("w206.1 a stray tail before a control byte", (7, 5)),
        ("w206.1 a control byte behind a sequence", (7, 7)),
        ("w206.1 a tail too many", (7, 7)),
        ("w206.1 a lead byte before a sequence", (7, 5)),
    ]);
}

/// The place that number 7 is given for, by the rows of the RFC's table.
fn odd_place(pool: &[u8]) -> Option<usize> {
    let mut at = 0;
    while at < pool.len() {
        at += match pool[at] {
            0x20..=0x7E => 1,
            first => match row_of(first) {
                Some(row) if fits(&pool[at..], row.second, row.length) => row.length,
                _ => return Some(at),
            },
        };
    }
    None
}

fn fits(bytes: &[u8], (low, high): (u8, u8), length: usize) -> bool {
    let Some(tails) = bytes.get(1..length) else {
        return false;
    };
    (low..=high).contains(&tails[0]) && tails.iter().all(|tail| (0x80..=0xBF).contains(tail))
}

/// Rust's decoder and the table agree on every row at its edges, on both sides.
#[test]
fn w206_2_the_rows_of_the_table() {
    let mut counts = [0; 2];
    for fixed in utf8::records() {
        let found = judged_pool(&fixed.record.pool).err().map(|r| r.place);
        assert_eq!(found, odd_place(&fixed.record.pool), "{fixed:?}");
        if fixed.label == "w206.2 a row of the table" {
            assert_eq!(fixed.sides.len(), 1);
            counts[usize::from(found.is_some())] += 1;
        }
    }
    assert!(counts[0] > 200 && counts[1] > 1_000, "{counts:?}");
    assert_all(&[
        ("w206.2 a full pool of four-byte characters", (0, 0)),
        ("w206.2 a full pool that ends in a cut", (7, 16_381)),
        ("w206.2 a full pool of two-byte characters", (0, 0)),
        ("w206.2 a full pool that ends in a tail", (7, 16_383)),
    ]);
}

/// And on drawn pools of sequences, whole and not.
#[test]
fn w206_2_drawn_pools() {
    let mut rng = Rng::new(206);
    let mut odd = 0;
    for _ in 0..20_000 {
        let mut pool = Vec::new();
        for _ in 0..rng.below(6) {
            pool.extend(vec![b'x'; rng.below(20)]);
            match rng.below(8) {
                0 => pool.extend(ill_formed(&mut rng)),
                1 => pool.push(rng.draw() as u8),
                _ => pool.extend(character(&mut rng).bytes()),
            }
        }
        let found = judged_pool(&pool).err().map(|r| r.place);
        assert_eq!(found, odd_place(&pool), "{pool:?}");
        odd += usize::from(found.is_some());
    }
    assert!((5_000..15_000).contains(&odd), "{odd}");
}

#[test]
fn w206_3_let_through() {
    assert_all(&[("w206.3 a character let through", (0, 0))]);
    assert_eq!(refusals("w206.3 a character let through").len(), 22);
}

#[test]
fn w206_4_before_the_commands() {
    assert_all(&[
        ("w206.4 a stray tail before an unknown command", (7, 5)),
        ("w206.4 an ill-formed pool that is too long", (8, 0)),
    ]);
}

#[test]
fn w206_5_4_in_its_turn() {
    assert_all(&[
        ("w206.5 a text inside a sequence in a cut command", (1, 5)),
        ("w206.5 a misplaced command with a text inside", (3, 5)),
        ("w206.5 4 before 5 and 6", (4, 5)),
        ("w206.5 4 before 6", (4, 5)),
        ("w206.5 an unused text inside", (4, 5)),
        ("w206.5 a used text inside", (4, 5)),
        ("w206.5 a text of the head", (4, 0)),
    ]);
    let texts = refusals("w206.5 a text of a command");
    assert_eq!(texts.len(), 2 * 3 * 31);
    assert!(texts.iter().all(|(number, _)| *number == 4), "{texts:?}");
}

/// Texts at the pool's end, and every stretch: readable exactly if it is a string
/// of whole characters.
#[test]
fn w206_6_7_stretches() {
    assert_all(&[
        ("w206.6 a text up to the pool's end", (0, 0)),
        ("w206.6 an empty text at the pool's end", (0, 0)),
        ("w206.6 a text past the pool's end", (4, 5)),
        ("w206.6 an empty text past the pool's end", (4, 5)),
        ("w206.7 an empty text before a sequence", (0, 0)),
        ("w206.7 an empty text inside a sequence", (4, 5)),
    ]);
    let mut counts = [0; 2];
    for fixed in utf8::records() {
        if fixed.label != "w206.6 a stretch of the pool" {
            continue;
        }
        let Encoded { stream, pool } = &fixed.record;
        let (start, length) = (stream[6] as usize, stream[8] as usize);
        let text = std::str::from_utf8(pool).expect("well-formed");
        let whole = text.get(start..start + length).is_some();
        let expected = if whole { (0, 0) } else { (4, 5) };
        assert_eq!(
            answer(&fixed.record, Side::Current),
            expected,
            "{start} {length}"
        );
        counts[usize::from(whole)] += 1;
    }
    assert_eq!(counts, [114, 21]);
}

#[test]
fn w206_8_lengths_in_bytes() {
    assert_all(&[
        ("w206.8 255 bytes of two-byte characters", (0, 0)),
        ("w206.8 255 bytes of three-byte characters", (0, 0)),
        ("w206.8 255 bytes of four-byte characters", (0, 0)),
        ("w206.8 255 bytes that end inside", (4, 5)),
    ]);
}

/// The number and text of a fixed pair.
fn verdict(label: &str) -> (u32, String) {
    let pairs = utf8::pairs();
    let found = pairs.into_iter().find(|pair| pair.label == label);
    let pair = found.unwrap_or_else(|| panic!("{label} is no label"));
    let answer = pair.encoded().check(ROOM);
    assert_eq!(answer.length as usize, answer.text.len(), "{label}");
    (answer.number, answer.text)
}

#[test]
fn w206_9_names_are_their_bytes() {
    for (label, number) in [
        ("w206.9 names in five scripts", 0),
        ("w206.9 a ring that was one character", 34),
        ("w206.9 an angstrom that was a letter", 34),
        ("w206.9 a letter that was an angstrom", 34),
        ("w206.9 a mu that was a micro", 34),
        ("w206.9 a type in another spelling", 33),
        ("w206.9 a value renamed", 24),
        ("w206.9 a field resized", 36),
        ("w206.9 a field redescribed", 37),
        ("w206.9 a constant changed", 21),
        ("w206.9 a generation not raised", 43),
        ("w206.9 a variant in another spelling", 33),
    ] {
        let (found, text) = verdict(label);
        assert_eq!(found, number, "{label}: {text}");
        assert_eq!(text.is_ascii(), number == 0, "{text}");
    }
    let (_, text) = verdict("w206.9 a field resized");
    assert!(text.starts_with("Ångström.µm "), "{text}");
}

/// U+FFFF comes before U+10000, as its bytes do, and not after it as in UTF-16.
#[test]
fn w206_9_byte_order() {
    let lists = utf8::lists();
    let record = lists[0].encoded();
    let answer = oracle::list(&record.stream, &record.pool, Side::Current, ROOM);
    let types = answer.text.lines().map(|line| line.split('.').next());
    let types: Vec<&str> = types.map(|name| name.expect("a type")).collect();
    let ordered = [
        "A\u{30a}",
        "B",
        "a",
        "\u{80}",
        "\u{b5}",
        "\u{c5}",
        "\u{3bc}",
        "\u{7ff}",
        "\u{212b}",
        "\u{ffff}",
        "\u{10000}",
        "\u{1f52c}",
    ];
    assert_eq!(types, ordered);
}

#[test]
fn w206_9_owners_by_bytes() {
    let fixed = &utf8::questions()[0];
    let owned = fixed.questions().into_iter().map(|question| {
        let record = &question.record;
        !matches!(
            oracle::owner(&record.stream, &record.pool, &question.name),
            Owner::None
        )
    });
    let owned: Vec<bool> = owned.collect();
    assert_eq!(owned, [true, false, true, false, false, true, false]);
}

/// The same seed gives the same files, in which each case has characters beyond
/// ASCII or is one of the fixed ones; a file that is replayed has not moved.
#[test]
fn files_of_cases() {
    type File = fn(u64, usize) -> Vec<u8>;
    let files: [(&str, File); 6] = [
        ("record", utf8_vectors::records),
        ("owner", utf8_vectors::owners),
        ("list", utf8_vectors::lists),
        ("check", utf8_vectors::checks),
        ("pointers", utf8_vectors::pointers),
        ("draft", utf8_vectors::drafts),
    ];
    for (kind, file) in files {
        let bytes = file(7, 40);
        assert!(bytes == file(7, 40), "{kind}");
        let replayed = oracle::replay::replay(kind, &bytes).expect("a kind");
        assert!(replayed.said.ends_with(" cases, 0 moved\n"), "{kind}");
        assert!(replayed.file == bytes, "{kind}");
    }
}

/// A case with another answer is told, with the answer it had and the one it has.
#[test]
fn a_moved_case_is_told() {
    let mut file = utf8_vectors::records(7, 0);
    let at = file.len() - 4;
    file[at] += 1;
    let replayed = oracle::replay::replay("record", &file).expect("a kind");
    assert!(
        replayed.said.contains(": was 8 1, is 8 0\n"),
        "{}",
        replayed.said
    );
    assert!(replayed.said.ends_with(" cases, 1 moved\n"));
    assert!(oracle::replay::replay("records", &file).is_none());
}
