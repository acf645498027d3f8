//! The packed files and the samples, read back and asked again.

use std::collections::BTreeMap;

use oracle::edits::{Edit, count, edit};
use oracle::generate::encode::Encoded;
use oracle::reader::{LONG, read};
use oracle::shelf::{Row, Shelf};
use oracle::verdicts::{FIRST_VERDICT, LAST_VERDICT};
use oracle::{Side, draft_vectors, samples, shelf, shelf_vectors, vectors};
use serde_json::Value as Json;

/// A packed file being read.
struct File {
    bytes: Vec<u8>,
    at: usize,
}

impl File {
    fn new(bytes: Vec<u8>) -> Self {
        File { bytes, at: 0 }
    }

    fn more(&self) -> bool {
        self.at < self.bytes.len()
    }

    fn take(&mut self, count: usize) -> Vec<u8> {
        self.at += count;
        self.bytes[self.at - count..self.at].to_vec()
    }

    fn byte(&mut self) -> u32 {
        self.take(1)[0].into()
    }

    fn word(&mut self) -> u32 {
        u32::from_le_bytes(self.take(4).try_into().expect("four bytes"))
    }

    fn part(&mut self) -> Vec<u8> {
        let length = self.word() as usize;
        self.take(length)
    }

    fn side(&mut self) -> Side {
        match self.byte() {
            0 => Side::Current,
            _ => Side::Released,
        }
    }
}

#[test]
fn the_file_of_records_holds_every_refusal() {
    let mut file = File::new(vectors::records(1, 1_500, vectors::LONGS));
    let mut counts: BTreeMap<u32, usize> = BTreeMap::new();
    let mut sizes = Vec::new();
    while file.more() {
        let (stream, pool) = (file.part(), file.part());
        let (side, number, place) = (file.side(), file.byte(), file.word());
        let (again, there) = match read(side, &stream, &pool) {
            Ok(_) => (0, 0),
            Err(refusal) => (refusal.number, refusal.place),
        };
        assert_eq!((number, place as usize), (again, there));
        *counts.entry(number).or_default() += 1;
        sizes.push(stream.len());
    }
    sizes.sort();
    assert_eq!(sizes.len(), 1_500);
    assert!(sizes[750] < 200);
    assert!(file.bytes.len() < 700_000);
    for number in (1..=9).filter(|number| *number != LONG) {
        assert!(counts[&number] >= 50, "{number}: {counts:?}");
    }
    assert!(counts[&LONG] >= vectors::LONGS);
}

#[test]
fn the_file_of_owners_holds_every_answer() {
    let mut file = File::new(vectors::owners(1, 400));
    let mut counts = [0; 3];
    while file.more() {
        let (stream, pool, name) = (file.part(), file.part(), file.part());
        let (answer, a, b) = (file.byte(), file.word(), file.word());
        let again = oracle::owner(&stream, &pool, &name).numbers();
        assert_eq!((answer, a, b), (again.0.into(), again.1, again.2));
        counts[answer as usize] += 1;
    }
    assert!(counts.iter().all(|&count| count >= 10), "{counts:?}");
}

#[test]
fn the_file_of_lists_holds_every_number() {
    let mut file = File::new(vectors::lists(1, 500));
    let mut counts: BTreeMap<u32, usize> = BTreeMap::new();
    while file.more() {
        let (stream, pool) = (file.part(), file.part());
        let (side, room) = (file.side(), file.word() as usize);
        let [number, answered, place, length] = [(); 4].map(|()| file.word());
        let again = oracle::list(&stream, &pool, side, room);
        assert_eq!((number, answered), (again.number, again.side));
        assert_eq!((place, length), (again.place, again.length));
        if number == 0 {
            assert_eq!(file.take(length as usize), again.text.as_bytes());
        }
        *counts.entry(number).or_default() += 1;
    }
    assert!((0..=10).all(|number| counts[&number] >= 5), "{counts:?}");
}

#[test]
fn the_file_of_checks_holds_every_number_on_each_side() {
    let mut file = File::new(vectors::checks(1, 3_000));
    let mut counts: BTreeMap<(u32, u32), usize> = BTreeMap::new();
    let mut full = 0;
    while file.more() {
        let [a, b, c, d] = [(); 4].map(|()| file.part());
        let room = file.word() as usize;
        let [number, side, place, length] = [(); 4].map(|()| file.word());
        let again = oracle::check(&a, &b, &c, &d, room);
        assert_eq!((number, side), (again.number, again.side));
        assert_eq!((place, length), (again.place, again.length));
        if (FIRST_VERDICT..=LAST_VERDICT).contains(&number) {
            assert_eq!(file.take(length as usize), again.text.as_bytes());
            full += usize::from(length as usize == room);
        }
        *counts.entry((number, side)).or_default() += 1;
    }
    let enough = |key| assert!(counts.get(&key).is_some_and(|&n| n >= 40), "{key:?}");
    (FIRST_VERDICT..=LAST_VERDICT).for_each(|number| enough((number, 0)));
    (1..=9).for_each(|number| {
        [0, 1]
            .map(|side| (number, side))
            .into_iter()
            .for_each(enough)
    });
    enough((0, 0));
    enough((10, 0));
    assert!(full >= 40, "{full}");
}

#[test]
fn the_file_of_pointers_holds_every_number() {
    let mut file = File::new(vectors::pointers(1, 700));
    let mut counts: BTreeMap<u32, usize> = BTreeMap::new();
    while file.more() {
        let (stream, pool) = (file.part(), file.part());
        let (number, place) = (file.byte(), file.word());
        let again = oracle::pointers(&stream, &pool);
        assert_eq!((number, place), (again.number, again.place));
        assert_eq!((again.side, again.length), (0, 0));
        *counts.entry(number).or_default() += 1;
    }
    assert!(file.bytes.len() < 500_000);
    for number in [0, 1, 2, 3, 4, 5, 6, 7, 9, 59, 60] {
        assert!(counts[&number] >= 40, "{number}: {counts:?}");
    }
    assert!(counts[&LONG] >= 2);
}

#[test]
fn the_file_of_drafts_holds_every_number() {
    let mut file = File::new(draft_vectors::drafts(1, 600));
    let mut counts = BTreeMap::new();
    while file.more() {
        let (call, given) = (file.byte(), file.word() as usize);
        let answer = [(); 5].map(|()| file.word());
        let [buffer, stream, pool] = [(); 3].map(|()| file.part());
        let copy = Encoded {
            stream: file.part(),
            pool: file.part(),
        };
        let front = file.part();
        let edited = match call {
            0 => count(&buffer, &copy),
            1 => edit(given, &buffer, &Edit::Add(Encoded { stream, pool }), &copy),
            _ => edit(given, &buffer, &Edit::Remove(stream), &copy),
        };
        let places = [edited.place, edited.length, edited.changed].map(|n| n as u32);
        assert_eq!(
            [&[edited.number, edited.side], &places[..]].concat(),
            answer
        );
        assert_eq!(edited.buffer, [&front, &buffer[front.len()..]].concat());
        *counts.entry(edited.number).or_insert(0) += 1;
    }
    let numbers = (0..=10).chain([55, 56]);
    assert!(
        numbers.into_iter().all(|number| counts[&number] >= 40),
        "{counts:?}"
    );
}

#[test]
fn the_file_of_shelves_holds_every_number() {
    let mut file = File::new(shelf_vectors::shelves(1, 600));
    let mut counts: BTreeMap<(u32, u32, u32), usize> = BTreeMap::new();
    while file.more() {
        let call = file.byte();
        let answer = [(); 5].map(|()| file.word());
        let [given, after, name, draft, held, stream, pool, front] = [(); 8].map(|()| file.part());
        let shelf = shelf_of(&given);
        let copy = Encoded { stream, pool };
        let (again, before) = match call {
            0 => (shelf::set(&shelf, &name, &draft, &held), &held),
            _ => (shelf::back(&shelf, &name, &draft, &held, &copy), &draft),
        };
        let places = [again.place, again.length, again.changed].map(|n| n as u32);
        assert_eq!([&[again.number, again.side], &places[..]].concat(), answer);
        assert_eq!(shelf_of(&after), again.shelf);
        let written = [&front, &before[front.len()..]].concat();
        match call {
            0 => assert_eq!((again.held, again.draft), (written, draft)),
            _ => assert_eq!((again.draft, again.held), (written, held)),
        }
        *counts.entry((call, again.number, again.side)).or_default() += 1;
    }
    assert!(file.bytes.len() < 1_000_000);
    let of = |number: u32| -> usize {
        let counts = counts.iter().filter(|((_, of, _), _)| *of == number);
        counts.map(|(_, count)| count).sum()
    };
    assert!(
        [0, 10, 57, 58].iter().all(|&number| of(number) >= 40),
        "{counts:?}"
    );
    for number in 1..=9 {
        let long = if number == LONG { 2 } else { 8 };
        assert!(counts[&(0, number, 0)] >= 8 && counts[&(1, number, 0)] >= 8);
        assert!(counts[&(1, number, 1)] >= long, "{number}: {counts:?}");
    }
}

/// A shelf from the bytes of its struct.
fn shelf_of(bytes: &[u8]) -> Shelf {
    let number = |at: usize| {
        let bytes = bytes[at..at + 8].try_into().expect("eight bytes");
        u64::from_le_bytes(bytes) as usize
    };
    std::array::from_fn(|row| Row {
        name: bytes[16 * row..16 * row + 16]
            .try_into()
            .expect("sixteen bytes"),
        name_len: number(128 + 8 * row),
        start: number(192 + 8 * row),
        len: number(256 + 8 * row),
    })
}

/// The bytes of a hexadecimal text.
fn unhex(text: &Json) -> Vec<u8> {
    let digits = text.as_str().expect("a text").as_bytes().chunks(2);
    digits
        .map(|two| {
            let two = std::str::from_utf8(two).expect("digits");
            u8::from_str_radix(two, 16).expect("digits")
        })
        .collect()
}

fn field(line: &Json, name: &str) -> u32 {
    let number = line[name].as_u64().expect("a number");
    u32::try_from(number).expect("32 bits")
}

#[test]
fn samples_hold_every_number_and_are_small() {
    let mut numbers = BTreeMap::new();
    for line in samples::pairs(1, 2) {
        let line: Json = serde_json::from_str(&line).expect("a line is JSON");
        let parts = ["cur_stream", "cur_pool", "rel_stream", "rel_pool"];
        let [a, b, c, d] = parts.map(|part| unhex(&line[part]));
        let answer = oracle::check(&a, &b, &c, &d, field(&line, "room") as usize);
        let number = field(&line, "number");
        assert_eq!((number, field(&line, "side")), (answer.number, answer.side));
        assert_eq!(
            (field(&line, "place"), field(&line, "length")),
            (answer.place, answer.length)
        );
        assert_eq!(line["text"].as_str(), Some(answer.text.as_str()));
        assert!(number == LONG || a.len().max(c.len()) < 150, "{line}");
        *numbers.entry(number).or_insert(0) += 1;
    }
    let every: BTreeMap<u32, i32> = (0..=LAST_VERDICT).map(|number| (number, 2)).collect();
    assert_eq!(numbers, every);
}

#[test]
fn samples_of_lists_and_owners_answer_again() {
    for line in samples::lists(1, 2) {
        let line: Json = serde_json::from_str(&line).expect("a line is JSON");
        let side = [Side::Current, Side::Released][field(&line, "read_as") as usize];
        let (stream, pool) = (unhex(&line["stream"]), unhex(&line["pool"]));
        let answer = oracle::list(&stream, &pool, side, field(&line, "room") as usize);
        assert_eq!(
            (field(&line, "number"), field(&line, "side")),
            (answer.number, answer.side)
        );
        assert_eq!(
            (field(&line, "place"), field(&line, "length")),
            (answer.place, answer.length)
        );
        assert_eq!(line["text"].as_str(), Some(answer.text.as_str()));
    }
    for line in samples::owners(1, 4) {
        let line: Json = serde_json::from_str(&line).expect("a line is JSON");
        let parts = ["stream", "pool", "name"].map(|part| unhex(&line[part]));
        let (answer, a, b) = oracle::owner(&parts[0], &parts[1], &parts[2]).numbers();
        assert_eq!(field(&line, "answer"), u32::from(answer));
        assert_eq!((field(&line, "a"), field(&line, "b")), (a, b));
    }
}
