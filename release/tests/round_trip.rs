//! `show` and then `assemble`, over every record of the vectors: the new record has the same answers.
mod common;

use common::vectors::{pairs, records};
use menqachu::record::decode::commands;
use menqachu::record::parts::Parts;
use menqachu::record::room::{check_whole, list_whole};
use menqachu::record::Problem;
use menqachu::text::{assemble, show};
use menqachu::{owner, Owner, Side};

const OTHERS: usize = 20;

/// Readable records of the vectors to check others against: current ones, and released ones.
fn others() -> (Vec<Parts>, Vec<Parts>) {
    let pairs = pairs();
    let step = pairs.len() / (4 * OTHERS);
    let readable = |record: &Parts, side| list_whole(record.record(), side).0.number == 0;
    let some = pairs.iter().step_by(step.max(1));
    let current = some.clone().map(|pair| &pair.current).filter(|record| readable(record, Side::Current));
    let released = some.map(|pair| &pair.released).filter(|record| readable(record, Side::Released));
    (current.take(OTHERS).cloned().collect(), released.take(OTHERS).cloned().collect())
}

/// Holds every answer of a record to that of the one that was assembled again.
fn same_answers(one: &Parts, again: &Parts, current: &[Parts], released: &[Parts]) {
    for side in [Side::Current, Side::Released] {
        assert_eq!(list_whole(one.record(), side), list_whole(again.record(), side));
    }
    for other in released {
        let answers = [one, again].map(|record| check_whole(record.record(), other.record()));
        assert_eq!(answers[0], answers[1]);
    }
    for other in current {
        let answers = [one, again].map(|record| check_whole(other.record(), record.record()));
        assert_eq!(answers[0], answers[1]);
    }
}

/// The name of the owner, or the refusal, for a name in a record.
fn owner_of(record: &Parts, name: &[u8]) -> Result<Option<Vec<u8>>, (u32, usize)> {
    match owner(record.record(), name) {
        Owner::Named { start, len } => Ok(Some(record.pool[start..start + len].to_vec())),
        Owner::Nobody => Ok(None),
        Owner::Refused { number, place } => Err((number, place)),
    }
}

/// Holds the owners of all that a record names to those of the one that was assembled again.
fn same_owners(one: &Parts, again: &Parts) {
    for said in commands(one.record()).expect("a record that was shown") {
        for text in (0..said.values.len()).filter_map(|index| said.text(index)) {
            assert_eq!(owner_of(one, text), owner_of(again, text));
        }
    }
}

fn shown_again(record: &Parts) -> Option<Parts> {
    match show(record.record()) {
        Ok(text) => Some(assemble(text.as_bytes()).unwrap_or_else(|fault| panic!("{fault} of:\n{text}"))),
        Err(Problem::Refused(answer)) => {
            assert!((1..=8).contains(&answer.number), "{answer:?}");
            assert_eq!(list_whole(record.record(), Side::Released).0, answer);
            None
        }
        Err(problem) => panic!("{problem:?}"),
    }
}

#[test]
fn every_record_of_the_vectors() {
    let records = records();
    let (current, released) = others();
    assert_eq!((current.len(), released.len()), (OTHERS, OTHERS));
    let half = records.len().div_ceil(2);
    let judge = |records: &[Parts]| {
        let mut shown = 0;
        for record in records {
            if let Some(again) = shown_again(record) {
                same_answers(record, &again, &current, &released);
                if shown % 10 == 0 {
                    same_owners(record, &again);
                }
                assert_eq!(again.stream.len(), record.stream.len());
                assert_eq!(show(again.record()), show(record.record()), "the text of the new record");
                shown += 1;
            }
        }
        shown
    };
    let shown: usize = std::thread::scope(|scope| {
        let judge = &judge;
        let halves: Vec<_> = records.chunks(half).map(|part| scope.spawn(move || judge(part))).collect();
        halves.into_iter().map(|half| half.join().expect("a half")).sum()
    });
    assert!(shown > 4000, "{shown} records were shown");
}
