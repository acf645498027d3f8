//! Look-ups of the fixed cases by their labels.

use oracle::answers::{Owner, ROOM};
use oracle::generate::findings::{self, lists, owners, records};
use oracle::reader::{Record, Refusal, read};
use oracle::{Answer, Side};

/// What the reader says of a fixed record.
pub fn reading(label: &str, side: Side) -> Result<Record, Refusal> {
    let found = records::records().into_iter().find(|r| r.label == label);
    let record = found
        .unwrap_or_else(|| panic!("{label} is no label"))
        .record;
    read(side, &record.stream, &record.pool)
}

/// The number and place that a fixed record is refused with on both sides.
pub fn refused(label: &str) -> (u32, usize) {
    let [current, released] = Side::BOTH.map(|side| refused_as(label, side));
    assert_eq!(current, released, "{label}");
    current
}

pub fn refused_as(label: &str, side: Side) -> (u32, usize) {
    match reading(label, side) {
        Ok(_) => panic!("{label} is readable as {side:?}"),
        Err(refusal) => (refusal.number, refusal.place),
    }
}

/// A fixed record that is readable on both sides, as the current one.
pub fn readable(label: &str) -> Record {
    let [current, released] = Side::BOTH.map(|side| {
        let refused = |refusal| panic!("{label} as {side:?}: {refusal:?}");
        reading(label, side).unwrap_or_else(refused)
    });
    assert_eq!(current, released, "{label}");
    current
}

/// The check's answer to a fixed pair.
pub fn answer(label: &str) -> Answer {
    let found = findings::pairs().into_iter().find(|p| p.label == label);
    let pair = found.unwrap_or_else(|| panic!("{label} is no label"));
    pair.encoded().check(ROOM)
}

pub fn number(label: &str) -> u32 {
    answer(label).number
}

/// The list of a fixed record, which is the same read as either side.
pub fn listed(label: &str) -> String {
    let found = lists::lists().into_iter().find(|l| l.label == label);
    let record = found.unwrap_or_else(|| panic!("{label} is no label"));
    let record = record.encoded();
    let [current, released] = Side::BOTH.map(|side| {
        let answer = oracle::list(&record.stream, &record.pool, side, ROOM);
        assert_eq!(
            (answer.number, answer.length as usize),
            (0, answer.text.len())
        );
        answer.text
    });
    assert_eq!(current, released, "{label}");
    current
}

/// The place and text of the name that owns each name asked of a fixed record.
pub fn owners(label: &str) -> Vec<Option<(usize, String)>> {
    let found = owners::questions().into_iter().find(|q| q.label == label);
    let fixed = found.unwrap_or_else(|| panic!("{label} is no label"));
    let questions = fixed.questions().into_iter();
    questions
        .map(|question| {
            let record = &question.record;
            match oracle::owner(&record.stream, &record.pool, &question.name) {
                Owner::None => None,
                Owner::Named(name) => {
                    let text = &record.pool[name.start..name.start + name.length];
                    Some((name.start, String::from_utf8_lossy(text).into_owned()))
                }
                Owner::Refused(refusal) => panic!("{label}: {refusal:?}"),
            }
        })
        .collect()
}

/// The texts of the owners.
pub fn owner_names(label: &str) -> Vec<Option<String>> {
    let owners = owners(label).into_iter();
    owners.map(|owner| owner.map(|(_, text)| text)).collect()
}

/// The number and place that the check of pointers gives a fixed record.
pub fn pointers(label: &str) -> (u32, u32) {
    let records = findings::pointers::records();
    let found = records.into_iter().find(|r| r.label == label);
    let record = found
        .unwrap_or_else(|| panic!("{label} is no label"))
        .record;
    let answer = oracle::pointers(&record.stream, &record.pool);
    assert_eq!((answer.side, answer.length), (0, 0), "{label}");
    (answer.number, answer.place)
}
