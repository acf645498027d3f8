//! Files of cases asked again: which answers are no longer the oracle's, so that a
//! request that moves answers can list them.

use std::fmt::Write;

use crate::draft_vectors;
use crate::edits::Edit;
use crate::generate::Pair;
use crate::generate::encode::Encoded;
use crate::generate::questions::Question;
use crate::model::Side;
use crate::vectors::{Packer, pack_check, pack_list, pack_owner, pack_pointers, pack_record};

/// What the replay of a file says, a line for each case whose answer moved, and
/// the file with the answers of now.
pub struct Replayed {
    pub said: String,
    pub file: Vec<u8>,
}

/// Replay a file of this kind; none where there is no such kind.
pub fn replay(kind: &str, file: &[u8]) -> Option<Replayed> {
    let again = match kind {
        "record" => record,
        "owner" => owner,
        "list" => list,
        "check" => check,
        "pointers" => pointers,
        "draft" => draft,
        _ => return None,
    };
    let mut cases = Cases { rest: file };
    let mut packer = Packer::default();
    let (mut said, mut count, mut moved) = (String::new(), 0, 0);
    while !cases.rest.is_empty() {
        let (before, packed) = (cases.rest, packer.bytes.len());
        let was = again(&mut cases, &mut packer);
        let case = &before[..before.len() - cases.rest.len()];
        if packer.bytes[packed..] != *case {
            let mut renewed = Cases {
                rest: &packer.bytes[packed..],
            };
            let is = again(&mut renewed, &mut Packer::default());
            let _ = writeln!(said, "case {count}: was {was}, is {is}");
            moved += 1;
        }
        count += 1;
    }
    let _ = writeln!(said, "{count} cases, {moved} moved");
    let file = packer.bytes;
    Some(Replayed { said, file })
}

/// The cases that are still to be read.
struct Cases<'a> {
    rest: &'a [u8],
}

impl Cases<'_> {
    fn take(&mut self, length: usize) -> Vec<u8> {
        let (front, rest) = self.rest.split_at(length);
        self.rest = rest;
        front.to_vec()
    }

    fn byte(&mut self) -> u8 {
        self.take(1)[0]
    }

    fn word(&mut self) -> u32 {
        u32::from_le_bytes(self.take(4).try_into().expect("four bytes"))
    }

    fn part(&mut self) -> Vec<u8> {
        let length = self.word() as usize;
        self.take(length)
    }

    fn record(&mut self) -> Encoded {
        Encoded {
            stream: self.part(),
            pool: self.part(),
        }
    }

    fn side(&mut self) -> Side {
        match self.byte() {
            0 => Side::Current,
            _ => Side::Released,
        }
    }

    /// Number, side, place and length, and the text where one was written.
    fn answer(&mut self, writes: fn(u32) -> bool) -> String {
        let [number, side, place, length] = [(); 4].map(|()| self.word());
        if writes(number) {
            self.take(length as usize);
        }
        format!("{number} {side} {place} {length}")
    }
}

// A case of each kind: its question is asked again and packed with the answer of
// now, and the answer that the file has is told.

fn record(cases: &mut Cases, packer: &mut Packer) -> String {
    let (record, side) = (cases.record(), cases.side());
    pack_record(packer, &record, side);
    format!("{} {}", cases.byte(), cases.word())
}

fn owner(cases: &mut Cases, packer: &mut Packer) -> String {
    let (record, name) = (cases.record(), cases.part());
    pack_owner(packer, &Question { record, name });
    format!("{} {} {}", cases.byte(), cases.word(), cases.word())
}

fn list(cases: &mut Cases, packer: &mut Packer) -> String {
    let (record, side, room) = (cases.record(), cases.side(), cases.word());
    pack_list(packer, &record, side, room as usize);
    cases.answer(|number| number == 0)
}

fn check(cases: &mut Cases, packer: &mut Packer) -> String {
    let (current, released) = (cases.record(), cases.record());
    let room = cases.word() as usize;
    pack_check(packer, &Pair { current, released }, room);
    cases.answer(|number| number > 10)
}

fn pointers(cases: &mut Cases, packer: &mut Packer) -> String {
    pack_pointers(packer, &cases.record());
    format!("{} {}", cases.byte(), cases.word())
}

fn draft(cases: &mut Cases, packer: &mut Packer) -> String {
    let (call, given) = (cases.byte(), cases.word());
    let answer = [(); 5].map(|()| cases.word());
    let (buffer, more, copy) = (cases.part(), cases.record(), cases.record());
    cases.part();
    let edit = match call {
        0 => None,
        1 => Some(Edit::Add(more)),
        _ => Some(Edit::Remove(more.stream)),
    };
    draft_vectors::pack(packer, given as usize, &buffer, edit.as_ref(), &copy);
    let [number, side, place, length, changed] = answer;
    format!("{number} {side} {place} {length}, changed {changed}")
}
