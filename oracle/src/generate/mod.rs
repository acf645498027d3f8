//! Seeded records and pairs of records.

pub mod base;
pub mod damage;
pub mod draft;
pub mod edits;
pub mod encode;
pub mod faults;
pub mod findings;
pub mod heavy;
pub mod make;
pub mod offers;
pub mod pointers;
pub mod questions;
pub mod sections;
pub mod sequences;
pub mod shelves;
pub mod shuffle;
pub mod slices;
pub mod steps;
pub mod wild;
pub mod words;

use crate::answers::{Answer, check};
use crate::model::{Content, Side};
use crate::reader::read;
use crate::rng::Rng;
use crate::verdicts::{FIRST_VERDICT, LAST_VERDICT};
use draft::Draft;
use encode::{Encoded, encode, encode_tight};

/// A pair of records as bytes.
#[derive(Clone, Debug, PartialEq, Eq)]
pub struct Pair {
    pub current: Encoded,
    pub released: Encoded,
}

impl Pair {
    /// A record beside the smallest other one.
    pub fn beside(record: Encoded, side: Side) -> Pair {
        match side {
            Side::Current => Pair {
                current: record,
                released: encode_tight(&make::content("0.8.0")),
            },
            Side::Released => Pair {
                current: encode_tight(&make::content("0.9.0")),
                released: record,
            },
        }
    }

    /// The check's answer to this pair.
    pub fn check(&self, room: usize) -> Answer {
        let (current, released) = (&self.current, &self.released);
        check(
            &current.stream,
            &current.pool,
            &released.stream,
            &released.pool,
            room,
        )
    }
}

/// What a generated pair is meant to show. The answer is the oracle's.
#[derive(Clone, Copy, Debug, PartialEq, Eq)]
pub enum Aim {
    /// A release step that is accepted.
    Accepted,
    /// A fault of this verdict.
    Verdict(u32),
    /// A record of this side that is refused with this number.
    Refusal(u32, Side),
    /// An accepted pair with drawn changes on either side.
    Mutated,
    /// A pair of few names and many doublets.
    Wild,
    /// An accepted pair with drawn bytes put in, taken out or changed.
    Scrambled,
}

/// A pair of a drawn aim.
pub fn pair(rng: &mut Rng) -> Pair {
    let aim = match rng.below(100) {
        0..=21 => Aim::Accepted,
        22..=66 => Aim::Verdict(rng.between(FIRST_VERDICT as usize, LAST_VERDICT as usize) as u32),
        67..=84 => Aim::Refusal(rng.between(1, 9) as u32, *rng.pick(&Side::BOTH)),
        85..=90 => Aim::Mutated,
        91..=95 => Aim::Wild,
        _ => Aim::Scrambled,
    };
    aimed(aim, rng)
}

/// A pair of this aim.
pub fn aimed(aim: Aim, rng: &mut Rng) -> Pair {
    match aim {
        Aim::Accepted => encoded(&stepped(rng), rng),
        Aim::Verdict(verdict) => encoded(&faulty(verdict, rng), rng),
        Aim::Refusal(number, side) => refused(number, side, rng),
        Aim::Mutated => encoded(&mutated(rng), rng),
        Aim::Wild => encoded(&wild_pair(rng), rng),
        Aim::Scrambled => scrambled(rng),
    }
}

fn encoded(draft: &Draft, rng: &mut Rng) -> Pair {
    Pair {
        current: encode(&draft.current, rng),
        released: encode(&draft.released, rng),
    }
}

/// An accepted pair with up to three steps taken.
pub fn stepped(rng: &mut Rng) -> Draft {
    let mut draft = base::base(rng);
    for _ in 0..rng.between(1, 3) {
        steps::take(&mut draft, rng);
    }
    draft
}

/// An accepted pair with a fault put in, at times with another one.
pub fn faulty(verdict: u32, rng: &mut Rng) -> Draft {
    let mut draft = match rng.chance(50) {
        true => base::base(rng),
        false => stepped(rng),
    };
    faults::apply(verdict, &mut draft, rng);
    if rng.chance(20) {
        let other = rng.between(verdict as usize, LAST_VERDICT as usize);
        faults::apply(other as u32, &mut draft, rng);
    }
    draft
}

fn mutated(rng: &mut Rng) -> Draft {
    let mut draft = stepped(rng);
    for _ in 0..rng.between(1, 3) {
        let content = match rng.chance(75) {
            true => &mut draft.current,
            false => &mut draft.released,
        };
        wild::mutate(content, rng);
    }
    draft
}

fn wild_pair(rng: &mut Rng) -> Draft {
    let mut draft = base::empty(rng);
    let was = wild::content(7, rng);
    draft.released.items = was.items.clone();
    draft.current.items = was.items;
    for _ in 0..rng.below(4) {
        wild::mutate(&mut draft.current, rng);
    }
    draft
}

fn scrambled(rng: &mut Rng) -> Pair {
    let draft = stepped(rng);
    let mut pair = encoded(&draft, rng);
    for _ in 0..rng.between(1, 3) {
        let record = match rng.chance(50) {
            true => &mut pair.current,
            false => &mut pair.released,
        };
        damage::scramble(record, rng);
    }
    pair
}

fn refused(number: u32, side: Side, rng: &mut Rng) -> Pair {
    let draft = stepped(rng);
    let mut pair = encoded(&draft, rng);
    match side {
        Side::Current => {
            pair.current = damage::damaged(&draft.current, number, side, rng);
            if rng.chance(20) {
                let other = rng.between(1, 7) as u32;
                pair.released = damage::damaged(&draft.released, other, Side::Released, rng);
            }
        }
        Side::Released => {
            pair.released = damage::damaged(&draft.released, number, side, rng);
        }
    }
    pair
}

/// A record that is read as this side, or refused with this number.
pub fn record(number: u32, side: Side, rng: &mut Rng) -> Encoded {
    let content = readable(side, rng);
    match number {
        0 => encode(&content, rng),
        _ => damage::damaged(&content, number, side, rng),
    }
}

/// A record as small as can be that is read as this side, or refused with this
/// number.
pub fn small_record(number: u32, side: Side, rng: &mut Rng) -> Encoded {
    let content = loop {
        let content = wild::content(2, rng);
        let record = encode_tight(&content);
        if read(side, &record.stream, &record.pool).is_ok() {
            break content;
        }
    };
    match number {
        0 => encode_tight(&content),
        _ => damage::damaged(&content, number, side, rng),
    }
}

/// A small content that is read as this side.
fn readable(side: Side, rng: &mut Rng) -> Content {
    loop {
        let mut content = match rng.below(4) {
            0 => wild::content(3, rng),
            1 => wild::graph(3, rng),
            2 => base::base(rng).current,
            _ => stepped(rng).current,
        };
        if rng.chance(10) {
            let fields = heavy::fitting(rng);
            heavy::load(&mut content, fields, rng);
        }
        if rng.chance(3) {
            heavy::load_named(&mut content, u32::MAX - 1, rng);
        }
        let record = encode(&content, rng);
        if read(side, &record.stream, &record.pool).is_ok() {
            return content;
        }
    }
}
