//! First records of chains, and offers that may follow the last one accepted.

use super::draft::Draft;
use super::encode::{Encoded, encode};
use super::{base, damage, faults, make, steps, wild, words};
use crate::model::{Content, Side};
use crate::rng::Rng;
use crate::schema::release_parts;
use crate::verdicts::{FIRST_VERDICT, LAST_VERDICT};

/// Draws the records of one chain, each name new beside all before it.
pub struct Offers {
    draft: Draft,
}

impl Offers {
    /// The first record of a chain: mostly one as it is written, at times a copy
    /// from before records said all they say now, rarely a damaged one.
    pub fn begin(rng: &mut Rng) -> (Self, Encoded) {
        let mut draft = base::base(rng);
        for _ in 0..rng.between(2, 8) {
            steps::take(&mut draft, rng);
        }
        let first = match rng.chance(80) {
            true => &draft.current,
            false => &draft.released,
        };
        let record = match rng.chance(98) {
            true => encode(first, rng),
            false => damage::damaged(first, rng.between(1, 7) as u32, Side::Released, rng),
        };
        (Offers { draft }, record)
    }

    /// An offer after `last`: mostly a release step, at times a fault, a drawn
    /// change, a release not raised, or damaged bytes.
    pub fn offer(&mut self, last: &Content, rng: &mut Rng) -> Encoded {
        let now = later(last.release.as_deref(), rng);
        self.draft = self.draft.following(last, &now);
        date_demanded(&mut self.draft.current, rng);
        match rng.below(100) {
            0..=66 => self.steps(rng),
            67..=78 => self.fault(rng),
            79..=84 => wild::mutate(&mut self.draft.current, rng),
            85..=88 => self.draft.current.release = Some(rng.word(&words::EARLY_RELEASES)),
            89..=94 => return self.damaged(rng),
            _ => return self.scrambled(rng),
        }
        encode(&self.draft.current, rng)
    }

    /// An offer after a record that steps can't go on from.
    pub fn wild_offer(&mut self, last: &Content, rng: &mut Rng) -> Encoded {
        let now = later(last.release.as_deref(), rng);
        self.draft = self.draft.following(last, &now);
        date_demanded(&mut self.draft.current, rng);
        if rng.chance(70) {
            wild::mutate(&mut self.draft.current, rng);
        }
        encode(&self.draft.current, rng)
    }

    fn steps(&mut self, rng: &mut Rng) {
        for _ in 0..rng.below(4) {
            match rng.chance(20) {
                true => out_of_padding(&mut self.draft, rng),
                false => steps::take_in_current(&mut self.draft, rng),
            }
        }
    }

    fn fault(&mut self, rng: &mut Rng) {
        let verdict = rng.between(FIRST_VERDICT as usize, LAST_VERDICT as usize);
        faults::apply(verdict as u32, &mut self.draft, rng);
    }

    fn damaged(&self, rng: &mut Rng) -> Encoded {
        let number = rng.between(1, 9) as u32;
        damage::damaged(&self.draft.current, number, Side::Current, rng)
    }

    fn scrambled(&self, rng: &mut Rng) -> Encoded {
        let mut record = encode(&self.draft.current, rng);
        damage::scramble(&mut record, rng);
        record
    }
}

/// A release above this one, if there is one.
fn later(release: Option<&str>, rng: &mut Rng) -> String {
    let Some(release) = release else {
        return rng.word(&words::LATE_RELEASES);
    };
    let (major, minor, patch) = release_parts(release).unwrap_or_default();
    let mut parts = [major, minor, patch];
    let drawn = (0..=rng.below(3)).rev();
    if let Some(at) = drawn.chain([2, 1]).find(|&at| parts[at] < u32::MAX) {
        parts[at] += 1;
        parts[at + 1..].fill(0);
    }
    parts.map(|part| part.to_string()).join(".")
}

/// Put a date wherever a current record has to have one.
fn date_demanded(content: &mut Content, rng: &mut Rng) {
    for b in content.bit_fields_mut() {
        b.first_release.get_or_insert_with(|| words::old_date(rng));
    }
    for k in content.keys_mut() {
        k.first_release.get_or_insert_with(|| words::old_date(rng));
    }
    let lists = content.items.iter_mut().flat_map(|item| item.fields_mut());
    for key in lists.flatten().filter_map(|field| field.key.as_mut()) {
        key.first_release
            .get_or_insert_with(|| words::old_date(rng));
    }
}

/// A field taken out of padding that a root covers, its generation raised.
fn out_of_padding(draft: &mut Draft, rng: &mut Rng) {
    let (name, owned) = (draft.name(rng), draft.owned());
    let padded = |size: Option<u32>| size.is_some_and(|size| size > 0);
    let mut holders = (draft.current.structs_mut())
        .filter(|s| owned.contains(&s.name))
        .filter(|s| {
            let mut fields = s.fields.iter();
            fields.any(|f| f.kind == "padding" && padded(f.size))
        });
    let Some(holder) = holders.next() else {
        return;
    };
    let mut fields = holder.fields.iter();
    let at = fields.position(|f| f.kind == "padding" && padded(f.size));
    let at = at.expect("the holder has padding");
    holder.fields[at].size = holder.fields[at].size.map(|size| size - 1);
    holder.fields.insert(at, make::scalar(&name, "u8"));
    let holder = holder.name.clone();
    drop(holders);
    draft.raise_for(&holder, rng);
}
