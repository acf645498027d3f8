//! The bytes of a record with its sections in another order, as W-214 of document
//! 02 moves them: whole sections, and in one its values, members or variants.

use super::encode::Encoded;
use crate::commands::*;
use crate::rng::Rng;

/// What may be moved: each sort of section, and what stands inside one, by the
/// command that it begins with.
pub const SORTS: [(u8, &str); 11] = [
    (CONSTANT, "constants"),
    (ALIAS, "aliases"),
    (ENUM, "enums"),
    (BIT_FIELD, "bit fields"),
    (STRUCT, "structures"),
    (FAMILY, "families"),
    (KEY, "unstored keys"),
    (VERSION, "version entries"),
    (VALUE, "values"),
    (MEMBER, "members"),
    (VARIANT, "variants"),
];

/// A record in another order, and which of the sorts stand elsewhere in it.
pub struct Shuffled {
    pub record: Encoded,
    pub moved: [bool; SORTS.len()],
}

/// A readable record, mostly with its sections in a drawn order, and mostly with
/// what stands inside each of them so.
pub fn shuffled(record: &Encoded, rng: &mut Rng) -> Shuffled {
    let all = split(&record.stream);
    let mut moved = [false; SORTS.len()];
    let inside = |command: &[u8]| [VALUE, MEMBER, VARIANT, FIELD, FIELD_KEY].contains(&command[0]);
    let part = |command: &[u8]| [VALUE, MEMBER, VARIANT].contains(&command[0]);
    let (head, end) = (all[0], all[all.len() - 1]);
    let mut sections = Vec::new();
    for section in all[1..all.len() - 1].chunk_by(|_, next| inside(next)) {
        let first = section.iter().position(|command| part(command));
        let (fixed, rest) = section.split_at(first.unwrap_or(section.len()));
        let parts = rest.chunk_by(|_, next| !part(next));
        let mut parts: Vec<Vec<u8>> = parts.map(|run| run.concat()).collect();
        if rng.chance(70) {
            reorder(&mut parts, &mut moved, rng);
        }
        sections.push([fixed.concat(), parts.concat()].concat());
    }
    if rng.chance(85) {
        reorder(&mut sections, &mut moved, rng);
    }
    let record = Encoded {
        stream: [head, &sections.concat(), end].concat(),
        pool: record.pool.clone(),
    };
    Shuffled { record, moved }
}

/// The commands of a stream, each as its bytes.
fn split(stream: &[u8]) -> Vec<&[u8]> {
    let mut rest = stream;
    let mut all = Vec::new();
    while let Some(&command) = rest.first() {
        let forms = operands(command).expect("a readable record has commands alone");
        let (bytes, after) = rest.split_at(width(forms));
        all.push(bytes);
        rest = after;
    }
    all
}

/// Put a list into a drawn order, or move one of its elements, and note the sorts
/// of those that stand elsewhere than before.
fn reorder(list: &mut Vec<Vec<u8>>, moved: &mut [bool; SORTS.len()], rng: &mut Rng) {
    if list.len() < 2 {
        return;
    }
    let before = list.clone();
    match rng.chance(70) {
        true => (1..list.len()).for_each(|at| list.swap(at, rng.below(at + 1))),
        false => {
            let taken = list.remove(rng.below(before.len()));
            rng.insert(list, taken);
        }
    }
    for (was, is) in before.iter().zip(list) {
        if was != is {
            let sort = SORTS.iter().position(|(command, _)| *command == is[0]);
            moved[sort.expect("one of the sorts")] = true;
        }
    }
}
