//! Questions for the owner call: a record and a name.

use super::encode::{Encoded, encode};
use super::{damage, wild};
use crate::model::{Content, Side};
use crate::rng::Rng;

#[derive(Clone, Debug, PartialEq, Eq)]
pub struct Question {
    pub record: Encoded,
    pub name: Vec<u8>,
}

/// A question of a content whose structures and families refer to each other.
/// Now and then its record is damaged.
pub fn question(rng: &mut Rng) -> Question {
    if rng.chance(6) {
        return refused_question(rng);
    }
    let most = rng.between(1, 7);
    let content = wild::graph(most, rng);
    Question {
        record: encode(&content, rng),
        name: asked(&content, rng),
    }
}

/// A question of a damaged record.
pub fn refused_question(rng: &mut Rng) -> Question {
    let content = wild::graph(2, rng);
    let number = *rng.pick(&[1, 2, 3, 4, 5, 6, 7, 9]);
    Question {
        record: damage::damaged(&content, number, Side::Current, rng),
        name: asked(&content, rng),
    }
}

/// A name to ask for: mostly one that the content's fields refer to or its
/// items have.
pub fn asked(content: &Content, rng: &mut Rng) -> Vec<u8> {
    let mut names: Vec<String> = content.items.iter().map(|i| i.name().into()).collect();
    for item in &mut content.items.clone() {
        for field in item.fields_mut().into_iter().flatten() {
            names.extend(field.type_.clone());
            names.extend(field.element.clone());
        }
    }
    match rng.below(20) {
        0 => wild::name(rng).into_bytes(),
        1 => b"nobody".to_vec(),
        2 => vec![*rng.pick(&[0x00, 0x1F, 0x80, 0xFF])],
        _ => rng.pick(&names).clone().into_bytes(),
    }
}
