//! Faults of the unreleased copy and of the release order.

use super::Fault;
use crate::generate::draft::Draft;
use crate::generate::{base, words};
use crate::rng::Rng;

pub fn forms(verdict: u32) -> &'static [Fault] {
    match verdict {
        11 => &[described],
        12 => &[now_unreadable],
        13 => &[before_naming],
        14 => &[was_unreadable],
        _ => &[same_release, earlier_release],
    }
}

/// The flagged copy describes one thing at least.
fn described(draft: &mut Draft, rng: &mut Rng) {
    let add = *rng.pick(&[
        base::add_constant,
        base::add_alias,
        base::add_enum,
        base::add_bit_field,
        base::add_struct,
        base::add_family,
    ]);
    if rng.chance(70) {
        draft.released.items.clear();
    }
    add(draft, rng);
    draft.released.unreleased = true;
}

fn now_unreadable(draft: &mut Draft, rng: &mut Rng) {
    draft.current.release = Some(words::bad_release(rng));
}

fn before_naming(draft: &mut Draft, rng: &mut Rng) {
    draft.released.release = None;
    draft.current.release = Some(rng.word(&words::EARLY_RELEASES));
}

fn was_unreadable(draft: &mut Draft, rng: &mut Rng) {
    draft.released.release = Some(words::bad_release(rng));
}

fn same_release(draft: &mut Draft, _: &mut Rng) {
    draft.released.release = draft.current.release.clone();
}

fn earlier_release(draft: &mut Draft, rng: &mut Rng) {
    let (low, high) = *rng.pick(&words::RISING_RELEASES);
    draft.released.release = Some(high.into());
    draft.current.release = Some(low.into());
}
