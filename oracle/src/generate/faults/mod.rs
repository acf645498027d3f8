//! One fault in an accepted pair, for each verdict, in each of its forms.

mod dates;
mod fields;
mod generations;
mod order;
mod values;

use super::draft::Draft;
use crate::rng::Rng;

pub type Fault = fn(&mut Draft, &mut Rng);

/// The forms of a verdict's fault.
pub fn forms(verdict: u32) -> &'static [Fault] {
    match verdict {
        11..=15 => order::forms(verdict),
        16..=19 | 31 | 32 => dates::forms(verdict),
        20..=30 => values::forms(verdict),
        33..=39 => fields::forms(verdict),
        _ => generations::forms(verdict),
    }
}

/// Put a fault of this verdict into the pair.
pub fn apply(verdict: u32, draft: &mut Draft, rng: &mut Rng) {
    let fault = *rng.pick(forms(verdict));
    fault(draft, rng);
}
