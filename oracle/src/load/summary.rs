//! What the pairs of some seeds come to: the lines that crates/vectors_load
//! prints of the proved call's.

use std::fmt::Write;
use std::ops::Range;

use super::pool::KINDS;
use super::{OUTCOMES, pair, validate};
use crate::model::Content;

/// The sum's modulus: the largest prime below 2 to the 32nd.
const MODULUS: u64 = 4_294_967_291;

/// Every pair of these seeds made and judged, and counted.
pub fn summary(seeds: Range<u32>) -> Result<String, String> {
    let mut printed = String::new();
    let mut lengths = [0; 16];
    for outcome in OUTCOMES {
        let (mut met, mut sum, mut kinds) = (0, 0, [0; KINDS.len() + 1]);
        for seed in seeds.clone() {
            let pair = pair(outcome, seed).ok_or("a seed above the last")?;
            let judged = validate::judge(outcome, seed, &pair)?;
            met += 1;
            sum = pair.iter().fold(sum, |sum, &byte| {
                (sum * 257 + u64::from(byte) + 1) % MODULUS
            });
            lengths[judged.length / 1000] += 1;
            count_kinds(&judged.released, &mut kinds);
        }
        let kinds = joined(&kinds);
        let _ = writeln!(
            printed,
            "outcome {outcome}: {met} pairs met, sum {sum}, kinds {kinds}"
        );
    }
    let lengths = joined(&lengths);
    let _ = writeln!(printed, "lengths by thousands of bytes: {lengths}");
    printed.push_str("calls that should give 61 and do not: 0\n");
    Ok(printed)
}

fn count_kinds(released: &Content, counts: &mut [usize]) {
    for field in released.structs().flat_map(|each| &each.fields) {
        let at = KINDS.iter().position(|kind| *kind == field.kind);
        counts[at.unwrap_or(KINDS.len())] += 1;
    }
}

fn joined(counts: &[usize]) -> String {
    let counts: Vec<String> = counts.iter().map(usize::to_string).collect();
    counts.join(" ")
}
