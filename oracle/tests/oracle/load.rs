//! The model of the load call, by document 02's sentences.

use std::collections::BTreeSet;

use oracle::load::{Draws, LAST_SEED, OUTCOMES, pair, validate};

/// Other outcomes, of all 32 bits, and seeds above the last have no pair.
#[test]
fn w213_1_unfit() {
    for outcome in [1, 10, 19, 21, 33, 37, 42, 44, 61, 256, 276, 299, u32::MAX] {
        assert!(pair(outcome, 0).is_none(), "{outcome}");
    }
    for outcome in OUTCOMES {
        assert!(pair(outcome, LAST_SEED).is_some());
        assert!(pair(outcome, LAST_SEED + 1).is_none() && pair(outcome, u32::MAX).is_none());
    }
}

/// The successors of 0, 1 and the last seed are 12345, 1103527590 and 1043980748; each is divided by
/// 65,536 before it is taken modulo n.
#[test]
fn w213_2_3_draws() {
    let draws = |seed, n: [usize; 2]| {
        let mut draws = Draws::new(seed);
        n.map(|n| draws.below(n))
    };
    assert_eq!(
        [0, 1, LAST_SEED].map(|seed| draws(seed, [32_768; 2])),
        [
            [12_345 / 65_536, 21_468],
            [1_103_527_590 / 65_536, 5_758],
            [1_043_980_748 / 65_536, 4_409]
        ]
    );
    assert_eq!(
        [0, 1, LAST_SEED].map(|seed| draws(seed, [8, 16])),
        [[0, 12], [6, 14], [1, 9]]
    );
}

/// Counts of structures and fields, readable records, and the outcome by the Rust's own `compare`.
#[test]
fn w213_4_5_6_judged() {
    for seed in (0..300).chain([LAST_SEED]) {
        for outcome in OUTCOMES {
            let pair = pair(outcome, seed).expect("a pair");
            assert_eq!(validate::judge(outcome, seed, &pair).err(), None);
        }
    }
}

/// A pair that is made again has the same bytes.
#[test]
fn w213_7_again() {
    for seed in 0..50 {
        assert!(
            OUTCOMES
                .iter()
                .all(|&outcome| pair(outcome, seed) == pair(outcome, seed))
        );
    }
}

/// Sixteen kinds over the seeds 0 to 999, and in seed 322 alone.
#[test]
fn w213_8_kinds() {
    let kinds = |seeds: std::ops::Range<u32>| {
        let mut kinds = BTreeSet::new();
        for seed in seeds {
            let pair = pair(20, seed).expect("a pair");
            let released = validate::judge(20, seed, &pair)
                .expect("a good pair")
                .released;
            kinds.extend(
                released
                    .structs()
                    .flat_map(|each| &each.fields)
                    .map(|field| field.kind.clone()),
            );
        }
        kinds.len()
    };
    assert_eq!((kinds(0..1_000), kinds(322..323)), (16, 16));
}

/// What the validator is for: another outcome's pair, another seed's, a byte behind, a part cut, a damaged record.
#[test]
fn w213_6_validator() {
    let good = pair(35, 7).expect("a pair");
    let amiss =
        |outcome, seed, pair: &[u8]| validate::judge(outcome, seed, pair).expect_err("amiss");
    assert!(amiss(36, 7, &good).contains("the Rust gives 35"));
    assert!(amiss(35, 3, &good).contains("were drawn"));
    assert!(amiss(35, 7, &[good.as_slice(), &[0]].concat()).contains("1 bytes behind the parts"));
    assert!(amiss(35, 7, &good[..good.len() - 1]).contains("a part is cut"));
    assert!(amiss(35, 7, &good[..3]).contains("a length is cut"));
    let mut damaged = good.clone();
    damaged[4] = 0;
    assert!(amiss(35, 7, &damaged).contains("the current record: "));
}
