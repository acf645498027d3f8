//! The words that generated records are made of.

use crate::rng::Rng;
pub use crate::schema::POINTER_KINDS as POINTERS;

/// The pointers that lead an ownership walk on.
pub const REFERENCES: [&str; 5] = [
    "struct_ptr",
    "tagged_fam_ptr",
    "simple_fam_ptr",
    "struct_array_ptr",
    "struct_ptr_array_ptr",
];

/// The kinds that are no pointers.
pub const PLAIN_KINDS: [&str; 8] = [
    "scalar",
    "enum",
    "type_alias",
    "bitfield",
    "inline_array",
    "inline_array2d",
    "padding",
    "string",
];

/// Words near the sixteen kinds, and far from them.
const STRANGE_KINDS: [&str; 12] = [
    "",
    "Scalar",
    "scalar ",
    " scalar",
    "padding ",
    "Padding",
    "padding u8",
    "inline_array3d",
    "inline_arra",
    "struct_pt",
    "strin",
    "u8",
];

pub const PRIMITIVES: [&str; 4] = ["u8", "char", "u16", "u32"];

/// Words that look like kinds: a Cyrillic a, a blank that no word breaks at, wide
/// letters, and a mark of byte order in front.
const LOOKALIKE_KINDS: [&str; 4] = [
    "sc\u{430}lar",
    "padding\u{a0}",
    "\u{ff55}8",
    "\u{feff}scalar",
];

/// A kind that is none of the sixteen.
pub fn strange_kind(rng: &mut Rng) -> String {
    rng.word_or(&STRANGE_KINDS, &LOOKALIKE_KINDS)
}

/// Words near the four primitives, all of size 0.
const STRANGE_TYPES: [&str; 7] = ["u64", "", "U8", "u8 ", "i8", "u1", "nobody"];

pub const SLOTS: [&str; 3] = ["metadata", "runtime", "info"];

/// Slot texts that stop a walk and root nothing.
const OTHER_SLOTS: [&str; 6] = ["", "other", "Metadata", "metadata ", "inf", "runtime2"];

const LOOKALIKE_TYPES: [&str; 3] = ["\u{3bc}8", "u\u{ff18}", "u8\u{200b}"];

/// A type that nothing declares, and no primitive.
pub fn strange_type(rng: &mut Rng) -> String {
    rng.word_or(&STRANGE_TYPES, &LOOKALIKE_TYPES)
}

const LOOKALIKE_SLOTS: [&str; 3] = ["met\u{430}data", "info\u{301}", "\u{202e}ofni"];

/// A slot text that roots nothing.
pub fn other_slot(rng: &mut Rng) -> String {
    rng.word_or(&OTHER_SLOTS, &LOOKALIKE_SLOTS)
}

/// Texts without `release_parts`.
const BAD_RELEASES: [&str; 16] = [
    "",
    "00.8.0",
    "0.08.0",
    "0.8.00",
    "4294967296.0.0",
    "0.4294967296.0",
    "0.0.4294967296",
    "0.8",
    "0.8.0.0",
    "0..8",
    ".8.0",
    " 0.8.0",
    "0.8.0 ",
    "+1.8.0",
    "a.b.c",
    "99999999999999999999.0.0",
];

/// Digits that are no ASCII digits, and what a release may be pasted with.
const LOOKALIKE_RELEASES: [&str; 4] = [
    "\u{ff10}.8.0",
    "0.\u{0668}.0",
    "0.8.0\u{200b}",
    "\u{feff}0.8.0",
];

/// A text without `release_parts`.
pub fn bad_release(rng: &mut Rng) -> String {
    rng.word_or(&BAD_RELEASES, &LOOKALIKE_RELEASES)
}

/// Releases of the copy and of the current record, the first below the second.
pub const RISING_RELEASES: [(&str, &str); 12] = [
    ("0.8.0", "0.9.0"),
    ("0.9.0", "0.10.0"),
    ("0.7.2", "0.8.0"),
    ("0.9.9", "0.10.0"),
    ("0.0.0", "0.0.1"),
    ("1.2.3", "1.2.4"),
    ("1.2.9", "1.10.0"),
    ("1.99.99", "2.0.0"),
    ("9.0.0", "10.0.0"),
    ("4294967295.0.0", "4294967295.0.1"),
    ("0.0.4294967295", "0.1.0"),
    ("0.8.0", "4294967295.4294967295.4294967295"),
];

/// Current releases that pass beside a copy without one.
pub const LATE_RELEASES: [&str; 4] = ["0.8.0", "0.8.1", "0.10.0", "1.0.0"];

/// Current releases that a copy without one refuses.
pub const EARLY_RELEASES: [&str; 12] = [
    "0.7.9",
    "0.0.0",
    "0.7.4294967295",
    "0.1.10",
    "0.6.0",
    "0.5.2",
    "0.7.10",
    "0.0.4294967295",
    "0.3.3",
    "0.2.80",
    "0.0.8",
    "0.4.4",
];

/// Texts of first releases, none of them a current release above.
const OLD_DATES: [&str; 8] = [
    "0.5.0", "0.6.1", "0.7.0", "0.09.0", "never", "", "0.8.0 ", "00.9.0",
];

const FRONTS: [&str; 14] = [
    "n", "t", "tile", "skip", "gap", "pos", "plate", "well", "focus", "stack", "a b", "x.y", "_",
    "N",
];

/// Fronts in which labs abroad write: units, of which Å has three spellings and
/// µ two, Greek, CJK and characters of four bytes; and the first and last
/// characters of two, three and four bytes, and some that no screen shows.
pub const UNITS: [&str; 24] = [
    "\u{b5}",
    "\u{3bc}",
    "\u{c5}",
    "\u{212b}",
    "A\u{30a}",
    "\u{b5}m",
    "step_\u{c5}",
    "\u{3bb}",
    "\u{3b8}_\u{3c6}",
    "\u{7126}\u{70b9}",
    "\u{5c64}",
    "\u{1f52c}",
    "\u{1f9eb}x",
    "\u{80}",
    "\u{9f}",
    "\u{7ff}",
    "\u{800}",
    "\u{d7ff}",
    "\u{e000}",
    "\u{feff}",
    "\u{fffe}",
    "\u{ffff}",
    "\u{10000}",
    "\u{10ffff}",
];

/// A name no other draw with another number gives. Rarely it is long.
pub fn name(rng: &mut Rng, number: usize) -> String {
    let front = match rng.below(200) {
        0 if rng.beyond_ascii(50) => rng
            .word(&["\u{b5}\u{b5}", "\u{1f52c}"])
            .repeat(rng.between(10, 60)),
        0 => "long".repeat(rng.between(10, 61)),
        _ => rng.word_or(&FRONTS, &UNITS),
    };
    format!("{front}{number}")
}

/// Integers at and about the limits of 8, 32 and 64 bits.
pub fn integer(rng: &mut Rng) -> i64 {
    const EDGES: [i64; 12] = [
        0,
        1,
        -1,
        5,
        255,
        256,
        4_294_967_295,
        4_294_967_296,
        -4_294_967_296,
        i64::MAX,
        i64::MIN,
        i64::MIN + 1,
    ];
    match rng.chance(60) {
        true => rng.below(20) as i64,
        false => *rng.pick(&EDGES),
    }
}

/// A date that is not the current release.
pub fn old_date(rng: &mut Rng) -> String {
    rng.word_or(&OLD_DATES, &["\u{ff10}.5.0", "\u{2013}", "0.7.0\u{200b}"])
}
