//! The numbers of documents 01 and 02 and their words.

/// The word of a number; 0 has none in document 01 and is given the one that its text uses, and 59 and 60 have one of ours.
pub fn word(number: u32) -> Option<&'static str> {
    WORDS.iter().find(|(of, _)| *of == number).map(|(_, word)| *word)
}

/// A number with its word: `35 moved`.
pub fn named(number: u32) -> String {
    format!("{number} {}", word(number).unwrap_or_default())
}

/// The number of a word.
pub fn number(word: &str) -> Option<u32> {
    WORDS.iter().find(|(_, of)| *of == word).map(|(number, _)| *number)
}

/// All numbers that have a word.
pub fn all() -> impl Iterator<Item = u32> {
    WORDS.iter().map(|(number, _)| *number)
}

/// What document 01 gives a refusal for, and document 02 (W-206) 4 and 7.
pub fn reason(number: u32) -> Option<&'static str> {
    let index = usize::try_from(number).ok()?.checked_sub(1)?;
    REASONS.get(index).copied()
}

/// What a text is refused for that does not reach past the pool.
pub const INSIDE: &str = "a text begins or ends inside a character";

/// What a pool is refused for that is UTF-8 as far as the place and at it.
pub const CONTROL: &str = "the byte is 00 to 1F or 7F hex";

const WORDS: [(u32, &str); 54] = [
    (0, "accepted"),
    (1, "cut"),
    (2, "unknown"),
    (3, "misplaced"),
    (4, "outside"),
    (5, "missing"),
    (6, "flag"),
    (7, "letter"),
    (8, "long"),
    (9, "vast"),
    (10, "no room"),
    (11, "described"),
    (12, "now unreadable"),
    (13, "before naming"),
    (14, "was unreadable"),
    (15, "not later"),
    (16, "value undated"),
    (17, "late"),
    (18, "redated"),
    (19, "backdated"),
    (20, "constant gone"),
    (21, "constant changed"),
    (22, "enum gone"),
    (23, "renumbered"),
    (24, "renamed"),
    (25, "value gone"),
    (26, "bit field gone"),
    (27, "member renamed"),
    (28, "member gone"),
    (29, "bit moved"),
    (30, "width changed"),
    (31, "bits late"),
    (32, "bits redated"),
    (33, "type gone"),
    (34, "field gone"),
    (35, "moved"),
    (36, "resized"),
    (37, "redescribed"),
    (38, "standing changed"),
    (39, "shipped family changed"),
    (40, "uncovered"),
    (41, "no constant"),
    (42, "no generation"),
    (43, "unraised"),
    (44, "unlisted"),
    (45, "leapt"),
    (46, "fell"),
    (55, "name held"),
    (56, "no such name"),
    (57, "name not taken"),
    (58, "not held"),
    (59, "names neither"),
    (60, "names the other"),
    (61, "unfit"),
];

const REASONS: [&str; 9] = [
    "the stream ends inside a command, or without 0F",
    "the command byte is 00 or above 0F",
    "a command stands where it may not, or a byte follows 0F",
    "a text reaches past the pool",
    "a required text is absent",
    "a flag byte is above 1",
    "no character of UTF-8 begins there",
    "the commands are over 32,768 bytes, or the pool is over 16,384",
    "a field's size or end is above 4,294,967,295",
];
