//! The number of a verdict, found from the Rust's error text.

/// The ten passes of layout.rs in the order they are made, each with its
/// lowest verdict.
pub const PASSES: [(&str, u32); 10] = [
    ("unreleased copy", 11),
    ("release order", 12),
    ("first releases", 16),
    ("constants", 20),
    ("enums", 22),
    ("bit fields", 26),
    ("bit-field releases", 31),
    ("fields", 33),
    ("standalone", 38),
    ("generations", 40),
];

pub const FIRST_VERDICT: u32 = 11;
pub const LAST_VERDICT: u32 = 46;
pub const UNRAISED: u32 = 43;

/// The texts of the verdicts from 11 on. `{}` stands for any text and `{#}` for
/// an integer.
const TEMPLATES: [&str; 36] = [
    // 11
    "the released schema says unreleased and describes a layout - one release has shipped or \
     none has",
    "[schema] firmware_release is '{}', which is not a firmware release like 0.8.0",
    "the released schema names no firmware_release, so it was taken before 0.8.0, and this \
     schema says {}",
    "the released schema's firmware_release is '{}', which is not a firmware release like 0.8.0",
    "the released schema names {} and this schema names {}, so there is no released layout to \
     compare against - raise [schema] firmware_release, or refresh the copy with \
     ci/update-released-schema.sh",
    // 16
    "{} is not in the copy of the last release, so it reaches the plugin API in {} - it declares \
     no first_release, and {}'s is {}",
    "{} is not in the copy of the last release, so it reaches the plugin API in {} - its \
     first_release says {}",
    "{} named {} in the last release and names {} now - the release something reached the plugin \
     API in is a fact about firmware already shipped, and a plugin built against it set its \
     min_fw_version from that",
    "{} was already in the plugin API of {} and names {}, the release under development - it \
     reached the plugin API before that, and the copy says no more of it than that it was there",
    // 20
    "constant {} was in the last release and is gone - the firmware, its plugins and every host \
     built against it name it still, so a constant is deprecated with deprecated_release rather \
     than removed",
    "constant {} was {} in the last release and is {} now - a constant is a value the firmware, \
     its plugins and every host agree on, and none of them rebuilds because this file changed",
    // 22
    "enum {} was in the last release and is gone - devices and hosts hold its values still",
    "{}::{} was {#} in the last release and is {#} now - a released value keeps its number, \
     because devices and hosts hold it",
    "{}::{} is called {} now - a released value keeps its name, and an alias gives it another",
    "{}::{} was in the last release and is gone - a released value is deprecated with \
     deprecated_release rather than removed",
    // 26
    "bit field {} was in the last release and is gone - hosts read its bits still",
    "{}::{} is called {} now - a released member keeps its name",
    "{}::{} was in the last release and is gone - a released member is deprecated with \
     deprecated_release rather than removed",
    "{}::{} was at bit {#} in the last release and is at bit {#} now - a released member keeps \
     its bits, because hosts read them there",
    "{}::{} was {#} bit(s) wide in the last release and is {#} now - a released member keeps its \
     bits, because hosts read them there",
    // 31
    "{} is not in the copy of the last release, so it arrives in {}, and its release is {}",
    "{} arrived in {} according to the last release, not {} - the release something arrived in \
     is a fact about firmware already shipped",
    // 33
    "{} was in the last release and is no longer described - a shipped structure's bytes stay \
     where a host that knows them can read them",
    "{}.{} was in the last release and is gone - a shipped field is never moved, renamed or \
     removed, only deprecated",
    "{}.{} was at offset {#} in the last release and is at {#} now - a shipped field's bytes \
     stay where they are",
    "{}.{} was {#} byte(s) in the last release and is {#} now - a shipped field's bytes stay \
     where they are",
    "{}.{} was {} in the last release and is {} now - a shipped field is read the way it was \
     written",
    // 38
    "{} was {} in the last release and is {} now - whether a family is standalone decides which \
     rule its changes answer to",
    "{} has {} since the last release, and its family is standalone - a shipped variant never \
     changes, because a reader built against it reads its fields at fixed offsets",
    // 40
    "{}'s layout has changed since the last release, and it sits under none of the versioned \
     structures, so no generation number covers it",
    "{} carries a generation number and names no constant holding it",
    "{} was {#} in the last release, which is not a generation number",
    "{} is still generation {#}, and {}'s layout has changed since the last release - raise {} \
     to {#}, and add a [[versions]] entry saying which release that generation ships in",
    "{} was raised to {#} with no [[versions]] entry for {} generation {#} - a generation says \
     nothing until something says which release it ships in",
    "{} was {#} in the last release and is {#} now - a generation rises by one per release, so \
     that a host holding a device's bytes can name every layout in between.  The copy compared \
     against is of {}, and this schema is {} - a copy left unrefreshed across a development \
     cycle reads as a rise of more than one, and ci/update-released-schema.sh refreshes it",
    "{} was {#} in the last release and is {#} now - a generation rises by one per release, so \
     that a host holding a device's bytes can name every layout in between",
];

/// The number of the one verdict whose template fits the text.
pub fn number_of(text: &str) -> u32 {
    let fitting: Vec<u32> = (FIRST_VERDICT..)
        .zip(TEMPLATES)
        .filter(|(_, template)| fits(template, text))
        .map(|(number, _)| number)
        .collect();
    assert_eq!(fitting.len(), 1, "{fitting:?} fit the text: {text}");
    fitting[0]
}

/// The index in [`PASSES`] of the pass that gives a verdict.
pub fn pass_of(number: u32) -> usize {
    let begun = PASSES.iter().filter(|(_, first)| *first <= number).count();
    begun.checked_sub(1).expect("a verdict is 11 or more")
}

/// Whether the text is the template with its holes filled.
fn fits(template: &str, text: &str) -> bool {
    let Some(hole) = template.find('{') else {
        return template == text;
    };
    let Some(rest) = text.strip_prefix(&template[..hole]) else {
        return false;
    };
    match template[hole..].strip_prefix("{#}") {
        Some(after) => {
            let digits = integer_length(rest);
            digits > 0 && fits(after, &rest[digits..])
        }
        None => fits_after_text(&template[hole + 2..], rest),
    }
}

/// Whether some front of the text is a free text and what follows it fits.
fn fits_after_text(template: &str, text: &str) -> bool {
    match template.contains('{') {
        true => (0..=text.len()).any(|at| text.is_char_boundary(at) && fits(template, &text[at..])),
        false => text.ends_with(template),
    }
}

/// The length of the integer that the text begins with, 0 if it does not.
fn integer_length(text: &str) -> usize {
    let sign = usize::from(text.starts_with('-'));
    let digits = text[sign..].bytes().take_while(u8::is_ascii_digit).count();
    match digits {
        0 => 0,
        _ => sign + digits,
    }
}
