//! The number of a verdict from its text, and the parts of an input.

use oracle::parts::Parts;
use oracle::reader::{POOL_LIMIT, STREAM_LIMIT};
use oracle::verdicts::{PASSES, number_of, pass_of};

#[test]
fn words_of_messages_in_names_do_not_confuse() {
    let cases = [
        (
            "s.n was now was in the last release and is gone - a shipped field is never moved, \
             renamed or removed, only deprecated",
            34,
        ),
        (
            "c was was 5 in the last release, which is not a generation number",
            42,
        ),
        (
            "e::a is called b now now - a released value keeps its name, and an alias gives it \
             another",
            24,
        ),
        (
            "b::x was was 1 bit(s) wide in the last release and is 2 now - a released member \
             keeps its bits, because hosts read them there",
            30,
        ),
        (
            "a::b:::: is called :: now - a released member keeps its name",
            27,
        ),
    ];
    for (text, number) in cases {
        assert_eq!(number_of(text), number, "{text}");
    }
}

#[test]
#[should_panic(expected = "fit the text")]
fn a_text_that_no_template_fits_is_not_a_verdict() {
    number_of("something else");
}

#[test]
#[should_panic(expected = "[17, 26] fit the text")]
fn a_text_that_two_templates_fit_is_not_decided() {
    number_of(
        "bit field x is not in the copy of the last release, so it reaches the plugin API in 1 - \
         its first_release says y was in the last release and is gone - hosts read its bits still",
    );
}

#[test]
fn each_verdict_has_its_pass() {
    let passes: Vec<&str> = [11, 15, 16, 19, 21, 25, 30, 32, 37, 39, 46]
        .map(|number| PASSES[pass_of(number)].0)
        .to_vec();
    let names: Vec<&str> = PASSES.iter().map(|(name, _)| *name).collect();
    assert_eq!(passes[0], "unreleased copy");
    assert_eq!(passes[2..4], ["first releases", "first releases"]);
    assert_eq!([&passes[..3], &passes[4..]].concat(), names);
}

/// A part with its length.
fn part(bytes: &[u8]) -> Vec<u8> {
    let length = u32::try_from(bytes.len()).expect("a short part");
    [&length.to_le_bytes(), bytes].concat()
}

#[test]
fn a10_parts_that_end_early_or_state_too_much() {
    let mut whole = Parts::new([part(b"abc"), part(b""), part(b"d"), vec![9]].concat());
    assert_eq!(whole.part(), b"abc");
    assert_eq!(whole.part(), b"");
    assert_eq!(whole.part(), b"d");
    assert_eq!(whole.part(), b"", "a cut length is 0");
    let mut early = Parts::new(vec![4, 0, 0, 0, b'a']);
    assert_eq!(early.part(), b"a");
    assert_eq!(early.part(), b"");
    let mut long = Parts::new(vec![1, 0x80, 0, 0, b'a']);
    assert_eq!(long.part().len(), STREAM_LIMIT + 1);
    let mut longest = Parts::new([part(b""), vec![0xFF; 4]].concat());
    assert_eq!(longest.part(), b"");
    assert_eq!(longest.part().len(), POOL_LIMIT + 1);
}
