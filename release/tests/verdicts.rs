//! The verdicts that `release diff` tells, held to the proved check: the first is its answer, and there is none for an accepted pair.
mod common;

use std::collections::{BTreeMap, BTreeSet};

use common::vectors::pairs;
use common::{record, run_on, Drawn};
use menqachu::diff::{differences, Differences, Read};
use menqachu::explain::example::Example;
use menqachu::explain::pages;
use menqachu::record::numbers::word;
use menqachu::record::pair::{Pair, OUTCOMES};
use menqachu::record::parts::Parts;
use menqachu::record::room::{check_whole, load_whole};
use menqachu::text::{assemble, show};
use menqachu::Side;

/// The verdicts on a pair, in the order of the check; none where a record cannot be read.
fn numbers(current: &Parts, released: &Parts) -> Option<Vec<u32>> {
    let is = Read::of(current.record(), Side::Current).ok()?;
    let was = Read::of(released.record(), Side::Released).ok()?;
    let found = differences(&is, &was);
    let numbers: Vec<u32> = found.verdicts.iter().map(|verdict| verdict.number).collect();
    assert_eq!(carried(&found), numbers.iter().copied().collect(), "each is carried by what it is about");
    Some(numbers)
}

/// The numbers of all lines, slots, types and fields.
fn carried(found: &Differences) -> BTreeSet<u32> {
    let types = found.types.iter().flat_map(|one| {
        let rows = one.rows.iter().flat_map(|row| &row.numbers);
        one.numbers.iter().chain(rows)
    });
    let lines = found.lines.iter().flat_map(|line| &line.numbers);
    let slots = found.slots.iter().flat_map(|slot| &slot.numbers);
    types.chain(lines).chain(slots).copied().collect()
}

/// Whether the first verdict is what the check gives.
fn held(current: &Parts, released: &Parts) -> Option<u32> {
    let numbers = numbers(current, released)?;
    let (answer, message) = check_whole(current.record(), released.record());
    let message = String::from_utf8_lossy(&message).into_owned();
    assert_eq!(numbers.first().copied().unwrap_or(0), answer.number, "{message}: {numbers:?}");
    Some(answer.number)
}

#[test]
fn the_vectors() {
    let mut seen: Vec<u32> = pairs().iter().filter_map(|pair| held(&pair.current, &pair.released)).collect();
    assert!(seen.len() > 1000, "{}", seen.len());
    seen.sort_unstable();
    seen.dedup();
    let all: Vec<u32> = std::iter::once(0).chain(11..=46).collect();
    assert_eq!(seen, all);
}

/// The lines of a text with some taken out, doubled, moved, changed in a digit, or taken over from elsewhere.
fn drawn(text: &str, others: &[String], draw: &mut Drawn) -> String {
    let mut lines: Vec<String> = text.lines().map(String::from).collect();
    for _ in 0..1 + draw.below(4) {
        let (at, to) = (1 + draw.below(lines.len() - 1), 1 + draw.below(lines.len() - 1));
        match draw.below(6) {
            0 => drop(lines.remove(at)),
            1 => lines.insert(to, lines[at].clone()),
            2 => lines.swap(at, to),
            3 => lines.insert(to, others[draw.below(others.len())].clone()),
            _ => {
                let digit = char::from(b'0' + draw.below(10) as u8);
                let found = lines[at].rfind(|letter: char| letter.is_ascii_digit());
                found
                    .into_iter()
                    .for_each(|place| lines[at].replace_range(place..=place, &digit.to_string()));
            }
        }
        if lines.len() < 3 {
            break;
        }
    }
    lines.join("\n")
}

/// Pairs drawn from those of the vectors: the same text on both sides, changed on one or on both.
#[test]
fn drawn_pairs() {
    let texts: Vec<String> = pairs().iter().filter_map(|pair| show(pair.released.record()).ok()).collect();
    let others: Vec<String> = texts.iter().flat_map(|text| text.lines()).map(String::from).collect();
    let mut draw = Drawn(0x5eed);
    let mut seen: BTreeMap<u32, usize> = BTreeMap::new();
    for _ in 0..4000 {
        let text = &texts[draw.below(texts.len())];
        let raised = text.replacen("head 1.", "head 2.", 1).replacen("head 0.", "head 1.", 1);
        let old = if draw.below(3) == 0 { drawn(text, &others, &mut draw) } else { text.clone() };
        let new = drawn(&raised, &others, &mut draw);
        let (Ok(new), Ok(old)) = (assemble(new.as_bytes()), assemble(old.as_bytes())) else { continue };
        held(&new, &old).into_iter().for_each(|number| *seen.entry(number).or_default() += 1);
    }
    assert!(seen.len() > 20, "{seen:?}");
}

#[test]
fn the_load() {
    for seed in 0..100 {
        for outcome in OUTCOMES {
            let pair = Pair::read(&load_whole(outcome, seed).1).expect("a pair");
            assert_eq!(held(&pair.current, &pair.released), Some(outcome), "seed {seed}");
        }
    }
}

/// What else some of the smallest examples break: a member of a new name arrives in the current release, a changed type that nothing
/// owns is uncovered, and a field of another size reads otherwise.
const MORE: [(u32, u32); 6] = [(27, 31), (34, 40), (35, 40), (36, 37), (36, 40), (37, 40)];

#[test]
fn the_pages() {
    let mut more = Vec::new();
    for page in pages() {
        let Example::Checked { current, released } = &page.example else { continue };
        let Some(numbers) = numbers(&record(current), &record(released)) else { continue };
        assert_eq!(numbers.first(), Some(&page.number));
        more.extend(numbers.iter().filter(|other| **other != page.number).map(|other| (page.number, *other)));
    }
    assert_eq!(more, MORE);
}

/// The page and its JSON have the number of the check.
#[test]
fn what_is_printed() {
    let mut told = 0;
    for pair in pairs().iter().step_by(13) {
        let (answer, _) = check_whole(pair.current.record(), pair.released.record());
        if !(11..=46).contains(&answer.number) {
            continue;
        }
        let (number, word) = (answer.number, word(answer.number).expect("a word"));
        let page = run_on(&["diff", "-", "-"], &pair.bytes());
        assert!(page.said(0).contains(&format!("{number} {word}")), "{number} {word} in {}", page.text());
        let json = run_on(&["diff", "-", "-", "--json"], &pair.bytes());
        let listed = json.said(0).split("\"numbers\":[").any(|rest| {
            let numbers = rest.split(']').next().unwrap_or_default();
            numbers.split(',').any(|one| one == number.to_string())
        });
        assert!(listed, "{number} in {}", json.text());
        told += 1;
    }
    assert!(told > 60, "{told}");
}

/// Records that break every pass at once.
#[test]
fn every_pass_at_once() {
    let old = "head 1.2.0\nconstant A 1 api since=1.0.0\nconstant B 2\nconstant G 4\nconstant H 5\n\
               enum e 1\nvalue X 1\nvalue Y 2\nvalue Z 3\nenum f 1\nvalue V 1\n\
               bitfield b 1 since=1.0.0\nmember m 0\nmember n 1\nmember o 2\nmember p 3\nbitfield c 1 since=1.0.0\n\
               struct scan slot=metadata version=G\nfield t struct_ptr type=tile\n\
               struct other slot=info version=H\nstruct gone\nstruct tile\nfield a scalar\nfield b scalar type=u16\n\
               field c scalar\nfield d scalar\nfamily fam k e l standalone\nvariant X\nfield x scalar\n\
               family fell k e l standalone\nend";
    let new = "head 1.1.0\nconstant A 1 api since=1.0.1\nconstant G 4\nconstant H 3\nconstant N 1 api since=1.0.0\n\
               enum e 1\nvalue X 9\nvalue W 2\n\
               bitfield b 1 since=1.0.1\nmember m 5\nmember q 1\nmember p 3 width=2\n\
               struct scan slot=metadata version=G\nfield t struct_ptr type=tile\n\
               struct other slot=info version=H\nstruct loose\nfield u scalar\nstruct tile\nfield b scalar type=u8\n\
               field c cstr_ptr\nfield d scalar\nfamily fam k e l standalone\nvariant X\nfield x scalar\nfield y scalar\n\
               family fell k e l\nend";
    let numbers = numbers(&record(new), &record(old)).expect("both can be read");
    let expected = [
        15, 18, 17, 20, 23, 24, 25, 22, 29, 27, 28, 30, 26, 32, 32, 31, 32, 33, 34, 35, 36, 37, 35, 36, 37,
        35, 39, 38, 40, 46, 43, 43,
    ];
    assert_eq!(numbers, expected);
}

/// A copy that says unreleased is held to its own pass alone.
#[test]
fn an_unreleased_copy() {
    let old = "head 1.0.0 unreleased\nconstant A 1\nend";
    assert_eq!(numbers(&record("head 1.0.0\nend"), &record(old)), Some(vec![11]));
    let old = "head 1.0.0 unreleased\nversion a 1\nend";
    assert_eq!(numbers(&record("head 1.0.0\nend"), &record(old)), Some(Vec::new()));
}
