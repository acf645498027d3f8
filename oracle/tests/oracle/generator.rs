//! The generator: what it makes is what it is asked for.

use std::collections::BTreeSet;

use oracle::answers::ROOM;
use oracle::extent::extents;
use oracle::generate::encode::{encode, encode_spread, encode_tight};
use oracle::generate::findings::{self, lists, owners, records};
use oracle::generate::offers::Offers;
use oracle::generate::sections::{doubled, sectioned};
use oracle::generate::shuffle::{SORTS, shuffled};
use oracle::generate::{Aim, Pair, aimed, base, faults, faulty, pair, record, stepped, wild};
use oracle::json;
use oracle::layout::Layout;
use oracle::model::{Content, Item, Side};
use oracle::reader::read;
use oracle::rng::Rng;
use oracle::shrink::shrink;
use oracle::stats;
use oracle::verdicts::{FIRST_VERDICT, LAST_VERDICT, PASSES};

/// Contents of all sorts.
fn contents(count: usize, rng: &mut Rng) -> Vec<Content> {
    let draw = |nth: usize| match nth % 3 {
        0 => wild::content(6, rng),
        1 => wild::graph(4, rng),
        _ => stepped(rng).current,
    };
    (0..count).map(draw).collect()
}

#[test]
fn what_is_encoded_is_read_back() {
    let mut rng = Rng::new(1);
    let mut readable = 0;
    for content in contents(600, &mut rng) {
        for record in [
            encode(&content, &mut rng),
            encode_spread(&content),
            encode_tight(&content),
        ] {
            if let Ok(read) = read(Side::Current, &record.stream, &record.pool) {
                assert_eq!(read.content, content);
                readable += 1;
            }
        }
    }
    assert!(readable > 1_000, "{readable}");
}

#[test]
fn one_seed_gives_one_run() {
    let draw = |seed| {
        let mut rng = Rng::new(seed);
        (0..20).map(|_| pair(&mut rng)).collect::<Vec<_>>()
    };
    assert_eq!(draw(5), draw(5));
    assert_ne!(draw(5), draw(6));
}

#[test]
fn c28_both_readings_give_one_layout() {
    let mut rng = Rng::new(2);
    for content in contents(1_500, &mut rng) {
        let record = encode(&content, &mut rng);
        let [current, released] =
            Side::BOTH.map(|side| oracle::list(&record.stream, &record.pool, side, usize::MAX));
        assert_eq!(
            (current.number, &current.text),
            (released.number, &released.text)
        );
    }
}

/// Whether no type of a content has the name of another.
fn each_type_once(content: &Content) -> bool {
    let mut names = Vec::new();
    for item in &content.items {
        match item {
            Item::Struct(s) => names.push(s.name.clone()),
            Item::Family(f) => {
                names.push(f.name.clone());
                let variants = f.variants.iter().map(|v| &v.discriminant);
                names.extend(variants.map(|v| format!("{}::{v}", f.name)));
            }
            _ => {}
        }
    }
    names.iter().collect::<BTreeSet<_>>().len() == names.len()
}

#[test]
fn exact_sizes_are_the_rusts() {
    let mut rng = Rng::new(3);
    let mut judged = 0;
    for content in contents(1_500, &mut rng) {
        let record = encode_tight(&content);
        let readable = read(Side::Current, &record.stream, &record.pool).is_ok();
        if readable && each_type_once(&content) {
            let layout = Layout::of_schema(&json::schema(&content));
            let end = |fields: &[oracle::layout::FieldLayout]| match fields.last() {
                Some(last) => (last.offset + last.size) as u128,
                None => 0,
            };
            let mut theirs: Vec<u128> = layout.types.values().map(|t| end(&t.fields)).collect();
            let mut ours = extents(&content);
            theirs.sort();
            ours.sort();
            assert_eq!(ours, theirs);
            judged += 1;
        }
    }
    assert!(judged > 700, "{judged}");
}

#[test]
fn damaged_records_are_refused_as_asked() {
    let mut rng = Rng::new(4);
    for number in 1..=9 {
        for side in Side::BOTH {
            let mut places = BTreeSet::new();
            for _ in 0..30 {
                let record = record(number, side, &mut rng);
                let refusal = read(side, &record.stream, &record.pool);
                let refusal = refusal.expect_err("a damaged record is refused");
                assert_eq!(refusal.number, number);
                places.insert(refusal.place);
            }
            assert!(
                number == 8 || places.len() > 3,
                "{number} {side:?} {places:?}"
            );
        }
    }
}

#[test]
fn refusals_come_in_pairs_on_the_side_asked() {
    let mut rng = Rng::new(5);
    for number in 1..=9 {
        for side in Side::BOTH {
            let answer = aimed(Aim::Refusal(number, side), &mut rng).check(ROOM);
            assert_eq!((answer.number, answer.side), (number, side.number()));
            assert_eq!((answer.length, answer.text.as_str()), (0, ""));
        }
    }
}

#[test]
fn each_form_of_each_fault_gives_its_verdict() {
    let mut rng = Rng::new(6);
    for verdict in FIRST_VERDICT..=LAST_VERDICT {
        for (nth, fault) in faults::forms(verdict).iter().enumerate() {
            for _ in 0..20 {
                let mut draft = base::empty(&mut rng);
                fault(&mut draft, &mut rng);
                let number = encode_and_check(&draft.current, &draft.released);
                assert_eq!(number, verdict, "form {nth} of {verdict}: {draft:?}");
            }
        }
    }
}

fn encode_and_check(current: &Content, released: &Content) -> u32 {
    let (current, released) = (encode_tight(current), encode_tight(released));
    oracle::check(
        &current.stream,
        &current.pool,
        &released.stream,
        &released.pool,
        ROOM,
    )
    .number
}

#[test]
fn steps_are_accepted_and_change_something() {
    let mut rng = Rng::new(7);
    let mut changed = 0;
    for _ in 0..300 {
        let draft = stepped(&mut rng);
        assert_eq!(encode_and_check(&draft.current, &draft.released), 0);
        changed += usize::from(draft.current.items != draft.released.items);
    }
    assert!(changed > 250, "{changed}");
}

#[test]
fn a_run_reaches_what_is_asked_of_it() {
    const PAIRS: usize = 8_000;
    let stats = stats::run(8, PAIRS);
    assert!(stats.accepted_with_change() >= PAIRS / 10);
    assert!(stats.reached()[PASSES.len() - 1] >= PAIRS / 100);
    for number in FIRST_VERDICT..=LAST_VERDICT {
        assert!(stats.of(number, Side::Current) >= PAIRS / 200, "{number}");
    }
    for number in 1..=9 {
        for side in Side::BOTH {
            assert!(stats.of(number, side) >= PAIRS / 200, "{number} {side:?}");
        }
    }
}

#[test]
fn shrinking_keeps_the_verdict() {
    let mut rng = Rng::new(9);
    for verdict in [17, 21, 35, 39, 43] {
        let draft = faulty(verdict, &mut rng);
        let was = encode_and_check(&draft.current, &draft.released);
        let whole = vec![draft.current, draft.released];
        let small = shrink(whole.clone(), |next| {
            encode_and_check(&next[0], &next[1]) == was
        });
        assert_eq!(encode_and_check(&small[0], &small[1]), was);
        let size = |contents: &[Content]| -> usize {
            contents.iter().map(|c| encode_tight(c).stream.len()).sum()
        };
        assert!(size(&small) <= size(&whole));
    }
}

#[test]
fn fixed_cases_have_labels_of_their_own() {
    let labels = [
        findings::pairs()
            .into_iter()
            .map(|c| c.label)
            .collect::<Vec<_>>(),
        records::records().into_iter().map(|c| c.label).collect(),
        owners::questions().into_iter().map(|c| c.label).collect(),
        lists::lists().into_iter().map(|c| c.label).collect(),
    ];
    for labels in labels {
        assert!(!labels.is_empty());
        assert_eq!(labels.iter().collect::<BTreeSet<_>>().len(), labels.len());
    }
}

#[test]
fn offers_follow_each_other() {
    let mut rng = Rng::new(9);
    let (mut offered, mut accepted) = (0, 0);
    for _ in 0..60 {
        let (mut offers, mut last) = Offers::begin(&mut rng);
        for _ in 0..8 {
            let Ok(copy) = read(Side::Released, &last.stream, &last.pool) else {
                break;
            };
            let current = offers.offer(&copy.content, &mut rng);
            let pair = Pair {
                current,
                released: last.clone(),
            };
            offered += 1;
            if pair.check(ROOM).number == 0 {
                accepted += 1;
                last = pair.current;
            }
        }
    }
    assert!(accepted * 2 > offered, "{accepted} of {offered}");
}

/// The items of a content without their order, each with its parts without theirs.
fn unordered(content: &Content) -> Vec<String> {
    let mut items = content.items.clone();
    for item in &mut items {
        match item {
            Item::Enum(e) => e.values.sort_by_key(|v| format!("{v:?}")),
            Item::BitField(b) => b.members.sort_by_key(|m| format!("{m:?}")),
            Item::Family(f) => f.variants.sort_by_key(|v| format!("{v:?}")),
            _ => {}
        }
    }
    let mut items: Vec<String> = items.iter().map(|item| format!("{item:?}")).collect();
    items.sort();
    items
}

#[test]
fn w214_shuffled_records_say_the_same_in_another_order() {
    let mut rng = Rng::new(214);
    let mut moved = [0; SORTS.len()];
    for _ in 0..400 {
        let before = sectioned(&mut rng).current;
        let Ok(was) = read(Side::Current, &before.stream, &before.pool) else {
            continue;
        };
        let after = shuffled(&before, &mut rng);
        assert_eq!(after.record.pool, before.pool);
        let is = read(Side::Current, &after.record.stream, &before.pool).expect("readable");
        assert_eq!(unordered(&is.content), unordered(&was.content));
        assert_eq!(after.moved.contains(&true), after.record != before);
        for (count, moved) in moved.iter_mut().zip(after.moved) {
            *count += usize::from(moved);
        }
    }
    assert!(moved.iter().all(|count| *count > 20), "{moved:?}");
}

#[test]
fn w214_doubled_pairs_are_accepted_in_one_order_alone_at_times() {
    let mut rng = Rng::new(7);
    let mut changed = 0;
    for _ in 0..200 {
        let before = doubled(&mut rng);
        let mut after = before.clone();
        after.current = shuffled(&before.current, &mut rng).record;
        let [was, is] = [before, after].map(|pair| pair.check(ROOM).number == 0);
        changed += usize::from(was != is);
    }
    assert!(changed > 10, "{changed}");
}
