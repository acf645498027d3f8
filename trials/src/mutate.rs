//! One pair made from others: bytes changed, parts of contents changed, taken over or repeated.

use oracle::Side;
use oracle::generate::damage::scramble;
use oracle::generate::draft::Draft;
use oracle::generate::encode::{Encoded, encode, encode_over};
use oracle::generate::{Pair, faults, steps, wild};
use oracle::model::{Content, Item};
use oracle::reader::read;
use oracle::rng::Rng;
use oracle::verdicts::{FIRST_VERDICT, LAST_VERDICT};

/// Integers at the limits of their widths, written over whatever stands there.
const EDGES: [u64; 8] = [0, 1, 0x7f, 0xff, 0xffff, 0x7fff_ffff, 0xffff_ffff, u64::MAX];

/// Contents of longer streams are written with their texts shared, so that every text starts within reach.
const LARGE: usize = 2_000;

/// New names are numbered from here on, so that they meet no other.
const FAR: usize = 100_000_000;

/// A change of `pair`; `other` is what parts are taken over from.
pub fn mutated(pair: &Pair, other: &Pair, rng: &mut Rng) -> Pair {
    let mut next = pair.clone();
    for _ in 0..rng.between(1, 4) {
        match rng.below(10) {
            0..=1 => scramble(either(&mut next, rng), rng),
            2 => overwrite(either(&mut next, rng), rng),
            3 => exchange(&mut next, other, rng),
            _ => contents(&mut next, other, rng),
        }
    }
    next
}

fn either<'p>(pair: &'p mut Pair, rng: &mut Rng) -> &'p mut Encoded {
    match rng.chance(60) {
        true => &mut pair.current,
        false => &mut pair.released,
    }
}

/// An edge of one, two, four or eight bytes over a drawn place of the stream.
fn overwrite(record: &mut Encoded, rng: &mut Rng) {
    let width = *rng.pick(&[1, 2, 4, 8]);
    if record.stream.len() >= width {
        let at = rng.below(record.stream.len() - width + 1);
        let edge = rng.pick(&EDGES).to_le_bytes();
        record.stream[at..at + width].copy_from_slice(&edge[..width]);
    }
}

/// A record taken from the other pair, or from the other side of this one.
fn exchange(pair: &mut Pair, other: &Pair, rng: &mut Rng) {
    match rng.below(4) {
        0 => pair.current = other.current.clone(),
        1 => pair.released = other.released.clone(),
        2 => pair.released = pair.current.clone(),
        _ => pair.current.pool = other.current.pool.clone(),
    }
}

/// A change of what the records say; bytes where one says nothing.
fn contents(pair: &mut Pair, other: &Pair, rng: &mut Rng) {
    let (Some(current), Some(released)) =
        (content(&pair.current, Side::Current), content(&pair.released, Side::Released))
    else {
        return scramble(either(pair, rng), rng);
    };
    let mut draft = Draft::of(released, current, FAR + rng.below(FAR));
    match rng.below(6) {
        0 => wild::mutate(&mut draft.current, rng),
        1 => wild::mutate(&mut draft.released, rng),
        2 => take_over(&mut draft, other, rng),
        3 => repeat(&mut draft.current, rng),
        4 if tame(&draft.current) => steps::take(&mut draft, rng),
        5 if tame(&draft.current) => {
            let verdict = rng.between(FIRST_VERDICT as usize, LAST_VERDICT as usize);
            faults::apply(verdict as u32, &mut draft, rng);
        }
        _ => draft.released.release = None,
    }
    let large = pair.current.stream.len().max(pair.released.stream.len()) > LARGE;
    let mut written = |content| if large { encode_over(content, Vec::new()) } else { encode(content, rng) };
    *pair = Pair { current: written(&draft.current), released: written(&draft.released) };
}

fn content(record: &Encoded, side: Side) -> Option<Content> {
    read(side, &record.stream, &record.pool).ok().map(|record| record.content)
}

/// Steps and faults go by name, and find their way where no structure's is there twice.
fn tame(content: &Content) -> bool {
    let mut names: Vec<&str> = content.structs().map(|s| s.name.as_str()).collect();
    names.sort_unstable();
    names.windows(2).all(|pair| pair[0] != pair[1])
}

/// An item of the other pair in both contents, or in the current one.
fn take_over(draft: &mut Draft, other: &Pair, rng: &mut Rng) {
    let Some(source) = content(&other.released, Side::Released).filter(|c| !c.items.is_empty()) else {
        return;
    };
    let item = rng.pick(&source.items).clone();
    match rng.chance(50) {
        true => draft.both(item, rng),
        false => draft.add(item, rng),
    }
}

/// A structure's or family's parts many times over, so that counts grow.
fn repeat(content: &mut Content, rng: &mut Rng) {
    let times = *rng.pick(&[2, 9, 40]);
    let Some(nth) = content.items.len().checked_sub(1).map(|last| rng.below(last + 1)) else {
        return;
    };
    let numbered = |name: &str, i: usize| format!("{}{i}", &name[..name.floor_char_boundary(200)]);
    match &mut content.items[nth] {
        Item::Struct(s) => {
            if let Some(field) = s.fields.first().cloned() {
                s.fields.extend((0..times).map(|i| {
                    let mut twin = field.clone();
                    (twin.name, twin.key) = (numbered(&field.name, i), None);
                    twin
                }));
            }
        }
        Item::Family(f) => {
            if let Some(variant) = f.variants.first().cloned() {
                f.variants.extend((0..times).map(|i| {
                    let mut twin = variant.clone();
                    twin.discriminant = numbered(&variant.discriminant, i);
                    twin
                }));
            }
        }
        other => {
            let twin = other.clone();
            rng.insert(&mut content.items, twin);
        }
    }
}
