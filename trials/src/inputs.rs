//! Records to measure with: each is accepted beside the release before it, which lacks something harmless.

use oracle::generate::Pair;
use oracle::generate::encode::encode_over;
use oracle::generate::make::{
    alias, array, array2d, bit_field, content, enumeration, family, field, integer, padding, pointer, root,
    scalar, slotted, structure, version,
};
use oracle::model::{Content, Field, Item, Struct};
use oracle::rng::Rng;

/// The release before, and the one under development.
const THEN: &str = "0.9.0";
const NOW: &str = "0.10.0";

/// The release that all dated things arrived in.
const OLD: &str = "0.8.0";

/// A pair to measure with, and a name to ask the current record for.
#[derive(Clone)]
pub struct Input {
    pub name: String,
    pub current: Content,
    pub released: Content,
    pub asked: String,
    /// Texts that lie in the pool before any is put there, so that names may be stretches of each other.
    pool: Vec<u8>,
}

impl Input {
    /// Two records that hold no item yet but the generation of one root, which is raised with its entry.
    fn begun(name: &str, root: &str) -> Input {
        Input {
            name: name.into(),
            current: content(NOW).with(integer("GEN", 4)).with(version(root, 4)),
            released: content(THEN).with(integer("GEN", 3)).with(version(root, 3)),
            asked: root.into(),
            pool: Vec::new(),
        }
    }

    fn both(mut self, item: impl Into<Item>) -> Input {
        let item = item.into();
        self.released.items.push(item.clone());
        self.current.items.push(item);
        self
    }

    fn asking(self, asked: &str) -> Input {
        Input { asked: asked.into(), ..self }
    }

    fn over(self, pool: Vec<u8>) -> Input {
        Input { pool, ..self }
    }

    /// The pair as bytes.
    pub fn records(&self) -> Pair {
        let encoded = |content| encode_over(content, self.pool.clone());
        Pair { current: encoded(&self.current), released: encoded(&self.released) }
    }

    /// The same with the release not raised, which is verdict 15.
    pub fn unraised(mut self) -> Input {
        self.released.release = self.current.release.clone();
        self.name += ", not later (15)";
        self
    }

    /// The same with a new constant of the plugin API that names an old release, which is verdict 17.
    pub fn late(mut self) -> Input {
        self.current.items.push(integer("LATE", 1).ora().dated(OLD).into());
        self.name += ", late (17)";
        self
    }
}

/// The seven kinds of record that every call is measured on.
pub fn named() -> Vec<Input> {
    vec![small(), realistic(32_768), variants(8_000, 8_000), wide(), fronts(), backs(), units()]
}

/// A plate's scan record: its tiles gain a focus out of their padding.
pub fn small() -> Input {
    let tile =
        |rest: Field| structure("tile").field(scalar("n", "u16")).field(scalar("skip", "u8")).field(rest);
    let scan = root("scan", "metadata", "GEN")
        .field(scalar("tiles", "u16"))
        .field(field("stage", "enum").of("controller"))
        .field(pointer("first", "tile"));
    let stage = enumeration("controller", 1).value("present", 0).value("skipping", 1);
    let mut input = Input::begun("small", "scan").both(stage).both(scan).asking("tile");
    input.released.items.push(tile(padding("gap", 1)).into());
    input.current.items.push(tile(scalar("focus", "u8")).into());
    input
}

const SLOTS: [&str; 3] = ["metadata", "runtime", "info"];

const WORDS: [&str; 12] = [
    "count", "offset", "flags", "plate", "well", "focus", "stack", "stage", "frame", "light", "shift",
    "state",
];

/// A record as a stage's maker keeps it, of about this many bytes: with 32 KiB sixty structures of fifteen fields under
/// three roots, and ten enums, six bit fields, eight aliases, sixteen constants, a family and some keys beside them.
/// The last structure gains its fifteenth field.
pub fn realistic(bytes: usize) -> Input {
    let scaled = |n: usize| (n * bytes / 32_768).max(1);
    let structs = scaled(60);
    let mut input = Input::begun("realistic", "scan_0_t").asking(&format!("scan_{}_t", structs - 1));
    for i in 0..scaled(16) {
        let constant = integer(&format!("LIMIT_{i}"), 100 + i as i64);
        input = input.both(if i % 2 == 0 { constant.ora().dated(OLD) } else { constant });
    }
    for i in 0..scaled(8) {
        input = input.both(alias(&format!("alias_{i}_t"), ["u8", "u16", "u32"][i % 3]));
    }
    for i in 0..scaled(10) {
        let e = enumeration(&format!("kind_{i}_t"), 1).dated(OLD);
        let e = if i % 2 == 0 { e.ora() } else { e };
        input = input.both((0..5).fold(e, |e, n| e.value(&format!("KIND_{i}_{n}"), n)));
    }
    for i in 0..scaled(6) {
        let b = bit_field(&format!("bits_{i}_t"), 1, OLD);
        input = input.both((0..4).fold(b, |b, n| b.member(&format!("BIT_{i}_{n}"), n, None)));
    }
    for i in 0..structs {
        let fields = if i + 1 == structs { 14 } else { 15 };
        input = input.both(realistic_struct(i, fields, scaled(10)));
    }
    grow_last(input.both(realistic_family()))
}

/// The realistic record with a unit in the name of every field, µm and Å by turns.
pub fn units() -> Input {
    let mut input = Input { name: "units".into(), ..realistic(32_768) };
    for content in [&mut input.current, &mut input.released] {
        for (nth, field) in content.structs_mut().flat_map(|s| &mut s.fields).enumerate() {
            field.name += if nth % 2 == 0 { "_\u{b5}m" } else { "_\u{c5}" };
        }
    }
    input
}

/// The current record's last structure gains a field, whichever root it stands under.
fn grow_last(mut input: Input) -> Input {
    let grown = input.current.structs_mut().last().expect("there are structures");
    grown.fields.push(scalar("gained", "u32"));
    let roots = input.current.structs().filter(|s| s.slot.is_some()).count();
    for i in 1..roots {
        let (name, constant) = (format!("scan_{i}_t"), generation(i));
        for (content, generation) in [(&mut input.released, 3), (&mut input.current, 4)] {
            content.items.push(integer(&constant, generation).into());
            content.items.push(version(&name, generation as u32).into());
        }
    }
    input
}

/// The name of the constant that the root in this slot names.
fn generation(slot: usize) -> String {
    if slot == 0 { "GEN".into() } else { format!("GEN_{slot}") }
}

/// A structure of so many fields, which points at two later ones. The first three fill the slots.
fn realistic_struct(i: usize, fields: usize, enums: usize) -> Struct {
    let mut s = structure(&format!("scan_{i}_t"));
    if let Some(slot) = SLOTS.get(i) {
        s.slot = Some(slot.to_string());
        s.constant = Some(generation(i));
    }
    s.fields = (0..fields).map(|j| realistic_field(i, j, enums)).collect();
    s
}

fn realistic_field(i: usize, j: usize, enums: usize) -> Field {
    let name = format!("{}_{}", WORDS[(i + j) % WORDS.len()], j);
    let child = |n: usize| format!("scan_{}_t", 2 * i + 3 + n);
    match j {
        2 | 11 => field(&name, "enum").of(&format!("kind_{}_t", (i + j) % enums)),
        3 => field(&name, "type_alias").of("alias_0_t"),
        4 => field(&name, "bitfield").of("bits_0_t"),
        6 | 13 => padding(&name, 1 + (i % 3) as u32),
        7 => array(&name, "u16", 4),
        8 => pointer(&name, &child(0)),
        9 => field(&name, "struct_array_ptr").of(&child(1)).each(&child(1)),
        10 => array2d(&name, "u8", 2, 4),
        12 if i.is_multiple_of(20) => scalar(&name, "u32").keyed(&format!("KEY_{i}"), OLD),
        _ => scalar(&name, ["u8", "u16", "u32"][j % 3]),
    }
}

fn realistic_family() -> Item {
    let fam = family("command").standalone().common(scalar("at", "u32"));
    let fam = fam.variant("Move", &[]).variant("Light", &[]).variant("Wait", &[]);
    fam.into()
}

/// A family of so many variants without fields, named by stretches of a pool of letters; the last release having the first `shipped` of them.
pub fn variants(count: usize, shipped: usize) -> Input {
    let mut rng = Rng::new(7);
    let letters: Vec<u8> = (0..16_300).map(|_| b'a' + rng.below(26) as u8).collect();
    let names: Vec<String> =
        (0..count).map(|i| String::from_utf8_lossy(&letters[2 * i..2 * i + 5]).into_owned()).collect();
    varied("variants", &names, shipped).over(letters)
}

/// Variants of about this many bytes of stream, as shipped.
pub fn shipped_variants(bytes: usize) -> Input {
    let count = (bytes - 200) / 4;
    Input { name: "tiny variants, all shipped".into(), ..variants(count, count) }
}

/// Variants of about this many bytes of stream; the last release had half.
pub fn new_variants(bytes: usize) -> Input {
    let count = (bytes - 200) / 4;
    Input { name: "tiny variants, half of them new".into(), ..variants(count, count / 2) }
}

/// A root that points at a family with a variant of each of these names.
fn varied(name: &str, names: &[String], shipped: usize) -> Input {
    let scan = root("scan", "metadata", "GEN").field(field("fam", "tagged_fam_ptr").of("fam"));
    let with = |names: &[String]| {
        let fam = family("fam");
        names.iter().fold(fam, |fam, name| fam.variant(name, &[]))
    };
    let mut input = Input::begun(name, "scan").both(scan).asking("fam");
    input.released.items.push(with(&names[..shipped]).into());
    input.current.items.push(with(names).into());
    input
}

/// One structure of 980 fields, of which the last is new.
pub fn wide() -> Input {
    let mut scan = root("scan", "metadata", "GEN");
    scan.fields = (0..979).map(|i| scalar(&format!("field_{i:03}"), ["u8", "u16", "u32"][i % 3])).collect();
    let mut input = Input::begun("wide", "scan").both(scan);
    let grown = input.current.structs_mut().last().expect("there is one");
    grown.fields.push(scalar("field_979", "u8"));
    input
}

/// The 250 bytes that the names of a record share.
fn shared() -> String {
    "position_of_the_tile_in_its_plate_".repeat(8)[..250].to_string()
}

/// Names that differ after 250 bytes.
pub fn fronts() -> Input {
    let front = shared();
    long_named("fronts", |i| format!("{front}{i:02}"))
}

/// Names that differ in front of the 250 bytes that they end with.
pub fn backs() -> Input {
    let back = shared();
    long_named("backs", |i| format!("{i:02}{back}"))
}

/// Twenty structures of 47 fields with these names, of which the last field is new.
fn long_named(title: &str, name: impl Fn(usize) -> String) -> Input {
    let mut input = Input::begun(title, "scan_00").asking("scan_19");
    for i in 0..20 {
        let mut s = structure(&format!("scan_{i:02}"));
        if i == 0 {
            s = root(&s.name, "metadata", "GEN");
        }
        s.fields = (0..45).map(|j| scalar(&name(j), "u16")).collect();
        s.fields.push(pointer(&name(45), &format!("scan_{:02}", i + 1)));
        input = input.both(s);
    }
    let grown = input.current.structs_mut().last().expect("there are twenty");
    grown.fields.push(scalar(&name(46), "u16"));
    input
}

/// Variants of about this many bytes of stream, whose names share a front of 200 bytes; the last release had half.
pub fn fronted_variants(bytes: usize) -> Input {
    const FRONT: usize = 200;
    const MOST: usize = 255;
    let count = (bytes - 200) / 4;
    let (mut pool, mut names) = (Vec::new(), Vec::new());
    for segment in b'A'.. {
        if names.len() >= count {
            break;
        }
        let tail: Vec<u8> = (0..(MOST - FRONT) as u8).map(|i| segment + i % 7).collect();
        let run = [b"x".repeat(MOST - 1), tail].concat();
        for repeated in FRONT..MOST {
            for end in MOST..=(MOST - 1 - repeated + MOST) {
                names.push(String::from_utf8_lossy(&run[MOST - 1 - repeated..end]).into_owned());
            }
        }
        pool.extend(run);
    }
    shuffle(&mut names, &mut Rng::new(11));
    names.truncate(count);
    varied("variants with a front of 200 bytes, half of them new", &names, count / 2).over(pool)
}

fn shuffle<T>(list: &mut [T], rng: &mut Rng) {
    for i in (1..list.len()).rev() {
        list.swap(i, rng.below(i + 1));
    }
}

/// As many fields as enums fill half of about this many bytes, each field of the enum that is declared last.
pub fn enums_last(bytes: usize) -> Input {
    let (fields, enums) = ((bytes - 200) / 2 / 33, (bytes - 200) / 2 / 12);
    let name = |i: usize| format!("e{i:04}");
    let mut scan = root("scan", "metadata", "GEN");
    scan.fields = (0..fields).map(|i| field(&format!("f{i:03}"), "enum").of(&name(enums - 1))).collect();
    let input = Input::begun("every field an enum declared last", "scan").both(scan);
    (0..enums).fold(input, |input, i| input.both(enumeration(&name(i), 2)))
}

/// Structures of about this many bytes, each pointing at the next, all but the root new.
pub fn owned_chain(bytes: usize) -> Input {
    let links = (bytes - 200) / 43;
    let name = |i: usize| format!("s{i:03}");
    let mut input = Input::begun("ownership as one long chain, all new", &name(0)).asking(&name(links));
    input.released.items.push(root(&name(0), "metadata", "GEN").into());
    for i in 0..=links {
        let s = if i == 0 { root(&name(0), "metadata", "GEN") } else { structure(&name(i)) };
        input.current.items.push(s.field(pointer("next", &name(i + 1))).into());
    }
    input
}

/// A root of about this many bytes that points at each of its new structures.
pub fn owned_fan(bytes: usize) -> Input {
    let leaves = (bytes - 200) / 43;
    let name = |i: usize| format!("s{i:03}");
    let mut input = Input::begun("ownership as one wide fan, all new", "scan").asking(&name(leaves - 1));
    let mut scan = root("scan", "metadata", "GEN");
    input.released.items.push(scan.clone().into());
    scan.fields = (0..leaves).map(|i| pointer(&format!("p{i:03}"), &name(i))).collect();
    input.current.items.push(scan.into());
    input.current.items.extend((0..leaves).map(|i| structure(&name(i)).into()));
    input
}

/// The deepest walk of ownership that a stream has room for, where types are not marked as visited: 992 fields, each but the first a reference of a
/// new type to itself, so that all would be under way at once. The root names no constant, for which there is no room, so the verdict is 41 after the walk.
pub fn deepest() -> Input {
    let scan = slotted("scan", "metadata");
    let mut deep = structure("t");
    deep.fields = vec![pointer("p", "t"); 991];
    Input {
        name: "the deepest walk (41)".into(),
        current: content(NOW).with(scan.clone().field(pointer("p", "t"))).with(deep),
        released: content(THEN).with(scan),
        asked: "t".into(),
        pool: Vec::new(),
    }
}

/// Nine hundred pointers in 250 structures, which fill a stream of 32 KiB but for some 500 bytes: each points at one of them.
pub fn many_pointers() -> Input {
    let name = |i: usize| format!("scan_{i:03}");
    let mut input = Input::begun("900 pointers in 250 structures", &name(0)).asking(&name(249));
    for i in 0..250 {
        let mut s = if i == 0 { root(&name(0), "metadata", "GEN") } else { structure(&name(i)) };
        let fields = if i < 150 { 4 } else { 3 };
        s.fields =
            (0..fields).map(|j| pointer(&format!("p{j}"), &name((7 * i + 61 * j + 1) % 250))).collect();
        input.current.items.push(s.into());
    }
    input
}
