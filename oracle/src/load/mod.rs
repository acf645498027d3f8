//! The pairs of the load call, written from the tables of docs/LOAD.md, and what
//! every pair must meet.

mod pool;
mod shared;
mod stream;
mod summary;
pub mod validate;

use pool::{ABSENT, Text, field_name, pool, struct_name, text};
use stream::{Field, Stream};
pub use summary::summary;

/// The outcomes that a pair can have.
pub const OUTCOMES: [u32; 6] = [0, 20, 34, 35, 36, 43];

/// The last seed.
pub const LAST_SEED: u32 = 2_147_483_647;

/// 61: another outcome, or a seed above the last.
pub const UNFIT: u32 = 61;

const RELEASES: [[&str; 2]; 4] = [
    ["0.8.0", "0.9.0"],
    ["0.9.0", "0.10.0"],
    ["0.10.0", "1.0.0"],
    ["1.9.9", "1.10.0"],
];
const SLOTS: [&str; 3] = ["metadata", "runtime", "info"];
const SCALARS: [&str; 4] = ["u8", "u16", "u32", "char"];
const RETYPED: [&str; 4] = ["u16", "u32", "char", "u32"];

/// One draw after the other.
#[derive(Clone, Copy, Debug)]
pub struct Draws {
    seed: u64,
}

impl Draws {
    pub fn new(seed: u32) -> Self {
        Draws { seed: seed.into() }
    }

    pub fn below(&mut self, n: usize) -> usize {
        self.seed = (self.seed * 1_103_515_245 + 12_345) % 2_147_483_648;
        (self.seed / 65_536) as usize % n
    }
}

/// A structure of the released record.
struct Struct {
    name: Text,
    fields: Vec<Field>,
}

/// What the draws of a seed decide.
struct Plan {
    releases: [&'static str; 2],
    slot: &'static str,
    generation: u32,
    limit: u32,
    root: usize,
    target: usize,
    retyped: Field,
    inserted: Field,
    added: Field,
    structs: Vec<Struct>,
}

/// The four parts of a pair as the check program reads them; none where the
/// outcome or the seed is unfit.
pub fn pair(outcome: u32, seed: u32) -> Option<Vec<u8>> {
    if !OUTCOMES.contains(&outcome) || seed > LAST_SEED {
        return None;
    }
    let plan = Plan::new(seed);
    let pool = pool();
    let mut bytes = Vec::new();
    for part in [&plan.current(outcome), &pool, &plan.released(), &pool] {
        bytes.extend((part.len() as u32).to_le_bytes());
        bytes.extend(part);
    }
    Some(bytes)
}

impl Plan {
    fn new(seed: u32) -> Self {
        let mut draws = Draws::new(seed);
        let structs = draws.below(8) + 1;
        let fields = draws.below(16) + 2;
        let releases = RELEASES[draws.below(4)];
        let slot = SLOTS[draws.below(3)];
        let lengths = draws.below(14);
        let generation = draws.below(32_768) as u32;
        let limit = draws.below(32_768) as u32;
        let root = draws.below(structs);
        let target = draws.below(fields);
        let word = draws.below(4);
        let fresh = SCALARS[draws.below(4)];
        let name = |index| field_name(lengths, index);
        let drawn = (0..structs).map(|at| Struct {
            name: struct_name(lengths, at),
            fields: (0..fields)
                .map(|index| match at == root && index == target {
                    true => Field::typed(name(index), "scalar", text(SCALARS[word])),
                    false => drawn_field(&mut draws, name(index), lengths, structs),
                })
                .collect(),
        });
        Plan {
            structs: drawn.collect(),
            releases,
            slot,
            generation,
            limit,
            root,
            target,
            retyped: Field::typed(name(target), "scalar", text(RETYPED[word])),
            inserted: Field::typed(name(17), "scalar", text(fresh)),
            added: Field::typed(name(18), "scalar", text(fresh)),
        }
    }

    fn released(&self) -> Vec<u8> {
        self.record(self.releases[0], self.generation, true, &self.root_fields())
    }

    fn current(&self, outcome: u32) -> Vec<u8> {
        let mut fields = self.root_fields();
        match outcome {
            34 => drop(fields.remove(self.target)),
            35 => fields.insert(self.target, self.inserted),
            36 => fields[self.target] = self.retyped,
            0 | 43 => fields.push(self.added),
            _ => {}
        }
        let raised = u32::from(outcome == 0);
        self.record(
            self.releases[1],
            self.generation + raised,
            outcome != 20,
            &fields,
        )
    }

    fn root_fields(&self) -> Vec<Field> {
        self.structs[self.root].fields.clone()
    }

    fn record(&self, release: &str, generation: u32, limit: bool, root: &[Field]) -> Vec<u8> {
        let mut stream = Stream::default();
        stream.head(text(release));
        stream.integer(text("GENERATION"), generation, false, ABSENT);
        if limit {
            stream.integer(text("TILE_LIMIT"), self.limit, true, text("0.8.0"));
        }
        shared::write(&mut stream);
        stream.version(self.structs[self.root].name, generation);
        for (at, each) in self.structs.iter().enumerate() {
            match at == self.root {
                true => stream.structure(each.name, text(self.slot), text("GENERATION"), root),
                false => stream.structure(each.name, ABSENT, ABSENT, &each.fields),
            }
        }
        stream.end()
    }
}

/// A field by three draws.
fn drawn_field(draws: &mut Draws, name: Text, lengths: usize, structs: usize) -> Field {
    let (kind, n, t) = (draws.below(16), draws.below(8), draws.below(8));
    let scalar = text(SCALARS[t % 4]);
    let referred = struct_name(lengths, t % structs);
    let count = |count| Some(count as u32 + 1);
    let word = pool::KINDS[kind];
    match word {
        "scalar" => Field::typed(name, word, scalar),
        "enum" => Field::typed(name, word, text(["filter", "mode"][t % 2])),
        "type_alias" => Field::typed(name, word, text(["ticks", "well"][t % 2])),
        "bitfield" => Field::typed(name, word, text("flags")),
        "inline_array" => Field {
            count: count(n),
            ..Field::element(name, word, scalar)
        },
        "inline_array2d" => Field {
            rows: count(n),
            cols: count(t),
            ..Field::element(name, word, scalar)
        },
        "struct_ptr" => Field::typed(name, word, referred),
        "struct_array_ptr" | "struct_ptr_array_ptr" => Field::element(name, word, referred),
        "tagged_fam_ptr" => Field::typed(name, word, text("frame")),
        "simple_fam_ptr" => Field::typed(name, word, text("legacy")),
        "padding" => Field {
            size: count(n),
            ..Field::new(name, word)
        },
        _ => Field::new(name, word),
    }
}
