//! Chains of offers, each checked against the last one accepted, and what the last keeps of the first.

use std::fmt;

use oracle::Side;
use oracle::answers::ROOM;
use oracle::generate::Pair;
use oracle::generate::encode::Encoded;
use oracle::generate::offers::Offers;
use oracle::model::Content;
use oracle::reader::read;
use oracle::rng::Rng;

use crate::differ;
use crate::kept::{Kept, kept};
use crate::premises;
use crate::table::grouped;
use crate::tally::Tally;

const MOST_OFFERS: usize = 12;

/// What a run of chains came to.
#[derive(Default)]
pub struct Chains {
    pub tally: Tally,
    chains: u64,
    links: u64,
    accepted: u64,
    unreadable: u64,
    unmoved: u64,
    broken: u64,
    tested: u64,
    with_fields: u64,
    with_generation: u64,
    with_growth: u64,
    fields: u64,
    values: u64,
    members: u64,
    types: u64,
    pub lost: u64,
}

/// A chain while offers are made to it.
struct Chain {
    last: Encoded,
    first: Option<Content>,
    later: Vec<Content>,
    /// Whether every record of it meets the premises.
    sound: bool,
}

impl Chain {
    fn begin(first: Encoded) -> Chain {
        let content = read(Side::Released, &first.stream, &first.pool).ok().map(|record| record.content);
        let sound = content.as_ref().is_some_and(premises::hold);
        Chain { last: first, first: content, later: Vec::new(), sound }
    }

    /// What the last one accepted says, if the first could be read.
    fn content(&self) -> Option<&Content> {
        self.later.last().or(self.first.as_ref())
    }

    fn accept(&mut self, record: Encoded) {
        let read = read(Side::Current, &record.stream, &record.pool).expect("an accepted record can be read");
        self.sound &= premises::hold(&read.content);
        self.later.push(read.content);
        self.last = record;
    }
}

pub fn run(seed: u64, count: u64) -> Chains {
    let mut rng = Rng::new(seed);
    let mut chains = Chains::default();
    for _ in 0..count {
        let chain = chains.follow(&mut rng);
        chains.conclude(&chain);
    }
    chains
}

impl Chains {
    /// One chain: offers up to the most, each held against the Rust's answer to it.
    fn follow(&mut self, rng: &mut Rng) -> Chain {
        let (mut offers, first) = Offers::begin(rng);
        let mut chain = Chain::begin(first);
        let empty = Content::default();
        for _ in 0..rng.between(1, MOST_OFFERS) {
            let last = chain.content().unwrap_or(&empty);
            let offered = if chain.sound { offers.offer(last, rng) } else { offers.wild_offer(last, rng) };
            let pair = Pair { current: offered, released: chain.last.clone() };
            let room = *rng.pick(&[ROOM, ROOM, ROOM, 100, 0]);
            self.links += 1;
            if self.link(&pair, room) == 0 {
                self.accepted += 1;
                chain.accept(pair.current);
            }
        }
        chain
    }

    /// One link; the number of our answer.
    fn link(&mut self, pair: &Pair, room: usize) -> u32 {
        let meant = pair.check(usize::MAX);
        self.tally.question(differ::class(&meant));
        differ::check(&mut self.tally, pair, &meant, room)
    }

    fn conclude(&mut self, chain: &Chain) {
        self.chains += 1;
        let Some(first) = &chain.first else {
            self.unreadable += 1;
            self.lost += chain.later.len() as u64;
            return;
        };
        if chain.later.is_empty() {
            self.unmoved += 1;
        } else if !chain.sound {
            self.broken += 1;
        } else {
            self.count(&kept(first, &chain.later), chain);
        }
    }

    fn count(&mut self, kept: &Kept, chain: &Chain) {
        self.tested += 1;
        self.with_fields += u64::from(kept.fields > 0);
        self.with_generation += u64::from(kept.generations > 0);
        self.fields += kept.fields as u64;
        self.values += kept.values as u64;
        self.members += kept.members as u64;
        self.types += kept.types as u64;
        let grown =
            |content: &Content| content.items.len() > chain.first.as_ref().map_or(0, |f| f.items.len());
        self.with_growth += u64::from(chain.later.last().is_some_and(grown));
        self.lost += kept.lost.len() as u64;
        for lost in &kept.lost {
            eprintln!("lost: {lost} in {:?} after {:?}", chain.later, chain.first);
        }
    }
}

impl fmt::Display for Chains {
    fn fmt(&self, f: &mut fmt::Formatter) -> fmt::Result {
        writeln!(f, "| chains | |\n|---|---|")?;
        let counts = [
            ("chains", self.chains),
            ("links", self.links),
            ("accepted links", self.accepted),
            ("chains whose first record can't be read (nothing may be accepted)", self.unreadable),
            ("chains with nothing accepted", self.unmoved),
            ("chains that break a premise of 01 (not tested)", self.broken),
            ("chains tested", self.tested),
            ("of them with fields to keep", self.with_fields),
            ("of them with an equal generation and a type under it", self.with_generation),
            ("of them with more items in the last than in the first", self.with_growth),
            ("fields looked for", self.fields),
            ("enum values looked for", self.values),
            ("bit members looked for", self.members),
            ("types under an equal generation", self.types),
            ("lost or moved", self.lost),
        ];
        for (what, count) in counts {
            writeln!(f, "| {what} | {} |", grouped(count))?;
        }
        let (offers, length) =
            [self.links, self.accepted].map(|n| n as f64 / self.chains.max(1) as f64).into();
        writeln!(
            f,
            "\nA chain has {offers:.2} offers on average, of which {length:.2} are accepted.\n\n{}",
            self.tally
        )
    }
}
