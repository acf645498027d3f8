//! The premises of document 01's chain: where a record, or a chain of accepted records, is outside them, so that what is
//! proved of chains does not speak of it.

pub mod chain;
pub mod names;
pub mod record;
pub mod remarks;

/// What a premise is asked of.
#[derive(Clone, Copy, Debug, PartialEq, Eq)]
pub enum Asked {
    /// Each record by itself, for all that is proved of a chain.
    Record,
    /// The records of a chain together, for what is proved of generation numbers.
    Generation,
    /// Nothing: it is proved of every record that can be read.
    Proved,
}

/// A premise: its key, document 01's words for it, and how trials/src/premises.rs tests it, where that has it.
#[derive(Debug)]
pub struct Premise {
    pub key: &'static str,
    pub words: &'static str,
    pub asked: Asked,
    pub trials: &'static [&'static str],
}

macro_rules! premise {
    ($name:ident $key:literal $words:literal $asked:ident $($trials:literal),*) => {
        pub static $name: Premise =
            Premise { key: $key, words: $words, asked: Asked::$asked, trials: &[$($trials),*] };
    };
}

premise!(UNRELEASED "unreleased" "No record flagged unreleased." Record "!content.unreleased");
premise!(KINDS "kinds" "All kinds among the sixteen." Record "fields(content).iter().all(|f| is_kind(&f.kind))");
premise!(TWICE "twice" "No name or slot twice in its list or among the layouts" Record
    "once(list)", "once(&slots(content))", "once(&layouts(content))");
premise!(COLON "colon" "no colon in a name" Record "list.iter().all(|name| !name.contains(':'))");
premise!(READINGS "readings"
    "Each record gives one layout and the same bit widths read as current and as released" Proved
    "reads_as_one(content)");
premise!(SLOT "slot" "the structure fills one of the three slots" Generation);
premise!(CONSTANT "constant" "names the same constant in every later record" Generation);
premise!(INTEGER "integer" "every record holds it as an integer" Generation);
premise!(OWNED "owned" "is owned by that structure in every later record" Generation);
premise!(DESCRIBED "described" "and is itself described in the first" Generation);

/// All of them, in the order of document 01.
pub static PREMISES: [&Premise; 10] =
    [&UNRELEASED, &KINDS, &TWICE, &COLON, &READINGS, &SLOT, &CONSTANT, &INTEGER, &OWNED, &DESCRIBED];

/// A place where a premise is not met.
#[derive(Debug)]
pub struct Outside {
    pub premise: &'static Premise,
    /// The record it is said of, by its index in the chain.
    pub record: usize,
    pub what: String,
}
