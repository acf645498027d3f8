//! The exported calls of this archive and of the other one that build.rs has linked beside it, as values.

use std::path::Path;

use oracle::generate::Pair;
use oracle::generate::encode::Encoded;

mod linked {
    include!(concat!(env!("OUT_DIR"), "/other.rs"));
}

/// The calls of an archive, each with the number of its answer; the owner call's is 0 for none, 1 for an owner, 2 for a refusal.
pub struct Calls {
    pub check: fn(&Pair, &mut [u8]) -> u32,
    pub list: fn(&Encoded, &mut [u8]) -> u32,
    pub owner: fn(&Encoded, &[u8]) -> u32,
}

macro_rules! calls {
    ($($archive:ident)::+) => {{
        use $($archive)::+ as archive;
        fn given(encoded: &Encoded) -> archive::Record<'_> {
            archive::Record { stream: &encoded.stream, pool: &encoded.pool }
        }
        Calls {
            check: |pair, out| archive::check(given(&pair.current), given(&pair.released), out).number,
            list: |encoded, out| archive::list(given(encoded), archive::Side::Current, out).number,
            owner: |encoded, name| match archive::owner(given(encoded), name) {
                archive::Owner::Nobody => 0,
                archive::Owner::Named { .. } => 1,
                archive::Owner::Refused { .. } => 2,
            },
        }
    }};
}

pub const OURS: Calls = calls!(menqachu);

const OTHERS: Calls = calls!(crate::other::linked::calls);

/// The calls of the archive in this folder, if it is the one that is linked; else says how it would be.
pub fn others(folder: &str) -> Option<Calls> {
    let asked = std::fs::canonicalize(folder).ok();
    if asked.is_some() && asked.as_deref() == linked::FOLDER.map(Path::new) {
        return Some(OTHERS);
    }
    eprintln!(
        "trials: the archive of {folder} is not linked; `./against.sh SOURCES {folder}` links and runs it"
    );
    None
}
