//! Notes on standard error about names that look the same and are others: what a command says of one of them would be puzzling
//! without it.

use menqachu::record::commands::Said;
use menqachu::record::decode;
use menqachu::text::alike::Alike;
use menqachu::text::texts;
use menqachu::Record;

use super::output::complain;

/// Tells which names in a message, of those of these records and of the name asked for, look like another one.
pub fn tell(records: &[Record], asked: &[u8], message: &[u8]) {
    let commands = |record: &Record| decode::commands(*record).unwrap_or_default();
    let said: Vec<Said> = records.iter().flat_map(commands).collect();
    if let Some(note) = Alike::among(texts(&said).chain([asked])).note(message) {
        complain(&format!("note: {note}"));
    }
}
