//! The proved calls with all the room that their text needs.

use crate::{check, list, load, Answer, Record, Side};

/// The room that document 01's programs lend.
const ROOM: usize = 65_536;
const NO_ROOM: u32 = 10;

/// The answer of the check, and a verdict's message.
pub fn check_whole(current: Record, released: Record) -> (Answer, Vec<u8>) {
    in_room(|out| check(current, released, out))
}

/// The answer of the list call, and the list.
pub fn list_whole(record: Record, side: Side) -> (Answer, Vec<u8>) {
    in_room(|out| list(record, side, out))
}

/// The answer of the load call, and the pair.
pub fn load_whole(outcome: u32, seed: u32) -> (Answer, Vec<u8>) {
    in_room(|out| load(outcome, seed, out))
}

/// Makes a call, and once more with the length that answer 10 asks for.
fn in_room(call: impl Fn(&mut [u8]) -> Answer) -> (Answer, Vec<u8>) {
    let mut out = vec![0; ROOM];
    let mut answer = call(&mut out);
    if answer.number == NO_ROOM {
        out.resize(answer.len, 0);
        answer = call(&mut out);
    }
    // Only an answer with text has a length that counts bytes of the buffer.
    out.truncate(if answer.number == NO_ROOM { 0 } else { answer.len });
    (answer, out)
}
