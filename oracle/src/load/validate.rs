//! What document 02 asks of a pair, judged from its bytes: the parts, the counts
//! of the two first draws, the outcome that the Rust itself gives.

use super::Draws;
use crate::answers::{self, ROOM};
use crate::model::{Content, Side};
use crate::reader::read;

/// What a pair was found to be.
#[derive(Clone, Debug)]
pub struct Judged {
    pub released: Content,
    pub length: usize,
}

/// Judge a pair; a text says what is amiss.
pub fn judge(outcome: u32, seed: u32, pair: &[u8]) -> Result<Judged, String> {
    let amiss = |what: String| format!("seed {seed}, outcome {outcome}: {what}");
    let [now, now_pool, was, was_pool] = parts(pair).map_err(amiss)?;
    read(Side::Current, now, now_pool)
        .map_err(|refusal| amiss(format!("the current record: {refusal:?}")))?;
    let released = read(Side::Released, was, was_pool)
        .map_err(|refusal| amiss(format!("the released record: {refusal:?}")))?
        .content;
    counts(seed, &released).map_err(amiss)?;
    let answer = answers::check(now, now_pool, was, was_pool, ROOM);
    match answer.number == outcome {
        true => Ok(Judged {
            released,
            length: pair.len(),
        }),
        false => Err(amiss(format!("the Rust gives {}", answer.number))),
    }
}

/// Four parts with true lengths, and nothing behind them.
fn parts(pair: &[u8]) -> Result<[&[u8]; 4], String> {
    let mut left = pair;
    let mut parts = [[].as_slice(); 4];
    for part in &mut parts {
        let (length, rest) = left.split_first_chunk::<4>().ok_or("a length is cut")?;
        let length = u32::from_le_bytes(*length) as usize;
        (*part, left) = rest.split_at_checked(length).ok_or("a part is cut")?;
    }
    match left {
        [] => Ok(parts),
        _ => Err(format!("{} bytes behind the parts", left.len())),
    }
}

/// The first draw, below 8, plus one is the number of structures; the second,
/// below 16, plus two the fields of each.
fn counts(seed: u32, released: &Content) -> Result<(), String> {
    let mut draws = Draws::new(seed);
    let (structs, fields) = (draws.below(8) + 1, draws.below(16) + 2);
    let found = released.structs().count();
    if found != structs {
        return Err(format!("{found} structures where {structs} were drawn"));
    }
    match released.structs().find(|each| each.fields.len() != fields) {
        Some(each) => Err(format!(
            "{} fields where {fields} were drawn",
            each.fields.len()
        )),
        None => Ok(()),
    }
}
