//! The oracle's answers that the gate replays, read from the files of the programs that replay them.

use std::collections::HashSet;

use menqachu::record::parts::Parts;
use menqachu::Answer;

use super::top;

/// A file of vectors, read from the front.
pub struct Vectors {
    bytes: Vec<u8>,
    at: usize,
}

impl Vectors {
    pub fn open(path: &str) -> Vectors {
        Vectors { bytes: std::fs::read(top().join(path)).expect(path), at: 0 }
    }

    pub fn done(&self) -> bool {
        self.at == self.bytes.len()
    }

    pub fn take(&mut self, length: usize) -> Vec<u8> {
        self.at += length;
        self.bytes[self.at - length..self.at].to_vec()
    }

    pub fn byte(&mut self) -> u8 {
        self.take(1)[0]
    }

    pub fn number(&mut self) -> usize {
        u32::from_le_bytes(self.take(4).try_into().expect("four bytes")) as usize
    }

    pub fn part(&mut self) -> Vec<u8> {
        let length = self.number();
        self.take(length)
    }

    pub fn record(&mut self) -> Parts {
        Parts { stream: self.part(), pool: self.part() }
    }

    pub fn answer(&mut self) -> Answer {
        let (number, side) = (self.number() as u32, self.number() as u32);
        Answer { number, side, place: self.number(), len: self.number() }
    }
}

/// A pair of records with the room lent, the answer and a verdict's message.
pub struct Pair {
    pub current: Parts,
    pub released: Parts,
    pub room: usize,
    pub answer: Answer,
    pub message: Vec<u8>,
}

impl Pair {
    /// What the check program reads.
    pub fn bytes(&self) -> Vec<u8> {
        [self.current.to_bytes(), self.released.to_bytes()].concat()
    }
}

pub fn pairs() -> Vec<Pair> {
    let mut file = Vectors::open("crates/vectors_check/data/checks");
    let mut all = Vec::new();
    while !file.done() {
        let (current, released) = (file.record(), file.record());
        let room = file.number();
        let answer = file.answer();
        let message = if answer.number > 10 { file.take(answer.len) } else { Vec::new() };
        all.push(Pair { current, released, room, answer, message });
    }
    all
}

/// All records of the pairs, each once.
pub fn records() -> Vec<Parts> {
    let mut seen = HashSet::new();
    let all = pairs().into_iter().flat_map(|pair| [pair.current, pair.released]);
    all.filter(|record| seen.insert(record.clone())).collect()
}
