//! The length-and-bytes parts that programs read from standard input.

use crate::reader::{POOL_LIMIT, STREAM_LIMIT};

/// Parts still to be read: streams and pools in turn.
pub struct Parts {
    bytes: Vec<u8>,
    at: usize,
    limits: [usize; 2],
}

impl Parts {
    pub fn new(bytes: Vec<u8>) -> Self {
        Parts {
            bytes,
            at: 0,
            limits: [STREAM_LIMIT, POOL_LIMIT],
        }
    }

    /// The next part. One that ends early is the bytes that came, a cut length
    /// is 0, and one that states a length above its limit is made longer than
    /// that, so that it is refused even then.
    pub fn part(&mut self) -> Vec<u8> {
        let limit = self.limits[0];
        self.limits.reverse();
        let length = match self.take(4).try_into() {
            Ok(length) => u32::from_le_bytes(length) as usize,
            Err(_) => 0,
        };
        let mut part = self.take(length).to_vec();
        if length > limit && part.len() <= limit {
            part.resize(limit + 1, b' ');
        }
        part
    }

    /// The next bytes, fewer at the end.
    fn take(&mut self, count: usize) -> &[u8] {
        let end = self.bytes.len().min(self.at.saturating_add(count));
        let taken = &self.bytes[self.at..end];
        self.at = end;
        taken
    }
}
