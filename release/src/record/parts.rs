//! A record in a file: two parts, the stream and the pool, each a length of four bytes (little-endian) and
//! that many bytes. The rules are those of document 01 for its programs.

use std::io::{self, Read};

use crate::Record;

pub const STREAM_LIMIT: usize = 32_768;
pub const POOL_LIMIT: usize = 16_384;

#[derive(Clone, Debug, Default, PartialEq, Eq, Hash)]
pub struct Parts {
    pub stream: Vec<u8>,
    pub pool: Vec<u8>,
}

/// What is left of a record in which a part is stated longer than its limit: it is not read until what follows is wanted.
#[derive(Debug, Default)]
pub struct Left {
    bytes: u64,
    /// Whether the pool is still to come.
    pool: bool,
}

impl Parts {
    /// Reads a record and leaves what follows it to the next one.
    pub fn read(from: &mut impl Read) -> io::Result<Parts> {
        let (parts, left) = Parts::begin(from)?;
        left.skip(from)?;
        Ok(parts)
    }

    /// Reads a record as far as it can be taken: a part stated longer than its limit ends it.
    pub fn begin(from: &mut impl Read) -> io::Result<(Parts, Left)> {
        let (stream, bytes) = read_part(from, STREAM_LIMIT)?;
        if bytes > 0 {
            return Ok((Parts { stream, pool: Vec::new() }, Left { bytes, pool: true }));
        }
        let (pool, bytes) = read_part(from, POOL_LIMIT)?;
        Ok((Parts { stream, pool }, Left { bytes, pool: false }))
    }

    pub fn record(&self) -> Record<'_> {
        Record { stream: &self.stream, pool: &self.pool }
    }

    pub fn to_bytes(&self) -> Vec<u8> {
        let mut bytes = Vec::with_capacity(8 + self.stream.len() + self.pool.len());
        for part in [&self.stream, &self.pool] {
            bytes.extend_from_slice(&(part.len() as u32).to_le_bytes());
            bytes.extend_from_slice(part);
        }
        bytes
    }
}

impl Left {
    /// Reads on to the end of the record.
    pub fn skip(self, from: &mut impl Read) -> io::Result<()> {
        io::copy(&mut from.by_ref().take(self.bytes), &mut io::sink())?;
        if self.pool {
            let (_, bytes) = read_part(from, POOL_LIMIT)?;
            io::copy(&mut from.by_ref().take(bytes), &mut io::sink())?;
        }
        Ok(())
    }
}

/// A part, and how many of its bytes are left. A cut length is 0, a part that ends early is the bytes that came, and a part
/// stated longer than its limit is handed on one byte too long, so that it is refused even then.
fn read_part(from: &mut impl Read, limit: usize) -> io::Result<(Vec<u8>, u64)> {
    let mut length = Vec::new();
    from.by_ref().take(4).read_to_end(&mut length)?;
    let stated = match <[u8; 4]>::try_from(length.as_slice()) {
        Ok(length) => u32::from_le_bytes(length),
        Err(_) => 0,
    };
    if stated as usize > limit {
        return Ok((vec![b' '; limit + 1], u64::from(stated)));
    }
    let mut part = Vec::new();
    from.by_ref().take(u64::from(stated)).read_to_end(&mut part)?;
    Ok((part, 0))
}
