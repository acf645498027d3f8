//! Which edges of the proved code a call takes, where the archive is one that instrument.sh made. A plain archive has no
//! counters, and then nothing is ever new here.

use std::slice;
use std::sync::Mutex;

/// The counters of the archive, a byte an edge, as stretches of memory.
static COUNTERS: Mutex<Vec<(usize, usize)>> = Mutex::new(Vec::new());

/// Called once by the archive's code, before `main`, with where its counters lie.
#[unsafe(no_mangle)]
extern "C" fn __sanitizer_cov_8bit_counters_init(start: *mut u8, stop: *mut u8) {
    let length = stop as usize - start as usize;
    COUNTERS.lock().expect("no thread has panicked").push((start as usize, length));
}

/// What calls have reached so far: for each edge, by how often a call took it, in powers of two.
#[derive(Default)]
pub struct Reached {
    often: Vec<u8>,
}

impl Reached {
    /// Take what the calls since the last visit reached; whether any of it is new.
    pub fn visit(&mut self) -> bool {
        let counters = COUNTERS.lock().expect("no thread has panicked");
        self.often.resize(counters.iter().map(|(_, length)| length).sum(), 0);
        let mut often = self.often.iter_mut();
        let mut new = false;
        for &(start, length) in counters.iter() {
            // SAFETY: the archive's own statement of where its counters lie; no call is under way, so nothing else uses them.
            let counters = unsafe { slice::from_raw_parts_mut(start as *mut u8, length) };
            for (counter, often) in counters.iter_mut().zip(&mut often) {
                let bit = if *counter == 0 { 0 } else { 1 << counter.ilog2() };
                new |= *often & bit != bit;
                *often |= bit;
                *counter = 0;
            }
        }
        new
    }

    /// How many edges were taken, and how many there are.
    pub fn edges(&self) -> (usize, usize) {
        (self.often.iter().filter(|often| **often != 0).count(), self.often.len())
    }
}
