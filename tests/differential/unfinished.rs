//! Answers before the end (document 02, point 7): a solve that may be unfinished, and what beginning, advancing and asking answer, whatever it holds.

use super::{read, Judge};

/// Laid out as judge.h has it, with no padding.
#[repr(C)]
#[derive(Clone, PartialEq)]
pub struct Unfinished {
    pub bytes: [u8; 8192],
    pub length: usize,
    pub values: [u8; 4096],
    pub pairs: usize,
    pub over: usize,
}

#[repr(C)]
pub struct Begun {
    /// as reading's
    pub answer: [usize; 7],
    pub unfinished: Unfinished,
}

#[repr(C)]
#[derive(Clone)]
pub struct Advanced {
    pub over: usize,
    pub unfinished: Unfinished,
}

/// The case that a refused beginning holds.
pub const NOTHING: [u8; 4] = [0x01, 0x00, 0x00, 0xFF];

impl Judge {
    /// The beginning of a solve of the input that was read.
    pub fn beginning(&self, input: &[u8]) -> Begun {
        let (held, pairs) = match &self.read {
            Ok(case) => (input, case.pairs()),
            Err(_) => (&NOTHING[..], 0),
        };
        let mut bytes = [0; 8192];
        bytes[..held.len()].copy_from_slice(held);
        Begun { answer: self.reading(), unfinished: Unfinished { bytes, length: held.len(), values: [1; 4096], pairs, over: 0 } }
    }
}

impl Unfinished {
    /// The case that it keeps.
    pub fn copy(&self) -> &[u8] {
        &self.bytes[..self.length.min(self.bytes.len())]
    }

    pub fn advancing(&self) -> Advanced {
        let mut unfinished = self.clone();
        if self.over != 0 {
            return Advanced { over: 1, unfinished };
        }
        // what doesn't read has no pairs
        let case = read(self.copy()).unwrap_or_default();
        let t: Vec<bool> = self.values[..case.pairs()].iter().map(|value| *value >= 2).collect();
        let (p, next) = case.round(&t);
        for pair in 0..case.pairs() {
            unfinished.values[pair] = settled(next[pair], p[pair]);
        }
        unfinished.over = (next == t) as usize;
        Advanced { over: unfinished.over, unfinished }
    }

    /// number, place, reply
    pub fn asking(&self, pair: usize) -> [usize; 3] {
        if pair >= self.pairs {
            return [21, pair, 0];
        }
        let value = self.values.get(pair).map_or(0, |value| *value);
        let reply = match value {
            0 => 0,
            1 => if self.over == 0 { 3 } else { 1 },
            _ => 2,
        };
        [0, 0, reply]
    }

    pub fn memory(&self) -> &[u8] {
        unsafe { std::slice::from_raw_parts((self as *const Unfinished).cast(), std::mem::size_of::<Unfinished>()) }
    }

    pub fn of_memory(bytes: &[u8]) -> Unfinished {
        assert_eq!(bytes.len(), std::mem::size_of::<Unfinished>(), "the length of a state");
        unsafe { bytes.as_ptr().cast::<Unfinished>().read_unaligned() }
    }
}

/// What is kept of a pair that is in T or not, and in the last P worked out or not.
pub fn settled(sure: bool, possible: bool) -> u8 {
    match (sure, possible) {
        (true, _) => 2,
        (false, true) => 1,
        (false, false) => 0,
    }
}
