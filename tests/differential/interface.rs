//! The library's C interface, and safe calls over slices. Answers come back as plain rows of numbers: number, place, then the counts in the document's order; beside them a solve that may be unfinished.

use crate::reference::unfinished::{Advanced, Begun, Unfinished};

#[repr(C)]
struct Reading([usize; 7]);
#[repr(C)]
struct Solution([usize; 8]);
#[repr(C)]
struct Checked([usize; 4]);
#[repr(C)]
struct Ranked([usize; 3]);
#[repr(C)]
struct Totals([usize; 4]);
#[repr(C)]
struct CheckedOld([usize; 5]);
#[repr(C)]
struct Reply([usize; 3]);
#[repr(C)]
struct Fewest([usize; 3]);

#[rustfmt::skip]
mod foreign {
    use super::*;
    extern "C" {
        pub fn solve(c: *const u8, cn: usize, v: *mut u8, vn: usize, l: *mut u8, ln: usize, d: *mut u8, dn: usize) -> usize;
        pub fn check(c: *const u8, cn: usize, v: *const u8, vn: usize, l: *const u8, ln: usize) -> usize;
        pub(super) fn judge_read(c: *const u8, cn: usize) -> Reading;
        pub(super) fn judge_solve(c: *const u8, cn: usize, v: *mut u8, vn: usize, l: *mut u8, ln: usize, d: *mut u8, dn: usize) -> Solution;
        pub(super) fn judge_check(c: *const u8, cn: usize, v: *const u8, vn: usize, l: *const u8, ln: usize) -> Checked;
        pub(super) fn judge_rank(c: *const u8, cn: usize, s: *mut u8, sn: usize) -> Ranked;
        pub(super) fn judge_node_totals(c: *const u8, cn: usize, node: usize) -> Totals;
        pub(super) fn judge_check_supported(c: *const u8, cn: usize, v: *const u8, vn: usize) -> CheckedOld;
        pub(super) fn judge_fewest_edges(c: *const u8, cn: usize, target: usize, k: *const u8, kn: usize) -> Fewest;
        pub(super) fn judge_begin(c: *const u8, cn: usize) -> Begun;
        pub(super) fn judge_advance(u: Unfinished) -> Advanced;
        pub(super) fn judge_ask(u: Unfinished, pair: usize) -> Reply;
    }
}

pub fn judge_read(c: &[u8]) -> [usize; 7] {
    unsafe { foreign::judge_read(c.as_ptr(), c.len()).0 }
}

pub fn judge_solve(c: &[u8], v: &mut [u8], l: &mut [u8], d: &mut [u8]) -> [usize; 8] {
    unsafe { foreign::judge_solve(c.as_ptr(), c.len(), v.as_mut_ptr(), v.len(), l.as_mut_ptr(), l.len(), d.as_mut_ptr(), d.len()).0 }
}

pub fn judge_check(c: &[u8], v: &[u8], l: &[u8]) -> [usize; 4] {
    unsafe { foreign::judge_check(c.as_ptr(), c.len(), v.as_ptr(), v.len(), l.as_ptr(), l.len()).0 }
}

pub fn judge_rank(c: &[u8], s: &mut [u8]) -> [usize; 3] {
    unsafe { foreign::judge_rank(c.as_ptr(), c.len(), s.as_mut_ptr(), s.len()).0 }
}

pub fn judge_node_totals(c: &[u8], node: usize) -> [usize; 4] {
    unsafe { foreign::judge_node_totals(c.as_ptr(), c.len(), node).0 }
}

pub fn judge_check_supported(c: &[u8], v: &[u8]) -> [usize; 5] {
    unsafe { foreign::judge_check_supported(c.as_ptr(), c.len(), v.as_ptr(), v.len()).0 }
}

pub fn judge_fewest_edges(c: &[u8], target: usize, candidates: &[u8]) -> [usize; 3] {
    unsafe { foreign::judge_fewest_edges(c.as_ptr(), c.len(), target, candidates.as_ptr(), candidates.len()).0 }
}

pub fn judge_begin(c: &[u8]) -> Begun {
    unsafe { foreign::judge_begin(c.as_ptr(), c.len()) }
}

pub fn judge_advance(u: &Unfinished) -> Advanced {
    unsafe { foreign::judge_advance(u.clone()) }
}

pub fn judge_ask(u: &Unfinished, pair: usize) -> [usize; 3] {
    unsafe { foreign::judge_ask(u.clone(), pair).0 }
}

pub fn solve(c: &[u8], v: &mut [u8], l: &mut [u8], d: &mut [u8]) -> usize {
    unsafe { foreign::solve(c.as_ptr(), c.len(), v.as_mut_ptr(), v.len(), l.as_mut_ptr(), l.len(), d.as_mut_ptr(), d.len()) }
}

pub fn check(c: &[u8], v: &[u8], l: &[u8]) -> usize {
    unsafe { foreign::check(c.as_ptr(), c.len(), v.as_ptr(), v.len(), l.as_ptr(), l.len()) }
}
