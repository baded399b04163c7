//! The reference behind the library's C names, so that the tests can be tried where the library isn't built. JUDGE_FAULT plants a wrong answer.
#[path = "../planted/faults.rs"]
mod faults;
#[allow(dead_code)]
mod reference;
use reference::unfinished::{Advanced, Begun, Unfinished};
use std::slice::{from_raw_parts, from_raw_parts_mut};

#[repr(C)]
pub struct Row<const N: usize>([usize; N]);

#[no_mangle]
pub unsafe extern "C" fn judge_read(c: *const u8, cn: usize) -> Row<7> {
    Row(faults::read(from_raw_parts(c, cn)))
}

#[no_mangle]
pub unsafe extern "C" fn judge_solve(c: *const u8, cn: usize, v: *mut u8, vn: usize, l: *mut u8, ln: usize, d: *mut u8, dn: usize) -> Row<8> {
    faults::stray(c, cn, v, vn);
    Row(faults::solve(from_raw_parts(c, cn), from_raw_parts_mut(v, vn), from_raw_parts_mut(l, ln), from_raw_parts_mut(d, dn)))
}

#[no_mangle]
pub unsafe extern "C" fn judge_check(c: *const u8, cn: usize, v: *const u8, vn: usize, l: *const u8, ln: usize) -> Row<4> {
    Row(faults::check(from_raw_parts(c, cn), from_raw_parts(v, vn), from_raw_parts(l, ln)))
}

#[no_mangle]
pub unsafe extern "C" fn judge_rank(c: *const u8, cn: usize, s: *mut u8, sn: usize) -> Row<3> {
    Row(faults::rank(from_raw_parts(c, cn), from_raw_parts_mut(s, sn)))
}

#[no_mangle]
pub unsafe extern "C" fn judge_node_totals(c: *const u8, cn: usize, node: usize) -> Row<4> {
    faults::stray_about("totals", c, cn);
    Row(faults::node_totals(from_raw_parts(c, cn), node))
}

#[no_mangle]
pub unsafe extern "C" fn judge_check_supported(c: *const u8, cn: usize, v: *const u8, vn: usize) -> Row<5> {
    faults::stray_about("old-case", c, cn);
    faults::stray_about("old-values", v, vn);
    Row(faults::check_supported(from_raw_parts(c, cn), from_raw_parts(v, vn)))
}

#[no_mangle]
pub unsafe extern "C" fn judge_fewest_edges(c: *const u8, cn: usize, target: usize, k: *const u8, kn: usize) -> Row<3> {
    faults::stray_about("fewest-case", c, cn);
    faults::stray_about("fewest-list", k, kn);
    let answer = Row(faults::fewest_edges(from_raw_parts(c, cn), target, from_raw_parts(k, kn)));
    faults::scribble("fewest-case", c, cn);
    faults::scribble("fewest-list", k, kn);
    answer
}

// On x86-64 the place of an answer in memory is a first argument; declared so, a fault can write beside it.

#[no_mangle]
pub unsafe extern "C" fn judge_begin(answer: *mut Begun, c: *const u8, cn: usize) -> *mut Begun {
    faults::stray_about("begin-case", c, cn);
    answer.write(faults::begin(from_raw_parts(c, cn)));
    faults::stray_behind("begin-answer", answer)
}

#[no_mangle]
pub unsafe extern "C" fn judge_advance(answer: *mut Advanced, u: Unfinished) -> *mut Advanced {
    answer.write(faults::advance(&u));
    faults::stray_behind("advance-answer", answer)
}

#[no_mangle]
pub unsafe extern "C" fn judge_ask(u: Unfinished, pair: usize) -> Row<3> {
    Row(faults::ask(&u, pair))
}

#[no_mangle]
pub unsafe extern "C" fn solve(c: *const u8, cn: usize, v: *mut u8, vn: usize, l: *mut u8, ln: usize, d: *mut u8, dn: usize) -> usize {
    faults::number(judge_solve(c, cn, v, vn, l, ln, d, dn).0[0])
}

#[no_mangle]
pub unsafe extern "C" fn check(c: *const u8, cn: usize, v: *const u8, vn: usize, l: *const u8, ln: usize) -> usize {
    faults::number(judge_check(c, cn, v, vn, l, ln).0[0])
}
