//! The library's calls, each watched: a crash, or a call that doesn't come back, leaves its case and tables behind.

use crate::interface;
use crate::reference::unfinished::{Advanced, Begun, Unfinished};
use crate::watch::{rest, watch};

fn rested<T>(answer: T) -> T {
    rest();
    answer
}

pub fn judge_read(c: &[u8]) -> [usize; 7] {
    watch("judge_read", &[("case", c)]);
    rested(interface::judge_read(c))
}

pub fn judge_solve(c: &[u8], v: &mut [u8], l: &mut [u8], d: &mut [u8]) -> [usize; 8] {
    watch("judge_solve", &[("case", c), ("values", v), ("levels", l), ("verdicts", d)]);
    rested(interface::judge_solve(c, v, l, d))
}

pub fn judge_check(c: &[u8], v: &[u8], l: &[u8]) -> [usize; 4] {
    watch("judge_check", &[("case", c), ("values", v), ("levels", l)]);
    rested(interface::judge_check(c, v, l))
}

pub fn judge_rank(c: &[u8], s: &mut [u8]) -> [usize; 3] {
    watch("judge_rank", &[("case", c), ("strata", s)]);
    rested(interface::judge_rank(c, s))
}

/// The node is left behind as its bytes, low byte first.
pub fn judge_node_totals(c: &[u8], node: usize) -> [usize; 4] {
    let number = node.to_le_bytes();
    watch("judge_node_totals", &[("case", c), ("node", &number)]);
    rested(interface::judge_node_totals(c, node))
}

pub fn judge_check_supported(c: &[u8], v: &[u8]) -> [usize; 5] {
    watch("judge_check_supported", &[("case", c), ("values", v)]);
    rested(interface::judge_check_supported(c, v))
}

/// The target's number is left behind as a node's is.
pub fn judge_fewest_edges(c: &[u8], target: usize, candidates: &[u8]) -> [usize; 3] {
    let number = target.to_le_bytes();
    watch("judge_fewest_edges", &[("case", c), ("target", &number), ("candidates", candidates)]);
    rested(interface::judge_fewest_edges(c, target, candidates))
}

pub fn judge_begin(c: &[u8]) -> Begun {
    watch("judge_begin", &[("case", c)]);
    rested(interface::judge_begin(c))
}

/// A state is left behind as it lies in memory, and the copy that it holds as the case.
pub fn judge_advance(u: &Unfinished) -> Advanced {
    watch("judge_advance", &[("case", u.copy()), ("state", u.memory())]);
    rested(interface::judge_advance(u))
}

pub fn judge_ask(u: &Unfinished, pair: usize) -> [usize; 3] {
    let number = pair.to_le_bytes();
    watch("judge_ask", &[("case", u.copy()), ("state", u.memory()), ("pair", &number)]);
    rested(interface::judge_ask(u, pair))
}

pub fn solve(c: &[u8], v: &mut [u8], l: &mut [u8], d: &mut [u8]) -> usize {
    watch("solve", &[("case", c), ("values", v), ("levels", l), ("verdicts", d)]);
    rested(interface::solve(c, v, l, d))
}

pub fn check(c: &[u8], v: &[u8], l: &[u8]) -> usize {
    watch("check", &[("case", c), ("values", v), ("levels", l)]);
    rested(interface::check(c, v, l))
}

/// Solves with tables of the right lengths: answer, values, levels, verdicts.
pub fn solved(c: &[u8]) -> ([usize; 8], Vec<u8>, Vec<usize>, Vec<u8>) {
    let [_, _, nodes, _, _, shapes, targets] = judge_read(c);
    let (mut v, mut l, mut d) = (vec![9; shapes * nodes], vec![9; 2 * shapes * nodes], vec![9; targets]);
    let answer = judge_solve(c, &mut v, &mut l, &mut d);
    (answer, v, l.chunks(2).map(|level| level[0] as usize + 256 * level[1] as usize).collect(), d)
}
