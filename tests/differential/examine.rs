//! All operations on one case: tables of many lengths, proposals of many kinds. A solve is only begun here; its turns are in unfinished_kinds.rs.

use crate::adding_kinds::examine_some_links;
use crate::calls;
use crate::compare::*;
use crate::generator::{without_parked, without_parks, Random};
use crate::proposals::*;
use crate::reference::{Case, Judge};
use crate::tally::Tally;
use crate::totals::examine_some_nodes;

pub fn filler(r: &mut Random, length: usize) -> Vec<u8> {
    let (start, step) = (r.byte(), r.byte());
    (0..length).map(|i| start.wrapping_add(step.wrapping_mul(i as u8))).collect()
}

/// A length about the one needed: short, exact or longer.
pub fn about(r: &mut Random, needed: usize) -> usize {
    match r.below(8) {
        0 | 1 => needed.saturating_sub(1),
        2 => r.range(0, needed),
        3 | 4 => needed,
        5 => needed + 1,
        _ => needed + r.range(1, 40),
    }
}

/// Every operation, `proposals` proposals among them. A case that doesn't read takes one call of each.
pub fn examine(tally: &mut Tally, r: &mut Random, case: &[u8], proposals: usize) {
    tally.cases += 1;
    let mut judge = Judge::new(case);
    compare_read(tally, &judge, case);
    compare_begin(tally, &judge, case);
    if judge.reading()[0] != 0 {
        let lengths = [0; 4].map(|_| r.pick(&[0, 1, 3, 40, 4096, 8192]));
        let [v, l, d, s] = lengths.map(|length| filler(r, length));
        compare_solve(tally, &mut judge, case, &v, &l, &d);
        let newer = compare_check(tally, &judge, case, &v, &l);
        compare_supported(tally, &judge, case, &v, newer);
        compare_rank(tally, &judge, case, &s);
        examine_some_nodes(tally, r, &mut judge, case);
        return examine_some_links(tally, r, &judge, case);
    }
    examine_tables(tally, r, &mut judge, case);
    examine_proposals(tally, r, &mut judge, case, proposals);
    examine_some_nodes(tally, r, &mut judge, case);
    examine_some_links(tally, r, &judge, case);
}

/// Tables of the exact length, longer, each one short, and of lengths at random.
fn examine_tables(tally: &mut Tally, r: &mut Random, judge: &mut Judge, case: &[u8]) {
    let [_, _, nodes, _, _, shapes, targets] = judge.reading();
    let exact = [shapes * nodes, 2 * shapes * nodes, targets];
    let mut lengths = vec![exact, exact.map(|n| n + r.range(1, 33))];
    for i in 0..3 {
        let mut short = exact;
        short[i] = short[i].saturating_sub(1);
        lengths.push(short);
    }
    lengths.push(exact.map(|n| about(r, n)));
    for [v, l, d] in lengths {
        let (v, l, d) = (filler(r, v), filler(r, l), filler(r, d));
        compare_solve(tally, judge, case, &v, &l, &d);
    }
    for length in [shapes, shapes + r.range(1, 9), shapes.saturating_sub(1), about(r, shapes)] {
        let strata = filler(r, length);
        compare_rank(tally, judge, case, &strata);
    }
}

fn examine_proposals(tally: &mut Tally, r: &mut Random, judge: &mut Judge, case: &[u8], count: usize) {
    let solved = judge.solved().clone();
    let read = judge.read.clone().unwrap();
    tally.note_case(&read);
    hold_to_parts(&read, &solved.values);
    if read.edges.iter().any(|edge| edge.parks) {
        hold_to_unparked(tally, case, &solved.values);
    }
    compare_check(tally, judge, case, &solved.values, &level_bytes(&solved.levels));
    for _ in 0..count {
        let proposal = proposal(r, &read, &solved);
        let (mut values, mut levels) = (proposal.values, level_bytes(&proposal.levels));
        // bytes behind the tables aren't read, whatever they are
        if r.one_in(2) {
            let more = r.range(1, 20);
            values.extend(filler(r, more));
            levels.extend(filler(r, more));
        }
        if r.one_in(12) {
            values.truncate(about(r, read.pairs()));
            levels.truncate(about(r, 2 * read.pairs()));
        }
        let newer = compare_check(tally, judge, case, &values, &levels);
        compare_supported(tally, judge, case, &values, newer);
        tally.note_kind("proposals", proposal.kind);
    }
}

/// The reference held to itself: in a stable assignment each shape has the value that recursion on its part gives, without the expansion.
fn hold_to_parts(case: &Case, stable: &[u8]) {
    assert_eq!(case.values_by_parts(stable), stable, "reference: parts and their expansion disagree on {case:?}");
}

/// The library held to itself: a case with parked edges is solved as without them, levels and all. Counts whether parking them changed a value.
fn hold_to_unparked(tally: &mut Tally, case: &[u8], values: &[u8]) {
    compare_solutions(tally, case, &without_parked(case), "with its parked edges left out");
    let changed = calls::solved(&without_parks(case)).1 != values;
    tally.note_kind("parked edges", if changed { "that change values" } else { "that change none" });
}

/// Every assignment of a case of few pairs that is supported or stable, and every 16th other.
pub fn examine_all_assignments(tally: &mut Tally, r: &mut Random, case: &[u8]) {
    let judge = Judge::new(case);
    let read = judge.read.clone().unwrap();
    tally.cases += 1;
    for values in assignments(read.pairs()) {
        let stable = read.stable(&values);
        let supported = supported(&read, &values);
        if stable {
            hold_to_parts(&read, &values);
        }
        if !stable && !supported && !r.one_in(16) {
            continue;
        }
        let mut tries = vec![favourable(&read, &values), as_solved(&read, &values)];
        if supported {
            tries.push(random_levels(r, &read));
        }
        let mut accepted = false;
        for levels in &tries {
            accepted |= judge.checking(&values, &level_bytes(levels))[0] == 0;
            compare_check(tally, &judge, case, &values, &level_bytes(levels));
        }
        // the reference held to the document's own claim: some levels are accepted exactly where the assignment is stable
        assert_eq!(accepted, stable, "reference: levels and stability disagree on {case:?}, {values:?}");
    }
}
