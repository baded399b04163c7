//! Cabinets under the old code (document 02, point 6): what its check has to do with the newer one, and turns of their own.

use crate::compare::*;
use crate::generator::*;
use crate::kinds::{drawn, each_drawn};
use crate::plan::Kind;
use crate::proposals::*;
use crate::reference::{Case, Judge};
use crate::samples;
use crate::tally::Tally;

/// Whether an answer of the old code goes with the newer one's for the same values and some levels. What passes the newer code passes the old one; their refusals differ in 11 and 15 alone.
pub fn follows(newer: [usize; 4], old: [usize; 5]) -> bool {
    let [number, place, undetermined, valid] = newer;
    match number {
        // no levels were read
        11 => [0, 13, 14].contains(&old[0]) && old[4] == 1,
        15 => old[4] == 1 && (old[0] == 0 || (old[0] == 14 && old[1] > place)),
        _ => old == [number, place, undetermined, valid, 1],
    }
}

/// What a proposal for a case that reads can be under both codes.
pub const KINDS: [&str; 5] = ["accepted by both codes", "by the old code alone", "by neither", "a value above 2 behind an unsupported pair", "bytes above 2 behind the pairs"];

pub fn kind(case: &Case, values: &[u8], newer: usize, [number, place, ..]: [usize; 5]) -> &'static str {
    let behind = values.iter().skip(case.pairs()).any(|value| *value > 2);
    let unsupported_before = || {
        let values: Vec<u8> = values[..case.pairs()].iter().map(|value| *value.min(&2)).collect();
        (0..place).any(|pair| values[pair] != case.rule_value(pair / case.nodes, pair % case.nodes, &values))
    };
    KINDS[match (newer, number) {
        (_, 0) if behind => 4,
        (0, _) => 0,
        (_, 0) => 1,
        (_, 13) if unsupported_before() => 3,
        _ => 2,
    }]
}

fn compare_both(tally: &mut Tally, judge: &Judge, case: &[u8], values: &[u8], levels: &[usize]) {
    let newer = compare_check(tally, judge, case, values, &level_bytes(levels));
    compare_supported(tally, judge, case, values, newer);
}

// ---- Turns of their own

pub fn kinds() -> Vec<Kind<Tally>> {
    vec![
        Kind::listed("ring under both codes", 100, |tally, r, number| {
            let case = samples::hex(samples::RING);
            let judge = Judge::new(&case);
            let read = judge.read.as_ref().unwrap();
            let values = samples::digits(samples::VOUCHED);
            let levels = match number {
                0 => favourable(read, &values),
                1 => as_solved(read, &values),
                _ => random_levels(r, read),
            };
            compare_both(tally, &judge, &case, &values, &levels);
        }),
        Kind::drawn("old code, every assignment", 150, |tally, r, _| every_assignment(tally, &drawn(r, tiny))),
        Kind::drawn("old code, every assignment, nested", 50, |tally, r, _| every_assignment(tally, &drawn(r, tiny_nested))),
        each_drawn("old code, supported", 4000, |r| drawn(r, vouching), supported_and_spoilt),
        each_drawn("old code, medium", 300, |r| drawn(r, medium), supported_and_spoilt),
        each_drawn("old code, large", 10, |r| drawn(r, large), supported_and_spoilt),
    ]
}

fn every_assignment(tally: &mut Tally, case: &[u8]) {
    tally.cases += 1;
    let judge = Judge::new(case);
    let read = judge.read.as_ref().unwrap();
    for values in assignments(read.pairs()) {
        compare_both(tally, &judge, case, &values, &as_solved(read, &values));
    }
}

/// Assignments that are supported or nearly so, and with bytes that are no values, of which one comes last.
pub fn supported_and_spoilt(tally: &mut Tally, r: &mut Random, case: &[u8]) {
    tally.cases += 1;
    let judge = Judge::new(case);
    let read = judge.read.as_ref().unwrap();
    for _ in 0..3 {
        let mut values = another_supported(r, read);
        let levels = random_levels(r, read);
        compare_both(tally, &judge, case, &values, &levels);
        if values.is_empty() {
            return;
        }
        let (one, last) = (r.below(values.len()), values.len() - 1);
        values[one] = (values[one] + 1) % 3;
        compare_both(tally, &judge, case, &values, &levels);
        values[last] = r.pick(&[3, 4, 255]);
        compare_both(tally, &judge, case, &values, &levels);
    }
}
