//! Totals by fitting (document 02, point 5): nodes of a case and numbers that are none, sums over all nodes, and turns of their own.

use crate::compare::*;
use crate::generator::*;
use crate::kinds::*;
use crate::plan::{Kind, Plan};
use crate::reference::Judge;
use crate::samples;
use crate::tally::Tally;

/// What a number asked for can be in a case that reads.
pub const ASKED: [&str; 8] = [
    "a node with pairs of both counts", "with valid pairs alone", "with undetermined pairs alone", "with neither",
    "the node count", "a number above it", "a number beyond 16 bits", "the largest number",
];

fn asked_kind(nodes: usize, node: usize, [_, _, valid, undetermined]: [usize; 4]) -> &'static str {
    ASKED[match node {
        usize::MAX => 7,
        _ if node > 0xFFFF => 6,
        _ if node > nodes => 5,
        _ if node == nodes => 4,
        _ => 2 * (valid == 0) as usize + (undetermined == 0) as usize,
    }]
}

fn ask(tally: &mut Tally, judge: &mut Judge, case: &[u8], node: usize) {
    let answer = compare_totals(tally, judge, case, node);
    if let Ok(read) = &judge.read {
        tally.note_kind("nodes asked", asked_kind(read.nodes, node, answer));
    }
}

/// One node and one number that is none, or either of a case that is refused.
pub fn examine_some_nodes(tally: &mut Tally, r: &mut Random, judge: &mut Judge, case: &[u8]) {
    let nodes = judge.read.as_ref().map_or(128, |read| read.nodes);
    let (node, none) = (r.below(nodes.max(1)), r.beyond(nodes));
    if judge.read.is_err() {
        return ask(tally, judge, case, if r.one_in(2) { node } else { none });
    }
    ask(tally, judge, case, node);
    ask(tally, judge, case, none);
}

/// Every node, their sums, and some numbers that are none.
pub fn examine_every_node(tally: &mut Tally, r: &mut Random, case: &[u8]) {
    tally.cases += 1;
    compare_sums(tally, case);
    let mut judge = Judge::new(case);
    let nodes = judge.reading()[2];
    for node in 0..=nodes {
        ask(tally, &mut judge, case, node);
    }
    for _ in 0..2 {
        let none = r.beyond(nodes);
        ask(tally, &mut judge, case, none);
    }
}

// ---- Turns of their own

pub fn kinds(plan: &Plan) -> Vec<Kind<Tally>> {
    vec![
        each_listed(plan, "totals of samples", |_| [samples::RING, samples::NESTED_RING, samples::AT_MOST, samples::FRESH, samples::PARKED_RING, samples::PARKED].map(samples::hex).to_vec(), examine_every_node),
        each_listed(plan, "totals at the edges of a word", at_words, examine_every_node),
        each_drawn("totals small", 3000, |r| drawn(r, small), examine_every_node),
        each_drawn("totals nested", 1500, |r| drawn(r, small_nested), examine_every_node),
        each_drawn("totals parked", 1500, |r| drawn(r, small_parked), examine_every_node),
        each_drawn("totals medium", 200, |r| drawn(r, medium), examine_every_node),
        each_drawn("totals large", 10, |r| drawn(r, large), examine_every_node),
    ]
}

/// Valid and undetermined pairs beside each other, up to the most nodes and shapes.
pub fn at_words(r: &mut Random) -> Cases {
    let mut cases = Vec::new();
    for n in [1, 2, 63, 64, 65, 127, 128] {
        cases.extend([open_chain(n, 3, 4), clashes(r, n, 2)]);
    }
    cases.push(clashes(r, 128, 15));
    cases.iter().map(bytes).collect()
}
