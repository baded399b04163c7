//! The kinds of turns with parked edges (document 02, point 4): lists that leave nothing out, then random parks, whole and damaged.

use crate::examine::*;
use crate::generator::*;
use crate::kinds::*;
use crate::plan::{Kind, Plan};
use crate::samples;
use crate::tally::Tally;

pub fn kinds(plan: &Plan) -> Vec<Kind<Tally>> {
    vec![
        list(plan, "parked", 60, |_| wholes()),
        list(plan, "parked cut", 0, |_| cut(&every_park())),
        list(plan, "parked with a byte less", 1, |_| with_a_byte_less(&every_park())),
        list(plan, "parked with a byte more", 1, |_| with_a_byte_more(&every_park(), 0, &[0x00, 0x01, 0x02, 0x03, 0x04, 0x10, 0xFF])),
        list(plan, "parked with a byte changed", 1, |_| with_a_byte_changed(&one_park(), 0)),
        list(plan, "orders of edges and parks", 2, |_| orders()),
        list(plan, "operands of parks", 1, |_| operands()),
        list(plan, "limit of edges and parks", 1, |_| limit_of_edges()),
        list(plan, "parks out of place", 1, |_| out_of_place()),
        draw("damaged for 20", 300, 1, |r| damaged(r, small_parked, &[20])),
        draw("edges damaged", 8000, 1, |r| {
            let refusals: Vec<usize> = (0..r.pick(&[1, 1, 2, 3])).map(|_| r.pick(&EDGE_REFUSALS)).collect();
            damaged(r, small_parked, &refusals)
        }),
        draw("parked bytes changed", 6000, 1, |r| changed(r, small_parked)),
        draw("parked small", 8000, 3, |r| drawn(r, small_parked)),
        draw("parked and nested", 1500, 2, |r| drawn(r, nested_parked)),
        draw("parked medium", 1000, 3, |r| drawn(r, medium_parked)),
        draw("parked large", 20, 3, |r| drawn(r, large_parked)),
        Kind::drawn("parked, all assignments", 200, |tally, r, _| {
            let case = drawn(r, tiny_parked);
            examine(tally, r, &case, 4);
            examine_all_assignments(tally, r, &case);
        }),
    ]
}

// ---- Whole cases

/// Commands among the edges of three nodes, below paths of every kind and shapes that ask for their fillers; 10 is "linked to node 1".
fn framed(edges: Commands) -> Vec<u8> {
    let paths = "10 00, 11 00, 10 01, 12 00 02, 13 00 01, 14 00";
    let shapes = "20, 21 01 00, 27 01 00 01, 27 01 01 00, 26 00 01, 25 00 02, 27 02 03 00, 27 01 04 00, 27 02 05 00, 27 01 00 0A, 23 01 09, 24 0A";
    let mut case = vec![nodes(3)];
    case.extend(edges);
    case.extend([paths, shapes].map(samples::hex));
    case.extend([target(10, 0), target(11, 2), vec![0xFF]]);
    bytes(&case)
}

/// Parks of every kind in one case: of the last edge, of one laid twice, parked twice, laid again, and one of two properties.
fn every_park() -> Vec<u8> {
    let (e, f) = ((0, 0, 1), (0, 2, 0));
    let (laid, parked) = (|(p, a, b)| edge(p, a, b), |(p, a, b)| park(p, a, b));
    framed(vec![laid(e), parked(e), laid(f), laid(f), laid((1, 2, 0)), parked(f), laid((0, 2, 1)), parked(e), laid(e), laid((0, 1, 2))])
}

/// One edge, parked.
fn one_park() -> Vec<u8> {
    bytes(&vec![nodes(2), edge(0, 0, 1), park(0, 0, 1), vec![0x10, 0], vec![0x20], vec![0x27, 1, 0, 0], target(1, 0), vec![0xFF]])
}

fn wholes() -> Cases {
    vec![samples::hex(samples::PARKED_RING), samples::hex(samples::PARKED), every_park(), one_park()]
}

/// An edge and another, laid and parked in every order, up to five commands. The other differs in its property, its object, or has its ends changed round.
fn orders() -> Cases {
    let mut cases = Vec::new();
    for (p, a, b) in [(1, 0, 1), (0, 0, 2), (0, 1, 0)] {
        let commands = [edge(0, 0, 1), park(0, 0, 1), edge(p, a, b), park(p, a, b)];
        for length in 0..=5 {
            for number in 0..4usize.pow(length) {
                let which = |place: u32| number / 4usize.pow(place) % 4;
                cases.push(framed((0..length).map(|place| commands[which(place)].clone()).collect()));
            }
        }
    }
    cases
}

// ---- Refusals

/// Parks of all operands about those of an edge, where it is parked and where it is not.
fn operands() -> Cases {
    let mut cases = Vec::new();
    let near = [0, 1, 2, 3, 0x0100, 0x0102, 0x0201, 0xFFFF];
    for p in [0, 1, 2, 255] {
        for a in near {
            for b in near {
                cases.push(framed(vec![edge(1, 1, 2), park(p, a, b)]));
                cases.push(framed(vec![edge(1, 1, 2), park(1, 1, 2), park(p, a, b), edge(1, 1, 2)]));
            }
        }
    }
    cases
}

/// Edges and parks up to the limit and over it, few or many of them parks; the last command fit, unknown, wrong or cut.
fn limit_of_edges() -> Cases {
    let lasts = [edge(0, 0, 2), park(0, 0, 1), park(0, 1, 0), park(0, 0, 3), edge(0, 0, 3), park(0, 0, 0x0100)];
    let mut cases = Vec::new();
    for before in [1022, 1023, 1024usize] {
        for laid in [1, 2, before / 2, before - 1, before] {
            let mut edges = vec![edge(0, 0, 1); laid];
            edges.extend(vec![park(0, 0, 1); before - laid]);
            for last in &lasts {
                let whole = framed([edges.clone(), vec![last.clone()]].concat());
                cases.extend([whole[..3 + 6 * before + 5].to_vec(), whole]);
            }
        }
    }
    // as many edges parked as there can be, each once
    let all: Commands = (0..512).map(|i| edge(i / 9, i % 3, i / 3 % 3)).collect();
    let parks = all.iter().map(|edge| [&[0x03], &edge[1..]].concat());
    cases.extend([framed([all.clone(), parks.clone().collect()].concat()), framed([all.clone(), parks.rev().collect()].concat())]);
    cases.extend([2, 64, 128].map(|n| bytes(&parked_last(n))));
    cases
}

/// Parks, whole or cut, of an edge that is there and of one that is not, before and behind every command of a case.
fn out_of_place() -> Cases {
    let commands = vec![nodes(2), edge(0, 0, 1), edge(0, 1, 1), park(0, 0, 1), vec![0x10, 0], vec![0x11, 0], vec![0x20], vec![0x24, 1], vec![0x27, 1, 0, 0], target(1, 1), vec![0xFF]];
    with_a_stray(&commands, &["03 00 00 00 01 00", "03 00 01 00 01 00", "03 00 01 00 00 00", "03 00 00 00 02 00", "03 00 00 00 01", "03"])
}
