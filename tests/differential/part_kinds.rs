//! The kinds of turns with rules inside rules (document 02, point 2): lists that leave nothing out, then random 28s, whole and damaged.

use crate::examine::*;
use crate::generator::*;
use crate::kinds::*;
use crate::plan::{Kind, Plan};
use crate::samples;
use crate::tally::Tally;

pub fn kinds(plan: &Plan) -> Vec<Kind<Tally>> {
    let mut kinds = vec![
        list(plan, "nested", 100, |_| wholes()),
        list(plan, "nested cut", 0, |_| wholes().iter().flat_map(|case| cut(case)).collect()),
        list(plan, "nested with a byte less", 1, |_| wholes().iter().flat_map(|case| with_a_byte_less(case)).collect()),
        list(plan, "nested with a byte more", 1, |_| with_a_byte_more(&every_part(), SHAPES_AT, &PART_OR_NEAR)),
        list(plan, "nested with a byte changed", 1, |_| with_a_byte_changed(&every_part(), SHAPES_AT)),
        list(plan, "nots of nots", 20, |_| nots_of_nots()),
        list(plan, "numbers in parts", 2, |_| numbers()),
        list(plan, "depths", 1, |_| depths()),
        list(plan, "limit of shapes", 1, |_| limit_of_shapes(32)),
        list(plan, "limit of shapes and a fault", 1, |_| limit_and_fault(32)),
        list(plan, "faults by depth", 1, |_| faults_by_depth()),
        list(plan, "faults by pairs", 1, |_| faults_by_pairs()),
        list(plan, "names of shapes", 1, |_| names_of_shapes()),
        list(plan, "parts out of place", 1, |_| out_of_place()),
    ];
    for refusal in PART_REFUSALS {
        kinds.push(draw(&format!("part damaged for {refusal}"), 300, 1, move |r| part_damaged(r, &[refusal])));
    }
    kinds.extend([
        draw("parts damaged", 30000, 1, |r| {
            let refusals: Vec<usize> = (0..r.pick(&[1, 1, 2, 3])).map(|_| r.pick(&PART_REFUSALS)).collect();
            part_damaged(r, &refusals)
        }),
        draw("parts changed", 30000, 1, |r| {
            let size = small_nested(r);
            let mut commands = random_case(r, &size);
            mutate_part(r, &mut commands);
            bytes(&commands)
        }),
        draw("nested bytes changed", 10000, 1, |r| changed(r, small_nested)),
        draw("nested small", 24000, 3, |r| drawn(r, small_nested)),
        draw("nested over", 6000, 1, |r| drawn(r, over_nested)),
        draw("nested medium", 1500, 3, |r| drawn(r, medium_nested)),
        draw("nested large", 20, 3, |r| drawn(r, full_nested)),
        Kind::drawn("nested, all assignments", 600, |tally, r, _| {
            let case = drawn(r, tiny_nested);
            examine(tally, r, &case, 4);
            examine_all_assignments(tally, r, &case);
        }),
    ]);
    kinds
}

fn part_damaged(r: &mut Random, refusals: &[usize]) -> Vec<u8> {
    let size = if r.one_in(6) { over_nested(r) } else { small_nested(r) };
    let mut commands = random_case(r, &size);
    for refusal in refusals {
        damage_part(r, &mut commands, *refusal);
    }
    bytes(&commands)
}

// ---- Whole cases

/// The samples, and one case with every part byte, outermost and deeper.
fn wholes() -> Cases {
    let mut cases: Cases = [samples::NESTED_RING, samples::AT_MOST, samples::FRESH].map(samples::hex).to_vec();
    cases.push(every_part());
    cases
}

/// A frame of two nodes and two paths for shapes; a target at the first of them.
fn framed(shapes: Commands) -> Vec<u8> {
    let mut case = vec![nodes(2), edge(0, 0, 1), edge(0, 1, 1), vec![0x10, 0], vec![0x11, 0]];
    case.extend(shapes);
    case.extend([target(0, 1), vec![0xFF]]);
    bytes(&case)
}

fn nested(part: &[u8]) -> Vec<u8> {
    [&[0x28], part].concat()
}

fn every_part() -> Vec<u8> {
    let inner = samples::hex("22 26 00 24 29 00, 23 27 01 01 21 01 00, 22 25 00 01, 2A 01 00 20");
    framed(vec![nested(&inner), vec![0x24, 0], nested(&[0x2A, 0, 1, 0x29, 3]), nested(&[0x29, 1])])
}

/// Where the shapes of the frame begin.
const SHAPES_AT: usize = 3 + 6 + 6 + 2 + 2;

/// Part bytes and some that are none.
const PART_OR_NEAR: [u8; 17] = [0x00, 0x01, 0x1F, 0x20, 0x21, 0x22, 0x23, 0x24, 0x25, 0x26, 0x27, 0x28, 0x29, 0x2A, 0x2B, 0x30, 0xFF];

// ---- Values of parts

/// Nots of nots about a shape itself, about another, and about a top: none may be cancelled.
fn nots_of_nots() -> Cases {
    let mut cases = Vec::new();
    for count in 1..=7 {
        let nots = |part: &[u8]| nested(&[&vec![0x24; count][..], part].concat());
        cases.push(framed(vec![nots(&[0x29, 0])]));
        cases.push(framed(vec![nots(&[0x29, 1]), vec![0x24, 0]]));
        cases.push(framed(vec![nots(&[0x29, 1]), vec![0x23, 0, 1]]));
        cases.push(framed(vec![nots(&[0x20]), nested(&[0x29, 1])]));
    }
    cases
}

/// Numbers of at least and at most about the number of fillers, up to as many as there can be, and those that are refused.
fn numbers() -> Cases {
    let mut cases = Vec::new();
    for fillers in [0, 1, 2, 3, 64, 127, 128] {
        for number in [0, 1, 2, 3, 63, 64, 126, 127, 128, 253, 254, 255] {
            let mut frame = vec![nodes(128)];
            frame.extend((0..fillers).map(|b| edge(3, 5, b)));
            frame.push(vec![0x10, 3]);
            for part in [vec![0x2A, number, 0, 0x20], vec![0x24, 0x2A, number, 0, 0x20], vec![0x27, number, 0, 0x20]] {
                let mut case = frame.clone();
                case.extend([nested(&part), vec![0xFF]]);
                cases.push(bytes(&case));
            }
        }
    }
    cases
}

// ---- Depths

/// Parts to put round another, before it and behind it: it stands one deeper then, alone, or first or second of two.
fn wrappers() -> Vec<(Vec<u8>, Vec<u8>)> {
    let pairs = [("24", ""), ("22", "20"), ("23", "29 00"), ("22 20", ""), ("23 29 00", ""), ("26 00", ""), ("27 01 01", ""), ("2A 00 00", "")];
    pairs.map(|(before, behind)| (samples::hex(before), samples::hex(behind))).to_vec()
}

/// The part so much deeper.
fn deeper(part: &[u8], levels: usize, wrapper: &(Vec<u8>, Vec<u8>)) -> Vec<u8> {
    [wrapper.0.repeat(levels), part.to_vec(), wrapper.1.repeat(levels)].concat()
}

/// Every part byte, and some that are none, 7 to 10 deep; whole, and with the input over before it and behind its byte.
fn depths() -> Cases {
    let parts = ["20", "21 01 00", "22 20 20", "23 20 29 00", "24 20", "25 00 01", "26 00 20", "27 01 00 20", "29 00", "29 09", "2A 00 00 20", "28 20", "2B", "FF", "21 09 00", "26 09 20", "2A FF 00 20"];
    let mut cases = Vec::new();
    for wrapper in wrappers() {
        for levels in 6..=9 {
            for part in parts.map(samples::hex) {
                let whole = framed(vec![nested(&deeper(&part, levels, &wrapper))]);
                let before = SHAPES_AT + 1 + levels * wrapper.0.len();
                cases.extend([whole[..before].to_vec(), whole[..before + 1].to_vec(), whole]);
            }
        }
    }
    cases
}

// ---- The limit of shapes

/// A part that makes exactly so many shapes with all that is inside it, and is no deeper than it has to be for that.
fn making(shapes: usize) -> Vec<u8> {
    match shapes {
        1 => vec![0x20],
        _ if shapes % 2 == 0 => [vec![0x24], making(shapes - 1)].concat(),
        _ => [vec![0x22], making(shapes / 2), making(shapes / 2)].concat(),
    }
}

/// Written and fresh shapes, one below the most to two above it, the 28 first, last or between; then a written shape above the most, which is 4 whatever it holds.
pub fn limit_of_shapes(most: usize) -> Cases {
    let mut cases = Vec::new();
    for shapes in most - 1..=most + 2 {
        for written in [1, 2, 3, most / 2, most - 2, most - 1, most] {
            let Some(fresh) = shapes.checked_sub(written) else { continue };
            for before in [0, written / 2, written - 1] {
                for part in parts_making(fresh) {
                    let mut case = vec![vec![0x20]; written];
                    case[before] = nested(&part);
                    cases.push(framed(case));
                }
            }
        }
    }
    for last in ["", "20", "24", "28", "FF", "21 09 00", "26 09", "27 00 00", "2A FF 00", "24 24 24 24 24 24 24 24", "29 00", "29 20", "29 FF"] {
        for whole in [false, true] {
            let mut case = framed([vec![vec![0x20]; most], vec![nested(&samples::hex(last))]].concat());
            case.truncate(case.len() - if whole { 0 } else { 5 });
            cases.push(case);
        }
    }
    cases
}

/// Parts that make so many fresh shapes, as outermost ones: with a top, a named shape or an at most among them, and a named shape for none.
fn parts_making(fresh: usize) -> Cases {
    let mut parts = vec![making(fresh + 1)];
    match fresh {
        0 => parts.push(vec![0x29, 0]),
        1 => parts.push(vec![0x2A, 1, 0, 0x29, 0]),
        2 => parts.push(vec![0x2A, 1, 0, 0x20]),
        _ => parts.extend([[vec![0x22, 0x29, 0], making(fresh)].concat(), [vec![0x22], making(fresh - 2), vec![0x2A, 1, 0, 0x29, 0]].concat()]),
    }
    parts
}

/// A fault in a part before or behind the first shape of its 28 above the most, in the next command, and in a shape command that makes that shape.
pub fn limit_and_fault(most: usize) -> Cases {
    let mut cases = Vec::new();
    for wrong in faults() {
        let many = making(most + 1);
        cases.push(framed(vec![nested(&[vec![0x22], many.clone(), wrong.clone()].concat())]));
        cases.push(framed(vec![nested(&[vec![0x22], wrong.clone(), many.clone()].concat())]));
        cases.push(framed(vec![vec![0x20], nested(&[vec![0x22, 0x24], many.clone(), wrong.clone()].concat())]));
        cases.push(framed(vec![nested(&making(most)), nested(&wrong)]));
        cases.push(framed(vec![nested(&many), nested(&wrong)]));
        cases.push(framed(vec![nested(&many), wrong]));
    }
    for command in ["20", "21 01 00", "21 02 00", "22 00 00", "22 00 01", "22 00 09", "24 00", "25 00 01", "25 00 02", "26 00 00", "26 02 00", "27 01 00 00", "27 00 00 00", "27 00 02 00"] {
        for shapes in [most - 1, most] {
            cases.push(framed(vec![nested(&making(shapes)), samples::hex(command)]));
        }
    }
    // the most parts that a 28 can have, after the most named and the most fresh shapes
    for before in [vec![vec![0x22, 0, 1]; most - 1], vec![nested(&making(most))]] {
        for bottom in [&[0x20][..], &[0x29, 0], &[0x29, most as u8], &[0x21, 1, 0], &[0x21, 2, 0], &[0x24, 0x20]] {
            for levels in [7, 8, 9] {
                cases.push(framed([before.clone(), vec![nested(&full_tree(levels, bottom))]].concat()));
            }
        }
    }
    cases
}

// ---- Faults of parts

/// Parts at fault: bytes that are no part's; 5; 6, also beside 7; 7.
fn faults() -> Cases {
    let mut faults: Cases = [0x00, 0x01, 0x02, 0x10, 0x14, 0x1F, 0x28, 0x2B, 0x2F, 0x30, 0x31, 0xFF].map(|byte| vec![byte]).to_vec();
    let operands = ["21 02 00", "21 00 01", "21 FF FF", "25 02 00", "25 00 02", "25 FF FF", "26 02 20", "26 02", "27 01 02 20", "27 00 02 20", "27 00 00 20", "27 00 01", "2A 00 02 20", "2A FF 02 20", "2A FF 00 20", "2A FF 01"];
    faults.extend(operands.map(samples::hex));
    faults
}

/// Each fault at each depth, alone, and first or second of two at every level; whole, and with the input over behind it.
fn faults_by_depth() -> Cases {
    let mut cases = Vec::new();
    for wrapper in wrappers() {
        for levels in 0..8 {
            for wrong in faults() {
                let whole = framed(vec![vec![0x20], nested(&deeper(&wrong, levels, &wrapper))]);
                let behind = SHAPES_AT + 2 + levels * wrapper.0.len() + wrong.len();
                cases.extend([whole[..behind].to_vec(), whole]);
            }
        }
    }
    cases
}

/// Two faults in one 28: the first part at fault decides. One of the two may be none.
fn faults_by_pairs() -> Cases {
    let mut parts = faults();
    parts.extend(["20", "29 00", "29 01", "24 24 24 24 24 24 20", "24 24 24 24 24 24 24 20"].map(samples::hex));
    let mut cases = Vec::new();
    for first in &parts {
        for second in &parts {
            cases.push(framed(vec![nested(&[&[0x22], &first[..], second].concat())]));
        }
    }
    cases
}

/// Three written shapes, 0 to 2, and three or four fresh ones behind them: named by a 29, by a shape operand and by a target, two in each case.
fn names_of_shapes() -> Cases {
    let mut cases = Vec::new();
    for s in [0, 1, 2, 3, 4, 6, 7, 8, 31, 32, 255] {
        for t in [0, 2, 3, 255] {
            cases.push(framed(vec![nested(&[0x22, 0x24, 0x29, s, 0x24, 0x20]), vec![0x20], nested(&[0x24, 0x29, t])]));
            cases.push(framed(vec![nested(&[0x29, s]), vec![0x24, t], nested(&making(5))]));
            cases.push(framed(vec![nested(&making(5)), vec![0x23, 1, s], nested(&[0x29, t])]));
            let mut case = framed(vec![nested(&making(3)), nested(&[0x2A, 0, 0, 0x24, 0x29, s]), vec![0x20]]);
            case.pop();
            case.extend([target(t as usize, 1), vec![0xFF]].concat());
            cases.push(case);
        }
    }
    cases
}

/// A 28, whole or cut, and bare parts that no 28 holds, before and behind every command of a case.
fn out_of_place() -> Cases {
    let commands = vec![nodes(2), edge(0, 0, 1), edge(0, 1, 1), vec![0x10, 0], vec![0x11, 0], vec![0x20], nested(&[0x24, 0x29, 0]), vec![0x24, 1], target(0, 1), target(1, 1), vec![0xFF]];
    with_a_stray(&commands, &["28 20", "28 24 29 00", "28", "28 24", "28 FF", "29 00", "2A 00 00 20", "2A", "2B"])
}
