//! The kinds of turns of the differential test, in the order in which they are run: lists that leave nothing out, then cases drawn at random.

use crate::compare::*;
use crate::examine::*;
use crate::generator::*;
use crate::plan::{Kind, Plan};
use crate::reference::Judge;
use crate::tally::Tally;
use crate::{adding_kinds, old_code, park_kinds, part_kinds, profile_kinds, samples, split_kinds, totals, unfinished_kinds};

pub type Cases = Vec<Vec<u8>>;

/// A turn for each case of a list.
pub fn each_listed(plan: &Plan, name: &str, cases: fn(&mut Random) -> Cases, turn: impl Fn(&mut Tally, &mut Random, &[u8]) + 'static) -> Kind<Tally> {
    let cases = cases(&mut plan.random(name, 0));
    Kind::listed(name, cases.len(), move |tally, r, number| turn(tally, r, &cases[number]))
}

/// So many turns, each on a case drawn for it.
pub fn each_drawn(name: &str, turns: usize, case: impl Fn(&mut Random) -> Vec<u8> + 'static, turn: impl Fn(&mut Tally, &mut Random, &[u8]) + 'static) -> Kind<Tally> {
    Kind::drawn(name, turns, move |tally, r, _| {
        let case = case(r);
        turn(tally, r, &case);
    })
}

/// Every operation on each case of a list, with so many proposals.
pub fn list(plan: &Plan, name: &str, proposals: usize, cases: fn(&mut Random) -> Cases) -> Kind<Tally> {
    each_listed(plan, name, cases, move |tally, r, case| examine(tally, r, case, proposals))
}

/// Every operation on so many cases drawn, with so many proposals.
pub fn draw(name: &str, turns: usize, proposals: usize, case: impl Fn(&mut Random) -> Vec<u8> + 'static) -> Kind<Tally> {
    each_drawn(name, turns, case, move |tally, r, case| examine(tally, r, case, proposals))
}

pub fn kinds(plan: &Plan) -> Vec<Kind<Tally>> {
    let mut kinds = vec![
        Kind::listed("samples", 1, |tally: &mut Tally, _, _| tally.calls += samples::run()),
        list(plan, "ring", 200, |_| vec![ring()]),
        list(plan, "ring cut", 0, |_| cut(&ring())),
        list(plan, "ring with a byte less", 1, |_| with_a_byte_less(&ring())),
        list(plan, "ring with a byte more", 1, |_| with_a_byte_more(&ring(), 0, &KNOWN_OR_NEAR)),
        list(plan, "ring with a byte changed", 1, |_| with_a_byte_changed(&ring(), 0)),
        list(plan, "limits", 2, |_| limits()),
        list(plan, "least numbers", 2, |_| least_numbers()),
        list(plan, "chains", 3, |_| chains()),
        list(plan, "open chains", 6, |_| open_chains()),
        list(plan, "dense stars", 6, |r| [2, 63, 64, 65, 128].map(|n| bytes(&dense_star(r, n))).to_vec()),
        list(plan, "feeders", 3, |_| feeders()),
        list(plan, "paths of paths", 2, paths_of_paths),
        list(plan, "clashes", 20, |r| [(1, 1), (3, 2), (64, 3), (128, 15)].map(|(n, pairs)| bytes(&clashes(r, n, pairs))).to_vec()),
        full_cut(plan, "full cut", full),
    ];
    // the slowest case there is, a minute or two on the reference, for those who have the time
    if plan.is_long() {
        kinds.push(list(plan, "slowest", 3, |_| vec![bytes(&both_chains(128, 15, 17))]));
    }
    for refusal in 1..=9 {
        kinds.push(draw(&format!("damaged for {refusal}"), 300, 1, move |r| damaged(r, small_or_medium, &[refusal])));
    }
    kinds.extend([
        draw("damaged", 16000, 1, |r| {
            let refusals: Vec<usize> = (0..r.pick(&[1, 1, 1, 2, 3])).map(|_| r.range(1, 9)).collect();
            damaged(r, small_or_medium, &refusals)
        }),
        draw("bytes changed", 16000, 1, |r| changed(r, small_or_medium)),
        draw("small", 30000, 12, |r| drawn(r, small)),
        draw("medium", 12000, 8, |r| drawn(r, medium)),
        draw("large", 160, 6, |r| drawn(r, full_or_large)),
        draw("built", 200, 6, built),
        Kind::drawn("all assignments", 1600, |tally, r, _| {
            let case = drawn(r, tiny);
            examine(tally, r, &case, 4);
            examine_all_assignments(tally, r, &case);
        }),
    ]);
    kinds.extend(part_kinds::kinds(plan));
    kinds.extend(park_kinds::kinds(plan));
    kinds.extend(totals::kinds(plan));
    kinds.extend(old_code::kinds());
    kinds.extend(unfinished_kinds::kinds(plan));
    kinds.extend(profile_kinds::kinds(plan));
    kinds.extend(split_kinds::kinds());
    kinds.extend(adding_kinds::kinds());
    kinds
}

// ---- Whole cases, and each byte of them spoilt

fn ring() -> Vec<u8> {
    samples::hex(samples::RING)
}

/// Every start of a case.
pub fn cut(case: &[u8]) -> Cases {
    (0..case.len()).map(|n| case[..n].to_vec()).collect()
}

pub fn with_a_byte_less(case: &[u8]) -> Cases {
    (0..case.len()).map(|n| [&case[..n], &case[n + 1..]].concat()).collect()
}

/// Command bytes and some that are none.
const KNOWN_OR_NEAR: [u8; 17] = [0x00, 0x01, 0x02, 0x03, 0x04, 0x10, 0x14, 0x20, 0x24, 0x27, 0x28, 0x29, 0x2A, 0x30, 0x31, 0xFE, 0xFF];

/// Each of these bytes at every offset from one on.
pub fn with_a_byte_more(case: &[u8], from: usize, bytes: &[u8]) -> Cases {
    let with = |n: usize, byte: u8| [&case[..n], &[byte], &case[n..]].concat();
    (from..=case.len()).flat_map(|n| bytes.iter().map(move |byte| with(n, *byte))).collect()
}

/// Every byte from an offset on, changed to any other.
pub fn with_a_byte_changed(case: &[u8], from: usize) -> Cases {
    let with = |n: usize, byte: u8| [&case[..n], &[byte], &case[n + 1..]].concat();
    (from..case.len()).flat_map(|n| (0..=255).map(move |byte| with(n, byte))).collect()
}

/// One of these before or behind every command of a case; whole, and with the input over behind it.
pub fn with_a_stray(commands: &Commands, strays: &[&str]) -> Cases {
    let mut cases = Vec::new();
    for at in 0..=commands.len() {
        for stray in strays {
            let mut case = commands.clone();
            case.insert(at, samples::hex(stray));
            cases.push(bytes(&case));
            cases.push(bytes(&case[..at + 1].to_vec()));
        }
    }
    cases
}

// ---- Limits

/// Each limit: one below, at it, one above.
fn limits() -> Cases {
    let mut cases = Vec::new();
    for n in [0, 1, 127, 128, 129, 255, 256, 0x8000, 0xFFFF] {
        cases.push(vec![nodes(n), vec![0xFF]]);
        cases.push(vec![nodes(n), vec![0x20], vec![0x24, 0], vec![0xFF]]);
    }
    for n in [1023, 1024, 1025] {
        let mut case = vec![nodes(2)];
        case.extend((0..n).map(|_| edge(7, 1, 0)));
        case.extend([vec![0x10, 7], vec![0x20], vec![0x27, 1, 0, 0], vec![0xFF]]);
        cases.push(case);
    }
    for n in [15, 16, 17] {
        let mut case = vec![nodes(2), edge(0, 0, 1), vec![0x10, 0]];
        case.extend((1..n).map(|i| vec![0x14, i - 1]));
        case.extend([vec![0x20], vec![0x27, 2, n - 1, 0], vec![0xFF]]);
        cases.push(case);
    }
    for n in [31, 32, 33] {
        let mut case = vec![nodes(2), edge(0, 0, 1), vec![0x20]];
        case.extend((1..n).map(|i| vec![0x24, i - 1]));
        case.push(vec![0xFF]);
        cases.push(case);
    }
    for n in [255, 256, 257] {
        let mut case = vec![nodes(2), edge(0, 0, 1), vec![0x20], node_shape(1)];
        case.extend((0..n).map(|i| target(i % 2, i / 2 % 2)));
        case.push(vec![0xFF]);
        cases.push(case);
    }
    cases.iter().map(bytes).collect()
}

/// Least numbers about the number of fillers, up to as many fillers as there can be.
fn least_numbers() -> Cases {
    let mut cases = Vec::new();
    for fillers in [1, 2, 63, 64, 65, 127, 128] {
        for least in [1, fillers - 1, fillers, fillers + 1, 255] {
            let mut case = vec![nodes(128)];
            case.extend((0..fillers).map(|b| edge(3, 5, b)));
            case.extend([vec![0x10, 3], vec![0x11, 3], vec![0x20], vec![0x27, least.max(1) as u8, 0, 0], vec![0x27, 1, 1, 1], vec![0x26, 0, 2], vec![0xFF]]);
            cases.push(bytes(&case));
        }
    }
    cases
}

/// All groups at their limits, cut at every length, where the reading alone counts; and whole.
pub fn full_cut(plan: &Plan, name: &str, size: fn(&mut Random) -> Size) -> Kind<Tally> {
    let whole = drawn(&mut plan.random(name, 0), size);
    Kind::listed(name, whole.len() + 1, move |tally, r, number| {
        if number == 0 {
            return examine(tally, r, &whole, 4);
        }
        let cut = &whole[..number - 1];
        compare_read(tally, &Judge::new(cut), cut);
    })
}

// ---- Built cases: long walks, many rounds, deep paths

fn chains() -> Cases {
    let mut cases = Vec::new();
    for (n, shapes) in [(1, 3), (2, 4), (16, 32), (64, 20), (65, 31), (128, 30), (128, 31), (128, 32)] {
        cases.extend([positive_chain(n, shapes), mixed_chain(n, shapes), denial_chain(n, shapes)]);
    }
    for (n, positive, denial) in [(3, 3, 4), (8, 12, 18), (16, 15, 17), (20, 17, 15), (32, 15, 17)] {
        cases.push(both_chains(n, positive, denial));
    }
    cases.iter().map(bytes).collect()
}

fn open_chains() -> Cases {
    let mut cases = Vec::new();
    for (n, open, denial) in [(3, 6, 4), (8, 12, 18), (16, 17, 15), (33, 15, 17)] {
        cases.extend([open_beside_denials(n, open, denial), open_after_denials(n, open + 1, denial - 1)]);
    }
    for (n, positive, open) in [(1, 3, 4), (16, 15, 17), (63, 15, 16), (128, 15, 17)] {
        cases.push(open_chain(n, positive, open));
    }
    cases.iter().map(bytes).collect()
}

fn paths_of_paths(r: &mut Random) -> Cases {
    let mut cases = Vec::new();
    for n in [2, 63, 64, 65, 128] {
        for kinds in [&[0x13][..], &[0x12], &[0x14], &[0x12, 0x13, 0x14]] {
            cases.push(bytes(&deep_paths(r, n, kinds)));
        }
    }
    cases
}

// ---- Cases drawn at random

pub fn drawn(r: &mut Random, size: fn(&mut Random) -> Size) -> Vec<u8> {
    let size = size(r);
    bytes(&random_case(r, &size))
}

/// A case of some size with bytes changed.
pub fn changed(r: &mut Random, size: fn(&mut Random) -> Size) -> Vec<u8> {
    let mut case = drawn(r, size);
    mutate(r, &mut case);
    case
}

fn small_or_medium(r: &mut Random) -> Size {
    if r.one_in(3) { medium(r) } else { small(r) }
}

fn full_or_large(r: &mut Random) -> Size {
    if r.one_in(2) { full(r) } else { large(r) }
}

/// A case of some size, damaged for one refusal after another.
pub fn damaged(r: &mut Random, size: fn(&mut Random) -> Size, refusals: &[usize]) -> Vec<u8> {
    damaged_by(r, size, refusals, damage)
}

/// The same, by damage of its own.
pub fn damaged_by(r: &mut Random, size: fn(&mut Random) -> Size, refusals: &[usize], damage: fn(&mut Random, &mut Commands, usize)) -> Vec<u8> {
    let size = size(r);
    let mut commands = random_case(r, &size);
    for refusal in refusals {
        // an earlier damage may leave nothing to damage
        if commands.len() > 1 {
            damage(r, &mut commands, *refusal);
        }
    }
    bytes(&commands)
}

/// Every kind of feeder with every kind of star over it, at the edges of a word.
fn feeders() -> Cases {
    let mut cases = Vec::new();
    for n in [1, 2, 63, 64, 65, 127, 128] {
        for kind in [Feeder::Chain, Feeder::Ring, Feeder::Tree] {
            cases.extend([STAR, STARS_IN_STARS, STAR_OF_SEQUENCE].map(|paths| bytes(&feeder(n, kind, paths))));
        }
    }
    cases
}

pub fn built(r: &mut Random) -> Vec<u8> {
    bytes(&match r.below(8) {
        0 => { let n = r.range(2, 128); dense_star(r, n) }
        1 => { let n = r.range(2, 128); deep_paths(r, n, &[0x12, 0x13, 0x13, 0x14]) }
        2 => { let (n, p) = (r.range(1, 128), r.range(1, 15)); clashes(r, n, p) }
        3 => { let (n, p, d) = (r.range(1, 12), r.range(3, 16), r.range(3, 16)); both_chains(n, p, d) }
        4 => { let (n, p, d) = (r.range(1, 40), r.range(3, 16), r.range(4, 16)); open_chain(n, p, d) }
        5 => { let (n, s) = (r.range(1, 40), r.range(3, 32)); mixed_chain(n, s) }
        6 => { let (n, o, d) = (r.range(1, 12), r.range(7, 16), r.range(3, 16)); open_beside_denials(n, o, d) }
        _ => { let (n, o, d) = (r.range(1, 12), r.range(8, 16), r.range(3, 16)); open_after_denials(n, o, d) }
    })
}
