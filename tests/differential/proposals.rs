//! Proposals for checking: assignments with levels, sound and not.

use crate::generator::Random;
use crate::reference::{sets, Case, Solved};

#[derive(Clone)]
pub struct Proposal {
    pub kind: &'static str,
    pub values: Vec<u8>,
    pub levels: Vec<usize>,
}

pub fn level_bytes(levels: &[usize]) -> Vec<u8> {
    levels.iter().flat_map(|l| [*l as u8, (*l >> 8) as u8]).collect()
}

pub fn supported(case: &Case, values: &[u8]) -> bool {
    (0..case.shapes.len()).all(|s| (0..case.nodes).all(|a| values[case.pair(s, a)] == case.rule_value(s, a, values)))
}

/// The smallest levels that justify each pair, if any do: each is raised above its support until nothing moves.
/// Where there are none, the unfounded pairs go on rising; they are left as high as a level goes.
pub fn favourable(case: &Case, values: &[u8]) -> Vec<usize> {
    let mut levels = vec![0; case.pairs()];
    for _ in 0..case.pairs() + 2 {
        let mut next = levels.clone();
        for s in 0..case.shapes.len() {
            for a in 0..case.nodes {
                let pair = case.pair(s, a);
                if values[pair] > 0 && values[pair] == case.rule_value(s, a, values) {
                    next[pair] = (case.support(s, a, values, &levels) + 1).min(0xFFFF);
                }
            }
        }
        if next == levels {
            return levels;
        }
        levels = next;
    }
    for pair in 0..case.pairs() {
        if levels[pair] > case.pairs() {
            levels[pair] = 0xFFFF;
        }
    }
    levels
}

/// Levels as solving would give them to this assignment.
pub fn as_solved(case: &Case, values: &[u8]) -> Vec<usize> {
    let (t, p) = sets(values);
    case.levels(&t, &p)
}

pub fn random_levels(r: &mut Random, case: &Case) -> Vec<usize> {
    let most = r.pick(&[2, case.pairs() + 2, 0x10000]);
    (0..case.pairs()).map(|_| r.below(most)).collect()
}

fn random_values(r: &mut Random, case: &Case) -> Vec<u8> {
    let weights = r.pick(&[[1, 1, 1], [1, 0, 1], [4, 1, 1], [1, 4, 1], [1, 1, 4]]);
    let draw: Vec<u8> = (0..3u8).flat_map(|v| vec![v; weights[v as usize]]).collect();
    (0..case.pairs()).map(|_| r.pick(&draw)).collect()
}

/// Another stable assignment, looked for from a random start: T becomes C(C(T)) until it rests or the tries are over.
pub fn another_stable(r: &mut Random, case: &Case) -> Option<Vec<u8>> {
    let mut t: Vec<bool> = random_values(r, case).iter().map(|v| *v == 2).collect();
    for _ in 0..12 {
        let p = case.closure(&t);
        let next = case.closure(&p);
        if next == t {
            let consistent = (0..t.len()).all(|i| !t[i] || p[i]);
            return consistent.then(|| (0..t.len()).map(|i| t[i] as u8 + p[i] as u8).collect());
        }
        t = next;
    }
    None
}

/// A supported assignment, looked for from a random start by setting each pair to its rule's value; often a ring that only vouches for itself.
pub fn another_supported(r: &mut Random, case: &Case) -> Vec<u8> {
    let mut values = random_values(r, case);
    for _ in 0..20 {
        let mut moved = false;
        for s in 0..case.shapes.len() {
            for a in 0..case.nodes {
                let value = case.rule_value(s, a, &values);
                moved |= values[case.pair(s, a)] != value;
                values[case.pair(s, a)] = value;
            }
        }
        if !moved {
            break;
        }
    }
    values
}

// ---- The kinds of proposals

/// A change of the solved assignment and its levels, of a case with pairs.
type Change = fn(&mut Random, &Case, &mut Proposal);

/// What stands twice comes twice as often.
const KINDS: [(&str, Change); 10] = [
    ("levels of violated pairs", violated_levels),
    ("levels spread", spread_levels),
    ("levels about the support", levels_about_support),
    ("levels about the support", levels_about_support),
    ("values changed", changed_values),
    ("another stable", as_another_stable),
    ("another supported", as_another_supported),
    ("random", at_random),
    ("all the same", all_the_same),
    ("bytes that are no values", no_values),
];

/// The kind of a proposal for a case that has nothing to propose.
const NO_PAIRS: &str = "no pairs";

/// Every kind by name, once.
pub fn names() -> Vec<&'static str> {
    let mut names: Vec<&str> = KINDS.iter().map(|(name, _)| *name).collect();
    names.dedup();
    names.push(NO_PAIRS);
    names
}

/// One proposal of a random kind.
pub fn proposal(r: &mut Random, case: &Case, solved: &Solved) -> Proposal {
    let mut proposal = Proposal { kind: NO_PAIRS, values: solved.values.clone(), levels: solved.levels.clone() };
    if case.pairs() > 0 {
        let (kind, change) = r.pick(&KINDS);
        proposal.kind = kind;
        change(r, case, &mut proposal);
    }
    proposal
}

/// Levels of violated pairs aren't read.
fn violated_levels(r: &mut Random, _: &Case, proposal: &mut Proposal) {
    for (value, level) in proposal.values.iter().zip(&mut proposal.levels) {
        if *value == 0 {
            *level = r.below(0x10000);
        }
    }
}

/// In the same order, further apart.
fn spread_levels(r: &mut Random, _: &Case, proposal: &mut Proposal) {
    let greatest = proposal.levels.iter().max().unwrap();
    let factor = r.range(1, (0xFFFF / greatest.max(&1)).min(50));
    proposal.levels.iter_mut().for_each(|level| *level *= factor);
}

/// A level equal to its support, one above, or far off.
fn levels_about_support(r: &mut Random, case: &Case, proposal: &mut Proposal) {
    for _ in 0..r.pick(&[1, 1, 2, 5]) {
        let (s, a) = (r.below(case.shapes.len()), r.below(case.nodes));
        let pair = case.pair(s, a);
        if proposal.values[pair] > 0 {
            let (level, support) = (proposal.levels[pair], case.support(s, a, &proposal.values, &proposal.levels));
            proposal.levels[pair] = r.pick(&[support, support, support + 1, 0, 0xFFFF, level + 256, level / 2]).min(0xFFFF);
        }
    }
}

fn changed_values(r: &mut Random, _: &Case, proposal: &mut Proposal) {
    for _ in 0..r.pick(&[1, 1, 2, 5]) {
        let pair = r.below(proposal.values.len());
        proposal.values[pair] = r.below(3) as u8;
    }
}

fn as_another_stable(r: &mut Random, case: &Case, proposal: &mut Proposal) {
    if let Some(stable) = another_stable(r, case) {
        proposal.values = stable;
    }
    proposal.levels = as_solved(case, &proposal.values);
}

fn as_another_supported(r: &mut Random, case: &Case, proposal: &mut Proposal) {
    proposal.values = another_supported(r, case);
    // the search for favourable levels is slow on large cases
    let search = r.one_in(2) && case.pairs() < 600;
    proposal.levels = if search { favourable(case, &proposal.values) } else { random_levels(r, case) };
}

fn at_random(r: &mut Random, case: &Case, proposal: &mut Proposal) {
    proposal.values = random_values(r, case);
    proposal.levels = random_levels(r, case);
}

fn all_the_same(r: &mut Random, _: &Case, proposal: &mut Proposal) {
    let all = r.below(3) as u8;
    proposal.values.iter_mut().for_each(|value| *value = all);
}

fn no_values(r: &mut Random, _: &Case, proposal: &mut Proposal) {
    for _ in 0..r.pick(&[1, 1, 2, 5]) {
        let pair = r.below(proposal.values.len());
        proposal.values[pair] = r.pick(&[3, 4, 128, 255, 2]);
    }
}

// ---- All assignments

/// All assignments of values 0 to 2, for cases of few pairs.
pub fn assignments(pairs: usize) -> impl Iterator<Item = Vec<u8>> {
    (0..3usize.pow(pairs as u32)).map(move |mut number| {
        (0..pairs).map(|_| { let v = (number % 3) as u8; number /= 3; v }).collect()
    })
}
