//! The kinds of turns on nodes in two groups that no edge joins (document 02, point 9): a case beside the cases of its groups, first by the library alone, then by the reference. Then groups with edges across, parked or not, of which the point says nothing.

use crate::calls;
use crate::compare::*;
use crate::examine::{examine, filler};
use crate::generator::split::*;
use crate::generator::*;
use crate::kinds::{built, drawn, Cases};
use crate::plan::Kind;
use crate::profile_kinds::{openings, sample_cases};
use crate::reference::unfinished::{Unfinished, NOTHING};
use crate::reference::{Case, Judge};
use crate::samples;
use crate::tally::Tally;

pub fn kinds() -> Vec<Kind<Tally>> {
    vec![
        listed("split samples", sample_cases().iter().chain([&NOTHING.to_vec()]).flat_map(|case| every_split(case)).collect()),
        listed("split roads", roads().iter().flat_map(|case| every_split(case)).collect()),
        listed("split by turns", by_turns()),
        apart("split small", 4000, |r| drawn(r, |r| for_two(small(r)))),
        apart("split nested", 1000, |r| drawn(r, |r| for_two(small_nested(r)))),
        apart("split parked", 2000, |r| drawn(r, |r| for_two(small_parked(r)))),
        apart("split profiled", 1500, |r| drawn(r, |r| for_two(small_profiled(r)))),
        apart("split medium", 600, |r| drawn(r, medium)),
        apart("split large", 12, |r| drawn(r, large)),
        apart("split sparse roads", 12, |r| drawn(r, sparse)),
        apart("split built", 60, built),
        across("split, parked across", 800, true),
        across("split, linked across", 800, false),
    ]
}

fn listed(name: &str, splits: Vec<Split>) -> Kind<Tally> {
    Kind::listed(name, splits.len(), move |tally, r, number| examine_apart(tally, r, &splits[number]))
}

/// So many cases drawn, bent until no edge joins their groups.
fn apart(name: &str, turns: usize, case: fn(&mut Random) -> Vec<u8>) -> Kind<Tally> {
    Kind::drawn(name, turns, move |tally, r, _| {
        let case = case(r);
        let bent = split(r, case);
        examine_apart(tally, r, &bent);
    })
}

/// So many cases of medium size with edges across.
fn across(name: &str, turns: usize, parks: bool) -> Kind<Tally> {
    Kind::drawn(name, turns, move |tally, r, _| {
        let case = drawn(r, medium_parked);
        if let Some(split) = split_across(r, case, parks) {
            examine_joined(tally, r, &split, parks);
        }
    })
}

// ---- A case and the cases of its groups

/// answer, values, levels, verdicts
type Solution = ([usize; 8], Vec<u8>, Vec<usize>, Vec<u8>);

/// A group, and what the library shows of the case with only its edges.
struct OneGroup {
    nodes: Vec<bool>,
    case: Vec<u8>,
    /// those of its nodes
    pairs: Vec<usize>,
    solved: Solution,
    /// the group's; its case may have more
    rounds: usize,
}

impl OneGroup {
    fn new(tally: &mut Tally, whole: &[u8], pairs: usize, nodes: Vec<bool>) -> OneGroup {
        let case = of_group(whole, &nodes);
        let pairs: Vec<usize> = (0..pairs).filter(|pair| nodes[pair % nodes.len()]).collect();
        let (solved, rounds) = (solved(tally, &case), rounds_shown(tally, &case, &pairs));
        OneGroup { nodes, case, pairs, solved, rounds }
    }
}

fn solved(tally: &mut Tally, case: &[u8]) -> Solution {
    let solved = calls::solved(case);
    tally.note("solve", solved.0[0]);
    solved
}

/// How many advances there are until one makes no more of these pairs sure: what is sure after i of them is Ti, cut to these.
fn rounds_shown(tally: &mut Tally, case: &[u8], pairs: &[usize]) -> usize {
    let sure = |state: &Unfinished| pairs.iter().map(|pair| calls::judge_ask(state, *pair)[2] == 2).collect::<Vec<_>>();
    let mut state = calls::judge_begin(case).unfinished;
    let mut last = sure(&state);
    // each but the last makes a pair sure
    for rounds in 1..=pairs.len() + 1 {
        let advanced = calls::judge_advance(&state);
        tally.note("advance", advanced.over);
        let next = sure(&advanced.unfinished);
        if next == last {
            return rounds;
        }
        (state, last) = (advanced.unfinished, next);
    }
    Call { name: "judge_advance", case, tables: vec![] }.fail(format!("after {} advances pairs still become sure", pairs.len() + 1))
}

/// A case in two groups, and what the library shows of it and of them.
struct Whole<'a> {
    case: &'a [u8],
    read: Case,
    solved: Solution,
    groups: [OneGroup; 2],
}

impl Whole<'_> {
    fn new<'a>(tally: &mut Tally, (case, group): &'a Split) -> Whole<'a> {
        let read = Judge::new(case).read.expect("reference: a split case reads");
        let solved = solved(tally, case);
        let groups = [group.clone(), rest(group)].map(|nodes| OneGroup::new(tally, case, read.pairs(), nodes));
        Whole { case, read, solved, groups }
    }

    fn fail(&self, difference: String) -> ! {
        let group: Vec<u8> = self.groups[0].nodes.iter().map(|is| *is as u8).collect();
        Call { name: "judge_solve", case: self.case, tables: vec![("group", &group)] }.fail(difference)
    }

    /// What is otherwise than point 9 says, if anything: a value at a group's pair, a verdict at its target, the rounds. Levels aren't compared.
    fn difference(&self) -> Option<String> {
        let ([_, _, rounds, ..], values, _, verdicts) = &self.solved;
        for OneGroup { nodes, pairs, solved: (_, own_values, _, own_verdicts), .. } in &self.groups {
            if let Some(&pair) = pairs.iter().find(|pair| values[**pair] != own_values[**pair]) {
                return Some(format!("pair {pair} has the value {}, with only its group's edges {}", values[pair], own_values[pair]));
            }
            let differs = |target: &usize| nodes[self.read.targets[*target].1] && verdicts[*target] != own_verdicts[*target];
            if let Some(target) = (0..verdicts.len()).find(differs) {
                return Some(format!("target {target} has the verdict {}, with only its group's edges {}", verdicts[target], own_verdicts[target]));
            }
        }
        let [first, second] = self.groups.each_ref().map(|group| group.rounds);
        (*rounds != first.max(second)).then(|| format!("the rounds are {rounds}, its groups have {first} and {second}"))
    }

    /// By the reference: whether the groups are apart, the case of each, and its rounds.
    fn compare_groups(&self, tally: &mut Tally, r: &mut Random, apart: bool) {
        assert_eq!(self.read.apart(&self.groups[0].nodes), apart, "reference: whether an edge joins the groups of {:?}", self.read);
        for group in &self.groups {
            let mut judge = Judge::new(&group.case);
            let edges = judge.read.as_ref().map(|own| own.edges.clone());
            assert_eq!(edges, Ok(self.read.of_group(&group.nodes).edges), "reference: the edges of a group of {:?}", self.read);
            let [v, l, d] = [self.read.pairs(), 2 * self.read.pairs(), self.read.targets.len()].map(|length| filler(r, length));
            compare_solve(tally, &mut judge, &group.case, &v, &l, &d);
            let rounds = self.read.rounds_of_group(&group.nodes);
            if group.rounds != rounds {
                self.fail(format!("a group has {} rounds, expected {rounds}", group.rounds));
            }
        }
    }

    /// The same of the whole, put together from its groups.
    fn compare_together(&self) {
        let (rounds, values) = self.read.by_groups(&self.groups[0].nodes);
        let verdicts: Vec<u8> = self.read.targets.iter().map(|(shape, node)| values[self.read.pair(*shape, *node)]).collect();
        let (expected, got) = ((rounds, &values, &verdicts), (self.solved.0[2], &self.solved.1, &self.solved.3));
        if got != expected {
            self.fail(format!("rounds, values and verdicts {got:?}, by its groups {expected:?}"));
        }
    }
}

/// A case whose groups no edge joins.
fn examine_apart(tally: &mut Tally, r: &mut Random, split: &Split) {
    let whole = Whole::new(tally, split);
    if let Some(difference) = whole.difference() {
        whole.fail(format!("split in two, {difference}"));
    }
    whole.compare_groups(tally, r, true);
    whole.compare_together();
    note_split(tally, &whole);
    examine(tally, r, whole.case, 1);
}

/// A case with edges across, parked or not; the point says nothing of it.
fn examine_joined(tally: &mut Tally, r: &mut Random, split: &Split, parked: bool) {
    let whole = Whole::new(tally, split);
    whole.compare_groups(tally, r, false);
    let differs = whole.difference().is_some();
    tally.note_kinds("edges across", ACROSS, [parked, !parked && differs, !parked && !differs]);
    examine(tally, r, whole.case, 1);
}

/// A stored case and group again.
pub fn replay(tally: &mut Tally, case: &[u8], group: &[u8]) {
    let split = (case.to_vec(), group.iter().map(|is| *is == 1).collect::<Vec<_>>());
    if Judge::new(case).read.unwrap().apart(&split.1) {
        examine_apart(tally, &mut Random(1), &split);
    } else {
        examine_joined(tally, &mut Random(1), &split, false);
    }
}

// ---- What is counted

/// What a case and two groups can be.
pub const SPLITS: [&str; 7] = ["more rounds in the first group", "more in the second", "as many in both", "an empty group", "a group without edges", "edges in both groups", "a parked edge"];

/// What edges across can be.
pub const ACROSS: [&str; 3] = ["parked", "that change values or rounds", "that change none"];

/// What a group can be, beside its case and the whole.
pub const GROUPS: [&str; 7] = [
    "of one round", "of more", "of fewer than its case", "with undetermined pairs", "with an undetermined pair of another level in the whole", "with other values outside it in the whole", "with targets sure, open and impossible",
];

fn note_split(tally: &mut Tally, whole: &Whole) {
    let [first, second] = whole.groups.each_ref().map(|group| group.rounds);
    let empty = whole.groups.iter().any(|group| !group.nodes.contains(&true));
    let edges = whole.groups.each_ref().map(|group| whole.read.edges.iter().any(|edge| group.nodes[edge.link.1]));
    let parks = whole.read.edges.iter().any(|edge| edge.parks);
    tally.note_kinds("splits", SPLITS, [first > second, first < second, first == second, empty, !empty && edges.contains(&false), edges == [true, true], parks]);
    let (_, values, levels, _) = &whole.solved;
    for OneGroup { nodes, pairs, solved: ([_, _, own_rounds, ..], own_values, own_levels, own_verdicts), rounds, .. } in &whole.groups {
        let mut open = pairs.iter().filter(|pair| values[**pair] == 1);
        let of_verdict = |verdict: u8| (0..own_verdicts.len()).any(|target| own_verdicts[target] == verdict && nodes[whole.read.targets[target].1]);
        tally.note_kinds("groups", GROUPS, [
            *rounds == 1,
            *rounds > 1,
            rounds < own_rounds,
            open.clone().next().is_some(),
            open.any(|pair| levels[*pair] != own_levels[*pair]),
            own_values != values,
            [0, 1, 2].into_iter().all(of_verdict),
        ]);
    }
}

// ---- Roads made by hand

/// A game of moves along the edges: what can move to a node that loses wins. A road is settled from its end, round by round; a ring of odd length stays open, and has one round.
const GAME: &str = "10 00, 27 01 00 01, 24 00";

/// The same; linked to node 0, over any number of edges; at most one on the way loses. Seven shapes with those of the parts.
const RULES: &str = "10 00, 14 00, 27 01 00 01, 24 00, 28 23 21 00 00 27 01 00 29 02, 28 2A 01 01 29 01";

/// Edges from node to node.
fn road(nodes: &[usize]) -> Commands {
    nodes.windows(2).map(|ends| edge(0, ends[0], ends[1])).collect()
}

/// Roads on even and odd nodes, under either set of rules and every profile.
fn roads() -> Cases {
    let edges = [
        // two of the same
        (8, [road(&[0, 2, 4, 6]), road(&[1, 3, 5, 7])]),
        // a ring, whose one round settles nothing and whose nodes only vouch for each other, beside many rounds
        (10, [road(&[1, 3, 5, 7, 9, 1]), road(&[8, 6, 4, 2, 0])]),
        // a ring with an edge of it parked
        (6, [[road(&[1, 3, 5, 1]), vec![park(0, 3, 5)]].concat(), road(&[0, 2, 4, 0])]),
        // nodes without an edge
        (4, [road(&[0, 2]), vec![]]),
        // five islands, one of them held together by a parked edge
        (9, [[road(&[1, 3, 1]), road(&[5, 7]), vec![park(0, 5, 7)]].concat(), [road(&[0, 4, 8]), road(&[2, 2])].concat()]),
    ];
    let mut cases = Vec::new();
    for (n, edges) in edges {
        for (rules, shapes) in [(GAME, 2), (RULES, 4)] {
            let targets = (0..shapes * n).map(|i| target(i / n, i % n)).collect();
            let case = bytes(&[vec![nodes(n)], edges.concat(), vec![samples::hex(rules)], targets, vec![vec![0xFF]]].concat());
            cases.extend(openings().into_iter().map(|opening| [opening, case.clone()].concat()));
        }
    }
    cases
}

/// Built cases, narrow and wide, bent for groups by turns, one behind the other, and one node.
fn by_turns() -> Vec<Split> {
    let cases = [
        (16, denial_chain(16, 6)), (24, mixed_chain(24, 9)), (20, open_chain(20, 5, 6)), (8, open_after_denials(8, 9, 8)), (64, parked_last(64)), (65, feeder(65, Feeder::Ring, STARS_IN_STARS)),
        (257, feeder(257, Feeder::Chain, STAR)), (129, open_chain(129, 3, 4)), (512, feeder(512, Feeder::Tree, STAR)),
    ];
    let groups: [fn(usize, usize) -> bool; 3] = [|_, a| a % 2 == 0, |n, a| a < n / 3, |n, a| a == n / 2];
    let group = |n: usize, is: fn(usize, usize) -> bool| (0..n).map(|a| is(n, a)).collect::<Vec<_>>();
    let bent = |case: &Commands, group: Vec<bool>| (kept_apart(&bytes(case), &group), group);
    cases.iter().flat_map(|(n, case)| groups.map(|is| bent(case, group(*n, is)))).collect()
}
