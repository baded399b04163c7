//! The kinds of turns with candidate edges (document 02, point 10): lists and target numbers of every sort, by the reference and by the library itself, which solves the case with each selection written out.

use crate::calls;
use crate::compare::*;
use crate::generator::candidates::*;
use crate::generator::*;
use crate::kinds::{built, damaged, drawn, Cases};
use crate::plan::Kind;
use crate::profile_kinds::sample_cases;
use crate::reference::adding::{candidates, chosen, selections, size};
use crate::reference::{Case, Edge, Judge, Link};
use crate::samples;
use crate::tally::Tally;

pub fn kinds() -> Vec<Kind<Tally>> {
    vec![
        listed("links of the rings", links_of_rings()),
        listed("links, lists of every length", lengths()),
        listed("links, refusals beside each other", refusals()),
        with_lists("links small", 8000, 4, |r| drawn(r, small)),
        with_lists("links nested", 2000, 4, |r| drawn(r, small_nested)),
        with_lists("links parked", 6000, 5, |r| drawn(r, small_parked)),
        with_lists("links profiled", 3000, 4, |r| drawn(r, small_profiled)),
        with_lists("links medium", 600, 3, |r| drawn(r, medium_parked)),
        with_lists("links damaged", 1500, 3, |r| {
            let refusal = r.pick(&[1, 2, 3, 4, 5, 6, 7, 8, 9, 20, 22]);
            damaged(r, small_profiled, &[refusal])
        }),
        with_lists("links large", 40, 2, |r| drawn(r, large_parked)),
        with_lists("links of sparse roads", 60, 2, |r| drawn(r, sparse)),
        with_lists("links built", 40, 2, built),
        roads("links of broken roads", 6000, |r| {
            let (profile, fittings) = (r.pick(&[None, None, Some(0), Some(1), Some(2)]), r.range(2, 7));
            broken_road(r, profile, fittings + 1, fittings, 6)
        }),
        roads("links of wide broken roads", 400, |r| {
            let (profile, nodes) = r.pick(&[(1, 129), (1, 256), (2, 257), (2, 512)]);
            broken_road(r, Some(profile), nodes, 5, 3)
        }),
        roads("links beside all edges", 800, |r| {
            let fittings = r.range(2, 5);
            let works = broken_road(r, None, fittings, fittings, 4);
            Works { case: crowded(r, &works.case), ..works }
        }),
        roads("links, twelve candidates", 60, |r| {
            let mut works = broken_road(r, None, 4, 4, 12);
            let more = 12 - works.list.len() / 5;
            works.list.extend(random_list(r, &works.case, more));
            works
        }),
    ]
}

fn listed(name: &str, works: Vec<Works>) -> Kind<Tally> {
    Kind::listed(name, works.len(), move |tally, _, number| examine_works(tally, &works[number]))
}

/// So many broken roads.
fn roads(name: &str, turns: usize, works: fn(&mut Random) -> Works) -> Kind<Tally> {
    Kind::drawn(name, turns, move |tally, r, _| {
        let works = works(r);
        examine_works(tally, &works)
    })
}

/// So many cases drawn, each with lists of up to so many candidates.
fn with_lists(name: &str, turns: usize, most: usize, case: fn(&mut Random) -> Vec<u8>) -> Kind<Tally> {
    Kind::drawn(name, turns, move |tally, r, _| {
        let case = case(r);
        for _ in 0..2 {
            let works = random_works(r, &case, most);
            examine_works(tally, &works);
        }
    })
}

/// A target of the case most often, and a list of up to so many candidates; some lists are damaged, and a case that is refused has any.
pub fn random_works(r: &mut Random, case: &[u8], most: usize) -> Works {
    let [number, _, nodes, .., targets] = Judge::new(case).reading();
    let target = if targets == 0 || r.one_in(12) { r.beyond(targets) } else { r.below(targets) };
    let count = r.range(0, most);
    let mut list = match nodes {
        0 => (0..count).flat_map(|_| candidate(r.below(2), r.below(4), r.below(4))).collect(),
        _ => random_list(r, case, count),
    };
    if count > 0 && r.one_in(12) {
        list = with_unknown_nodes(r, list, nodes);
    }
    if r.one_in(if number == 0 { 12 } else { 3 }) {
        list = of_wrong_length(r, list);
    }
    Works { case: case.to_vec(), target, list }
}

/// One list for a case of few pairs, or for one that is refused.
pub fn examine_some_links(tally: &mut Tally, r: &mut Random, judge: &Judge, case: &[u8]) {
    if judge.read.as_ref().map_or(0, Case::pairs) < 256 {
        let works = random_works(r, case, 2);
        compare_works(tally, judge, &works);
    }
}

// ---- One list for one case

/// The answer, held to the reference and counted.
fn compare_works(tally: &mut Tally, judge: &Judge, works: &Works) -> [usize; 3] {
    let answer = compare_fewest(tally, judge, &works.case, works.target, &works.list);
    if let Ok(read) = &judge.read {
        tally.note_kind("target numbers", target_kind(read.targets.len(), works.target));
        note_refusal(tally, read, works, answer);
        if [0, 25].contains(&answer[0]) {
            note_candidates(tally, read, &candidates(&works.list));
            note_answer(tally, read, works, answer);
        }
    }
    answer
}

/// The same, and where every selection can be written out, the answer held to what solving says of each.
fn examine_works(tally: &mut Tally, works: &Works) {
    tally.cases += 1;
    let answer = compare_works(tally, &Judge::new(&works.case), works);
    if [0, 25].contains(&answer[0]) {
        if let Some(verdicts) = verdicts_written_out(tally, works) {
            hold_to_verdicts(works, &verdicts, answer);
            note_verdicts(tally, works, &verdicts, answer);
        }
    }
}

/// The verdict of the target by selection, as the library solves the case with each written out; none where some cannot be.
fn verdicts_written_out(tally: &mut Tally, works: &Works) -> Option<Vec<u8>> {
    let verdict = |selection: usize| {
        let solved = calls::solved(&written_out(&works.case, &works.list, selection)?);
        tally.note("solve", solved.0[0]);
        Some(solved.3[works.target])
    };
    selections(works.list.len() / 5).map(verdict).collect()
}

/// The library held to itself: the answer makes the target sure, no other selection that does has fewer edges, or as few and a smaller number; 25 where none does.
fn hold_to_verdicts(works: &Works, verdicts: &[u8], [number, _, selection]: [usize; 3]) {
    let target = works.target.to_le_bytes();
    let call = Call { name: "judge_fewest_edges", case: &works.case, tables: vec![("target", &target), ("candidates", &works.list)] };
    let mut sure = (0..verdicts.len()).filter(|other| verdicts[*other] == 2);
    if number == 25 {
        if let Some(other) = sure.next() {
            call.fail(format!("no selection is found, solving has {other} as sure"));
        }
        return;
    }
    if verdicts.get(selection) != Some(&2) {
        call.fail(format!("selection {selection} is found, solving has the verdict {:?}", verdicts.get(selection)));
    }
    if let Some(other) = sure.find(|other| (size(*other), *other) < (size(selection), selection)) {
        call.fail(format!("selection {selection} is found, solving has {other} as sure too"));
    }
}

/// A stored case, target and list again.
pub fn replay(tally: &mut Tally, case: &[u8], target: usize, list: &[u8]) {
    examine_works(tally, &Works { case: case.to_vec(), target, list: list.to_vec() });
}

// ---- What is counted

/// What a target's number can be.
pub const TARGETS: [&str; 7] = ["the first", "another", "the last of several", "the target count", "a number above it", "a number beyond 16 bits", "the largest number"];

fn target_kind(targets: usize, target: usize) -> &'static str {
    TARGETS[match target {
        usize::MAX => 6,
        _ if target > 0xFFFF => 5,
        _ if target > targets => 4,
        _ if target == targets => 3,
        0 => 0,
        _ if target + 1 == targets => 2,
        _ => 1,
    }]
}

/// What a list of a fit length can have.
pub const CANDIDATES: [&str; 8] = ["no candidate", "fewer than twelve", "twelve", "a new edge", "an edge that is there", "a parked edge", "one equal to an earlier one", "one from a node to itself"];

/// Whether an 02 of the case names an edge, and whether an 03 does.
fn laid_and_parked(case: &Case, link: Link) -> [bool; 2] {
    [false, true].map(|parks| case.edges.contains(&Edge { parks, link }))
}

fn note_candidates(tally: &mut Tally, case: &Case, list: &[Link]) {
    let any = |states: [bool; 2]| list.iter().any(|link| laid_and_parked(case, *link) == states);
    tally.note_kinds("candidates", CANDIDATES, [
        list.is_empty(),
        (1..12).contains(&list.len()),
        list.len() == 12,
        any([false, false]),
        any([true, false]),
        any([true, true]),
        (0..list.len()).any(|i| list[..i].contains(&list[i])),
        list.iter().any(|(_, a, b)| a == b),
    ]);
}

/// What can be wrong.
pub const REFUSALS: [&str; 11] = [
    "a rest, fewer than 60 bytes", "61 to 64 bytes", "a multiple of 5 above 60", "another length above 60", "no such target", "an unknown subject", "an unknown object", "an unknown node behind known ones", "a second one",
    "no candidates and not sure", "no selection of some",
];

fn note_refusal(tally: &mut Tally, case: &Case, works: &Works, [number, place, _]: [usize; 3]) {
    let (length, list) = (works.list.len(), candidates(&works.list));
    let unknown = |node: usize| node >= case.nodes;
    let at: Vec<usize> = (0..list.len()).filter(|i| unknown(list[*i].1) || unknown(list[*i].2)).collect();
    let (of_list, of_node) = (number == 23, number == 24 && place > 0);
    tally.note_kinds("what is wrong", REFUSALS, [
        of_list && length < 60,
        of_list && (61..65).contains(&length),
        of_list && length > 60 && length % 5 == 0,
        of_list && length > 65 && length % 5 != 0,
        number == 24 && place == 0,
        of_node && !unknown(list[at[0]].2),
        of_node && !unknown(list[at[0]].1),
        of_node && at[0] > 0,
        of_node && at.len() > 1,
        number == 25 && list.is_empty(),
        number == 25 && !list.is_empty(),
    ]);
}

/// What a selection that is found can be by itself.
pub const FOUND: [&str; 9] = ["of no edge", "of one", "of two", "of three and more", "of all candidates, two at least", "with a parked edge", "with one of two equal candidates", "beside 1,024 edges", "among more than 128 nodes"];

fn note_answer(tally: &mut Tally, case: &Case, works: &Works, [number, _, selection]: [usize; 3]) {
    if number != 0 {
        return;
    }
    let list = candidates(&works.list);
    let found = chosen(&list, selection);
    let parked = found.iter().any(|link| laid_and_parked(case, *link)[1]);
    let equal = found.iter().any(|link| list.iter().filter(|other| *other == link).count() > 1);
    let edges = found.len();
    tally.note_kinds("selections found", FOUND, [edges == 0, edges == 1, edges == 2, edges > 2, edges > 1 && edges == list.len(), parked, equal, edges > 0 && case.edges.len() == 1024, edges > 0 && case.nodes > 128]);
}

/// What the others can be beside it.
pub const OTHERS: [&str; 6] = ["as small and sure too", "larger, with a smaller number, and sure too", "with an edge more and not sure", "all candidates, and not sure", "open, and none is sure", "open, and smaller"];

fn note_verdicts(tally: &mut Tally, works: &Works, verdicts: &[u8], [number, _, selection]: [usize; 3]) {
    let others = |verdict: u8| (0..verdicts.len()).filter(move |other| *other != selection && verdicts[*other] == verdict);
    let found = number == 0;
    let not_sure = |other: usize| verdicts[other] != 2;
    tally.note_kinds("other selections", OTHERS, [
        found && others(2).any(|other| size(other) == size(selection)),
        found && others(2).any(|other| other < selection),
        found && (0..works.list.len() / 5).any(|i| not_sure(selection | 1 << i)),
        found && not_sure(verdicts.len() - 1),
        !found && verdicts.contains(&1),
        found && others(1).any(|other| size(other) < size(selection)),
    ]);
}

// ---- Lists that leave nothing out

/// Every edge as the one candidate, for each target of the rings; and all at a node, twelve of them at the most.
fn links_of_rings() -> Vec<Works> {
    let mut works = Vec::new();
    for case in [samples::RING, samples::NESTED_RING, samples::PARKED_RING].map(samples::hex) {
        for target in 0..2 {
            let mut add = |list: Vec<u8>| works.push(Works { case: case.clone(), target, list });
            for (p, a, b) in (0..32).map(|i| (i / 16, i / 4 % 4, i % 4)) {
                add(candidate(p, a, b));
            }
            for a in 0..4 {
                add((0..8).flat_map(|i| candidate(i / 4, a, i % 4)).collect());
            }
            add((0..12).rev().flat_map(|i| candidate(0, i / 4 + 1, i % 4)).collect());
        }
    }
    works
}

/// Lists of every length about the limit and below it, for targets that are there and that are not.
fn lengths() -> Vec<Works> {
    let case = samples::hex(samples::RING);
    let list: Vec<u8> = (0..80).flat_map(|i| candidate(0, i % 4, i / 4 % 4)).collect();
    let lengths = (0..=11).chain(49..=71).chain([119, 120, 121, 255, 256, 316, 320]);
    let of = |length: usize| [0, 1, 2, usize::MAX].map(|target| Works { case: case.clone(), target, list: list[..length].to_vec() });
    lengths.flat_map(of).collect()
}

/// Cases that are sound and that are not, targets that are there and that are not, and lists with nothing wrong, with a wrong length, with unknown nodes, and with both.
fn refusals() -> Vec<Works> {
    let mut cases: Cases = sample_cases();
    cases.extend(["", "01 00 00, FF", "01 00 00, 20, FF", "01 04 00, 20, FF", "01 04 00, 20, 30 00 00 00, FF 00", "00 01, 01 01 01, FF", "00 03"].map(samples::hex));
    let known = |count: usize| vec![candidate(0, 0, 0); count];
    let mut lists = vec![vec![]];
    for nodes in [4, 5, 255, 256, 0x0104, 0x0400, 0xFFFF] {
        for unknown in [candidate(0, nodes, 0), candidate(0, 0, nodes), candidate(255, nodes, nodes)] {
            for [before, behind] in [[0, 0], [1, 0], [0, 1], [3, 2], [11, 0], [12, 0], [0, 12]] {
                lists.push([known(before), vec![unknown.clone()], known(behind)].concat().concat());
            }
        }
    }
    lists.extend([known(1).concat(), known(12).concat(), known(13).concat(), [known(3), vec![vec![0xFF; 4]]].concat().concat(), vec![0xFF; 4], vec![0xFF; 61]]);
    let mut works = Vec::new();
    for case in &cases {
        for target in [0, 1, 2, 256, usize::MAX] {
            works.extend(lists.iter().map(|list| Works { case: case.clone(), target, list: list.clone() }));
        }
    }
    works
}
