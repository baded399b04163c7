//! Wrong answers to plant in the library's stand-in, one at a time: JUDGE_FAULT in the environment names one, and without it the stand-in answers as the reference does. tests/planted/run says which test has to find which.

use crate::reference::adding::{candidates, chosen, selections, size};
use crate::reference::unfinished::{Advanced, Begun, Unfinished};
use crate::reference::{sets, Case, Judge, Link, Shape};
use std::sync::atomic::{AtomicU8, Ordering};
use std::sync::Mutex;

fn fault() -> String {
    std::env::var("JUDGE_FAULT").unwrap_or_default()
}

/// The place of a refusal one too high.
fn misplaced<const N: usize>(mut answer: [usize; N]) -> [usize; N] {
    answer[1] = answer[1].wrapping_add((answer[0] != 0) as usize);
    answer
}

pub fn read(case: &[u8]) -> [usize; 7] {
    let answer = Judge::new(case).reading();
    match fault().as_str() {
        "place" => misplaced(answer),
        "read-stack" => {
            spend_stack(96);
            answer
        }
        _ => answer,
    }
}

pub fn solve(case: &[u8], v: &mut [u8], l: &mut [u8], d: &mut [u8]) -> [usize; 8] {
    let fault = fault();
    let before = (v.to_vec(), l.to_vec(), d.to_vec());
    let mut judge = Judge::new(case);
    if fault == "double-not" {
        cancel_double_nots(&mut judge);
    }
    let mut answer = judge.solving(v, l, d);
    let [_, _, nodes, _, _, shapes, targets] = judge.reading();
    let pairs = shapes * nodes;
    let solved = answer[0] == 0;
    match fault.as_str() {
        "place" => answer = misplaced(answer),
        // a refusal carries a count, or writes
        "count" if !solved => answer[2] = 1,
        "writes" if !solved && !v.is_empty() => v[0] ^= 1,
        // a sound case is refused, if a shape depends on its own denial
        "refuses" if solved && judge.ranking(&mut [0; 32])[0] == 17 => {
            v.copy_from_slice(&before.0);
            l.copy_from_slice(&before.1);
            d.copy_from_slice(&before.2);
            answer = [17, 0, 0, 0, 0, 0, 0, 0];
        }
        "rounds" if solved => answer[2] += 1,
        "undetermined" if solved => {
            v[..pairs].fill(1);
            d[..targets].fill(1);
            answer = [0, 0, answer[2], 0, pairs, 0, targets, 0];
        }
        // one byte of a table is wrong
        "level" if solved && pairs > 0 => l[2 * pairs - 1] ^= 1,
        "verdict" if solved && targets > 0 => d[targets - 1] = (d[targets - 1] + 1) % 3,
        "later" if solved && v.len() > pairs => v[pairs] ^= 1,
        "levels-untouched" if solved => l.copy_from_slice(&before.1),
        "verdicts-untouched" if solved => d.copy_from_slice(&before.2),
        "smaller-rounds" | "rounds-by-turns" | "leaks" | "verdict-across" if solved => mix_roads(&fault, judge.read.as_ref().unwrap(), &mut answer, v, d),
        // the answer goes by a byte that nobody has set
        "unset" if solved && before.0.get(0) == Some(&0x5E) => answer[2] += 1,
        "shared" if solved => pass_through_shared(v),
        "solve-stack" => spend_stack(640),
        _ => {}
    }
    answer
}

/// So many KiB of stack beside what the call needs.
#[inline(never)]
fn spend_stack(kib: usize) {
    let spent = std::hint::black_box([0u8; 1024]);
    if kib > 0 {
        spend_stack(kib - 1);
    }
    std::hint::black_box(spent);
}

fn cancel_double_nots(judge: &mut Judge) {
    if let Ok(case) = &mut judge.read {
        let shapes = case.shapes.clone();
        for shape in &mut case.shapes {
            if let Shape::Not(inner) = *shape {
                if let Shape::Not(s) = shapes[inner] {
                    *shape = Shape::Or(s, s);
                }
            }
        }
    }
}

/// What is wrong where two roads have edges, and right of each alone.
fn mix_roads(fault: &str, case: &Case, answer: &mut [usize; 8], v: &mut [u8], d: &mut [u8]) {
    let roads = roads(case);
    if roads.len() < 2 {
        return;
    }
    let rounds = roads.iter().map(|road| case.rounds_of_group(road));
    // the pair of the same shape at the first node of another road
    let across = |shape: usize, node: usize| roads.iter().find(|road| !road[node]).map(|road| case.pair(shape, road.iter().position(|is| *is).unwrap()));
    match fault {
        "smaller-rounds" => answer[2] = rounds.min().unwrap(),
        "rounds-by-turns" => answer[2] = rounds.sum(),
        "leaks" => {
            let solved = v.to_vec();
            (0..case.pairs()).for_each(|pair| v[pair] = solved[across(pair / case.nodes, pair % case.nodes).unwrap()].max(v[pair]));
        }
        _ => d.iter_mut().zip(&case.targets).for_each(|(verdict, (shape, node))| *verdict = v[across(*shape, *node).unwrap()]),
    }
}

/// The nodes that edges join, road by road; a node without an edge is on none.
fn roads(case: &Case) -> Vec<Vec<bool>> {
    let mut roads: Vec<Vec<bool>> = Vec::new();
    for first in &case.edges {
        if !roads.iter().any(|road| road[first.link.1]) {
            let mut road = vec![false; case.nodes];
            road[first.link.1] = true;
            while let Some(edge) = case.edges.iter().find(|edge| road[edge.link.1] != road[edge.link.2]) {
                (road[edge.link.1], road[edge.link.2]) = (true, true);
            }
            roads.push(road);
        }
    }
    roads
}

/// A buffer that all threads share; the pause lets another one in.
fn pass_through_shared(values: &mut [u8]) {
    const ZERO: AtomicU8 = AtomicU8::new(0);
    static SHARED: [AtomicU8; 4096] = [ZERO; 4096];
    values.iter().zip(&SHARED).for_each(|(value, kept)| kept.store(*value, Ordering::Relaxed));
    std::thread::sleep(std::time::Duration::from_micros(100));
    values.iter_mut().zip(&SHARED).for_each(|(value, kept)| *value = kept.load(Ordering::Relaxed));
}

pub fn check(case: &[u8], v: &[u8], l: &[u8]) -> [usize; 4] {
    let judge = Judge::new(case);
    let answer = judge.checking(v, l);
    match fault().as_str() {
        "place" => misplaced(answer),
        "turns-down" if answer[0] == 0 => [14, 0, 0, 0],
        "supported" if answer[0] == 15 => leniently(&judge.read.unwrap(), v, l, |_, _| true),
        "equal" if answer[0] == 15 => leniently(&judge.read.unwrap(), v, l, |level, support| level >= support),
        _ => answer,
    }
}

/// Checking, by another sense of justified.
fn leniently(case: &Case, v: &[u8], l: &[u8], justified: fn(usize, usize) -> bool) -> [usize; 4] {
    let v = &v[..case.pairs()];
    let levels: Vec<usize> = l.chunks(2).map(|level| level.iter().rev().fold(0, |sum, byte| 256 * sum + *byte as usize)).collect();
    for pair in 0..case.pairs() {
        let (s, a) = (pair / case.nodes, pair % case.nodes);
        if v[pair] != case.rule_value(s, a, v) {
            return [14, pair, 0, 0];
        }
        if v[pair] > 0 && !justified(levels[pair], case.support(s, a, v, &levels)) {
            return [15, pair, 0, 0];
        }
    }
    case.accepted(v)
}

pub fn check_supported(case: &[u8], v: &[u8]) -> [usize; 5] {
    let judge = Judge::new(case);
    let mut answer = judge.checking_supported(v);
    let fault = fault();
    let refused = answer[0] != 0;
    match (fault.as_str(), &judge.read) {
        ("place", _) => answer = misplaced(answer),
        ("old-count", _) if refused => answer[2] = 1,
        ("code", _) if refused => answer[4] = 0,
        ("codes-confused", _) => answer[4] = 0,
        ("old-turns-down", _) if !refused => answer = [14, 0, 0, 0, 1],
        ("old-counts", _) if !refused => answer = [0, 0, answer[3], answer[2], 1],
        // 15 is kept, with the levels that solving would give
        ("old-levels", Ok(case)) if !refused => {
            let (t, p) = sets(&v[..case.pairs()]);
            let levels: Vec<u8> = case.levels(&t, &p).iter().flat_map(|level| (*level as u16).to_le_bytes()).collect();
            answer = under_old_code(leniently(case, v, &levels, |level, support| level > support));
        }
        // whatever is a value is taken
        ("old-any", Ok(case)) if answer[0] == 14 => answer = under_old_code(case.accepted(&v[..case.pairs()])),
        // 13 and 14 are judged of one pair, then of the next
        ("old-by-pairs", Ok(case)) if answer[0] == 13 => {
            let values: Vec<u8> = v[..case.pairs()].iter().map(|value| *value.min(&2)).collect();
            let first = (0..answer[1]).find(|pair| values[*pair] != case.rule_value(pair / case.nodes, pair % case.nodes, &values));
            answer = first.map_or(answer, |pair| [14, pair, 0, 0, 1]);
        }
        // bytes behind the pairs are held to be values
        ("old-behind", Ok(case)) if !refused => {
            let behind = v[case.pairs()..].iter().position(|value| *value > 2);
            answer = behind.map_or(answer, |at| [13, case.pairs() + at, 0, 0, 1]);
        }
        ("shared-old", _) if !refused => {
            let mut count = [answer[2] as u8];
            pass_through_shared(&mut count);
            answer[2] = count[0].into();
        }
        _ => {}
    }
    answer
}

fn under_old_code([number, place, undetermined, valid]: [usize; 4]) -> [usize; 5] {
    [number, place, undetermined, valid, 1]
}

pub fn rank(case: &[u8], strata: &mut [u8]) -> [usize; 3] {
    let judge = Judge::new(case);
    let mut answer = judge.ranking(strata);
    let shapes = judge.reading()[5];
    match fault().as_str() {
        "place" => answer = misplaced(answer),
        "stratum" if answer[0] == 0 && shapes > 0 => strata[shapes - 1] += 1,
        "never-17" if answer[0] == 17 => {
            strata[..shapes].fill(0);
            answer = [0, 0, 1];
        }
        _ => {}
    }
    answer
}

pub fn node_totals(case: &[u8], node: usize) -> [usize; 4] {
    let mut judge = Judge::new(case);
    let mut answer = judge.node_totals(node);
    let [number, _, nodes, ..] = judge.reading();
    let solved = answer[0] == 0;
    match fault().as_str() {
        "place" => answer = misplaced(answer),
        "totals-count" if !solved => answer[2] = 1,
        // the pairs of the shape of that number
        "by-shape" if solved => {
            let row: Vec<u8> = judge.solved().values.chunks(nodes).nth(node).map_or(vec![], <[u8]>::to_vec);
            answer = [0, 0, of_value(&row, 2), of_value(&row, 1)];
        }
        "written-alone" if solved => {
            let written = judge.read.as_ref().unwrap().written.len();
            let of_node: Vec<u8> = judge.solved().values.chunks(nodes).take(written).map(|row| row[node]).collect();
            answer = [0, 0, of_value(&of_node, 2), of_value(&of_node, 1)];
        }
        "all-possible" => answer[3] += answer[2],
        "node-count" if number == 0 && node == nodes => answer = [0; 4],
        "node-cut" => answer = judge.node_totals(node & 0xFFFF),
        // by the count of the case's first command, whatever comes after it
        "5-first" if case.len() > 2 && node >= u16::from_le_bytes([case[1], case[2]]).into() => answer = [5, node, 0, 0],
        "shared-totals" if solved => {
            let mut counts = [answer[2] as u8, answer[3] as u8];
            pass_through_shared(&mut counts);
            answer = [0, 0, counts[0].into(), counts[1].into()];
        }
        _ => {}
    }
    answer
}

pub fn fewest_edges(case: &[u8], target: usize, list: &[u8]) -> [usize; 3] {
    let judge = Judge::new(case);
    let mut answer = judge.fewest_edges(target, list);
    let fault = fault();
    let [number, place, selection] = answer;
    match (fault.as_str(), &judge.read) {
        ("place", _) => answer = misplaced(answer),
        ("fewest-stack", _) => spend_stack(640),
        ("selection-kept", _) if number != 0 => answer[2] = 1,
        ("target-cut", _) => answer = judge.fewest_edges(target & 0xFFFF, list),
        // what is wrong with the list and the target, otherwise judged
        ("length-in-candidates", _) if number == 23 => answer[1] = list.len() / 5,
        ("rest-let-in", _) if number == 23 && list.len() < 65 => answer = judge.fewest_edges(target, &list[..list.len() / 5 * 5]),
        ("thirteen-let-in", _) if number == 23 && list.len() == 65 => answer = judge.fewest_edges(target, &list[..60]),
        ("24-first", Ok(case)) if number == 23 && target >= case.targets.len() => answer = [24, 0, 0],
        ("node-24-first", Ok(case)) if number == 23 => answer = unknown_node(case, list).unwrap_or(answer),
        ("candidate-first", Ok(case)) if number == 24 => answer = unknown_node(case, list).unwrap_or(answer),
        ("from-0", _) if number == 24 && place > 0 => answer[1] -= 1,
        ("last-unknown", Ok(case)) if number == 24 && place > 0 => answer[1] = unknown_nodes(case, list).pop().unwrap() + 1,
        ("target-place", _) if number == 24 && place == 0 => answer[1] = target,
        ("25-place", _) if number == 25 => answer[1] = list.len() / 5,
        // an empty list is taken for no selection at all
        ("none-is-25", _) if number == 0 && list.is_empty() => answer = [25, 0, 0],
        ("high-bytes-left-out", _) if list.len() % 5 == 0 => {
            let low: Vec<u8> = list.chunks(5).flat_map(|candidate| [candidate[0], candidate[1], 0, candidate[3], 0]).collect();
            answer = judge.fewest_edges(target, &low);
        }
        (_, Ok(case)) if [0, 25].contains(&number) => answer = wrongly_found(&fault, case, target, &candidates(list)).unwrap_or(answer),
        _ => {}
    }
    // the number too, for most selections are alike
    if fault == "shared-fewest" {
        let mut found = [number as u8, selection as u8];
        pass_through_shared(&mut found);
        answer = [found[0].into(), place, found[1] as usize + selection / 256 * 256];
    }
    answer
}

/// The candidates of a list, whatever its length, of which a node is not there.
fn unknown_nodes(case: &Case, list: &[u8]) -> Vec<usize> {
    let candidates = candidates(list);
    (0..candidates.len()).filter(|i| candidates[*i].1.max(candidates[*i].2) >= case.nodes).collect()
}

fn unknown_node(case: &Case, list: &[u8]) -> Option<[usize; 3]> {
    unknown_nodes(case, list).first().map(|at| [24, at + 1, 0])
}

/// What is found by another sense of the fewest, of sure, or of the candidates.
fn wrongly_found(fault: &str, case: &Case, target: usize, list: &[Link]) -> Option<[usize; 3]> {
    let links = |selection: usize| chosen(list, selection);
    let verdict = |selection: usize| case.verdict_with(target, &links(selection));
    let sure = |selection: &usize| verdict(*selection) == 2;
    let all = || selections(list.len());
    let by_size = |selection: &usize| (size(*selection), *selection);
    let edges = |link: &Link, parks: bool| case.edges.iter().any(|edge| edge.parks == parks && edge.link == *link);
    let found = match fault {
        "number-alone" => all().find(sure),
        "largest-number" => all().filter(sure).min_by_key(|selection| (size(*selection), !*selection)),
        "most" => all().filter(sure).max_by_key(by_size),
        "singles" => all().filter(|selection| size(*selection) < 2 && sure(selection)).min_by_key(by_size),
        "pairs-at-most" => all().filter(|selection| size(*selection) < 3 && sure(selection)).min_by_key(by_size),
        // as if more edges never made a target less sure
        "all-at-first" if verdict(all().end - 1) != 2 => None,
        "one-less-at-a-time" => sure(&(all().end - 1)).then(|| (0..list.len()).fold(all().end - 1, |kept, i| if sure(&(kept & !(1 << i))) { kept & !(1 << i) } else { kept })),
        "open-taken" => all().filter(|selection| verdict(*selection) > 0).min_by_key(by_size),
        "as-it-was" => all().filter(|_| verdict(0) == 2).min_by_key(by_size),
        "any-target" => all().filter(|selection| (0..case.targets.len()).any(|other| case.verdict_with(other, &links(*selection)) == 2)).min_by_key(by_size),
        "parked-left-out" => all().filter(|selection| {
            let unparked: Vec<Link> = links(*selection).into_iter().filter(|link| !edges(link, true)).collect();
            case.verdict_with(target, &unparked) == 2
        }).min_by_key(by_size),
        "within-the-limit" => all().filter(|selection| case.edges.len() + size(*selection) <= 1024 && sure(selection)).min_by_key(by_size),
        // bits of other candidates
        "last-is-bit-0" => all().filter(sure).map(|selection| (0..list.len()).map(|i| (selection >> i & 1) << (list.len() - 1 - i)).sum()).min_by_key(by_size),
        "equal-as-one" => return found_among(case, target, &(0..list.len()).filter(|i| !list[..*i].contains(&list[*i])).map(|i| list[i]).collect::<Vec<_>>()),
        "edges-not-counted" => return found_among(case, target, &list.iter().copied().filter(|link| !edges(link, false)).collect::<Vec<_>>()),
        "ends-changed-round" => return found_among(case, target, &list.iter().map(|(p, a, b)| (*p, *b, *a)).collect::<Vec<_>>()),
        "any-property" => return found_among(case, target, &list.iter().map(|(_, a, b)| (0, *a, *b)).collect::<Vec<_>>()),
        // the shapes behind a not are taken for ones that the target does not depend on
        "denied-as-top" => return found_among(&denied_as_top(case, target), target, list),
        _ => return None,
    };
    Some(found.map_or([25, 0, 0], |selection| [0, 0, selection]))
}

fn found_among(case: &Case, target: usize, list: &[Link]) -> Option<[usize; 3]> {
    let sure = selections(list.len()).filter(|selection| case.verdict_with(target, &chosen(list, *selection)) == 2);
    Some(sure.min_by_key(|selection| (size(*selection), *selection)).map_or([25, 0, 0], |selection| [0, 0, selection]))
}

/// The case with those shapes as top to which no walk of references without a not leads from a target's shape.
fn denied_as_top(case: &Case, target: usize) -> Case {
    let mut reached = vec![case.targets[target].0];
    let mut at = 0;
    while at < reached.len() {
        let references = match case.shapes[reached[at]] {
            Shape::And(s, t) | Shape::Or(s, t) => vec![s, t],
            Shape::All(_, s) | Shape::AtLeast(_, _, s) => vec![s],
            _ => vec![],
        };
        reached.extend(references.into_iter().filter(|s| !reached.contains(s)).collect::<Vec<_>>());
        at += 1;
    }
    let mut case = case.clone();
    (0..case.shapes.len()).filter(|s| !reached.contains(s)).for_each(|s| case.shapes[s] = Shape::Top);
    case
}

pub fn begin(case: &[u8]) -> Begun {
    let judge = Judge::new(case);
    let mut begun = judge.beginning(case);
    let refused = begun.answer[0] != 0;
    let state = &mut begun.unfinished;
    match fault().as_str() {
        "place" => begun.answer = misplaced(begun.answer),
        "ask-stack" => spend_stack(160),
        "begin-count" if refused => begun.answer[2] = 1,
        "keeps-input" if refused => {
            state.length = case.len().min(state.bytes.len());
            state.bytes.fill(0);
            state.bytes[..state.length].copy_from_slice(&case[..state.length]);
        }
        "copy-cut" => state.bytes[4096..].fill(0),
        // nothing to settle is taken for the end
        "begun-over" if state.pairs == 0 => state.over = 1,
        _ => {}
    }
    begun
}

pub fn advance(state: &Unfinished) -> Advanced {
    let mut answer = state.advancing();
    let unfinished = &mut answer.unfinished;
    let pairs = Judge::new(state.copy()).read.map_or(0, |case| case.pairs());
    match fault().as_str() {
        "advance-stack" => spend_stack(704),
        // once a round has changed no value
        "end-late" if unfinished.over == 1 && unfinished.values != state.values => {
            unfinished.over = 0;
            answer.over = 0;
        }
        "round-after-end" if state.over != 0 => {
            let round = Unfinished { over: 0, ..state.clone() }.advancing().unfinished;
            unfinished.values = round.values;
        }
        "end-untold" if state.over != 0 => answer.over = 0,
        "over-cut" => unfinished.over = answer.over,
        // what is open at the end and what is impossible are not told apart
        "withdrawn" if answer.over == 1 => unfinished.values[..pairs].iter_mut().for_each(|value| *value = 1.max(*value)),
        "later-cleared" => unfinished.values[pairs..].fill(0),
        // T is read as the pairs of value 2 and no other
        "exactly-2" if state.over == 0 => {
            let mut read = state.clone();
            read.values[..pairs].iter_mut().filter(|value| **value > 2).for_each(|value| *value = 1);
            return read.advancing();
        }
        "length-crash" if state.length > state.bytes.len() => std::process::abort(),
        "kept" => return kept_inside(state),
        // the answer goes by a byte behind the copy
        "unset-state" if state.bytes[8191] == 0x5E => answer.over ^= 1,
        "shared-advance" => pass_through_shared(&mut unfinished.values),
        _ => {}
    }
    answer
}

/// A round that goes on from where the last one on this case came to, whatever it is given.
fn kept_inside(state: &Unfinished) -> Advanced {
    static KEPT: Mutex<Option<Unfinished>> = Mutex::new(None);
    let mut kept = KEPT.lock().unwrap();
    let begun = state.values == [1; 4096] && state.over == 0;
    let from = kept.take().filter(|last| !begun && last.copy() == state.copy()).unwrap_or(state.clone());
    let answer = from.advancing();
    *kept = Some(answer.unfinished.clone());
    answer
}

pub fn ask(state: &Unfinished, pair: usize) -> [usize; 3] {
    let answer = state.asking(pair);
    let [number, _, reply] = answer;
    match fault().as_str() {
        "place" => misplaced(answer),
        "open-early" if reply == 3 => [0, 0, 1],
        "outside-not-yet" if number == 0 && reply == 0 && state.over == 0 => [0, 0, 3],
        "count-let-in" if pair == state.pairs => [0, 0, state.values.get(pair).map_or(0, |value| *value as usize)],
        "by-values" if pair >= state.values.len() => [21, pair, 0],
        "pair-cut" => state.asking(pair & 0xFFFF),
        _ => answer,
    }
}

fn of_value(values: &[u8], value: u8) -> usize {
    values.iter().filter(|v| **v == value).count()
}

/// The number that the desk's calls answer.
pub fn number(number: usize) -> usize {
    match fault().as_str() {
        "plain" => 0,
        _ => number,
    }
}

/// Touches what lies beside the slices, or crashes.
pub unsafe fn stray(case: *const u8, length: usize, values: *mut u8, values_length: usize) {
    match fault().as_str() {
        "reads-past" => drop(case.add(length).read_volatile()),
        "reads-before" => drop(case.sub(1).read_volatile()),
        "writes-past" => values.add(values_length).write_volatile(0),
        "crash" => std::process::abort(),
        _ => {}
    }
}

/// Reads what lies beside a slice of a later call, or crashes.
pub unsafe fn stray_about(name: &str, slice: *const u8, length: usize) {
    match fault().strip_prefix(name) {
        Some("-past") => drop(slice.add(length).read_volatile()),
        Some("-before") => drop(slice.sub(1).read_volatile()),
        Some("-crash") => std::process::abort(),
        _ => {}
    }
}

/// Writes to the last byte of a slice that is only lent.
pub unsafe fn scribble(name: &str, slice: *const u8, length: usize) {
    if fault().strip_prefix(name) == Some("-written") && length > 0 {
        let last = slice.add(length - 1);
        last.cast_mut().write_volatile(!last.read());
    }
}

/// Writes behind an answer, which it hands on.
pub unsafe fn stray_behind<T>(name: &str, answer: *mut T) -> *mut T {
    if fault().strip_prefix(name) == Some("-past") {
        answer.add(1).cast::<u8>().write_volatile(0);
    }
    answer
}
