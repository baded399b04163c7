//! The library against public solvers: clingo enumerates all stable and all supported assignments of small cases and gives the cautious and brave consequences of larger ones; SWI-Prolog gives the well-founded model. With each selection of candidate edges as a case of its own, clingo says which make a target sure.
//! Rules inside rules are given to them twice: as the expansion, and as they are written, which the expansion has to agree with.

#[allow(dead_code)]
#[path = "../differential/calls.rs"]
mod calls;
#[allow(dead_code)]
#[path = "../differential/generator.rs"]
mod generator;
#[allow(dead_code)]
#[path = "../differential/interface.rs"]
mod interface;
#[allow(dead_code)]
#[path = "../differential/plan.rs"]
mod plan;
#[allow(dead_code)]
#[path = "../differential/proposals.rs"]
mod proposals;
#[allow(dead_code)]
#[path = "../differential/reference.rs"]
mod reference;
#[allow(dead_code)]
#[path = "../differential/samples.rs"]
mod samples;
#[path = "../differential/watch.rs"]
mod watch;
mod facts;

use facts::*;
use generator::candidates::*;
use generator::*;
use plan::{Group, Kind, Plan, Work};
use proposals::*;
use reference::adding::{candidates, chosen, selections, size};
use reference::Case;
use std::collections::BTreeSet;

struct Asked {
    bytes: Vec<u8>,
    case: Case,
    /// what the library solved
    values: Vec<u8>,
}

impl Asked {
    fn new(commands: &Commands) -> Asked {
        let bytes = bytes(commands);
        let case = reference::read(&bytes).expect("a sound case");
        let mut values = vec![9; case.pairs()];
        let number = calls::solve(&bytes, &mut values, &mut vec![0; 2 * case.pairs()], &mut vec![0; case.targets.len()]);
        let asked = Asked { bytes, case, values };
        if number != 0 {
            asked.fail(format!("solve refused it as {number}"));
        }
        asked
    }

    fn fail(&self, difference: String) -> ! {
        fail(&[("case", &self.bytes)], difference)
    }

    fn accepts(&self, values: &[u8], levels: &[usize]) -> bool {
        let levels = level_bytes(levels);
        self.counted("check", values, calls::judge_check(&self.bytes, values, &levels)) == 0
    }

    /// The number that the old code's check answers, with its code in any case.
    fn by_old_code(&self, values: &[u8]) -> usize {
        let [number, place, undetermined, valid, code] = calls::judge_check_supported(&self.bytes, values);
        if code != 1 {
            self.fail(format!("the old code's check of {values:?} answers the code {code}"));
        }
        self.counted("the old code's check", values, [number, place, undetermined, valid])
    }

    /// The number of an answer; without a refusal it has to count the values.
    fn counted(&self, check: &str, values: &[u8], answer: [usize; 4]) -> usize {
        if answer[0] == 0 && answer != self.case.accepted(values) {
            self.fail(format!("{check} of {values:?} answers {answer:?}"));
        }
        answer[0]
    }
}

/// Leaves behind what the library was given.
fn fail(parts: &[(&str, &[u8])], difference: String) -> ! {
    let hex = |bytes: &[u8]| bytes.iter().map(|b| format!(" {b:02X}")).collect::<String>();
    let lines: String = parts.iter().map(|(name, bytes)| format!("{name}{}\n", hex(bytes))).collect();
    std::fs::write(watch::stored(), format!("# {difference}\n{lines}")).ok();
    println!("solver: {difference}");
    println!("solver: case stored in {}", watch::stored());
    std::process::exit(1);
}

/// How much was compared.
#[derive(Default)]
struct Tally {
    /// cases, by what they were held to
    enumerated: usize,
    consequences: usize,
    well_founded: usize,
    /// cases with an undetermined pair, and with more than one stable assignment
    open: usize,
    several: usize,
    /// assignments that check has to accept, and to refuse
    stable: usize,
    unstable: usize,
    /// cases held to a solver part by part too, by what it was asked
    enumerated_by_parts: usize,
    consequences_by_parts: usize,
    well_founded_by_parts: usize,
    /// cases with a parked edge
    parked: usize,
    /// cases with more than 128 nodes
    roads: usize,
    /// cases held to all supported assignments
    all_supported: usize,
    /// assignments that the old code has to accept, those among them that no levels justify, and those that it has to refuse
    supported: usize,
    unfounded: usize,
    unsupported: usize,
    /// lists of candidates, by what is found: no edge, some, no selection
    as_it_is: usize,
    with_links: usize,
    not_at_all: usize,
}

impl Work for Tally {
    fn done(&self) -> usize {
        self.enumerated + self.consequences + self.well_founded + self.all_supported + self.as_it_is + self.with_links + self.not_at_all
    }
}

impl Tally {
    fn group(&self) -> Group {
        let counts = [
            ("all stable assignments by clingo", self.enumerated),
            ("consequences by clingo", self.consequences),
            ("well-founded model by SWI-Prolog", self.well_founded),
            ("with an undetermined pair", self.open),
            ("with several stable assignments", self.several),
            ("stable assignments", self.stable),
            ("other assignments", self.unstable),
            ("all stable assignments by parts", self.enumerated_by_parts),
            ("consequences by parts", self.consequences_by_parts),
            ("well-founded model by parts", self.well_founded_by_parts),
            ("with a parked edge", self.parked),
            ("with more than 128 nodes", self.roads),
            ("all supported assignments by clingo", self.all_supported),
            ("supported assignments", self.supported),
            ("supported and not stable", self.unfounded),
            ("not supported", self.unsupported),
            ("sure without a link", self.as_it_is),
            ("sure with links", self.with_links),
            ("sure with none", self.not_at_all),
        ];
        ("compared", counts.map(|(name, count)| (name.to_string(), count)).to_vec())
    }
}

/// Everything that document 01 says of the solved and of all stable assignments, from the list of all of them.
fn hold_to_all(tally: &mut Tally, r: &mut Random, asked: &Asked, stable: &BTreeSet<Vec<u8>>) {
    if !stable.contains(&asked.values) {
        asked.fail(format!("the solved assignment {:?} is none of the {} stable ones", asked.values, stable.len()));
    }
    for pair in 0..asked.values.len() {
        let in_all = |value: u8| stable.iter().all(|assignment| assignment[pair] == value);
        let value = asked.values[pair];
        if (value == 2) != in_all(2) || (value == 0) != in_all(0) {
            asked.fail(format!("pair {pair} is solved {value}; valid in all {}, violated in all {}", in_all(2), in_all(0)));
        }
    }
    for values in stable {
        if asked.case.values_by_parts(values) != *values {
            asked.fail(format!("in the stable assignment {values:?} a shape has another value than its part"));
        }
        for levels in [as_solved(&asked.case, values), favourable(&asked.case, values)] {
            if !asked.accepts(values, &levels) {
                asked.fail(format!("check refuses the stable assignment {values:?} with levels {levels:?}"));
            }
        }
    }
    tally.open += asked.values.contains(&1) as usize;
    tally.several += (stable.len() > 1) as usize;
    tally.stable += stable.len();
    if asked.case.pairs() > 8 {
        return;
    }
    for values in assignments(asked.case.pairs()).filter(|values| !stable.contains(values)) {
        tally.unstable += 1;
        let mut tries = vec![favourable(&asked.case, &values), as_solved(&asked.case, &values)];
        for _ in 0..3 {
            tries.push(random_levels(r, &asked.case));
        }
        for levels in tries {
            if asked.accepts(&values, &levels) {
                asked.fail(format!("check accepts {values:?} with levels {levels:?}, which is not stable"));
            }
        }
    }
}

fn all_stable(batch: &[Asked], by: By) -> Vec<BTreeSet<Vec<u8>>> {
    all_answers("enumerate", batch, by, &["0"])
}

fn all_supported(batch: &[Asked]) -> Vec<BTreeSet<Vec<u8>>> {
    all_answers("supported", batch, By::Expansion, &["0", "tests/solver/supported.lp"])
}

/// All assignments of many cases in one run: an answer set selects one case and holds one assignment of it.
fn all_answers(name: &str, batch: &[Asked], by: By, words: &[&str]) -> Vec<BTreeSet<Vec<u8>>> {
    let mut program = String::from("1 { on(K) : case(K) } 1.\n#show on/1. #show v/3. #show p/3.\n");
    for (k, asked) in batch.iter().enumerate() {
        program += &facts(k, &asked.case, by);
    }
    let out = clingo(name, &program, words);
    let mut found = vec![BTreeSet::new(); batch.len()];
    for answer in answers(&out) {
        let k = answer.iter().find(|(name, _)| *name == "on").expect("one case is selected").1[0];
        found[k].insert(assignment(k, &batch[k].case, by, &answer));
    }
    found
}

/// The old code takes each supported assignment and no other; the stable ones are among them, the solved one too.
fn hold_to_supported(tally: &mut Tally, batch: &[Asked]) -> Vec<BTreeSet<Vec<u8>>> {
    let all = all_supported(batch);
    for ((asked, supported), stable) in batch.iter().zip(&all).zip(&all_stable(batch, By::Expansion)) {
        if !supported.contains(&asked.values) {
            asked.fail(format!("the solved assignment {:?} is none of the {} supported ones", asked.values, supported.len()));
        }
        if !stable.is_subset(supported) {
            asked.fail(format!("clingo: of {} stable assignments some are not supported", stable.len()));
        }
        let others = others(&asked.case, supported);
        for (what, assignments, expected) in [("is supported", supported, 0), ("is not", &others, 14)] {
            for values in assignments {
                let number = asked.by_old_code(values);
                if number != expected {
                    asked.fail(format!("the old code answers {number} for {values:?}, which {what}"));
                }
            }
        }
        tally.supported += supported.len();
        tally.unfounded += supported.len() - stable.len();
        tally.unsupported += others.len();
    }
    tally.all_supported += batch.len();
    all
}

/// Assignments that are none of these: all others of few pairs, else those that differ from one of these in one pair.
fn others(case: &Case, these: &BTreeSet<Vec<u8>>) -> BTreeSet<Vec<u8>> {
    if case.pairs() <= 8 {
        return assignments(case.pairs()).filter(|values| !these.contains(values)).collect();
    }
    let with = |values: &[u8], pair: usize, value: u8| [&values[..pair], &[value], &values[pair + 1..]].concat();
    let changed = |values: &Vec<u8>| (0..3 * values.len()).map(|i| with(values, i / 3, (i % 3) as u8)).collect::<Vec<_>>();
    these.iter().flat_map(changed).filter(|values| !these.contains(values)).collect()
}

fn enumerate(tally: &mut Tally, r: &mut Random, batch: &[Asked]) -> Vec<BTreeSet<Vec<u8>>> {
    let stable = all_stable(batch, By::Expansion);
    for (asked, stable) in batch.iter().zip(&stable) {
        hold_to_all(tally, r, asked, stable);
    }
    tally.enumerated += batch.len();
    stable
}

/// The same, and the expansion's stable assignments, cut to the written shapes, are those of the parts as they are written, one for one.
fn enumerate_nested(tally: &mut Tally, r: &mut Random, batch: &[Asked]) {
    let stable = enumerate(tally, r, batch);
    for ((asked, stable), by_parts) in batch.iter().zip(&stable).zip(&all_stable(batch, By::Parts)) {
        let cut: BTreeSet<Vec<u8>> = stable.iter().map(|values| By::Parts.cut(&asked.case, values).to_vec()).collect();
        if cut != *by_parts || cut.len() != stable.len() {
            asked.fail(format!("clingo: {} stable assignments by parts, {} of the expansion, {} cut to the written shapes", by_parts.len(), stable.len(), cut.len()));
        }
    }
    tally.enumerated_by_parts += batch.len();
}

/// Cautious and brave consequences of cases beside each other. Each has a stable assignment, so those of all together are those of each.
fn consequences(tally: &mut Tally, batch: &[Asked], by: By) {
    let mut program = String::from("on(K) :- case(K).\n#show v/3. #show p/3.\n");
    for (k, asked) in batch.iter().enumerate() {
        program += &facts(k, &asked.case, by);
    }
    let (cautious, brave) = (last_answer(&program, "--enum-mode=cautious"), last_answer(&program, "--enum-mode=brave"));
    for (k, asked) in batch.iter().enumerate() {
        let borrowed = |list: &[(String, Vec<usize>)], wanted: &str| -> BTreeSet<usize> {
            let of_case = list.iter().filter(|(name, numbers)| name == wanted && numbers[0] == k);
            of_case.map(|(_, numbers)| asked.case.pair(numbers[1], numbers[2])).collect()
        };
        let (valid, possible) = (borrowed(&cautious, "v"), borrowed(&brave, "p"));
        for (pair, &value) in by.cut(&asked.case, &asked.values).iter().enumerate() {
            if (value == 2) != valid.contains(&pair) || (value > 0) != possible.contains(&pair) {
                asked.fail(format!("clingo: pair {pair} is solved {value}; valid in all {}, possible in some {}", valid.contains(&pair), possible.contains(&pair)));
            }
        }
    }
    match by {
        By::Expansion => tally.consequences += batch.len(),
        By::Parts => tally.consequences_by_parts += batch.len(),
    }
}

/// The consequences of a program in one of clingo's modes: its last answer.
fn last_answer(program: &str, mode: &str) -> Vec<(String, Vec<usize>)> {
    let out = clingo("consequences", program, &["0", mode]);
    let last = answers(&out).pop().expect("an answer");
    last.into_iter().map(|(name, numbers)| (name.to_string(), numbers)).collect()
}

/// The fewest edges to add. Each selection is a case of its own, and clingo works out for itself what the chosen edges change; the target is sure where every stable assignment has it valid.
fn fewest(tally: &mut Tally, batch: &[Works]) {
    let cases: Vec<Asked> = batch.iter().map(|works| Asked::new(&vec![works.case.clone()])).collect();
    let mut program = String::from("on(K) :- case(K).\n#show v/3.\n");
    let mut first = vec![0];
    for (works, asked) in batch.iter().zip(&cases) {
        let (k, list) = (first[first.len() - 1], candidates(&works.list));
        for selection in selections(list.len()) {
            program += &(facts(k + selection, &asked.case, By::Expansion) + &chosen_facts(k + selection, &chosen(&list, selection)));
        }
        first.push(k + selections(list.len()).len());
    }
    let valid: BTreeSet<Vec<usize>> = last_answer(&program, "--enum-mode=cautious").into_iter().map(|(_, numbers)| numbers).collect();
    for ((works, asked), k) in batch.iter().zip(&cases).zip(first) {
        let (shape, node) = asked.case.targets[works.target];
        let sure = |selection: usize| valid.contains(&vec![k + selection, shape, node]);
        let (pair, value) = (asked.case.pair(shape, node), asked.values[asked.case.pair(shape, node)]);
        if (value == 2) != sure(0) {
            asked.fail(format!("clingo: pair {pair} is solved {value}; valid in all {}", sure(0)));
        }
        let smallest = selections(works.list.len() / 5).filter(|selection| sure(*selection)).min_by_key(|selection| (size(*selection), *selection));
        let expected = smallest.map_or([25, 0, 0], |selection| [0, 0, selection]);
        let got = calls::judge_fewest_edges(&works.case, works.target, &works.list);
        if got != expected {
            let target = works.target.to_le_bytes();
            fail(&[("case", &works.case), ("target", &target), ("candidates", &works.list)], format!("clingo: the fewest edges are {got:?}, expected {expected:?}"));
        }
        match smallest {
            Some(0) => tally.as_it_is += 1,
            Some(_) => tally.with_links += 1,
            None => tally.not_at_all += 1,
        }
    }
}

/// A broken road, or a case drawn that has targets, and up to three candidates.
fn works(r: &mut Random) -> Works {
    if r.one_in(2) {
        let fittings = r.range(2, 5);
        return broken_road(r, None, fittings, fittings, 3);
    }
    loop {
        let size = if r.one_in(2) { small_parked(r) } else { small_nested(r) };
        let case = bytes(&random_case(r, &size));
        let targets = reference::read(&case).expect("a sound case").targets.len();
        if targets > 0 {
            let count = r.range(0, 3);
            return Works { target: r.below(targets), list: random_list(r, &case, count), case };
        }
    }
}

/// The well-founded model of many cases, one after another in one process.
fn well_founded(tally: &mut Tally, batch: &[Asked], by: By) {
    let mut program = String::new();
    for (k, asked) in batch.iter().enumerate() {
        program += &prolog_facts(k, &asked.case, by);
    }
    let out = swipl("well-founded", &program, by);
    let lines: Vec<&str> = out.lines().collect();
    for (k, asked) in batch.iter().enumerate() {
        let values: String = by.cut(&asked.case, &asked.values).iter().map(|v| v.to_string()).collect();
        let expected = format!("{k} {values}");
        if lines.get(k) != Some(&expected.as_str()) {
            asked.fail(format!("SWI-Prolog has {:?}, the library {expected:?}", lines.get(k)));
        }
    }
    match by {
        By::Expansion => tally.well_founded += batch.len(),
        By::Parts => tally.well_founded_by_parts += batch.len(),
    }
}

fn batch(r: &mut Random, count: usize, size: impl Fn(&mut Random) -> Size) -> Vec<Asked> {
    (0..count).map(|_| { let size = size(r); Asked::new(&random_case(r, &size)) }).collect()
}

/// The same, of which those with a parked edge are counted.
fn parked_batch(tally: &mut Tally, r: &mut Random, count: usize, size: impl Fn(&mut Random) -> Size) -> Vec<Asked> {
    let batch = batch(r, count, size);
    tally.parked += batch.iter().filter(|asked| asked.case.edges.iter().any(|edge| edge.parks)).count();
    batch
}

/// Up to 16 pairs and many nots: some thousands of stable assignments at the most.
fn many_nots(r: &mut Random) -> Size {
    let nodes = r.range(1, 5);
    let order = r.pick(&[Order::Any, Order::Next]);
    Size { nodes, shapes: r.range(1, 16 / nodes), edges: r.range(1, 8), paths: r.range(0, 4), nots: r.range(2, 10), order, ..small(r) }
}

/// The same with some of the shapes fresh.
fn many_nots_nested(r: &mut Random) -> Size {
    let size = many_nots(r);
    let shapes = r.range(1, size.shapes);
    Size { shapes, nested: r.range(8, 16), fresh: size.shapes - shapes, ..size }
}

fn small_or_medium_nested(r: &mut Random) -> Size {
    if r.one_in(2) { small_nested(r) } else { medium_nested(r) }
}

fn small_or_medium_parked(r: &mut Random) -> Size {
    if r.one_in(2) { small_parked(r) } else { medium_parked(r) }
}

fn of_any_size(r: &mut Random) -> Size {
    match r.below(12) {
        0..=3 => small(r),
        4..=10 => medium(r),
        _ => Size { nodes: r.range(25, 70), shapes: r.range(10, 20), edges: r.range(40, 150), ..medium(r) },
    }
}

/// Profiles 1 and 2, with as many nodes and shapes as they let in; few paths, since the solvers work out every filler of every path.
fn road(r: &mut Random) -> Size {
    let size = full_wide(r);
    let layout = r.pick(&[Layout::Scattered, Layout::Chain, Layout::Ring, Layout::Half]);
    Size { edges: r.range(600, 1024), properties: r.range(3, 6), paths: r.range(3, 8), targets: 0, layout, ..size }
}

/// Such cases, of which those are counted that no case without a 00 is as wide as.
fn roads(tally: &mut Tally, r: &mut Random, count: usize) -> Vec<Asked> {
    let batch = batch(r, count, road);
    tally.roads += batch.iter().filter(|asked| asked.case.nodes > 128).count();
    batch
}

/// The ring of document 01, written out and nested, and with a relay parked; the proposal of two fittings linked by each other is supported.
fn rings(tally: &mut Tally) {
    let rings = [samples::RING, samples::NESTED_RING, samples::PARKED_RING].map(|text| Asked::new(&vec![samples::hex(text)]));
    let supported = hold_to_supported(tally, &rings);
    if !supported[0].contains(&samples::digits(samples::VOUCHED)) {
        rings[0].fail("clingo: two fittings that vouch for each other are no supported assignment".to_string());
    }
}

fn chains() -> Vec<Asked> {
    let built = [positive_chain(9, 12), mixed_chain(8, 11), denial_chain(8, 10), open_chain(7, 6, 7), open_beside_denials(6, 8, 6), open_after_denials(6, 9, 6)];
    built.iter().map(Asked::new).collect()
}

/// A turn is a batch of cases, for which a solver starts once.
fn kinds() -> Vec<Kind<Tally>> {
    vec![
        Kind::drawn("tiny", 16, |tally, r, _| {
            let cases = batch(r, 40, tiny);
            enumerate(tally, r, &cases);
        }),
        Kind::drawn("many nots", 16, |tally, r, _| {
            let mut cases = batch(r, 30, many_nots);
            cases.push(Asked::new(&clashes(r, 2, 1)));
            enumerate(tally, r, &cases);
        }),
        Kind::drawn("medium", 12, |tally, r, _| consequences(tally, &batch(r, 20, medium), By::Expansion)),
        Kind::drawn("any size", 8, |tally, r, _| well_founded(tally, &batch(r, 60, of_any_size), By::Expansion)),
        Kind::listed("chains", 1, |tally, _, _| well_founded(tally, &chains(), By::Expansion)),
        Kind::drawn("nested tiny", 6, |tally, r, _| {
            let cases = batch(r, 40, tiny_nested);
            enumerate_nested(tally, r, &cases);
        }),
        Kind::drawn("nested, many nots", 8, |tally, r, _| {
            let cases = batch(r, 30, many_nots_nested);
            enumerate_nested(tally, r, &cases);
        }),
        Kind::drawn("nested medium", 6, |tally, r, _| {
            let cases = batch(r, 20, medium_nested);
            consequences(tally, &cases, By::Expansion);
            consequences(tally, &cases, By::Parts);
        }),
        Kind::drawn("nested, small or medium", 6, |tally, r, _| {
            let cases = batch(r, 60, small_or_medium_nested);
            well_founded(tally, &cases, By::Expansion);
            well_founded(tally, &cases, By::Parts);
        }),
        Kind::drawn("parked tiny", 3, |tally, r, _| {
            let cases = parked_batch(tally, r, 40, tiny_parked);
            enumerate(tally, r, &cases);
        }),
        Kind::drawn("parked medium", 4, |tally, r, _| {
            let cases = parked_batch(tally, r, 20, medium_parked);
            consequences(tally, &cases, By::Expansion);
        }),
        Kind::drawn("parked, small or medium", 4, |tally, r, _| {
            let cases = parked_batch(tally, r, 60, small_or_medium_parked);
            well_founded(tally, &cases, By::Expansion);
        }),
        Kind::drawn("roads by clingo", 4, |tally, r, _| {
            let cases = roads(tally, r, 4);
            consequences(tally, &cases, By::Expansion);
        }),
        Kind::drawn("roads by SWI-Prolog", 6, |tally, r, _| {
            let cases = roads(tally, r, 4);
            well_founded(tally, &cases, By::Expansion);
        }),
        Kind::listed("supported rings", 1, |tally, _, _| rings(tally)),
        Kind::drawn("supported tiny", 6, |tally, r, _| {
            hold_to_supported(tally, &batch(r, 40, tiny));
        }),
        Kind::drawn("supported, vouching", 6, |tally, r, _| {
            hold_to_supported(tally, &batch(r, 30, vouching));
        }),
        Kind::drawn("supported, nested tiny", 3, |tally, r, _| {
            hold_to_supported(tally, &batch(r, 40, tiny_nested));
        }),
        Kind::drawn("links to add", 40, |tally, r, _| {
            let batch: Vec<Works> = (0..30).map(|_| works(r)).collect();
            fewest(tally, &batch);
        }),
    ]
}

fn run(words: &[String]) -> Result<String, String> {
    let plan = Plan::of(words)?;
    let mut tally = Tally::default();
    let mut groups = vec![("turns", plan.run(&kinds(), &mut tally)?)];
    if plan.is_whole() {
        groups.push(tally.group());
    }
    plan::show(&groups)?;
    Ok(format!("solver: clingo and SWI-Prolog agree on {} cases, seed {}, {} s", tally.done(), plan.seed, plan.seconds()))
}

fn main() {
    let words: Vec<String> = std::env::args().skip(1).collect();
    watch::on_signals("solver");
    let said = if words == ["--kinds"] { Ok(plan::names(&kinds())) } else { run(&words) };
    plan::end("solver", said)
}
