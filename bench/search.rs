//! A search for cases that solve takes long for: plans are drawn at random and changed a little as long as that makes them slower, and the slowest of all is stored. Prints a line for each that is slower than all before it.
//! What is drawn depends on the seed and on what was kept before, and what is kept on times, which no two runs share. So the numbers of the cases that were kept are stored with the slowest: with the seed they repeat the run that found it, on any machine.

#[allow(dead_code)]
#[path = "../tests/differential/generator.rs"]
mod generator;
#[allow(dead_code)]
#[path = "../tests/differential/interface.rs"]
mod interface;
#[allow(dead_code)]
#[path = "../tests/differential/reference.rs"]
mod reference;
#[allow(dead_code)]
mod families;

use families::pieces::*;
use families::*;
use generator::*;
use interface::judge_solve;
use std::time::Instant;

// ---- Drawing plans

fn some_ask(r: &mut Random, n: usize) -> Ask {
    let least = [None, Some(1), Some(2), Some(near(n)), Some(n - 1), Some(r.range(1, n))];
    Ask { way: r.pick(&WAYS), back: r.one_in(2), least: r.pick(&least) }
}

/// A step of the open chain; one in three is any, and most of those lead nowhere.
fn some_step(r: &mut Random, n: usize, open: Open) -> Ask {
    let back = r.one_in(2);
    match open {
        _ if r.one_in(3) => some_ask(r, n),
        Open::AtEnd => Ask::all(r.pick(&[Way::On, Way::Beyond]), back),
        _ if r.one_in(3) => Ask { way: Way::Near, back, least: Some(near(n)) },
        _ => Ask::one(Way::Round, back),
    }
}

fn some_open(r: &mut Random, n: usize) -> Open {
    match r.below(5) {
        0 => Open::None,
        1 | 2 => Open::AtEnd,
        _ => {
            let several = [1, 1, 2, near(n), r.range(1, n / 2)];
            Open::At { starts: r.pick(&several), shapes: r.range(2, most_shapes(n)) }
        }
    }
}

fn some_reader(r: &mut Random, n: usize) -> Reader {
    Reader { ask: some_ask(r, n), row: r.below(most_shapes(n)) }
}

fn some_keys(r: &mut Random, n: usize) -> Vec<usize> {
    let shapes = most_shapes(n);
    match r.below(3) {
        0 => (0..shapes).collect(),
        1 => (0..shapes).rev().collect(),
        _ => (0..shapes).map(|_| r.below(shapes)).collect(),
    }
}

/// Ties to every other row of the denials, or to any.
fn some_ties(r: &mut Random, denials: usize) -> Vec<usize> {
    let count = r.range(0, denials / 2 + 1);
    if r.one_in(2) { (r.below(2)..denials).step_by(2).take(count).collect() } else { (0..count).map(|_| r.below(denials)).collect() }
}

fn some_plan(r: &mut Random, n: usize) -> Plan {
    let shapes = most_shapes(n);
    let denials = r.range(2, shapes / 2);
    let open = some_open(r, n);
    let mut plan = Plan {
        nodes: n,
        denials,
        ascending: r.one_in(2),
        ties: some_ties(r, denials),
        open,
        step: some_step(r, n, open),
        rungs: if r.one_in(3) { r.range(1, shapes / 4) } else { 0 },
        rung: r.pick(&[Way::On, Way::Beyond]),
        readers: vec![],
        keys: some_keys(r, n),
    };
    fit(r, &mut plan);
    plan
}

// ---- Changing them

/// Takes from what a plan has too much of, piece by piece, or fills it up with readers, most of them like one that is there.
fn fit(r: &mut Random, plan: &mut Plan) {
    while plan.shapes() > most_shapes(plan.nodes) {
        plan.shrink();
    }
    for _ in 0..plan.room() {
        let reader = if plan.readers.is_empty() || r.one_in(8) { some_reader(r, plan.nodes) } else { r.pick(&plan.readers) };
        plan.readers.push(reader);
    }
}

/// A number one or two higher or lower, but not below the least.
fn moved(r: &mut Random, number: usize, least: usize) -> usize {
    (number + r.below(5)).saturating_sub(2).max(least)
}

fn change(r: &mut Random, plan: &mut Plan) {
    let n = plan.nodes;
    match r.below(13) {
        0 => plan.denials = moved(r, plan.denials, 2).min(most_shapes(n) - 1),
        1 => plan.ties.push(r.below(plan.denials)),
        2 => drop(plan.ties.pop()),
        12 => plan.ties = some_ties(r, plan.denials),
        3 => plan.open = some_open(r, n),
        4 => change_open(r, plan),
        5 => plan.step = some_step(r, n, plan.open),
        6 => plan.rungs = moved(r, plan.rungs, 0),
        7 => plan.ascending = !plan.ascending,
        8 => change_keys(r, plan),
        9 => drop_readers(r, plan),
        10 => plan.readers.fill(some_reader(r, n)),
        _ => change_reader(r, plan),
    }
}

fn change_open(r: &mut Random, plan: &mut Plan) {
    if let Open::At { starts, shapes } = &mut plan.open {
        *shapes = moved(r, *shapes, 2);
        *starts = if r.one_in(3) { moved(r, *starts, 1) } else { *starts };
    }
}

fn change_keys(r: &mut Random, plan: &mut Plan) {
    let n = plan.nodes;
    match r.below(3) {
        0 => plan.keys.reverse(),
        1 => plan.keys = some_keys(r, n),
        _ => {
            let (i, j) = (r.below(plan.keys.len()), r.below(plan.keys.len()));
            plan.keys.swap(i, j);
        }
    }
}

/// Room for other pieces, or for other readers.
fn drop_readers(r: &mut Random, plan: &mut Plan) {
    let kept = plan.readers.len().saturating_sub(r.range(1, 3));
    plan.readers.truncate(kept);
}

fn change_reader(r: &mut Random, plan: &mut Plan) {
    let (n, count) = (plan.nodes, plan.readers.len());
    if count > 0 {
        let reader = some_reader(r, n);
        let i = r.below(count);
        match r.below(3) {
            0 => plan.readers[i].row = reader.row,
            1 => plan.readers[i].ask = reader.ask,
            _ => plan.readers[i] = reader,
        }
    }
}

fn changed(r: &mut Random, plan: &Plan) -> Plan {
    let mut plan = plan.clone();
    for _ in 0..r.range(1, 3) {
        change(r, &mut plan);
    }
    fit(r, &mut plan);
    plan
}

// ---- Times

/// The system's clock of what this thread has had of a processor.
const THREAD: i32 = 3;

/// How many seconds solve takes: of one call, or where that is more than the bar the least of three, since a call may have been broken into.
fn solve_time(case: &[u8], bar: f64) -> f64 {
    let (mut values, mut levels, mut verdicts) = (vec![0; 4096], vec![0; 8192], vec![0; 256]);
    let mut once = || {
        let start = clock(THREAD);
        assert_eq!(judge_solve(case, &mut values, &mut levels, &mut verdicts)[0], 0, "a sound case");
        clock(THREAD) - start
    };
    let first = once();
    if first <= bar { first } else { first.min(once()).min(once()) }
}

// ---- The search

/// After so many changes that made no case slower, another plan is drawn.
const PATIENCE: usize = 80;

/// How many plans are drawn for a climb, which begins at the slowest of them.
const DRAWN: usize = 10;

/// By how much a change has to make a case slower.
const SLOWER: f64 = 1.02;

/// The numbers of the cases that were kept as a step of a climb, and as the slowest so far.
type Kept = [Vec<usize>; 2];
const STEP: usize = 0;
const SLOWEST: usize = 1;

struct Search {
    begun: Instant,
    seconds: f64,
    tries: usize,
    tried: usize,
    worst: f64,
    found: Option<Found>,
    kept: Kept,
    /// what a run kept that is repeated; no case is timed then
    before: Option<Kept>,
}

struct Found {
    plan: Plan,
    case: Vec<u8>,
}

impl Search {
    fn new(seconds: f64, tries: usize, before: Option<Kept>) -> Search {
        Search { begun: Instant::now(), seconds, tries, tried: 0, worst: 0.0, found: None, kept: [vec![], vec![]], before }
    }

    fn over(&self) -> bool {
        self.tried >= self.tries || self.begun.elapsed().as_secs_f64() >= self.seconds
    }

    /// Whether the case at hand is kept: if it is slower, or if it was kept before.
    fn keeps(&mut self, which: usize, slower: bool) -> bool {
        let kept = self.before.as_ref().map_or(slower, |before| before[which].contains(&self.tried));
        if kept {
            self.kept[which].push(self.tried);
        }
        kept
    }

    /// How long solve takes for a plan, if it is within the limits; the slowest is kept.
    fn tried(&mut self, plan: &Plan, bar: f64) -> Option<f64> {
        let case = built(plan)?;
        self.tried += 1;
        let solve = if self.before.is_some() { 0.0 } else { solve_time(&case, bar) };
        if self.keeps(SLOWEST, solve > SLOWER * self.worst) {
            if self.before.is_none() {
                println!("{:.0} s, case {}: {}: {}", self.begun.elapsed().as_secs_f64(), self.tried, time(solve), said(plan));
            }
            self.worst = solve;
            self.found = Some(Found { plan: plan.clone(), case });
        }
        Some(solve)
    }

    /// Where a climb begins: at the slowest of some plans that are drawn, or, every other time, not far from the slowest of all.
    fn beginning(&mut self, r: &mut Random, n: usize, climb: usize) -> (Plan, f64) {
        let known = self.found.as_ref().map(|found| found.plan.clone()).filter(|_| climb % 2 == 1);
        let drawn = |r: &mut Random| match &known {
            Some(plan) => {
                let once = changed(r, plan);
                changed(r, &once)
            }
            None => some_plan(r, n),
        };
        let mut slowest = (drawn(r), 0.0);
        for _ in 0..DRAWN {
            let plan = drawn(r);
            if let Some(solve) = self.tried(&plan, slowest.1) {
                if self.keeps(STEP, solve > slowest.1) {
                    slowest = (plan, solve);
                }
            }
        }
        slowest
    }

    fn climb(&mut self, r: &mut Random, n: usize, climb: usize) {
        let (mut plan, mut slowest) = self.beginning(r, n, climb);
        let mut in_vain = 0;
        while in_vain < PATIENCE && !self.over() {
            let other = changed(r, &plan);
            in_vain += 1;
            if let Some(solve) = self.tried(&other, slowest) {
                if self.keeps(STEP, solve > SLOWER * slowest) {
                    (plan, slowest, in_vain) = (other, solve, 0);
                }
            }
        }
    }

    /// Climbs until the search is over, each from a seed of its own, whatever those before it came to.
    fn run(&mut self, n: usize, seed: usize) {
        let mut climb = 0;
        while !self.over() {
            self.climb(&mut Random(Random((seed as u64) << 32 | climb as u64).next()), n, climb);
            climb += 1;
        }
    }
}

/// A plan in a line: what it has of each piece, the readers by sorts. Rows are numbered as the pieces come.
fn said(plan: &Plan) -> String {
    let direction = if plan.ascending { "ascending" } else { "descending" };
    let ties: Vec<usize> = plan.ties.iter().map(|row| row % plan.denials).collect();
    let mut pieces = vec![format!("{} denials {direction}", plan.denials)];
    if plan.open != Open::None {
        pieces.push(format!("ties {ties:?}, open {:?} by {}", plan.open, said_ask(&plan.step)));
    }
    if plan.rungs > 0 {
        pieces.push(format!("{} rungs by all {:?}", plan.rungs, plan.rung));
    }
    let rows = plan.shapes() - plan.readers.len();
    let mut sorts: Vec<String> = plan.readers.iter().map(|reader| format!("row {} by {}", reader.row % rows, said_ask(&reader.ask))).collect();
    sorts.sort();
    pieces.extend(sorts.chunk_by(|a, b| a == b).map(|sort| format!("{} readers of {}", sort.len(), sort[0])));
    pieces.join(", ")
}

fn said_ask(ask: &Ask) -> String {
    let least = ask.least.map_or("all".to_string(), |least| format!("at least {least}"));
    format!("{least} {:?}{}", ask.way, if ask.back { " back" } else { "" })
}

// ---- What is stored

/// The case as text, below what it is made of and how it was found.
fn store(n: usize, seed: usize, found: &Found, kept: &Kept) {
    let numbers = |kept: &[usize]| kept.iter().map(|number| number.to_string()).collect::<Vec<_>>().join(" ");
    let mut text = format!("# the slowest case of {n} nodes that bench/search has found: {}\n", said(&found.plan));
    text += &format!("# seed {seed}\n# steps {}\n# slowest {}\n", numbers(&kept[STEP]), numbers(&kept[SLOWEST]));
    for row in found.case.chunks(32) {
        text += &row.iter().map(|byte| format!("{byte:02X}")).collect::<Vec<_>>().join(" ");
        text += "\n";
    }
    std::fs::write(worst_file(n), text).expect("bench/");
}

/// The numbers behind a word in what is stored.
fn noted(n: usize, word: &str) -> Vec<usize> {
    let text = std::fs::read_to_string(worst_file(n)).expect("a stored case");
    let line = text.lines().find_map(|line| line.strip_prefix("# ")?.strip_prefix(word)).expect("a note of how it was found");
    line.split_whitespace().map(|number| number.parse().expect("a number")).collect()
}

/// Repeats the run that found the stored case, and says whether it comes to the same.
fn again(n: usize) {
    let kept = [noted(n, "steps "), noted(n, "slowest ")];
    let last = *kept[SLOWEST].last().expect("a slowest case");
    let mut search = Search::new(f64::INFINITY, last, Some(kept));
    search.run(n, noted(n, "seed ")[0]);
    let found = search.found.expect("a case");
    let same = Some(found.case) == stored(n);
    println!("case {last}: {}: {}", said(&found.plan), if same { "the stored case" } else { "not the stored case" });
    std::process::exit(!same as i32);
}

fn main() {
    let words: Vec<String> = std::env::args().skip(1).collect();
    let number = |name: &str, default: usize| word(&words, name).map_or(default, |w| w.parse().unwrap_or_else(|_| panic!("{name} NUMBER")));
    let (n, seed, tries) = (number("--nodes", 128), number("--seed", 1), number("--tries", usize::MAX));
    if words.contains(&"--again".to_string()) {
        return again(n);
    }
    let seconds = if tries < usize::MAX { f64::INFINITY } else { number("--seconds", 60) as f64 };
    let mut search = Search::new(seconds, tries, None);
    search.run(n, seed);
    let before = stored(n).map_or(0.0, |case| solve_time(&case, 0.0));
    println!("{} cases; the slowest takes {}, the one stored {}", search.tried, time(search.worst), time(before));
    if search.worst > before {
        store(n, seed, &search.found.expect("a case"), &search.kept);
    }
}
