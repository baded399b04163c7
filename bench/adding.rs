//! Times of links to add, twelve candidates: with every selection tried in vain (25), and with an answer found early; beside solve on the cases written out with the selections that are tried, and beside clingo asked the same way. Then how the time falls with fewer candidates. Prints Markdown tables.
//! All are times of the processor; clingo's holds its start.

#[allow(dead_code)]
#[path = "../tests/differential/generator.rs"]
mod generator;
#[allow(dead_code)]
#[path = "../tests/differential/interface.rs"]
mod interface;
#[allow(dead_code)]
#[path = "../tests/differential/reference.rs"]
mod reference;
#[allow(dead_code)]
#[path = "../tests/solver/facts.rs"]
mod facts;
mod cabinets;
#[allow(dead_code)]
mod families;
mod solvers;

use cabinets::*;
use facts::{answers, facts, By};
use families::*;
use generator::candidates::{written_out, Works};
use generator::{bytes, Random};
use interface::*;
use reference::adding::{candidates, selections, size};
use solvers::*;
use std::collections::BTreeSet;
use std::time::Instant;

// ---- Times

/// The system's clock of what this thread has had of a processor.
const THREAD: i32 = 3;

fn seconds(call: impl FnOnce()) -> f64 {
    let start = clock(THREAD);
    call();
    clock(THREAD) - start
}

/// The seconds of both by turns, three times and more until a tenth of a second has passed, twice or once where they take long; of each the one in the middle.
fn by_turns(calls: [&mut dyn FnMut(); 2]) -> [f64; 2] {
    let [ours, theirs] = calls;
    let (start, mut turns) = (Instant::now(), [vec![], vec![]]);
    let goes_on = |done: usize| {
        let most = if done < 2 { 4.0 } else if done < 3 { 1.0 } else { 0.1 };
        done == 0 || start.elapsed().as_secs_f64() < most
    };
    while goes_on(turns[0].len()) {
        turns[0].push(seconds(&mut *ours));
        turns[1].push(seconds(&mut *theirs));
    }
    turns.map(|mut times| {
        times.sort_by(f64::total_cmp);
        times[(times.len() - 1) / 2]
    })
}

struct Measured {
    answer: [usize; 3],
    /// how many selections have to be tried
    tried: usize,
    ours: f64,
    solves: f64,
    /// whether they are worked out from fewer selections
    ours_scaled: bool,
    solves_scaled: bool,
    /// what part of its time goes into paths that candidates touch, where that was asked
    paths: Option<f64>,
}

/// The selections that have to be tried, in their order, up to the answer.
fn tried(count: usize, [number, _, selection]: [usize; 3]) -> Vec<usize> {
    let mut all: Vec<usize> = selections(count).collect();
    all.sort_by_key(|selection| (size(*selection), *selection));
    let last = all.iter().position(|other| number == 0 && *other == selection);
    all.truncate(last.map_or(all.len(), |last| last + 1));
    all
}

fn fewest(works: &Works) -> [usize; 3] {
    judge_fewest_edges(&works.case, works.target, &works.list)
}

/// The case written out with each of these selections.
fn all_written_out(works: &Works, selections: &[usize]) -> Vec<Vec<u8>> {
    selections.iter().map(|selection| written_out(&works.case, &works.list, *selection).expect("room for the edges")).collect()
}

/// The answer, what the call takes, and what solve takes on the cases with these selections. If there is an answer, it has to be the first of them where solve finds the target sure.
fn beside_solves(works: &Works, selections: &[usize]) -> ([usize; 3], [f64; 2]) {
    let cases = all_written_out(works, selections);
    file("case", &works.case);
    file("candidates", &works.list);
    let (mut t, mut answer, mut sure) = (Tables::new(), [0; 3], vec![false; cases.len()]);
    let times = by_turns([&mut || answer = fewest(works), &mut || {
        for (case, sure) in cases.iter().zip(&mut sure) {
            t.solve(case);
            *sure = t.verdicts[works.target] == 2;
        }
    }]);
    let found = sure.iter().position(|sure| *sure);
    agree("solve", if answer[0] == 0 { found.map(|i| selections[i]) == Some(answer[2]) } else { found.is_none() });
    (answer, times)
}

/// A call that would take longer is not made with all twelve candidates.
const LONGEST: f64 = 5.0;

/// Solve is not called with every selection where that would take longer.
const LONGEST_SOLVES: f64 = 2.0;

fn with_candidates(works: &Works, count: usize) -> Works {
    Works { case: works.case.clone(), target: works.target, list: works.list[..5 * count].to_vec() }
}

/// The same candidates, but of a property that no path reads: what is left of the time is that of the rows and the rounds.
fn of_no_path(works: &Works) -> Works {
    let list = works.list.chunks(5).flat_map(|candidate| [&[OWN], &candidate[1..]].concat()).collect();
    Works { case: works.case.clone(), target: works.target, list }
}

/// Whether none of them makes the target sure, and what all take. A call that takes too long is made with six candidates, and solve with their selections.
fn measure_all(works: &Works) -> Option<Measured> {
    let mut answer = [0; 3];
    let three = with_candidates(works, 3);
    let scaled = 512.0 * seconds(|| answer = fewest(&three)) > LONGEST;
    if answer[0] != 25 || (!scaled && fewest(works)[0] != 25) {
        return None;
    }
    let all = tried(MOST, answer);
    if scaled {
        let (answer, times) = beside_solves(&with_candidates(works, 6), &tried(6, answer));
        let [ours, solves] = times.map(|s| 64.0 * s);
        return (answer[0] == 25).then_some(Measured { answer, tried: all.len(), ours, solves, ours_scaled: true, solves_scaled: true, paths: None });
    }
    let (some_of_all, mut t) = (sample(), Tables::new());
    let cases = all_written_out(works, &some_of_all);
    let solves_scaled = 64.0 * seconds(|| cases.iter().for_each(|case| t.solve(case))) > LONGEST_SOLVES;
    let (answer, [ours, solves]) = beside_solves(works, if solves_scaled { &some_of_all } else { &all });
    let solves = if solves_scaled { 64.0 * solves } else { solves };
    let without = of_no_path(works);
    let [rest, _] = by_turns([&mut || assert_eq!(fewest(&without), answer), &mut || {}]);
    Some(Measured { answer, tried: all.len(), ours, solves, ours_scaled: false, solves_scaled, paths: Some(1.0 - rest / ours) })
}

/// Where an answer is found.
fn measure_found(works: &Works) -> Measured {
    let tried = tried(MOST, fewest(works));
    let (answer, [ours, solves]) = beside_solves(works, &tried);
    Measured { answer, tried: tried.len(), ours, solves, ours_scaled: false, solves_scaled: false, paths: None }
}

// ---- clingo

/// The rules of tests/solver with one atom a pair: where no shape depends on its own denial, valid and possible are the same.
fn rules() -> String {
    let text = std::fs::read_to_string("tests/solver/judge.lp").unwrap();
    let single = |line: &&str| !["%", "rp(", "p(", ":- v("].iter().any(|start| line.starts_with(start));
    text.lines().filter(single).map(|line| line.replace("not p(", "not v(") + "\n").collect()
}

/// Which candidates to add so that the target is valid in the one stable assignment: the fewest, and of these the smallest number.
fn program(slice: &[u8], shape: usize, node: usize, list: &[u8]) -> String {
    let case = reference::read(slice).expect("a sound case");
    let mut text = rules() + &facts(0, &case, By::Expansion) + "on(0).\n";
    for (i, (p, a, b)) in candidates(list).into_iter().enumerate() {
        text += &format!("candidate({i},{p},{a},{b}).\n");
    }
    text += "{ added(I) } :- candidate(I,_,_,_).\nchosen(0,P,A,B) :- added(I), candidate(I,P,A,B).\n";
    text += &format!(":- not v(0,{shape},{node}).\n");
    text + "#minimize { 1@2,I : added(I) }.\n#minimize { 2**I@1,I : added(I) }.\n#show added/1.\n"
}

/// clingo's time, or none where it was over; nothing where a shape that the target hangs on depends on its own denial. It gets what the target hangs on, and has to agree.
fn clingo(limit: f64, works: &Works, answer: [usize; 3]) -> Option<Run> {
    let cabinet = Cabinet::new(split(&works.case));
    let (shape, node) = cabinet.targets()[works.target];
    let slice = bytes(&cabinet.slice(shape));
    if judge_rank(&slice, &mut [0; 32])[0] != 0 {
        return None;
    }
    let lp = file("adding.lp", program(&slice, shape, node, &works.list).as_bytes());
    let ended = run(limit, &["clingo", "--warn=none", "--quiet=1", &lp]);
    if ended.is_some() {
        let out = std::fs::read_to_string(OUT).unwrap();
        let selection = answers(&out).last().map(|atoms| atoms.iter().map(|(_, numbers)| 1 << numbers[0]).sum());
        agree("clingo", out.contains(if answer[0] == 0 { "OPTIMUM FOUND" } else { "UNSATISFIABLE" }) && selection == (answer[0] == 0).then_some(answer[2]));
    }
    Some(ended)
}

// ---- The tables

struct Asked<'a> {
    limit: f64,
    alone: bool,
    only: &'a str,
    sizes: Vec<usize>,
}

const COLUMNS: [&str; 11] = ["case", "nodes", "hangs on", "answer", "tried", "fewest edges", "of it paths", "solve on each", "fewest edges / solve", "clingo", "clingo / fewest edges"];

impl Asked<'_> {
    fn line(&self, name: &str, cabinet: &Cabinet, works: &Works, measured: Measured) {
        let Measured { answer, tried, ours, solves, ours_scaled, solves_scaled, paths } = measured;
        let (shape, _) = Cabinet::new(split(&works.case)).targets()[works.target];
        let said = match answer {
            [0, _, selection] => format!("{} of 12", size(selection)),
            [number, ..] => number.to_string(),
        };
        let marked = |seconds: f64, scaled: bool| time(seconds) + if scaled { " *" } else { "" };
        let clingo = if self.alone { None } else { clingo(self.limit, works, answer) };
        let clingo = clingo.map_or([String::new(), String::new()], |run| match run {
            Some((seconds, _)) => [time(seconds), parts(seconds / ours)],
            None => [format!("> {} s", self.limit), format!("> {}", parts(self.limit / ours))],
        });
        let hangs_on = format!("{} of {}", cabinet.hangs_on(shape), cabinet.hangs.len());
        let ratio = if ours < 0.1 * solves { format!("{:.3}", ours / solves) } else { format!("{:.2}", ours / solves) };
        let paths = paths.map_or(String::new(), |part| format!("{:.0} %", 100.0 * part.max(0.0)));
        let cells = [name.to_string(), cabinet.nodes().to_string(), hangs_on, said, tried.to_string(), marked(ours, ours_scaled), paths, marked(solves, solves_scaled), ratio];
        line(&[&cells[..], &clingo].concat());
    }

    /// A line with all selections tried in vain for the first pair of these that none makes sure, and its time in parts of solve's.
    fn vain(&self, name: &str, cabinet: &Cabinet, list: &[Vec<u8>], mut pairs: impl Iterator<Item = Pair>) -> Option<f64> {
        let (works, measured) = pairs.find_map(|pair| {
            let works = cabinet.asked(None, pair, list);
            measure_all(&works).map(|measured| (works, measured))
        })?;
        let ratio = measured.ours / measured.solves;
        self.line(name, cabinet, &works, measured);
        Some(ratio)
    }

    fn found(&self, name: &str, cabinet: &Cabinet, works: &Works) {
        self.line(name, cabinet, works, measure_found(works));
    }

    /// Both lines of each case of a family, as far as it has them; what they answer are the ratios of the lines with 25.
    fn family(&self, name: &str, n: usize) -> Vec<f64> {
        let lines = |(seed, case): (usize, &Vec<u8>)| {
            let (cabinet, r) = (Cabinet::with_room(case), &mut Random(seed as u64));
            let list = draw(r, &cabinet, From::Any);
            let ratio = self.vain(name, &cabinet, &list, in_vain(&cabinet, &list).into_iter());
            if let Some(works) = mended(r, &cabinet, &|_| true) {
                self.found(name, &cabinet, &works);
            }
            ratio
        };
        cases(name, n).iter().enumerate().filter_map(lines).collect()
    }

    /// The same of a slow one.
    fn slow(&self, name: &str, n: usize) -> Vec<f64> {
        let lines = |case: Vec<u8>| {
            let (cabinet, r) = (Cabinet::with_room(&case), &mut Random(0));
            let list = draw(r, &cabinet, From::Laid);
            let ratio = self.vain(name, &cabinet, &list, in_vain(&cabinet, &list).into_iter());
            if let Some((cabinet, works)) = opened(r, name, n) {
                self.found(name, &cabinet, &works);
            }
            ratio
        };
        cases(name, n).into_iter().filter_map(lines).collect()
    }

    /// Random cases with a target as the case has it.
    fn as_drawn(&self, name: &str, n: usize) -> Vec<f64> {
        let lines = |(seed, case): (usize, &Vec<u8>)| {
            let cabinet = Cabinet::with_room(case);
            let list = draw(&mut Random(seed as u64), &cabinet, From::Any);
            let vain: BTreeSet<Pair> = in_vain(&cabinet, &list).into_iter().collect();
            self.vain(name, &cabinet, &list, cabinet.targets().into_iter().filter(|pair| vain.contains(pair)))
        };
        cases("random", n).iter().enumerate().filter_map(lines).collect()
    }

    /// The first three random cases in which a pair whose shape hangs on four shapes, itself among them, and on edges, is there for both lines.
    fn of_four(&self, name: &str, n: usize) -> Vec<f64> {
        let lines = |seed: u64| {
            let (cabinet, r) = (Cabinet::with_room(&family("random", n, seed)), &mut Random(seed));
            let of_four: Vec<bool> = (0..cabinet.hangs.len()).map(|s| cabinet.hangs_on(s) == 4 && cabinet.hangs_on_edges(s)).collect();
            if !of_four.contains(&true) {
                return None;
            }
            let works = mended(r, &cabinet, &|s| of_four[s])?;
            let list = draw(r, &cabinet, From::Any);
            let ratio = self.vain(name, &cabinet, &list, in_vain(&cabinet, &list).into_iter().filter(|pair| of_four[pair.0]))?;
            self.found(name, &cabinet, &works);
            Some(ratio)
        };
        (1..).filter_map(lines).take(3).collect()
    }

    fn wants(&self, name: &str) -> bool {
        name.contains(self.only)
    }
}

/// What clingo's start alone takes, and what the columns say.
fn said_before(asked: &Asked) {
    if !asked.alone {
        let empty = file("empty.lp", b"");
        let starts = (0..5).filter_map(|_| run(asked.limit, &["clingo", &empty])).map(|(seconds, _)| seconds);
        println!("Start alone: clingo {}.", time(starts.fold(f64::INFINITY, f64::min)));
    }
    println!("Twelve candidates. 'Hangs on' is how many of the shapes the target's shape depends on, itself among them; 'tried' is how many selections have to be tried, and 'solve on each' a call of solve for each of them, on the case written out. * is worked out from 64 selections: in both columns those of the first six candidates, in solve's alone a sample of all. 'Of it paths' is what the same call saves where the candidates are of a property that no path reads, so that no path is worked out again.");
    println!("clingo gets what the target hangs on, a choice of each candidate, and their number to minimise; > is clingo stopped after {} s. Where a shape that the target hangs on depends on its own denial, a selection may have many stable assignments, and sure means all of them: minimising would need every one of each selection, and the field is empty.\n", asked.limit);
}

/// How many of the lines with 25 keep to what is asked for.
fn said_bar(what: &str, bar: f64, ratios: &[f64]) {
    let (least, most) = (ratios.iter().fold(f64::INFINITY, |a, b| a.min(*b)), ratios.iter().fold(0.0, |a: f64, b| a.max(*b)));
    if !ratios.is_empty() {
        println!("\n{what}: at most {bar} of solve's time before a 25 is asked for; it takes {least:.2} to {most:.2}, and {} of {} lines keep to it.", ratios.iter().filter(|ratio| **ratio <= bar).count(), ratios.len());
    }
}

/// One random case with fewer and fewer candidates.
fn fewer(asked: &Asked) {
    let n = asked.sizes[0];
    let cabinet = Cabinet::with_room(&cases("random", n)[0]);
    let list = draw(&mut Random(0), &cabinet, From::Any);
    let works = in_vain(&cabinet, &list).into_iter().map(|pair| cabinet.asked(None, pair, &list)).find(|works| fewest(works)[0] == 25).expect("a pair in vain");
    println!("\nThe first random case of {n} nodes with fewer candidates, all selections in vain:\n");
    header(&["candidates", "selections", "fewest edges", "in parts of twelve's"].map(str::to_string));
    let times: Vec<(usize, f64)> = [12, 11, 10, 8, 4, 0].into_iter().map(|count| {
        let fewer = with_candidates(&works, count);
        (count, by_turns([&mut || assert_eq!(fewest(&fewer)[0], 25), &mut || {}])[0])
    }).collect();
    for (count, taken) in &times {
        line(&[count.to_string(), (1 << count).to_string(), time(*taken), format!("{:.4}", taken / times[0].1)]);
    }
}

const FEEDERS: [&str; 3] = ["feeder, chain", "feeder, ring", "feeder, stars in stars"];

fn main() {
    let words: Vec<String> = std::env::args().skip(1).collect();
    if let [word, limit, command @ ..] = &words[..] {
        if word == RUN {
            return run_here(limit.parse().unwrap(), command);
        }
    }
    make_folder();
    let asked = Asked {
        limit: word(&words, "--limit").map_or(20.0, |w| w.parse().expect("--limit SECONDS")),
        alone: words.contains(&"--alone".to_string()),
        only: word(&words, "--only").unwrap_or(""),
        sizes: if word(&words, "--nodes").is_some() { sizes(&words) } else { vec![128, 256, 512] },
    };
    said_before(&asked);
    header(&COLUMNS.map(str::to_string));
    let of_sizes = |name: &str, lines: &dyn Fn(&str, usize) -> Vec<f64>| -> Vec<f64> {
        if asked.wants(name) { asked.sizes.iter().flat_map(|n| lines(name, *n)).collect() } else { vec![] }
    };
    let random = of_sizes("random", &|name, n| asked.family(name, n));
    let as_drawn = of_sizes("random, target as drawn", &|name, n| asked.as_drawn(name, n));
    let of_four = of_sizes("random, of four shapes", &|name, n| asked.of_four(name, n));
    for name in FEEDERS {
        of_sizes(name, &|name, n| asked.family(name, n));
    }
    for name in slow() {
        of_sizes(name, &|name, n| asked.slow(name, n));
    }
    said_bar("Random cases", 0.5, &[random, as_drawn].concat());
    said_bar("A target that hangs on four shapes", 0.25, &of_four);
    if asked.wants("random") {
        fewer(&asked);
    }
}
