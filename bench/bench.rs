//! Times of read, solve, check and rank from 16 to 512 nodes, beside clingo, clasp and SWI-Prolog on the same cases, all in one run; then how the time of solve grows from size to size. Prints Markdown tables.
//! The solvers get the paths worked out: clingo ground rules, clasp what gringo has made of these beforehand, SWI-Prolog as facts the fillers of the paths that shapes name. Their times hold their start; the judge's are those of a call. All are times of the processor.

#[allow(dead_code)]
#[path = "../tests/differential/generator.rs"]
mod generator;
#[allow(dead_code)]
#[path = "../tests/differential/interface.rs"]
mod interface;
#[allow(dead_code)]
#[path = "../tests/differential/reference.rs"]
mod reference;
#[allow(dead_code)]
#[path = "../tests/solver/facts.rs"]
mod facts;
mod families;
mod solvers;

use facts::shape_facts;
use families::*;
use interface::*;
use reference::{Case, Shape};
use solvers::*;
use std::collections::BTreeSet;
use std::process::{Command, Stdio};

// ---- The judge

struct Tables {
    values: Vec<u8>,
    levels: Vec<u8>,
    verdicts: Vec<u8>,
    strata: Vec<u8>,
}

impl Tables {
    fn new() -> Tables {
        Tables { values: vec![0; 4096], levels: vec![0; 8192], verdicts: vec![0; 256], strata: vec![0; 32] }
    }
}

/// The one in the middle of some that ascend.
fn middle(ascending: &[f64]) -> f64 {
    ascending[ascending.len() / 2]
}

/// The system's clock of what this thread has had of a processor: the middle of many times by it is as if nothing else ran on the machine. The least is not, since now and then the system takes off too much for others.
const THREAD: i32 = 3;

/// The median of repeated calls, in seconds.
fn median(call: impl FnMut()) -> f64 {
    middle(&times(THREAD, call))
}

/// The peak of memory of a process that reads, solves, checks and ranks one case, in kilobytes; with no calls, that of the bare process.
fn once(file: &str) {
    let case = std::fs::read(file).unwrap_or_default();
    if !case.is_empty() {
        let mut t = Tables::new();
        assert_eq!(judge_read(&case)[0], 0);
        assert_eq!(judge_solve(&case, &mut t.values, &mut t.levels, &mut t.verdicts)[0], 0);
        assert_eq!(judge_check(&case, &t.values, &t.levels)[0], 0);
        judge_rank(&case, &mut t.strata);
    }
    let status = std::fs::read_to_string("/proc/self/status").unwrap();
    let line = status.lines().find_map(|line| line.strip_prefix("VmHWM:")).unwrap();
    print!("{}", line.trim().trim_end_matches(" kB"));
}

fn peak(file: &str) -> usize {
    let out = me().args(["--once", file]).output().unwrap().stdout;
    String::from_utf8(out).unwrap().parse().unwrap_or(0)
}

// ---- The solvers

/// The pairs of an atom in the last answer that clingo or clasp wrote.
fn last_answer(case: &Case, name: &str) -> Vec<bool> {
    let out = std::fs::read_to_string(OUT).unwrap();
    let lines: Vec<&str> = out.lines().collect();
    let at = lines.iter().rposition(|line| line.starts_with("Answer: ")).expect("an answer");
    let mut pairs = vec![false; case.pairs()];
    for atom in lines[at + 1].split_whitespace() {
        if let Some(numbers) = atom.strip_prefix(name) {
            let (s, a) = numbers.trim_matches(|c| c == '(' || c == ')').split_once(',').unwrap();
            pairs[case.pair(s.parse().unwrap(), a.parse().unwrap())] = true;
        }
    }
    pairs
}

/// An atom of the doubled rules: v for valid, p for valid or undetermined, and the pair.
type Atom = (char, usize, usize);

enum Body {
    /// all of these, or where it is so said their denials
    Literals(Vec<(bool, Atom)>),
    Least(usize, Vec<Atom>),
}

/// A rule, or where it has no head what must not be.
type Rule = (Option<Atom>, Body);

/// The doubled rules of a case, ground.
fn ground(case: &Case) -> Vec<Rule> {
    let mut rules = Vec::new();
    for s in 0..case.shapes.len() {
        for a in 0..case.nodes {
            for (own, other) in [('v', 'p'), ('p', 'v')] {
                rules.extend(bodies(case, s, a, own, other).into_iter().map(|body| (Some((own, s, a)), body)));
            }
            rules.push((None, Body::Literals(vec![(false, ('v', s, a)), (true, ('p', s, a))])));
        }
    }
    rules
}

/// What a pair may hold by: references are to atoms of its own sort, nots to those of the other.
fn bodies(case: &Case, s: usize, a: usize, own: char, other: char) -> Vec<Body> {
    let here = |t: usize| (false, (own, t, a));
    let fillers = |p: usize, t: usize| case.fillers(p, a).iter().map(|b| (own, t, *b)).collect::<Vec<Atom>>();
    let only_if = |holds: bool, body: Vec<(bool, Atom)>| if holds { vec![Body::Literals(body)] } else { vec![] };
    match case.shapes[s] {
        Shape::Top => only_if(true, vec![]),
        Shape::Node(b) => only_if(a == b, vec![]),
        Shape::Same(p, q) => only_if(case.fillers(p, a) == case.fillers(q, a), vec![]),
        Shape::And(t, u) => vec![Body::Literals(vec![here(t), here(u)])],
        Shape::Or(t, u) => [t, u].map(|t| Body::Literals(vec![here(t)])).into(),
        Shape::Not(t) => vec![Body::Literals(vec![(true, (other, t, a))])],
        Shape::All(p, t) => vec![Body::Literals(fillers(p, t).into_iter().map(|atom| (false, atom)).collect())],
        Shape::AtLeast(n, p, t) if n <= case.fillers(p, a).len() => vec![Body::Least(n, fillers(p, t))],
        Shape::AtLeast(..) => vec![],
    }
}

fn name((sort, s, a): Atom) -> String {
    format!("{sort}({s},{a})")
}

/// Rules as clingo and gringo read them.
fn as_program(rules: &[Rule]) -> String {
    let literal = |(denied, atom): &(bool, Atom)| format!("{}{}", if *denied { "not " } else { "" }, name(*atom));
    let mut text = String::new();
    for (head, body) in rules {
        let body = match body {
            Body::Literals(literals) => literals.iter().map(literal).collect::<Vec<_>>().join(","),
            Body::Least(n, atoms) => format!("{n}{{{}}}", atoms.iter().map(|atom| name(*atom)).collect::<Vec<_>>().join(";")),
        };
        let head = head.map_or("".to_string(), name);
        text += &if body.is_empty() { format!("{head}.\n") } else { format!("{head}:-{body}.\n") };
    }
    text
}

/// The same rules as clasp reads them, atoms by number, as gringo would write them if it changed nothing.
fn as_ground_program(case: &Case, rules: &[Rule]) -> String {
    let number = |(sort, s, a): Atom| 1 + case.pair(s, a) + if sort == 'p' { case.pairs() } else { 0 };
    let mut text = "asp 1 0 0\n".to_string();
    for (head, body) in rules {
        text += &head.map_or("1 0 0".to_string(), |atom| format!("1 0 1 {}", number(atom)));
        match body {
            Body::Literals(literals) => {
                text += &format!(" 0 {}", literals.len());
                literals.iter().for_each(|(denied, atom)| text += &format!(" {}{}", if *denied { "-" } else { "" }, number(*atom)));
            }
            Body::Least(n, atoms) => {
                text += &format!(" 1 {n} {}", atoms.len());
                atoms.iter().for_each(|atom| text += &format!(" {} 1", number(*atom)));
            }
        }
        text += "\n";
    }
    for pair in 0..case.pairs() {
        for sort in ['v', 'p'] {
            let atom = (sort, pair / case.nodes, pair % case.nodes);
            text += &format!("4 {} {} 1 {}\n", name(atom).len(), name(atom), number(atom));
        }
    }
    text + "0\n"
}

/// The paths that shapes name: a solver need not read the fillers of others.
fn named_paths(case: &Case) -> BTreeSet<usize> {
    let of_shape = |shape: &Shape| match *shape {
        Shape::Same(p, q) => vec![p, q],
        Shape::All(p, _) | Shape::AtLeast(_, p, _) => vec![p],
        _ => vec![],
    };
    case.shapes.iter().flat_map(of_shape).collect()
}

/// The program of tests/solver for SWI-Prolog with the fillers as facts in the place of its rules for paths.
fn prolog(case: &Case) -> String {
    let text = std::fs::read_to_string("tests/solver/judge.pl").unwrap();
    let text = text.replace(":- table fill/4, ", ":- discontiguous fill/4.\n:- table ").replace("fill(K,I,A,B) :- path(K,I,R), step(R,K,I,A,B).\n", "");
    let mut facts = format!("case(0,{},{}).\n", case.nodes, case.shapes.len());
    for p in named_paths(case) {
        for a in 0..case.nodes {
            for b in case.fillers(p, a) {
                facts += &format!("fill(0,{p},{a},{b}).\n");
            }
        }
    }
    facts += &shape_facts(0, case);
    format!("{text}\n{facts}:- initialization((answers, halt)).\n")
}

// ---- One case

/// What the judge answers to a case, and how long its calls take.
struct Judged {
    rounds: usize,
    values: Vec<u8>,
    highest: usize,
    read: f64,
    rank: f64,
    check: f64,
    solve: f64,
    peak: usize,
}

fn judged(bytes: &[u8], pairs: usize) -> Judged {
    let mut t = Tables::new();
    let read = median(|| { judge_read(bytes); });
    let rank = median(|| { judge_rank(bytes, &mut t.strata); });
    let mut answer = [0; 8];
    let solve = median(|| answer = judge_solve(bytes, &mut t.values, &mut t.levels, &mut t.verdicts));
    assert_eq!(answer[0], 0);
    let check = median(|| assert_eq!(judge_check(bytes, &t.values, &t.levels)[0], 0));
    let highest = t.levels[..2 * pairs].chunks(2).map(|l| l[0] as usize + 256 * l[1] as usize).max().unwrap_or(0);
    Judged { rounds: answer[2], values: t.values[..pairs].to_vec(), highest, read, rank, check, solve, peak: peak(&file("case", bytes)) }
}

impl Judged {
    fn cells(&self) -> Vec<String> {
        let Judged { rounds, highest, read, rank, check, solve, .. } = self;
        [vec![rounds.to_string(), highest.to_string()], [read, rank, check, solve].map(|s| time(*s)).to_vec(), vec![megabytes(self.peak)]].concat()
    }
}

/// The same case with the solvers, in the order of the columns. Where they end in time they have to agree with the values. Clasp gets what gringo makes of the rules, unless gringo is not asked or not ready in time.
fn beside(limit: f64, ask_gringo: bool, case: &Case, values: &[u8]) -> Beside {
    let rules = ground(case);
    let lp = file("case.lp", as_program(&rules).as_bytes());
    let [one, solved] = by_answers("clingo", limit, &["clingo", "--warn=none", &lp], case, values);
    let by_gringo = if ask_gringo { grounded(limit, &lp) } else { None };
    let as_written = by_gringo.is_none();
    let aspif = by_gringo.unwrap_or_else(|| file("case.aspif", as_ground_program(case, &rules).as_bytes()));
    let [clasp_one, clasp_solved] = by_answers("clasp", limit, &[clasp(), &[&aspif]].concat(), case, values);
    Beside { runs: [one, solved, clasp_one, clasp_solved, by_tabling(limit, case, values)], as_written }
}

struct Beside {
    runs: [Run; 5],
    /// whether clasp got the rules as they stand
    as_written: bool,
}

/// clasp, or where there is none the clasp inside clingo.
fn clasp() -> &'static [&'static str] {
    let there = Command::new("clasp").arg("--version").stdout(Stdio::null()).status().is_ok();
    if there { &["clasp"] } else { &["clingo", "--mode=clasp"] }
}

/// An answer-set solver for one stable assignment, and for what solve answers: what all of them have and what any has.
fn by_answers(name: &str, limit: f64, command: &[&str], case: &Case, values: &[u8]) -> [Run; 2] {
    let solver = |words: &[&str]| run(limit, &[command, words].concat());
    let one = solver(&["1"]);
    let cautious = solver(&["0", "--enum-mode=cautious"]);
    if cautious.is_some() {
        agree(name, last_answer(case, "v").iter().zip(values).all(|(sure, v)| *sure == (*v == 2)));
    }
    let brave = if cautious.is_some() { solver(&["0", "--enum-mode=brave"]) } else { None };
    if brave.is_some() {
        agree(name, last_answer(case, "p").iter().zip(values).all(|(possible, v)| *possible == (*v > 0)));
    }
    [one, cautious.zip(brave).map(|(c, b)| (c.0 + b.0, c.1.max(b.1)))]
}

/// What clasp reads, made by gringo from the ground rules; none where gringo is not ready in time. Its time counts against nobody, though it does part of the work: what follows without search it settles, and clasp gets it as facts.
fn grounded(limit: f64, lp: &str) -> Option<String> {
    run(limit, &["gringo", "--warn=none", lp])?;
    let aspif = "target/tests/bench/case.aspif";
    std::fs::rename(OUT, aspif).expect(aspif);
    Some(aspif.to_string())
}

fn by_tabling(limit: f64, case: &Case, values: &[u8]) -> Run {
    let pl = file("case.pl", prolog(case).as_bytes());
    let swipl = run(limit, &["swipl", "--stack-limit=8g", "-q", "-f", &pl]);
    if swipl.is_some() {
        let text: String = values.iter().map(|v| v.to_string()).collect();
        agree("SWI-Prolog", std::fs::read_to_string(OUT).unwrap().trim() == format!("0 {text}"));
    }
    swipl
}

/// Their times, those in parts of solve's, and what memory they took for what solve answers.
fn solver_cells(limit: f64, solve: f64, Beside { runs, as_written }: Beside) -> Vec<String> {
    let mut times = runs.map(|run| run.map_or(format!("> {limit} s"), |(s, _)| time(s)));
    if as_written {
        times[2..4].iter_mut().for_each(|cell| *cell += " *");
    }
    let ratios = runs.map(|run| run.map_or(format!("> {}", parts(limit / solve)), |(s, _)| parts(s / solve)));
    let memory = [1, 3, 4].map(|i| runs[i].map_or("".to_string(), |(_, kilobytes)| megabytes(kilobytes)));
    [&times[..], &ratios, &memory].concat()
}

fn megabytes(kilobytes: usize) -> String {
    format!("{:.1}", kilobytes as f64 / 1024.0)
}

// ---- The tables

const JUDGE: [&str; 9] = ["case", "nodes", "rounds", "highest level", "read", "rank", "check", "solve", "judge MB"];
const SOLVERS: [&str; 13] = [
    "clingo, one", "clingo, solved", "clasp, one", "clasp, solved", "SWI-Prolog",
    "clingo, one / solve", "clingo, solved / solve", "clasp, one / solve", "clasp, solved / solve", "SWI-Prolog / solve",
    "clingo MB", "clasp MB", "SWI-Prolog MB",
];

/// What the start alone takes.
fn starts(limit: f64) {
    let empty = file("empty.lp", b"");
    let halt = file("empty.pl", b":- initialization(halt).\n");
    let least = |runs: Vec<Run>| runs.into_iter().flatten().min_by(|a, b| a.0.total_cmp(&b.0)).unwrap_or((0.0, 0));
    let grounded = grounded(limit, &empty).expect("gringo");
    let alone = |command: &[&str]| {
        let (seconds, kilobytes) = least((0..5).map(|_| run(limit, command)).collect());
        format!("{} and {} MB", time(seconds), megabytes(kilobytes))
    };
    let (clingo, swipl) = (alone(&["clingo", &empty]), alone(&["swipl", "-q", "-f", &halt]));
    println!("Start alone: clingo {clingo}, {} {}, SWI-Prolog {swipl}; a bare process of the judge's {} MB.", clasp().join(" "), alone(&[clasp(), &[&grounded]].concat()), megabytes(peak("")));
    println!("A ratio is the solver's time, start included, to that of solve in the same run; > is a solver stopped after {limit} s. 'One' finds any one stable assignment, 'solved' the cautious and the brave consequences, which is what solve answers. What clasp reads was made by gringo beforehand, which does not count, though gringo settles all that follows without search; * is where clasp got the ground rules as they stand, since gringo was not ready after {limit} s or not asked.\n");
}

/// How solve's times grow, by family and size. Where a family has several cases of a size, that of the one in the middle; where it has none, nothing.
fn growth(sizes: &[usize], grown: &[(&str, Vec<Option<f64>>)]) {
    println!("\nHow the time of solve grows from {} to {} nodes, and how many times that of the size before it is:\n", sizes[0], sizes[sizes.len() - 1]);
    let in_parts = sizes.windows(2).flat_map(|pair| [pair[1].to_string(), format!("{} / {}", pair[1], pair[0])]);
    header(&["case".to_string(), sizes[0].to_string()].into_iter().chain(in_parts).collect::<Vec<_>>());
    let shown = |solve: Option<f64>| solve.map_or("".to_string(), time);
    for (name, solves) in grown {
        let ratio = |pair: &[Option<f64>]| pair[0].zip(pair[1]).map_or("".to_string(), |(before, after)| parts(after / before));
        let in_parts = solves.windows(2).flat_map(|pair| [shown(pair[1]), ratio(pair)]);
        line(&[name.to_string(), shown(solves[0])].into_iter().chain(in_parts).collect::<Vec<_>>());
    }
}

fn main() {
    let words: Vec<String> = std::env::args().skip(1).collect();
    match &words[..] {
        [word, file] if word == "--once" => return once(file),
        [word, limit, command @ ..] if word == RUN => return run_here(limit.parse().unwrap(), command),
        _ => {}
    }
    let [alone, as_written] = ["--alone", "--as-written"].map(|name| words.contains(&name.to_string()));
    let limit: f64 = word(&words, "--limit").map_or(20.0, |w| w.parse().expect("--limit SECONDS"));
    make_folder();
    if !alone {
        starts(limit);
    }
    let solvers: &[&str] = if alone { &[] } else { &SOLVERS };
    header(&JUDGE.iter().chain(solvers).map(|name| name.to_string()).collect::<Vec<_>>());
    let sizes = sizes(&words);
    let mut grown = Vec::new();
    for name in names(&words) {
        let mut by_size = Vec::new();
        for &n in &sizes {
            let mut solves = Vec::new();
            for bytes in cases(name, n) {
                let case = reference::read(&bytes).expect("a sound case");
                let judged = judged(&bytes, case.pairs());
                solves.push(judged.solve);
                let solvers = if alone { vec![] } else { solver_cells(limit, judged.solve, beside(limit, !as_written, &case, &judged.values)) };
                line(&[vec![name.to_string(), n.to_string()], judged.cells(), solvers].concat());
            }
            solves.sort_by(f64::total_cmp);
            by_size.push((!solves.is_empty()).then(|| middle(&solves)));
        }
        grown.push((name, by_size));
    }
    growth(&sizes, &grown);
}
