//! Cases as facts for clingo and SWI-Prolog, and their answers.

use crate::reference::parts::Part;
use crate::reference::{Case, Edge, Link, Path, Shape};
use std::process::{Command, Stdio};

/// What a solver goes by: the rules of the expansion, or each written shape as it is written, part by part.
#[derive(Clone, Copy, PartialEq)]
pub enum By {
    Expansion,
    Parts,
}

impl By {
    /// How many shapes it has.
    pub fn shapes(self, case: &Case) -> usize {
        if self == By::Parts { case.written.len() } else { case.shapes.len() }
    }

    /// The values of its pairs, of those of all.
    pub fn cut<'a>(self, case: &Case, values: &'a [u8]) -> &'a [u8] {
        &values[..self.shapes(case) * case.nodes]
    }
}

/// The facts that both solvers read.
fn common(k: usize, case: &Case, by: By) -> String {
    let mut text = String::new();
    for Edge { parks, link: (p, a, b) } in &case.edges {
        let name = if *parks { "parked" } else { "edge" };
        text += &format!("{name}({k},{p},{a},{b}).\n");
    }
    for (i, path) in case.paths.iter().enumerate() {
        let term = match path {
            Path::Forward(p) => format!("forward({p})"),
            Path::Backward(p) => format!("backward({p})"),
            Path::Union(left, right) => format!("union({left},{right})"),
            Path::Sequence(first, second) => format!("sequence({first},{second})"),
            Path::Star(step) => format!("star({step})"),
        };
        text += &format!("path({k},{i},{term}).\n");
    }
    text + &if by == By::Parts { part_facts(k, case) } else { shape_facts(k, case) }
}

fn part_facts(k: usize, case: &Case) -> String {
    case.written.iter().enumerate().map(|(s, part)| format!("written({k},{s},{}).\n", part_term(part))).collect()
}

/// A part as a term, with its inner parts inside it.
fn part_term(part: &Part) -> String {
    let term = part_term;
    match part {
        Part::Top => "top".to_string(),
        Part::Node(a) => format!("node({a})"),
        Part::And(x, y) => format!("and({},{})", term(x), term(y)),
        Part::Or(x, y) => format!("or({},{})", term(x), term(y)),
        Part::Not(x) => format!("not({})", term(x)),
        Part::Same(p, q) => format!("same({p},{q})"),
        Part::All(p, x) => format!("all({p},{})", term(x)),
        Part::AtLeast(n, p, x) => format!("least({n},{p},{})", term(x)),
        Part::Named(s) => format!("named({s})"),
        Part::AtMost(n, p, x) => format!("most({n},{p},{})", term(x)),
    }
}

pub fn shape_facts(k: usize, case: &Case) -> String {
    let mut text = String::new();
    for (s, shape) in case.shapes.iter().enumerate() {
        let term = match shape {
            Shape::Top => "top".to_string(),
            Shape::Node(a) => format!("node({a})"),
            Shape::And(t, u) => format!("and({t},{u})"),
            Shape::Or(t, u) => format!("or({t},{u})"),
            Shape::Not(t) => format!("not({t})"),
            Shape::Same(p, q) => format!("same({p},{q})"),
            Shape::All(p, t) => format!("all({p},{t})"),
            Shape::AtLeast(n, p, t) => format!("least({n},{p},{t})"),
        };
        text += &format!("shape({k},{s},{term}).\n");
    }
    text
}

pub fn facts(k: usize, case: &Case, by: By) -> String {
    // not is a word of clingo's
    format!("case({k}).\nnodes({k},{}).\n{}", case.nodes, common(k, case, by).replace("not(", "deny("))
}

/// The edges that are to be added to case k.
pub fn chosen_facts(k: usize, links: &[Link]) -> String {
    links.iter().map(|(p, a, b)| format!("chosen({k},{p},{a},{b}).\n")).collect()
}

pub fn prolog_facts(k: usize, case: &Case, by: By) -> String {
    format!("case({k},{},{}).\n{}", case.nodes, by.shapes(case), common(k, case, by))
}

/// What a solver writes on a program. It has to end with the status given and to report nothing, or its answers are none.
fn output(name: &str, program: &str, ending: &str, status: i32, command: &mut Command) -> String {
    let file = format!("{}-{name}.{ending}", std::env::args().next().unwrap());
    std::fs::write(&file, program).expect("the folder of this program");
    let done = command.arg(&file).stdin(Stdio::null()).output().expect("the solver starts");
    let (out, errors) = (String::from_utf8_lossy(&done.stdout), String::from_utf8_lossy(&done.stderr));
    if done.status.code() != Some(status) || !errors.is_empty() {
        let last: Vec<&str> = out.lines().rev().take(8).collect();
        println!("solver: {command:?} ended with {}, expected {status}; it said:\n{errors}", done.status);
        last.iter().rev().for_each(|line| println!("{line:.200}"));
        std::process::exit(1);
    }
    out.into_owned()
}

/// clingo on a program beside judge.lp and parts.lp. Its status is a set of bits: 10 an answer was found, 20 the search was exhausted.
pub fn clingo(name: &str, program: &str, words: &[&str]) -> String {
    output(name, program, "lp", 30, Command::new("clingo").args(words).args(["--warn=none", "tests/solver/judge.lp", "tests/solver/parts.lp"]))
}

/// SWI-Prolog's answers to a program after judge.pl and parts.pl. Where they break off, what comes after them ends with status 2.
pub fn swipl(name: &str, program: &str, by: By) -> String {
    let answers = if by == By::Parts { "part_answers" } else { "answers" };
    let program = format!("{program}:- initialization(({answers}, halt)).\n");
    output(name, &program, "pl", 0, Command::new("swipl").args(["--stack-limit=4g", "-q", "-t", "halt(2)", "-f", "tests/solver/judge.pl", "tests/solver/parts.pl"]))
}

pub type Atoms<'a> = Vec<(&'a str, Vec<usize>)>;

/// The answer sets in clingo's output, atom by atom.
pub fn answers(out: &str) -> Vec<Atoms<'_>> {
    let lines: Vec<&str> = out.lines().collect();
    let at = |i: &usize| lines[*i].starts_with("Answer: ");
    (0..lines.len()).filter(at).map(|i| lines[i + 1].split_whitespace().map(atom).collect()).collect()
}

fn atom(text: &str) -> (&str, Vec<usize>) {
    let (name, rest) = text.split_once('(').expect("an atom");
    (name, rest.trim_end_matches(')').split(',').map(|n| n.parse().expect("a number")).collect())
}

/// The assignment of case k in an answer set.
pub fn assignment(k: usize, case: &Case, by: By, atoms: &Atoms) -> Vec<u8> {
    let mut values = vec![0; by.shapes(case) * case.nodes];
    for (name, numbers) in atoms {
        if *name != "on" && numbers[0] == k {
            values[case.pair(numbers[1], numbers[2])] += 1;
        }
    }
    values
}
