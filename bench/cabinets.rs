//! Cabinets for links to add: cases by their commands and what their shapes hang on, lists of twelve candidates, and targets that none of their selections makes sure, or a small one.

use crate::families::pieces::{built, shape_operands};
use crate::families::plan;
use crate::generator::candidates::{candidate, written_out, Works};
use crate::generator::{bytes, target, Commands, Random};
use crate::interface::judge_solve;
use std::cmp::Reverse;
use std::collections::BTreeSet;
use std::ops::Range;

/// How many candidates a list has.
pub const MOST: usize = 12;

// ---- Cabinets

/// A shape and a node.
pub type Pair = (usize, usize);

/// A case without rules inside rules, by its commands.
pub struct Cabinet {
    commands: Commands,
    /// by shape, whether it hangs on each: itself, and what a walk of references leads to
    pub hangs: Vec<Vec<bool>>,
}

pub fn split(mut case: &[u8]) -> Commands {
    let mut commands = Vec::new();
    while let [byte, ..] = case {
        let length = match byte {
            0x20 | 0xFF => 1,
            0x00 | 0x10 | 0x11 | 0x14 | 0x24 => 2,
            0x27 | 0x30 => 4,
            0x02 | 0x03 => 6,
            _ => 3,
        };
        let (command, rest) = case.split_at(length);
        commands.push(command.to_vec());
        case = rest;
    }
    commands
}

const EDGES: [u8; 2] = [0x02, 0x03];
const PATHS: [u8; 2] = [0x10, 0x14];
const SHAPES: [u8; 2] = [0x20, 0x27];
const TARGETS: [u8; 2] = [0x30, 0x30];

/// Where the commands of a group stand.
fn group(commands: &Commands, [first, last]: [u8; 2]) -> Range<usize> {
    commands.partition_point(|c| c[0] < first)..commands.partition_point(|c| c[0] <= last)
}

fn number_at(command: &[u8], at: usize) -> usize {
    command[at] as usize + 256 * command[at + 1] as usize
}

fn reached(shapes: &[Vec<u8>], from: usize) -> Vec<bool> {
    let mut reached = vec![false; shapes.len()];
    let mut to_visit = vec![from];
    while let Some(s) = to_visit.pop() {
        if !std::mem::replace(&mut reached[s], true) {
            to_visit.extend(shape_operands(&shapes[s]).iter().map(|at| shapes[s][*at] as usize));
        }
    }
    reached
}

/// Where in a path's or a shape's command its path operands stand.
fn path_operands(command: &[u8]) -> &'static [usize] {
    match command[0] {
        0x12 | 0x13 | 0x25 => &[1, 2],
        0x14 | 0x26 => &[1],
        0x27 => &[2],
        _ => &[],
    }
}

impl Cabinet {
    pub fn new(commands: Commands) -> Cabinet {
        let shapes = &commands[group(&commands, SHAPES)];
        let hangs = (0..shapes.len()).map(|s| reached(shapes, s)).collect();
        Cabinet { commands, hangs }
    }

    /// A case without its last edges where the candidates and a park of one edge would pass the limit.
    pub fn with_room(case: &[u8]) -> Cabinet {
        let mut commands = split(case);
        let edges = group(&commands, EDGES);
        commands.drain(edges.end.min(edges.start + 1024 - MOST - 1)..edges.end);
        Cabinet::new(commands)
    }

    pub fn hangs_on(&self, shape: usize) -> usize {
        self.hangs[shape].iter().filter(|is| **is).count()
    }

    pub fn nodes(&self) -> usize {
        number_at(&self.commands[group(&self.commands, [0x01, 0x01]).start], 1)
    }

    /// The operands of the edges that are laid.
    fn laid(&self) -> Vec<&[u8]> {
        self.commands[group(&self.commands, EDGES)].iter().filter(|c| c[0] == 0x02).map(|c| &c[1..]).collect()
    }

    pub fn targets(&self) -> Vec<Pair> {
        self.commands[group(&self.commands, TARGETS)].iter().map(|c| (c[1] as usize, number_at(c, 2))).collect()
    }

    /// The case with all that a shape does not hang on emptied: other shapes are top, and paths that only they name lead nowhere.
    pub fn slice(&self, shape: usize) -> Commands {
        let mut commands = self.commands.clone();
        let (paths, shapes) = (group(&commands, PATHS), group(&commands, SHAPES));
        for s in (0..shapes.len()).filter(|s| !self.hangs[shape][*s]) {
            commands[shapes.start + s] = vec![0x20];
        }
        let named = |command: &Vec<u8>| path_operands(command).iter().map(|at| command[*at] as usize).collect::<Vec<_>>();
        let mut needed: BTreeSet<usize> = commands[shapes].iter().flat_map(named).collect();
        for path in (0..paths.len()).rev() {
            let command = &mut commands[paths.start + path];
            if needed.contains(&path) {
                needed.extend(named(command));
            } else {
                *command = vec![0x10, 255];
            }
        }
        commands
    }

    /// Whether a shape hangs on edges that candidates can be of.
    pub fn hangs_on_edges(&self, shape: usize) -> bool {
        let properties: BTreeSet<u8> = self.laid().iter().map(|edge| edge[0]).collect();
        let slice = self.slice(shape);
        let steps = slice[group(&slice, PATHS)].iter().filter(|path| path[0] <= 0x11);
        steps.into_iter().any(|path| properties.contains(&path[1]))
    }

    /// The case with an edge parked, if one is, and a pair as its first target.
    pub fn asked(&self, parked: Option<&[u8]>, (shape, node): Pair, list: &[Vec<u8>]) -> Works {
        let mut commands = self.commands.clone();
        let first = group(&commands, TARGETS).start;
        commands[first] = target(shape, node);
        if let Some(edge) = parked {
            commands.insert(group(&commands, EDGES).end, [&[0x03], edge].concat());
        }
        Works { case: bytes(&commands), target: 0, list: list.concat() }
    }
}

// ---- What is asked

/// What candidates are drawn from.
#[derive(Clone, Copy, PartialEq)]
pub enum From {
    /// the properties of the case, between any nodes
    Any,
    /// edges that are laid already, which add nothing: every selection takes as long as the case
    Laid,
}

pub fn draw(r: &mut Random, cabinet: &Cabinet, from: From) -> Vec<Vec<u8>> {
    let (laid, n) = (cabinet.laid(), cabinet.nodes());
    let one = |r: &mut Random| {
        let edge = r.pick(&laid);
        if from == From::Laid { edge.to_vec() } else { candidate(edge[0] as usize, r.below(n), r.below(n)) }
    };
    (0..MOST).map(|_| one(r)).collect()
}

pub struct Tables {
    values: Vec<u8>,
    levels: Vec<u8>,
    pub verdicts: Vec<u8>,
}

impl Tables {
    pub fn new() -> Tables {
        Tables { values: vec![0; 4096], levels: vec![0; 8192], verdicts: vec![0; 256] }
    }

    pub fn solve(&mut self, case: &[u8]) {
        assert_eq!(judge_solve(case, &mut self.values, &mut self.levels, &mut self.verdicts)[0], 0, "a sound case");
    }
}

fn values(case: &[u8]) -> Vec<u8> {
    let mut t = Tables::new();
    t.solve(case);
    t.values
}

/// 64 selections of twelve candidates; half of them choose each candidate.
pub fn sample() -> Vec<usize> {
    (0..64).map(|i| 64 * i + i * 37 % 64).collect()
}

/// The pairs that none of a few selections makes sure: first those that hang on most shapes, and of these those that are open most often, so that no early round settles them.
pub fn in_vain(cabinet: &Cabinet, list: &[Vec<u8>]) -> Vec<Pair> {
    let works = cabinet.asked(None, (0, 0), list);
    let few = sample().into_iter().step_by(16);
    let tables: Vec<Vec<u8>> = few.map(|selection| values(&written_out(&works.case, &works.list, selection).unwrap())).collect();
    let n = cabinet.nodes();
    let all = |(s, a): &Pair| tables.iter().map(|values| values[s * n + a]).collect::<Vec<u8>>();
    let mut pairs: Vec<Pair> = (0..cabinet.hangs.len()).flat_map(|s| (0..n).map(move |a| (s, a))).filter(|pair| !all(pair).contains(&2)).collect();
    pairs.sort_by_key(|pair| Reverse((cabinet.hangs_on(pair.0), all(pair).iter().filter(|v| **v == 1).count())));
    pairs
}

/// An edge in the middle of the list makes a target sure, a pair of one of these shapes: one of the case's that is parked now, or another. Of such pairs that which hangs on most shapes; none where no such edge is found soon.
pub fn mended(r: &mut Random, cabinet: &Cabinet, asked: &dyn Fn(usize) -> bool) -> Option<Works> {
    let (laid, n) = (cabinet.laid(), cabinet.nodes());
    (0..80).find_map(|i| {
        let mut list = draw(r, cabinet, From::Any);
        let parked = (i % 2 == 0).then(|| r.pick(&laid));
        if let Some(edge) = parked {
            list[MOST / 2] = edge.to_vec();
        }
        let works = cabinet.asked(parked, (0, 0), &list);
        let [without, with] = [0, 1 << (MOST / 2)].map(|selection| values(&written_out(&works.case, &works.list, selection).unwrap()));
        let won = |pair: &usize| without[*pair] < 2 && with[*pair] == 2 && asked(pair / n);
        let pair = (0..cabinet.hangs.len() * n).filter(won).max_by_key(|pair| cabinet.hangs_on(pair / n))?;
        Some(cabinet.asked(parked, (pair / n, pair % n), &list))
    })
}

/// A property that no family has.
pub const OWN: u8 = 200;

/// A family built against the solver in which an edge in the middle of the list makes a target sure. Two shapes of it give way to others: whether the way on and the edges of that property lead to the same nodes, and that or the hardest of the rest, which is the target's. None where they would be of those that make it slow.
pub fn opened(r: &mut Random, name: &str, n: usize) -> Option<(Cabinet, Works)> {
    let whole = plan(name, n)?;
    let mut plan = whole.clone();
    while plan.room() < 2 {
        plan.shrink();
    }
    if plan.denials < whole.denials || plan.ties != whole.ties {
        return None;
    }
    let family = Cabinet::with_room(&built(&plan)?);
    let mut list = draw(r, &family, From::Laid);
    let (paths, shapes) = (group(&family.commands, PATHS), group(&family.commands, SHAPES));
    let (on, last) = (&family.commands[paths.start], shapes.len() as u8);
    let ends = if on[0] == 0x10 { [1, 3] } else { [3, 1] };
    let next = |a: usize| family.laid().iter().find(|edge| edge[0] == on[1] && number_at(edge, ends[0]) == a).map(|edge| number_at(edge, ends[1]));
    let (shape, node, next) = in_vain(&family, &list).into_iter().find_map(|(s, a)| Some((s, a, next(a)?)))?;
    list[MOST / 2] = candidate(OWN as usize, node, next);
    let mut commands = family.commands.clone();
    commands.splice(shapes.end..shapes.end, [vec![0x25, 0, paths.len() as u8], vec![0x23, shape as u8, last]]);
    commands.insert(paths.end, vec![0x10, OWN]);
    let cabinet = Cabinet::new(commands);
    let works = cabinet.asked(None, (last as usize + 1, node), &list);
    Some((cabinet, works))
}
