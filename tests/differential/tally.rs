//! What was compared: how often each number came that an operation can answer, each kind of proposal, and each kind of what cases are made of. What never came was not tried, and fails the test.

use crate::plan::{Group, Work};
use crate::reference::parts::Part;
use crate::reference::{Case, Edge};
use crate::{adding_kinds, old_code, proposals, split_kinds, totals, unfinished_kinds};
use std::collections::BTreeMap;

/// The numbers that reading can answer, and every other operation too.
const READING: [usize; 14] = [0, 1, 2, 3, 4, 5, 6, 7, 8, 9, 18, 19, 20, 22];

/// The operations, each with what it can answer beside.
const OPERATIONS: [(&str, &[usize]); 8] = [("read", &[]), ("solve", &[10, 11, 12]), ("check", &[10, 11, 13, 14, 15]), ("rank", &[16, 17]), ("totals", &[]), ("old check", &[10, 13, 14]), ("begin", &[]), ("fewest", &[23, 24, 25])];

/// Those that read no input: what an advance tells, and the numbers of a question.
const UNREAD: [(&str, [usize; 2]); 2] = [("advance", [0, 1]), ("ask", [0, 21])];

/// What a fresh shape's part can be.
const FRESH: [&str; 10] = ["top", "node", "and", "or", "not", "not of a not", "same", "all", "at least", "at most"];

fn fresh_kind(part: &Part) -> &'static str {
    match part {
        Part::Top => "top",
        Part::Node(_) => "node",
        Part::And(..) => "and",
        Part::Or(..) => "or",
        Part::Not(inner) if matches!(**inner, Part::Not(_)) => "not of a not",
        Part::Not(_) => "not",
        Part::Same(..) => "same",
        Part::All(..) => "all",
        Part::AtLeast(..) => "at least",
        Part::AtMost(..) => "at most",
        Part::Named(_) => unreachable!("a named shape is none"),
    }
}

/// What a park can be.
const PARKS: [&str; 5] = ["of an edge", "of the last edge", "of an edge laid twice", "of an edge parked already", "of an edge laid again later"];

/// Which of them the park at a place among the edges is.
fn park_kinds(edges: &[Edge], at: usize) -> [bool; 5] {
    let link = edges[at].link;
    let laid = |edges: &[Edge]| edges.iter().filter(|edge| !edge.parks && edge.link == link).count();
    [
        true,
        edges[..at].iter().rfind(|edge| !edge.parks).map(|edge| edge.link) == Some(link),
        laid(&edges[..at]) > 1,
        edges[..at].contains(&edges[at]),
        laid(&edges[at..]) > 0,
    ]
}

/// What a case's profile can be.
const PROFILES: [&str; 6] = ["no 00", "profile 0", "profile 1", "profile 2", "more than 128 nodes", "more than 256 nodes"];

fn profile_kinds(case: &Case) -> Vec<&'static str> {
    let named = PROFILES[case.profile.map_or(0, |profile| profile + 1)];
    let wide = [(128, PROFILES[4]), (256, PROFILES[5])].into_iter().filter(|(nodes, _)| case.nodes > *nodes);
    [named].into_iter().chain(wide.map(|(_, kind)| kind)).collect()
}

/// What is counted by kind and not by number.
fn kinds() -> Vec<(&'static str, Vec<&'static str>)> {
    vec![("proposals", proposals::names()), ("profiles", PROFILES.to_vec()), ("fresh shapes", FRESH.to_vec()), ("parks", PARKS.to_vec()), ("parked edges", vec!["that change values", "that change none"]), ("nodes asked", totals::ASKED.to_vec()), ("old code", old_code::KINDS.to_vec()), ("courses", unfinished_kinds::COURSES.to_vec()), ("states", unfinished_kinds::STATES.to_vec()), ("questions", unfinished_kinds::QUESTIONS.to_vec()), ("splits", split_kinds::SPLITS.to_vec()), ("groups", split_kinds::GROUPS.to_vec()), ("edges across", split_kinds::ACROSS.to_vec()), ("target numbers", adding_kinds::TARGETS.to_vec()), ("candidates", adding_kinds::CANDIDATES.to_vec()), ("what is wrong", adding_kinds::REFUSALS.to_vec()), ("selections found", adding_kinds::FOUND.to_vec()), ("other selections", adding_kinds::OTHERS.to_vec())]
}

#[derive(Default)]
pub struct Tally {
    pub cases: usize,
    pub calls: usize,
    numbers: BTreeMap<(&'static str, usize), usize>,
    kinds: BTreeMap<(&'static str, &'static str), usize>,
}

impl Work for Tally {
    fn done(&self) -> usize {
        self.calls
    }
}

impl Tally {
    /// A call of an operation, and its number.
    pub fn note(&mut self, operation: &'static str, number: usize) {
        self.calls += 1;
        self.note_number(operation, number);
    }

    fn note_number(&mut self, group: &'static str, number: usize) {
        *self.numbers.entry((group, number)).or_insert(0) += 1;
    }

    pub fn note_kind(&mut self, group: &'static str, kind: &'static str) {
        *self.kinds.entry((group, kind)).or_insert(0) += 1;
    }

    /// Each of these kinds that it is.
    pub fn note_kinds<const N: usize>(&mut self, group: &'static str, kinds: [&'static str; N], is: [bool; N]) {
        kinds.into_iter().zip(is).filter(|(_, is)| *is).for_each(|(kind, _)| self.note_kind(group, kind));
    }

    /// What a case that reads is made of: its profile, written shapes by the depth of their part, fresh ones by the kind of theirs, parks.
    pub fn note_case(&mut self, case: &Case) {
        profile_kinds(case).into_iter().for_each(|kind| self.note_kind("profiles", kind));
        for part in &case.written {
            self.note_number("depths", part.depth());
        }
        for part in &case.parts()[case.written.len()..] {
            self.note_kind("fresh shapes", fresh_kind(part));
        }
        for at in (0..case.edges.len()).filter(|at| case.edges[*at].parks) {
            self.note_kinds("parks", PARKS, park_kinds(&case.edges, at));
        }
    }

    pub fn groups(&self) -> Vec<Group> {
        let came = |group: &'static str, numbers: Vec<usize>| {
            let count = |number: usize| self.numbers.get(&(group, number)).copied().unwrap_or(0);
            (group, numbers.into_iter().map(|number| (number.to_string(), count(number))).collect())
        };
        let of_kind = |(group, kinds): (&'static str, Vec<&'static str>)| {
            let count = |kind: &'static str| self.kinds.get(&(group, kind)).copied().unwrap_or(0);
            (group, kinds.into_iter().map(|kind| (kind.to_string(), count(kind))).collect())
        };
        let mut groups: Vec<Group> = OPERATIONS.into_iter().map(|(operation, own)| came(operation, [&READING, own].concat())).collect();
        groups.extend(UNREAD.into_iter().map(|(operation, numbers)| came(operation, numbers.to_vec())));
        groups.push(came("depths", (1..=8).collect()));
        groups.extend(kinds().into_iter().map(of_kind));
        groups
    }
}
