//! The kinds of turns with unfinished solves (document 02, point 7): courses from the beginning to the end, held to solving and to the point's words; copies advanced apart; states of any contents.

use crate::compare::*;
use crate::generator::*;
use crate::kinds::*;
use crate::plan::{Kind, Plan};
use crate::reference::unfinished::{settled, Advanced, Unfinished, NOTHING};
use crate::reference::{Case, Judge};
use crate::tally::Tally;
use crate::{samples, totals};

pub fn kinds(plan: &Plan) -> Vec<Kind<Tally>> {
    vec![
        each_listed(plan, "courses of samples", |_| sample_cases(), examine_course),
        each_listed(plan, "courses at the edges of a word", at_words, examine_course),
        each_listed(plan, "courses of many rounds", |_| many_rounds(), examine_course),
        each_listed(plan, "beginnings of long inputs", long_inputs, examine_course),
        each_drawn("courses small", 10000, |r| drawn(r, small), examine_course),
        each_drawn("courses nested", 3000, |r| drawn(r, small_nested), examine_course),
        each_drawn("courses parked", 3000, |r| drawn(r, small_parked), examine_course),
        each_drawn("courses medium", 1000, |r| drawn(r, medium), examine_course),
        each_drawn("courses large", 40, |r| drawn(r, large), examine_course),
        each_drawn("courses damaged", 3000, damaged_once, examine_course),
        each_drawn("states of any contents", 12000, |r| drawn(r, small), examine_state),
        each_drawn("states of any contents, nested", 3000, |r| drawn(r, small_nested), examine_state),
        each_drawn("states of any contents, medium", 1000, |r| drawn(r, medium), examine_state),
        each_drawn("states of any contents, large", 40, |r| drawn(r, large), examine_state),
    ]
}

// ---- Courses

/// A solve in the words of point 7, round by round.
struct Course {
    case: Case,
    rounds: usize,
    t: Vec<bool>,
    /// the last P worked out; before the first round every pair
    p: Vec<bool>,
    over: bool,
}

impl Course {
    fn new(case: Case) -> Course {
        let pairs = case.pairs();
        Course { case, rounds: 0, t: vec![false; pairs], p: vec![true; pairs], over: false }
    }

    fn take_round(&mut self) {
        let (p, next) = self.case.round(&self.t);
        self.over = next == self.t;
        (self.p, self.t) = (p, next);
        self.rounds += 1;
    }

    fn reply(&self, pair: usize) -> usize {
        match (self.t[pair], self.p[pair]) {
            (true, _) => 2,
            (_, false) => 0,
            _ => if self.over { 1 } else { 3 },
        }
    }

    /// What the advance to this round answers, of a solve begun so.
    fn advanced(&self, begun: &Unfinished) -> Advanced {
        let mut unfinished = Unfinished { over: self.over as usize, ..begun.clone() };
        for pair in 0..self.case.pairs() {
            unfinished.values[pair] = settled(self.t[pair], self.p[pair]);
        }
        Advanced { over: unfinished.over, unfinished }
    }
}

/// What a course can be.
pub const COURSES: [&str; 7] = ["from a refused beginning", "without pairs", "of one round", "of two rounds", "of three rounds", "of more", "of a hundred and more"];

fn course_kind(refused: bool, course: &Course) -> &'static str {
    COURSES[match course.rounds {
        _ if refused => 0,
        _ if course.t.is_empty() => 1,
        rounds if rounds < 4 => 1 + rounds,
        rounds => 5 + (rounds >= 100) as usize,
    }]
}

/// The pairs that are asked in each round: all, or some of many.
fn asked(r: &mut Random, pairs: usize) -> Vec<usize> {
    if pairs <= 40 { (0..pairs).collect() } else { (0..24).map(|_| r.below(pairs)).chain([0, pairs - 1]).collect() }
}

/// A solve from its beginning to its end, first by the library alone, beside its own solving. Then each state of it, kept all the while, is advanced once more, in any order, and this and every reply is held to the words.
pub fn examine_course(tally: &mut Tally, r: &mut Random, case: &[u8]) {
    tally.cases += 1;
    let judge = Judge::new(case);
    let begun = compare_begin(tally, &judge, case);
    let pairs = asked(r, begun.pairs);
    let states = compare_course(tally, begun, &pairs);
    // a refused beginning goes on as the case that it holds
    let refused = judge.read.is_err();
    let mut course = Course::new(judge.read.unwrap_or_default());
    let mut expected = Vec::new();
    for state in &states {
        for &pair in &pairs {
            compare_ask(tally, state, pair, [0, 0, course.reply(pair)]);
        }
        let none = r.beyond(states[0].pairs);
        compare_ask(tally, state, none, [21, none, 0]);
        // a round after the end is none
        if !course.over {
            course.take_round();
        }
        expected.push(course.advanced(&states[0]));
    }
    for i in shuffled(r, states.len()) {
        compare_advance(tally, &states[i], &expected[i]);
    }
    tally.note_kind("courses", course_kind(refused, &course));
}

fn shuffled(r: &mut Random, count: usize) -> Vec<usize> {
    let mut order: Vec<usize> = (0..count).collect();
    for i in 1..count {
        order.swap(i, r.range(0, i));
    }
    order
}

fn sample_cases() -> Cases {
    let texts = [samples::RING, samples::NESTED_RING, samples::AT_MOST, samples::FRESH, samples::PARKED_RING, samples::PARKED, "", "01 00 00, 20, FF", "01 01 00, 24 01, 24 00, FF"];
    texts.into_iter().map(samples::hex).chain([NOTHING.to_vec()]).collect()
}

/// Pairs that settle and pairs that stay open beside each other, and many steps to a round.
fn at_words(r: &mut Random) -> Cases {
    let mut cases = totals::at_words(r);
    cases.extend([63, 64, 65, 127, 128].map(|n| bytes(&feeder(n, Feeder::Ring, STAR))));
    cases.push(bytes(&positive_chain(128, 32)));
    cases
}

fn many_rounds() -> Cases {
    [denial_chain(128, 4), denial_chain(128, 32), denial_chain(16, 32), mixed_chain(16, 31), both_chains(12, 15, 17), open_beside_denials(8, 12, 18), open_after_denials(8, 12, 18)].iter().map(bytes).collect()
}

/// Full cases, and inputs about the length of the copy and beyond it, none of which is a case.
fn long_inputs(r: &mut Random) -> Cases {
    let whole = drawn(r, full);
    let behind = |length: usize, byte: u8| [&whole[..], &vec![byte; length - whole.len()]].concat();
    let mut cases: Cases = [8191, 8192, 8193, 12312, 70000].into_iter().flat_map(|length| [behind(length, 0x00), behind(length, 0xFF)]).collect();
    cases.extend([whole[..4096].to_vec(), whole[..4097].to_vec(), whole.clone(), drawn(r, full)]);
    cases
}

fn damaged_once(r: &mut Random) -> Vec<u8> {
    let refusal = r.range(1, 9);
    damaged(r, small, &[refusal])
}

// ---- States of any contents

/// What a state can be that no beginning has made.
pub const STATES: [&str; 9] = [
    "of a case that reads", "of one that does not", "with its end cut off", "longer than its copy", "with a value above 2", "said to be over", "with an over above 1",
    "with other pairs than its case's", "with more pairs than values",
];

fn state_kinds(state: &Unfinished) -> [bool; 9] {
    let read = Judge::new(state.copy()).read;
    let pairs = read.as_ref().map_or(0, Case::pairs);
    [
        read.is_ok(),
        read.is_err(),
        read.map_or_else(|refusal| refusal.number == 3, |_| false),
        state.length > state.bytes.len(),
        state.values[..pairs].iter().any(|value| *value > 2),
        state.over != 0,
        state.over > 1,
        state.pairs != pairs,
        state.pairs > state.values.len(),
    ]
}

/// A state with the case in it or with noise, and any numbers beside it, mostly near those that a beginning would give.
fn any_state(r: &mut Random, case: &[u8]) -> Unfinished {
    let pairs = Judge::new(case).read.map_or(0, |read| read.pairs());
    let mut bytes = [0; 8192];
    if r.one_in(2) {
        bytes.fill_with(|| r.byte());
    }
    if !r.one_in(8) {
        bytes[..case.len()].copy_from_slice(case);
    }
    let some = r.below(8193);
    let other = r.pick(&[0, case.len() - 1, case.len() + 1, some, 8192, 8193, 1 << 32 | case.len(), usize::MAX]);
    let mut values = [0; 4096];
    let among: &[u8] = r.pick(&[&[0, 1, 2][..], &[0, 1, 2, 3, 255], &[2, 1, 1], &[128, 2, 1, 0], &[2], &[0], &[1]]);
    values.fill_with(|| r.pick(among));
    Unfinished {
        bytes,
        length: if r.one_in(4) { other } else { case.len() },
        values,
        pairs: r.pick(&[pairs, pairs, pairs, 0, pairs + 1, 4095, 4096, 4097, 5000, usize::MAX]),
        over: r.pick(&[0, 0, 0, 0, 0, 1, 2, 256, 1 << 32, usize::MAX]),
    }
}

/// Some advances and questions of a state that may hold this case, by the reference's equations.
pub fn examine_state(tally: &mut Tally, r: &mut Random, case: &[u8]) {
    tally.cases += 1;
    let mut state = any_state(r, case);
    for _ in 0..3 {
        tally.note_kinds("states", STATES, state_kinds(&state));
        ask_about(tally, r, &state);
        state = compare_advance(tally, &state, &state.advancing());
    }
    ask_about(tally, r, &state);
}

/// Questions about pairs, and about the ends of the pairs and of the values.
fn ask_about(tally: &mut Tally, r: &mut Random, state: &Unfinished) {
    let near = [r.below(8), r.below(40), r.below(4096), 4095, 4096, r.range(4097, 5100)];
    for pair in near.into_iter().chain([state.pairs.wrapping_sub(1), state.pairs, r.beyond(state.pairs)]) {
        compare_ask(tally, state, pair, state.asking(pair));
    }
}

/// A stored state again: its advance, and the stored question, or one about each value and beyond.
pub fn replay(tally: &mut Tally, memory: &[u8], pair: Option<usize>) {
    let state = Unfinished::of_memory(memory);
    compare_advance(tally, &state, &state.advancing());
    for pair in pair.map_or((0..=state.values.len()).collect(), |pair| vec![pair]) {
        compare_ask(tally, &state, pair, state.asking(pair));
    }
}

// ---- Questions

/// What a question can be.
pub const QUESTIONS: [&str; 11] = [
    "impossible before the end", "impossible at the end", "open", "sure before the end", "sure at the end", "not yet", "impossible, beyond the values",
    "the pair count", "a number above it", "a number beyond 16 bits", "the largest number",
];

pub fn question(state: &Unfinished, pair: usize, [number, _, reply]: [usize; 3]) -> &'static str {
    QUESTIONS[match (number, reply) {
        (0, _) if pair >= state.values.len() => 6,
        (0, 3) => 5,
        (0, 1) => 2,
        (0, reply) => reply / 2 * 3 + (state.over != 0) as usize,
        _ if pair == usize::MAX => 10,
        _ if pair > 0xFFFF => 9,
        _ if pair > state.pairs => 8,
        _ => 7,
    }]
}
