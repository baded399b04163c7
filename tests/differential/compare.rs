//! Calls of the library, each compared with the reference in full: number, place, counts, and every byte of every table and beside it.

use crate::reference::unfinished::{Advanced, Begun, Unfinished};
use crate::reference::Judge;
use crate::tally::Tally;
use crate::{calls, old_code, unfinished_kinds, watch};

// ---- Tables with a margin, in which a write outside the table shows

const MARGIN: usize = 24;

struct Table {
    buffer: Vec<u8>,
    start: usize,
    length: usize,
}

impl Table {
    /// The start moves with the length, so that tables begin at odd addresses too.
    fn new(content: &[u8]) -> Table {
        let start = MARGIN + content.len() % 7;
        let mut buffer = vec![0xA5; start + content.len() + MARGIN];
        buffer[start..start + content.len()].copy_from_slice(content);
        Table { buffer, start, length: content.len() }
    }

    fn slice(&mut self) -> &mut [u8] {
        &mut self.buffer[self.start..self.start + self.length]
    }

    fn holds(&self, content: &[u8]) -> bool {
        let end = self.start + self.length;
        self.buffer[self.start..end] == *content && self.buffer[..self.start].iter().chain(&self.buffer[end..]).all(|b| *b == 0xA5)
    }

    fn differs(&self, name: &str, content: &[u8]) -> String {
        for i in 0..self.length {
            let got = self.buffer[self.start + i];
            if got != content[i] {
                return format!("{name}: byte {i} is {got}, expected {}", content[i]);
            }
        }
        format!("{name}: a byte outside the table was written")
    }
}

// ---- Calls

/// One call with its tables as they are before it.
pub struct Call<'a> {
    pub name: &'static str,
    pub case: &'a [u8],
    pub tables: Vec<(&'static str, &'a [u8])>,
}

impl<'a> Call<'a> {
    /// A call on a state, whose case is the copy that it holds.
    fn on(name: &'static str, state: &'a Unfinished) -> Call<'a> {
        Call { name, case: state.copy(), tables: vec![("state", state.memory())] }
    }

    fn text(&self, difference: &str) -> String {
        let hex = |bytes: &[u8]| bytes.iter().map(|b| format!(" {b:02X}")).collect::<String>();
        let mut text = format!("# {difference}\ncall {}\ncase{}\n", self.name, hex(self.case));
        for (name, table) in &self.tables {
            text += &format!("{name}{}\n", hex(table));
        }
        text
    }

    pub fn fail(&self, difference: String) -> ! {
        let stored = watch::stored();
        std::fs::write(&stored, self.text(&difference)).ok();
        println!("differential: {}: {difference}", self.name);
        println!("differential: case of {} bytes stored in {stored}; tests/differential/run --replay {stored} repeats it", self.case.len());
        std::process::exit(1);
    }

    fn same<T: PartialEq + std::fmt::Debug>(&self, got: T, expected: T) {
        if got != expected {
            self.fail(format!("answer {got:?}, expected {expected:?}"));
        }
    }

    /// That a state is as expected, to the last byte.
    fn same_state(&self, got: &Unfinished, expected: &Unfinished) {
        let bytes = |name: &str, got: &[u8], expected: &[u8]| {
            let at = got.iter().zip(expected).position(|(got, expected)| got != expected);
            at.map(|at| format!("{name}: byte {at} is {}, expected {}", got[at], expected[at]))
        };
        let number = |name: &str, got: usize, expected: usize| (got != expected).then(|| format!("{name}: {got}, expected {expected}"));
        let differences = [
            bytes("bytes", &got.bytes, &expected.bytes),
            number("length", got.length, expected.length),
            bytes("values", &got.values, &expected.values),
            number("pairs", got.pairs, expected.pairs),
            number("over", got.over, expected.over),
        ];
        if let Some(difference) = differences.into_iter().flatten().next() {
            self.fail(format!("state, {difference}"));
        }
    }

    /// What a call answers on a copy of the case, to which it may not write.
    fn on_lent<T>(&self, call: impl FnOnce(&[u8]) -> T) -> T {
        let mut lent = Table::new(self.case);
        let got = call(lent.slice());
        if !lent.holds(self.case) {
            self.fail("the case was written to".to_string());
        }
        got
    }
}

pub fn compare_read(tally: &mut Tally, judge: &Judge, case: &[u8]) {
    let call = Call { name: "judge_read", case, tables: vec![] };
    let got = call.on_lent(calls::judge_read);
    call.same(got, judge.reading());
    tally.note("read", got[0]);
}

pub fn compare_solve(tally: &mut Tally, judge: &mut Judge, case: &[u8], values: &[u8], levels: &[u8], verdicts: &[u8]) {
    let mut expected = [values.to_vec(), levels.to_vec(), verdicts.to_vec()];
    let [v, l, d] = &mut expected;
    let answer = judge.solving(v, l, d);
    for plain in [false, true] {
        let name = if plain { "solve" } else { "judge_solve" };
        let call = Call { name, case, tables: vec![("values", values), ("levels", levels), ("verdicts", verdicts)] };
        let (mut v, mut l, mut d) = (Table::new(values), Table::new(levels), Table::new(verdicts));
        if plain {
            call.same(calls::solve(case, v.slice(), l.slice(), d.slice()), answer[0]);
        } else {
            call.same(calls::judge_solve(case, v.slice(), l.slice(), d.slice()), answer);
        }
        for ((name, _), (table, content)) in call.tables.iter().zip([&v, &l, &d].into_iter().zip(&expected)) {
            if !table.holds(content) {
                call.fail(table.differs(name, content));
            }
        }
        tally.note("solve", answer[0]);
    }
}

/// What check answers, for the old code to be held to.
pub fn compare_check(tally: &mut Tally, judge: &Judge, case: &[u8], values: &[u8], levels: &[u8]) -> [usize; 4] {
    let answer = judge.checking(values, levels);
    for plain in [false, true] {
        let name = if plain { "check" } else { "judge_check" };
        let call = Call { name, case, tables: vec![("values", values), ("levels", levels)] };
        let (mut v, mut l) = (Table::new(values), Table::new(levels));
        if plain {
            call.same(calls::check(case, v.slice(), l.slice()), answer[0]);
        } else {
            call.same(calls::judge_check(case, v.slice(), l.slice()), answer);
        }
        if !v.holds(values) || !l.holds(levels) {
            call.fail("a proposal was written to".to_string());
        }
        tally.note("check", answer[0]);
    }
    answer
}

/// The old code's check, of values that check has answered as `newer` with some levels.
pub fn compare_supported(tally: &mut Tally, judge: &Judge, case: &[u8], values: &[u8], newer: [usize; 4]) {
    let call = Call { name: "judge_check_supported", case, tables: vec![("values", values)] };
    let mut v = Table::new(values);
    let got = call.on_lent(|case| calls::judge_check_supported(case, v.slice()));
    if !old_code::follows(newer, got) {
        call.fail(format!("the newer code has {newer:?}, the old one {got:?}"));
    }
    call.same(got, judge.checking_supported(values));
    if !v.holds(values) {
        call.fail("a proposal was written to".to_string());
    }
    tally.note("old check", got[0]);
    if let Ok(read) = &judge.read {
        tally.note_kind("old code", old_code::kind(read, values, newer[0], got));
    }
}

pub fn compare_rank(tally: &mut Tally, judge: &Judge, case: &[u8], strata: &[u8]) {
    let call = Call { name: "judge_rank", case, tables: vec![("strata", strata)] };
    let mut expected = strata.to_vec();
    let answer = judge.ranking(&mut expected);
    let mut table = Table::new(strata);
    call.same(calls::judge_rank(case, table.slice()), answer);
    if !table.holds(&expected) {
        call.fail(table.differs("strata", &expected));
    }
    tally.note("rank", answer[0]);
}

pub fn compare_totals(tally: &mut Tally, judge: &mut Judge, case: &[u8], node: usize) -> [usize; 4] {
    let number = node.to_le_bytes();
    let call = Call { name: "judge_node_totals", case, tables: vec![("node", &number)] };
    let got = call.on_lent(|case| calls::judge_node_totals(case, node));
    call.same(got, judge.node_totals(node));
    tally.note("totals", got[0]);
    got
}

/// Over all nodes of a case that reads the totals add up to those that solving carries.
pub fn compare_sums(tally: &mut Tally, case: &[u8]) {
    let call = Call { name: "judge_node_totals", case, tables: vec![] };
    let totals: Vec<[usize; 4]> = (0..calls::judge_read(case)[2]).map(|node| calls::judge_node_totals(case, node)).collect();
    let sum = |count: usize| totals.iter().map(|of_node| of_node[count]).sum::<usize>();
    let [_, _, _, valid, undetermined, ..] = calls::solved(case).0;
    if [sum(2), sum(3)] != [valid, undetermined] {
        call.fail(format!("over all nodes {} valid and {} undetermined pairs, solving has {valid} and {undetermined}", sum(2), sum(3)));
    }
    totals.iter().for_each(|of_node| tally.note("totals", of_node[0]));
}

pub fn compare_fewest(tally: &mut Tally, judge: &Judge, case: &[u8], target: usize, list: &[u8]) -> [usize; 3] {
    let number = target.to_le_bytes();
    let call = Call { name: "judge_fewest_edges", case, tables: vec![("target", &number), ("candidates", list)] };
    let mut lent = Table::new(list);
    let got = call.on_lent(|case| calls::judge_fewest_edges(case, target, lent.slice()));
    call.same(got, judge.fewest_edges(target, list));
    if !lent.holds(list) {
        call.fail("the list was written to".to_string());
    }
    tally.note("fewest", got[0]);
    got
}

/// Two cases that the documents say are solved alike: the same answer and the same bytes in every table.
pub fn compare_solutions(tally: &mut Tally, case: &[u8], other: &[u8], how: &str) {
    let call = Call { name: "judge_solve", case, tables: vec![] };
    let (got, expected) = (calls::solved(case), calls::solved(other));
    if got != expected {
        call.fail(format!("{how} it is solved as {expected:?}, else as {got:?}"));
    }
    tally.note("solve", got.0[0]);
    tally.note("solve", expected.0[0]);
}

// ---- Unfinished solves

pub fn compare_begin(tally: &mut Tally, judge: &Judge, case: &[u8]) -> Unfinished {
    let call = Call { name: "judge_begin", case, tables: vec![] };
    let Begun { answer, unfinished } = call.on_lent(calls::judge_begin);
    let expected = judge.beginning(case);
    call.same(answer, expected.answer);
    call.same_state(&unfinished, &expected.unfinished);
    tally.note("begin", answer[0]);
    unfinished
}

pub fn compare_advance(tally: &mut Tally, state: &Unfinished, expected: &Advanced) -> Unfinished {
    let call = Call::on("judge_advance", state);
    let Advanced { over, unfinished } = calls::judge_advance(state);
    call.same(over, expected.over);
    call.same_state(&unfinished, &expected.unfinished);
    tally.note("advance", over);
    unfinished
}

pub fn compare_ask(tally: &mut Tally, state: &Unfinished, pair: usize, expected: [usize; 3]) {
    let number = pair.to_le_bytes();
    let mut call = Call::on("judge_ask", state);
    call.tables.push(("pair", &number));
    let got = calls::judge_ask(state, pair);
    call.same(got, expected);
    tally.note("ask", got[0]);
    tally.note_kind("questions", unfinished_kinds::question(state, pair, got));
}

/// The library held to itself: a solve from its beginning to as many advances as solving has rounds. The last tells the end, with solving's values, and no other does; what is settled of these pairs stays; an advance more alters nothing.
/// Answers the state before each round, and at the end.
pub fn compare_course(tally: &mut Tally, begun: Unfinished, pairs: &[usize]) -> Vec<Unfinished> {
    let ([_, _, rounds, ..], values, ..) = calls::solved(begun.copy());
    let replies = |state: &Unfinished| pairs.iter().map(|pair| calls::judge_ask(state, *pair)[2]).collect::<Vec<_>>();
    let mut states = vec![begun];
    for advances in 1..=rounds {
        let before = &states[advances - 1];
        let call = Call::on("judge_advance", before);
        let Advanced { over, unfinished } = calls::judge_advance(before);
        if over != (advances == rounds) as usize {
            call.fail(format!("advance {advances} tells {over}, solving has {rounds} rounds"));
        }
        for ((pair, was), is) in pairs.iter().zip(replies(before)).zip(replies(&unfinished)) {
            if [0, 2].contains(&was) && is != was {
                call.fail(format!("the reply {was} for pair {pair} becomes {is}"));
            }
        }
        tally.note("advance", over);
        states.push(unfinished);
    }
    let end = &states[rounds];
    let call = Call::on("judge_advance", end);
    if let Some(pair) = (0..values.len()).find(|pair| end.values[*pair] != values[*pair]) {
        call.fail(format!("pair {pair} has the value {} at the end, solving has {}", end.values[pair], values[pair]));
    }
    let more = calls::judge_advance(end);
    call.same(more.over, 1);
    call.same_state(&more.unfinished, end);
    tally.note("advance", 1);
    states
}
