//! No 00 means profile 0 (document 02, point 8): the library held to itself on a case and on the same with 00 00 before it. Every call answers alike, but that an offset is two more.

use crate::adding_kinds::random_works;
use crate::calls;
use crate::compare::Call;
use crate::examine::{about, examine, filler};
use crate::generator::Random;
use crate::reference::unfinished::Unfinished;
use crate::tally::Tally;

struct Alike<'a> {
    case: &'a [u8],
    /// the same behind 00 00
    longer: &'a [u8],
    /// how much larger a place is: reading's are offsets, all others are not
    further: usize,
}

impl Alike<'_> {
    fn fail(&self, name: &'static str, difference: String) -> ! {
        Call { name, case: self.longer, tables: vec![] }.fail(format!("with 00 00 before it, {difference}"))
    }

    /// That a call answers alike and leaves the same bytes in its tables.
    fn hold<const N: usize>(&self, tally: &mut Tally, operation: &'static str, name: &'static str, call: impl Fn(&[u8]) -> ([usize; N], Vec<Vec<u8>>)) {
        let (mut expected, tables) = call(self.case);
        let (got, tables_got) = call(self.longer);
        if let Some(place) = expected.get_mut(1) {
            *place += self.further;
        }
        if got != expected || tables_got != tables {
            self.fail(name, format!("answer {got:?}, expected {expected:?}; tables alike: {}", tables_got == tables));
        }
        tally.note(operation, got[0]);
    }

    /// Solves begun and advanced beside each other, to their end.
    fn hold_course(&self, tally: &mut Tally, r: &mut Random) {
        let mut states = [self.case, self.longer].map(|case| calls::judge_begin(case).unfinished);
        loop {
            self.hold_states(tally, r, &states);
            let [plain, longer] = states.each_ref().map(calls::judge_advance);
            if plain.over != longer.over {
                self.fail("judge_advance", format!("over is {}, expected {}", longer.over, plain.over));
            }
            tally.note("advance", plain.over);
            states = [plain.unfinished, longer.unfinished];
            if plain.over == 1 {
                return self.hold_states(tally, r, &states);
            }
        }
    }

    /// States alike but for the two bytes, and some replies.
    fn hold_states(&self, tally: &mut Tally, r: &mut Random, [plain, longer]: &[Unfinished; 2]) {
        // a refused beginning holds the same in both cases
        let copy = if self.further > 0 { plain.copy() } else { self.longer };
        let bytes = longer.copy() == copy && longer.bytes[copy.len()..].iter().all(|byte| *byte == 0);
        if !bytes || longer.values != plain.values || longer.pairs != plain.pairs || longer.over != plain.over {
            self.fail("judge_advance", "another state".to_string());
        }
        for pair in [r.below(plain.pairs.max(1)), r.beyond(plain.pairs)] {
            let (got, expected) = (calls::judge_ask(longer, pair), calls::judge_ask(plain, pair));
            if got != expected {
                self.fail("judge_ask", format!("answer {got:?}, expected {expected:?}"));
            }
            tally.note("ask", got[0]);
        }
    }
}

/// Every call on a case and on the same behind 00 00, which is held to the reference first. Where the case begins with a 00 that one is the second, and there is nothing to be alike.
pub fn examine_alike(tally: &mut Tally, r: &mut Random, case: &[u8]) {
    let longer = [&[0x00, 0x00], case].concat();
    examine(tally, r, &longer, 0);
    if case.first() == Some(&0x00) {
        return;
    }
    let [number, _, nodes, _, _, shapes, targets] = calls::judge_read(case);
    let alike = Alike { case, longer: &longer, further: if number == 0 { 0 } else { 2 } };
    alike.hold(tally, "read", "judge_read", |case| (calls::judge_read(case), vec![]));
    alike.hold(tally, "begin", "judge_begin", |case| (calls::judge_begin(case).answer, vec![]));
    let pairs = shapes * nodes;
    for _ in 0..2 {
        // every other time values and levels are not too short, so that later refusals come too
        let least = pairs * r.below(2);
        let lengths = [about(r, pairs).max(least), about(r, 2 * pairs).max(2 * least), about(r, targets), about(r, shapes)];
        let tables = lengths.map(|length| filler(r, length));
        alike.hold(tally, "solve", "judge_solve", |case| {
            let [mut v, mut l, mut d, _] = tables.clone();
            (calls::judge_solve(case, &mut v, &mut l, &mut d), vec![v, l, d])
        });
        alike.hold(tally, "solve", "solve", |case| {
            let [mut v, mut l, mut d, _] = tables.clone();
            ([calls::solve(case, &mut v, &mut l, &mut d)], vec![v, l, d])
        });
        alike.hold(tally, "rank", "judge_rank", |case| {
            let [.., mut s] = tables.clone();
            (calls::judge_rank(case, &mut s), vec![s])
        });
        let node = if r.one_in(2) { r.below(nodes.max(1)) } else { r.beyond(nodes) };
        alike.hold(tally, "totals", "judge_node_totals", |case| (calls::judge_node_totals(case, node), vec![]));
        let works = random_works(r, case, 2);
        alike.hold(tally, "fewest", "judge_fewest_edges", |case| (calls::judge_fewest_edges(case, works.target, &works.list), vec![]));
    }
    hold_proposals(tally, r, &alike);
    alike.hold_course(tally, r);
}

/// The solved assignment, the same with a value or a level changed, and tables that are short.
fn hold_proposals(tally: &mut Tally, r: &mut Random, alike: &Alike) {
    let (_, solved, levels, _) = calls::solved(alike.case);
    for turn in 0..4 {
        let (mut v, mut l) = (solved.clone(), crate::proposals::level_bytes(&levels));
        match turn {
            1 if !v.is_empty() => { let pair = r.below(v.len()); v[pair] = r.pick(&[0, 1, 2, 3]); }
            2 if !l.is_empty() => { let at = r.below(l.len()); l[at] = r.below(4) as u8; }
            3 => { v.truncate(about(r, solved.len())); l.truncate(about(r, 2 * solved.len())); }
            _ => {}
        }
        alike.hold(tally, "check", "judge_check", |case| (calls::judge_check(case, &v, &l), vec![]));
        alike.hold(tally, "check", "check", |case| ([calls::check(case, &v, &l)], vec![]));
        alike.hold(tally, "old check", "judge_check_supported", |case| (calls::judge_check_supported(case, &v), vec![]));
    }
}
