//! The library against the reference: number, place, counts and every byte of every table, on the samples of the documents, on built and damaged cases, and on random ones.

mod adding_kinds;
mod alike;
mod calls;
mod compare;
mod examine;
mod generator;
mod interface;
mod kinds;
mod old_code;
mod park_kinds;
mod part_kinds;
mod plan;
mod profile_kinds;
mod proposals;
#[allow(dead_code)]
mod reference;
mod samples;
mod split_kinds;
mod tally;
mod totals;
mod unfinished_kinds;
mod watch;

use compare::*;
use generator::Random;
use plan::Plan;
use reference::Judge;
use tally::Tally;

fn run(words: &[String]) -> Result<String, String> {
    let plan = Plan::of(words)?;
    let mut tally = Tally::default();
    let mut groups = vec![("turns", plan.run(&kinds::kinds(&plan), &mut tally)?)];
    if plan.is_whole() {
        groups.extend(tally.groups());
    }
    plan::show(&groups)?;
    Ok(format!("differential: {} calls on {} cases agree, seed {}, {} s", tally.calls, tally.cases, plan.seed, plan.seconds()))
}

/// A number from its bytes, low byte first.
fn number(bytes: &[u8]) -> usize {
    bytes.iter().rev().fold(0, |number, byte| number << 8 | *byte as usize)
}

fn replay(file: &str) -> Result<String, String> {
    let text = std::fs::read_to_string(file).map_err(|error| format!("{file}: {error}"))?;
    let part = |name: &str| text.lines().find_map(|line| line.strip_prefix(name)).map(samples::hex);
    let case = part("case").ok_or(format!("{file}: no line starts with case"))?;
    let mut judge = Judge::new(&case);
    let [_, _, nodes, _, _, shapes, targets] = judge.reading();
    // a table that isn't stored is one of the right length
    let table = |name: &str, length: usize| part(name).unwrap_or(vec![0xA5; length]);
    let (values, levels) = (table("values", shapes * nodes), table("levels", 2 * shapes * nodes));
    let mut tally = Tally::default();
    if let Some(state) = part("state") {
        unfinished_kinds::replay(&mut tally, &state, part("pair").map(|bytes| number(&bytes)));
        return Ok(format!("differential: {file}: all {} calls agree", tally.calls));
    }
    if let Some(group) = part("group") {
        split_kinds::replay(&mut tally, &case, &group);
    }
    if let (Some(target), Some(list)) = (part("target"), part("candidates")) {
        adding_kinds::replay(&mut tally, &case, number(&target), &list);
    }
    compare_read(&mut tally, &judge, &case);
    compare_solve(&mut tally, &mut judge, &case, &values, &levels, &table("verdicts", targets));
    let newer = compare_check(&mut tally, &judge, &case, &values, &levels);
    compare_supported(&mut tally, &judge, &case, &values, newer);
    compare_rank(&mut tally, &judge, &case, &table("strata", shapes));
    // a node that isn't stored is each of them, and one that is none
    let asked = part("node").map_or((0..=nodes).collect(), |bytes| vec![number(&bytes)]);
    for node in asked {
        compare_totals(&mut tally, &mut judge, &case, node);
    }
    unfinished_kinds::examine_course(&mut tally, &mut Random(1), &case);
    Ok(format!("differential: {file}: all {} calls agree", tally.calls))
}

fn main() {
    let words: Vec<String> = std::env::args().skip(1).collect();
    watch::on_signals("differential");
    let said = match words.iter().map(String::as_str).collect::<Vec<_>>()[..] {
        ["--replay", file] => replay(file),
        ["--kinds"] => Plan::of(&[]).map(|plan| plan::names(&kinds::kinds(&plan))),
        _ => run(&words),
    };
    plan::end("differential", said)
}
