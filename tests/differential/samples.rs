//! Samples held to the library alone: those of document 01, as document 02 has changed them, and some of rules inside rules, of parked edges, of totals by fitting, of the old code, of unfinished solves, of profiles and of links to add, worked out by hand; every expected number is the documents'.

use crate::calls::*;
use crate::generator::{without_parked, without_parks, Random};
use crate::proposals::level_bytes;
use crate::reference::unfinished::{Unfinished, NOTHING};
use std::fmt::Debug;

pub const RING: &str = "01 04 00, 02 00 01 00 00 00, 02 00 02 00 03 00, 02 00 03 00 02 00, 02 01 00 00 00 00, 10 00, 10 01, 20, 27 01 01 00, 27 01 00 03, 23 01 02, 24 03, 30 03 01 00, 30 03 02 00, FF";

/// A proposal for it: fittings 2 and 3 linked by each other.
pub const VOUCHED: &str = "2222 2000 0222 2222 0000";

/// The ring case in two rules: 0, linked, is or of at least 1 at the gateway (2) of a top (3), and at least 1 relay (4) of 0; 1 is its not.
pub const NESTED_RING: &str = "01 04 00, 02 00 01 00 00 00, 02 00 02 00 03 00, 02 00 03 00 02 00, 02 01 00 00 00 00, 10 00, 10 01, 28 23 27 01 01 20 27 01 00 29 00, 28 24 29 00, 30 00 01 00, 30 00 02 00, FF";

/// At most 1, 2, 0 and 254 at a node with two fillers and at two without. Fresh: at least 2, 3, 1 and 255, each before its top.
pub const AT_MOST: &str = "01 03 00, 02 00 00 00 01 00, 02 00 00 00 02 00, 10 00, 28 2A 01 00 20, 28 2A 02 00 20, 28 2A 00 00 20, 28 2A FE 00 20, FF";

/// One node with an edge to itself. Written: 0 and 3 6, 1 node 0, 2 not 8. Fresh, as they open: 3 not 4, 4 at least 1 of 5, 5 not 1, 6 not 7, 7 top; of the second 28: 8 node 0.
pub const FRESH: &str = "01 01 00, 02 00 00 00 00 00, 10 00, 28 22 2A 00 00 24 29 01 24 20, 21 00 00, 28 24 21 00 00, FF";

/// The ring case with the relay of fitting 1 parked: now it is not linked either.
pub const PARKED_RING: &str = "01 04 00, 02 00 01 00 00 00, 02 00 02 00 03 00, 02 00 03 00 02 00, 02 01 00 00 00 00, 03 00 01 00 00 00, 10 00, 10 01, 20, 27 01 01 00, 27 01 00 03, 23 01 02, 24 03, 30 03 01 00, 30 03 02 00, FF";

/// The edge from 0 to 1 of property 0, laid three times and parked twice, and that of property 1. Shapes: top; at least 1 on, and back; all of node 0 on; same on by both properties, and on and back; at least 1 by either; at least 2 and 1 by a star.
pub const PARKED: &str = "01 02 00, 02 00 00 00 01 00, 02 00 00 00 01 00, 03 00 00 00 01 00, 03 00 00 00 01 00, 02 00 00 00 01 00, 02 01 00 00 01 00, 10 00, 11 00, 10 01, 12 00 02, 14 00, 20, 27 01 00 00, 27 01 01 00, 21 00 00, 26 00 03, 25 00 02, 25 00 01, 27 01 03 00, 27 02 04 00, 27 01 04 00, FF";

pub fn hex(text: &str) -> Vec<u8> {
    let digits: Vec<u8> = text.chars().filter_map(|c| c.to_digit(16)).map(|d| d as u8).collect();
    digits.chunks(2).map(|d| 16 * d[0] + d[1]).collect()
}

pub fn digits(text: &str) -> Vec<u8> {
    text.chars().filter_map(|c| c.to_digit(10)).map(|d| d as u8).collect()
}

/// A road of 512 fittings, of which 511 relays to 300 and 300 to the gateway 0. Shapes: top; at least 1 on; linked, the gateway or on to what is linked (fresh: the gateway, on to linked); not linked; at least 3 by the star.
pub const ROAD: &str = "00 02, 01 00 02, 02 00 FF 01 2C 01, 02 00 2C 01 00 00, 10 00, 14 00, 20, 27 01 00 00, 28 23 21 00 00 27 01 00 29 02, 24 02, 27 03 01 00, 30 02 FF 01, 30 02 FE 01, FF";

/// Levels, each of one digit.
fn levels(text: &str) -> Vec<usize> {
    digits(text).into_iter().map(usize::from).collect()
}

/// What the desk program prints of a solved case.
fn listing(case: &[u8]) -> String {
    let [_, _, nodes, _, _, shapes, _] = judge_read(case);
    let (answer, v, _, d) = solved(case);
    let text = |row: &[u8]| row.iter().map(|value| value.to_string()).collect::<String>();
    let line = |name: String, row: &[u8]| if row.is_empty() { format!("{name}\n") } else { format!("{name} {}\n", text(row)) };
    let mut out = format!("rounds {}\n", answer[2]);
    for s in 0..shapes {
        out += &line(s.to_string(), &v[s * nodes..(s + 1) * nodes]);
    }
    out + &line("targets".to_string(), &d)
}

fn refused(number: usize, place: usize) -> [usize; 7] {
    [number, place, 0, 0, 0, 0, 0]
}

/// How many samples the library was held to.
struct Held(usize);

impl Held {
    fn same<G: PartialEq<E> + Debug, E: Debug>(&mut self, name: &str, got: G, expected: E) {
        if got != expected {
            println!("differential: sample {name}: got {got:?}, the document has {expected:?}");
            std::process::exit(1);
        }
        self.0 += 1;
    }
}

/// Holds the library to every sample and answers how many there are.
pub fn run() -> usize {
    let mut held = Held(0);
    samples_of_01(&mut held);
    solved_parts(&mut held);
    refused_parts(&mut held);
    solved_parks(&mut held);
    refused_parks(&mut held);
    totals(&mut held);
    old_code(&mut held);
    unfinished(&mut held);
    refused_profiles(&mut held);
    roads(&mut held);
    found_links(&mut held);
    refused_links(&mut held);
    held.0
}

fn samples_of_01(held: &mut Held) {
    let ring = hex(RING);
    held.same("ring, read", judge_read(&ring), [0, 0, 4, 4, 2, 5, 2]);
    held.same("ring, listing", listing(&ring), "rounds 2\n0 2222\n1 2000\n2 0200\n3 2200\n4 0022\ntargets 20\n");
    let (answer, v, l, d) = solved(&ring);
    held.same("ring", answer, [0, 0, 2, 10, 0, 1, 0, 1]);
    held.same("ring, levels", l.clone(), levels("1111 2000 0400 3500 0011"));
    held.same("ring, verdicts", d, vec![2, 0]);
    held.same("ring, solved proposal", judge_check(&ring, &v, &level_bytes(&l)), [0, 0, 0, 1]);
    let proposal = digits(VOUCHED);
    let proposed = level_bytes(&levels("1111 2000 0499 3555 0000"));
    held.same("ring, proposal", judge_check(&ring, &proposal, &proposed), [15, 14, 0, 0]);
    held.same("ring, proposal by check", check(&ring, &proposal, &proposed), 15);

    let clash = hex("01 01 00, 02 00 00 00 00 00, 24 01, 24 00, FF");
    held.same("clash", solved(&clash), ([0, 0, 1, 0, 2, 0, 0, 0], vec![1, 1], vec![1, 1], vec![]));
    held.same("clash 2, 0", judge_check(&clash, &[2, 0], &[1, 0, 0, 0]), [0, 0, 0, 0]);
    held.same("clash 0, 2", judge_check(&clash, &[0, 2], &[0, 0, 1, 0]), [0, 0, 0, 0]);
    held.same("clash 2, 2", judge_check(&clash, &[2, 2], &[1, 0, 1, 0]), [14, 0, 0, 0]);
    let mut strata = [7, 7];
    held.same("clash, ranking", judge_rank(&clash, &mut strata), [17, 0, 0]);
    held.same("clash, strata", strata, [7, 7]);

    let not_itself = hex("01 01 00, 02 00 00 00 00 00, 24 00, FF");
    held.same("not itself", solved(&not_itself).1, vec![1]);
    for (value, number) in [(0, 14), (1, 0), (2, 14)] {
        held.same("not itself, proposal", judge_check(&not_itself, &[value], &[1, 0])[0], number);
    }

    let or_itself = hex("01 01 00, 02 00 00 00 00 00, 23 00 00, FF");
    held.same("or of itself", solved(&or_itself).1, vec![0]);
    for level in 0..=255 {
        held.same("or of itself, proposal", judge_check(&or_itself, &[2], &[level, 0]), [15, 0, 0, 0]);
    }

    let union = hex("01 02 00, 02 00 00 00 01 00, 02 01 00 00 01 00, 10 00, 10 01, 12 00 01, 20, 27 01 02 00, 27 02 02 00, FF");
    held.same("union", solved(&union).1, digits("22 20 00"));

    let all = hex("01 03 00, 02 00 00 00 01 00, 10 05, 20, 26 00 00, FF");
    held.same("all over no fillers", solved(&all).1, digits("222 222"));

    held.same("empty input", judge_read(&[]), [3, 0, 0, 0, 0, 0, 0]);
    let empty = hex("01 00 00 FF");
    held.same("no nodes", judge_read(&empty), [0; 7]);
    held.same("no nodes, solved", solved(&empty).0, [0, 0, 1, 0, 0, 0, 0, 0]);
    held.same("no nodes, listing", listing(&empty), "rounds 1\ntargets\n");
    held.same("no nodes, a shape", listing(&hex("01 00 00, 20, FF")), "rounds 1\n0\ntargets\n");
    held.same("no shapes, ranking", judge_rank(&empty, &mut []), [0, 0, 0]);
    held.same("129 nodes", judge_read(&hex("01 81 00 FF")), refused(4, 0));
    held.same("128 nodes", judge_read(&hex("01 80 00 FF")), [0, 0, 128, 0, 0, 0, 0]);
    held.same("byte after FF", judge_read(&hex("01 00 00 FF 00")), refused(8, 4));
    held.same("least number 255", judge_read(&hex("01 00 00, 10 00, 20, 27 FF 00 00, FF")), [0, 0, 0, 0, 1, 2, 0]);
    held.same("least number 0", judge_read(&hex("01 00 00, 10 00, 20, 27 00 00 00, FF")), refused(7, 6));

    // the readings of open points
    held.same("cut count", judge_read(&hex("01 81")), refused(3, 0));
    held.same("second 01, cut", judge_read(&hex("01 00 00 01")), refused(2, 3));
    held.same("FF alone", judge_read(&hex("FF")), refused(2, 0));
    held.same("second FF", judge_read(&hex("01 00 00 FF FF")), refused(8, 4));
    held.same("FF missing", judge_read(&hex("01 00 00")), refused(3, 3));
    held.same("least 0 and a bad path", judge_read(&hex("01 00 00, 20, 27 00 00 00, FF")), refused(6, 4));
    held.same("8 before 9", judge_read(&hex("01 00 00, 24 01, FF 00")), refused(8, 6));
    held.same("9, a target", judge_read(&hex("01 01 00, 20, 24 01, 30 02 00 00, FF")), refused(9, 6));
    held.same("9, a shape first", judge_read(&hex("01 01 00, 20, 22 00 02, 30 02 00 00, FF")), refused(9, 4));
    held.same("a target's node, before 9", judge_read(&hex("01 01 00, 20, 22 00 02, 30 02 01 00, FF")), refused(5, 7));
    held.same("a node that only a 21 names", solved(&hex("01 02 00, 02 00 00 00 00 00, 21 01 00, FF")).1, vec![0, 2]);
}

// ---- Rules inside rules (document 02, point 2)

fn solved_parts(held: &mut Held) {
    let ring = hex(NESTED_RING);
    held.same("nested ring, read", judge_read(&ring), [0, 0, 4, 4, 2, 5, 2]);
    held.same("nested ring, listing", listing(&ring), "rounds 2\n0 2200\n1 0022\n2 2000\n3 2222\n4 0200\ntargets 20\n");
    let (answer, v, l, d) = solved(&ring);
    held.same("nested ring", answer, [0, 0, 2, 10, 0, 1, 0, 1]);
    held.same("nested ring, levels", l.clone(), levels("3500 0011 2000 1111 0400"));
    held.same("nested ring, verdicts", d, vec![2, 0]);
    held.same("nested ring, solved proposal", judge_check(&ring, &v, &level_bytes(&l)), [0, 0, 0, 1]);
    let proposed = (digits("2222 0000 2000 2222 0222"), level_bytes(&levels("3555 0000 2000 1111 0499")));
    held.same("nested ring, proposal", judge_check(&ring, &proposed.0, &proposed.1), [15, 2, 0, 0]);
    held.same("nested ring, values short", judge_solve(&ring, &mut [0; 19], &mut [0; 40], &mut [0; 2]), [10, 20, 0, 0, 0, 0, 0, 0]);
    held.same("nested ring, levels short", judge_solve(&ring, &mut [0; 20], &mut [0; 39], &mut [0; 2]), [11, 40, 0, 0, 0, 0, 0, 0]);
    held.same("nested ring, strata short", judge_rank(&ring, &mut [0; 4]), [16, 5, 0]);
    let mut strata = [7; 6];
    held.same("nested ring, ranking", judge_rank(&ring, &mut strata), [0, 0, 2]);
    held.same("nested ring, strata", strata, [0, 1, 0, 0, 0, 7]);

    let at_most = hex(AT_MOST);
    held.same("at most, read", judge_read(&at_most), [0, 0, 3, 2, 1, 12, 0]);
    held.same("at most", solved(&at_most).1, digits("022 222 022 222 200 222 000 222 200 222 000 222"));
    let mut strata = [7; 12];
    held.same("at most, ranking", judge_rank(&at_most, &mut strata), [0, 0, 2]);
    held.same("at most, strata", strata, [1, 1, 1, 1, 0, 0, 0, 0, 0, 0, 0, 0]);

    let fresh = hex(FRESH);
    held.same("fresh, read", judge_read(&fresh), [0, 0, 1, 1, 1, 9, 0]);
    held.same("fresh", solved(&fresh), ([0, 0, 3, 4, 0, 0, 0, 0], digits("020200022"), levels("010100011"), vec![]));
    let mut strata = [7; 9];
    held.same("fresh, ranking", judge_rank(&fresh, &mut strata), [0, 0, 3]);
    held.same("fresh, strata", strata, [2, 0, 1, 2, 1, 1, 1, 0, 0]);

    // a double not stays: two shapes that deny each other
    let double_not = hex("01 01 00, 28 24 24 29 00, FF");
    held.same("double not of itself", solved(&double_not), ([0, 0, 1, 0, 2, 0, 0, 0], vec![1, 1], vec![1, 1], vec![]));
    held.same("double not, 2, 0", judge_check(&double_not, &[2, 0], &[1, 0, 0, 0]), [0, 0, 0, 0]);
    held.same("double not, 0, 2", judge_check(&double_not, &[0, 2], &[0, 0, 1, 0]), [0, 0, 0, 0]);
    held.same("double not, ranking", judge_rank(&double_not, &mut [7, 7]), [17, 0, 0]);
    // a not of a fresh shape that comes back to itself: 17 is at the lowest on the walk
    held.same("denial through a fresh shape", judge_rank(&hex("01 01 00, 20, 28 23 20 24 29 01, FF"), &mut [7; 4]), [17, 1, 0]);

    // an outermost 29 is the or of that shape with itself
    let or_itself = hex("01 01 00, 28 29 00, FF");
    held.same("29 of itself", solved(&or_itself).1, vec![0]);
    held.same("29 of itself, proposal", judge_check(&or_itself, &[2], &[255, 255]), [15, 0, 0, 0]);
    let named = hex("01 01 00, 28 29 01, 28 29 02, 24 03, 21 00 00, FF");
    held.same("29 of 29 of a not", solved(&named).1, digits("0002"));
    let named = hex("01 01 00, 28 29 01, 28 29 02, 20, FF");
    held.same("29 of 29 of a top, levels", solved(&named).2, levels("321"));
}

fn refused_parts(held: &mut Held) {
    let mut read = |name: &str, text: &str, expected: [usize; 7]| held.same(name, judge_read(&hex(text)), expected);
    let shapes = |shapes: usize| [0, 0, 1, 0, 0, shapes, 0];

    read("28 alone", "01 01 00, 28", refused(3, 3));
    read("an inner part that is not there", "01 01 00, 28 22 20", refused(3, 3));
    read("a node operand cut", "01 01 00, 28 24 21 00", refused(3, 3));
    read("a named shape cut", "01 01 00, 28 24 29", refused(3, 3));
    read("the end in a part's place", "01 01 00, 28 24 FF", refused(1, 3));

    read("8 deep", "01 01 00, 28 24 24 24 24 24 24 24 20, FF", shapes(8));
    read("8 deep, a named shape", "01 01 00, 28 24 24 24 24 24 24 24 29 00, FF", shapes(7));
    read("8 deep, 2A a level", "01 01 00, 10 00, 28 2A 00 00 2A 00 00 2A 00 00 2A 00 00 2A 00 00 2A 00 00 2A 00 00 20, FF", [0, 0, 1, 0, 1, 15, 0]);
    read("8 deep, nothing there", "01 01 00, 28 24 24 24 24 24 24 24", refused(3, 3));
    read("9 deep", "01 01 00, 28 24 24 24 24 24 24 24 24 20, FF", refused(18, 3));
    read("9 deep, a named shape", "01 01 00, 28 24 24 24 24 24 24 24 24 29 00, FF", refused(18, 3));
    read("9 deep, no part's byte", "01 01 00, 28 24 24 24 24 24 24 24 24 28, FF", refused(18, 3));
    read("9 deep, nothing there", "01 01 00, 28 24 24 24 24 24 24 24 24", refused(18, 3));

    for byte in ["1F", "28", "2B", "30", "FF"] {
        read("no part's byte", &format!("01 01 00, 20, 28 {byte} 20, FF"), refused(1, 4));
        read("no inner part's byte", &format!("01 01 00, 20, 28 22 20 {byte} 20, FF"), refused(1, 4));
    }
    read("29 at command level", "01 01 00, 20, 29 00, FF", refused(1, 4));
    read("2A at command level", "01 01 00, 10 00, 20, 2A 00 00 20, FF", refused(1, 6));
    read("28 first", "28 20", refused(2, 0));
    read("28 after a target", "01 01 00, 20, 30 00 00 00, 28", refused(2, 8));
    read("28 after the end", "01 01 00, 28 20, FF 28", refused(8, 6));

    read("a part's node", "01 01 00, 28 24 21 01 00, FF", refused(5, 3));
    read("a part's path, nothing behind", "01 01 00, 28 26 00", refused(6, 3));
    read("a 27 with 0", "01 01 00, 10 00, 28 24 27 00 00 20, FF", refused(7, 5));
    read("a 27 with 0 and a wrong path", "01 01 00, 10 00, 28 27 00 01 20, FF", refused(6, 5));
    read("a 27 with 255", "01 01 00, 10 00, 28 27 FF 00 20, FF", [0, 0, 1, 0, 1, 2, 0]);
    read("a 2A with 255", "01 01 00, 10 00, 28 2A FF 00 20, FF", refused(7, 5));
    read("a 2A with 255 and a wrong path", "01 01 00, 10 00, 28 2A FF 01 20, FF", refused(6, 5));
    read("a 2A with 254", "01 01 00, 10 00, 28 2A FE 00 20, FF", [0, 0, 1, 0, 1, 3, 0]);
    read("5, then 6", "01 01 00, 28 22 21 01 00 26 00 20, FF", refused(5, 3));
    read("6, then 5", "01 01 00, 28 22 26 00 21 01 00, FF", refused(6, 3));
    read("18, then 1", "01 01 00, 28 22 24 24 24 24 24 24 24 20 FF, FF", refused(18, 3));

    read("a later shape named", "01 01 00, 28 24 29 01, 20, FF", shapes(2));
    read("a shape named that is not there", "01 01 00, 20, 28 24 29 02, FF", refused(9, 4));
    read("a fresh shape named in its 28", "01 01 00, 28 22 20 29 01, FF", refused(9, 3));
    read("a fresh shape named by an operand", "01 01 00, 28 24 20, 24 02, FF", refused(9, 6));
    read("a fresh shape named by a target", "01 01 00, 28 24 20, 30 01 00 00, FF", refused(9, 6));
    read("8 before 9, a 29", "01 01 00, 28 29 01, FF 00", refused(8, 7));

    let tops = |count: usize| "20 ".repeat(count);
    read("31 and 1", &format!("01 01 00, {} 28 20, FF", tops(31)), shapes(32));
    read("31 and a named shape", &format!("01 01 00, {} 28 29 00, FF", tops(31)), shapes(32));
    read("31 and 2", &format!("01 01 00, {} 28 24 20, FF", tops(31)), refused(19, 34));
    read("the 33rd written, a 28 with nothing behind it", &format!("01 01 00, {} 28", tops(32)), refused(4, 35));
    read("the 33rd written, a 28 with a fault", &format!("01 01 00, {} 28 FF", tops(32)), refused(4, 35));
    read("2 and 30", &format!("01 01 00, 28 24 20, {} FF", tops(30)), shapes(32));
    read("2 and 31", &format!("01 01 00, 28 24 20, {} FF", tops(31)), refused(19, 36));
    read("the 33rd with a fault", &format!("01 01 00, 28 24 20, {} 26 00 00, FF", tops(30)), refused(6, 36));
    read("the 33rd names a shape that is not there", &format!("01 01 00, 28 24 20, {} 24 FF, FF", tops(30)), refused(19, 36));

    // 4 levels of ands over 16 tops: 31 parts
    let many = "22 22 22 22 20 20 22 20 20 22 22 20 20 22 20 20 22 22 22 20 20 22 20 20 22 22 20 20 22 20 20";
    read("32 in one", &format!("01 01 00, 28 24 {many}, FF"), shapes(32));
    read("33 in one", &format!("01 01 00, 28 24 24 {many}, FF"), refused(19, 3));
    read("33 in one, the last at fault", &format!("01 01 00, 28 22 {many} 21 01 00, FF"), refused(5, 3));
    read("33 in one, then a fault", &format!("01 01 00, 28 24 22 {many} 21 01 00, FF"), refused(5, 3));
    read("33 in one, then the input's end", &format!("01 01 00, 28 24 22 {many}"), refused(3, 3));
    read("33 in one, then an unknown command", &format!("01 01 00, 28 22 {many} 20, 00"), refused(19, 3));
}

// ---- Parked edges (document 02, point 4)

fn solved_parks(held: &mut Held) {
    let ring = hex(PARKED_RING);
    held.same("parked ring, read", judge_read(&ring), [0, 0, 4, 5, 2, 5, 2]);
    held.same("parked ring, listing", listing(&ring), "rounds 2\n0 2222\n1 2000\n2 0000\n3 2000\n4 0222\ntargets 00\n");
    let (answer, v, l, d) = solved(&ring);
    held.same("parked ring", answer, [0, 0, 2, 9, 0, 0, 0, 2]);
    held.same("parked ring, levels", l.clone(), levels("1111 2000 0000 3000 0111"));
    held.same("parked ring, verdicts", d, vec![0, 0]);
    held.same("parked ring, solved proposal", judge_check(&ring, &v, &level_bytes(&l)), [0, 0, 0, 0]);
    // what solved the ring is no assignment of it any more
    let unparked = (digits("2222 2000 0200 2200 0022"), level_bytes(&levels("1111 2000 0400 3500 0011")));
    held.same("parked ring, the ring's solution", judge_check(&ring, &unparked.0, &unparked.1), [14, 9, 0, 0]);

    let parked = hex(PARKED);
    held.same("parked, read", judge_read(&parked), [0, 0, 2, 6, 5, 10, 0]);
    held.same("parked", solved(&parked).1, digits("22 00 00 20 22 02 22 20 00 22"));
    held.same("parked, without its parked edge", solved(&without_parked(&parked)).1, digits("22 00 00 20 22 02 22 20 00 22"));
    held.same("parked one way of two", solved(&hex("01 02 00, 02 00 00 00 01 00, 02 00 01 00 00 00, 03 00 00 00 01 00, 10 00, 20, 27 01 00 00, FF")).1, digits("22 02"));
    held.same("parked, without its parks", solved(&without_parks(&parked)).1, digits("22 20 02 20 02 22 00 20 20 22"));
}

fn refused_parks(held: &mut Held) {
    let mut read = |name: &str, text: &str, expected: [usize; 7]| held.same(name, judge_read(&hex(text)), expected);
    let edges = |edges: usize| [0, 0, 2, edges, 0, 0, 0];

    read("parked once", "01 02 00, 02 00 00 00 01 00, 03 00 00 00 01 00, FF", edges(2));
    read("parked twice", "01 02 00, 02 00 00 00 01 00, 03 00 00 00 01 00, 03 00 00 00 01 00, FF", edges(3));
    read("parked and laid again", "01 02 00, 02 00 00 00 01 00, 03 00 00 00 01 00, 02 00 00 00 01 00, FF", edges(3));
    read("parked, after another edge", "01 02 00, 02 00 00 00 01 00, 02 00 00 00 00 00, 03 00 00 00 01 00, FF", edges(3));

    read("no edges", "01 02 00, 03 00 00 00 01 00, FF", refused(20, 3));
    read("parked before it is laid", "01 02 00, 03 00 00 00 01 00, 02 00 00 00 01 00, FF", refused(20, 3));
    read("another property", "01 02 00, 02 00 00 00 01 00, 03 01 00 00 01 00, FF", refused(20, 9));
    read("another subject", "01 02 00, 02 00 00 00 01 00, 03 00 01 00 01 00, FF", refused(20, 9));
    read("another object", "01 02 00, 02 00 00 00 01 00, 03 00 00 00 00 00, FF", refused(20, 9));
    read("ends changed round", "01 02 00, 02 00 00 00 01 00, 03 00 01 00 00 00, FF", refused(20, 9));
    read("a subject that is no node", "01 02 00, 02 00 00 00 01 00, 03 00 02 00 01 00, FF", refused(5, 9));
    read("an object that is no node", "01 02 00, 02 00 00 00 01 00, 03 00 00 00 01 01, FF", refused(5, 9));
    read("no edge and no node", "01 00 00, 03 00 00 00 00 00, FF", refused(5, 3));
    read("a park cut", "01 02 00, 02 00 00 00 01 00, 03 00 00 00 01", refused(3, 9));
    read("03 alone", "01 02 00, 03", refused(3, 3));
    read("03 first", "03 00 00 00 00 00", refused(2, 0));
    read("03 after a path", "01 02 00, 02 00 00 00 01 00, 10 00, 03", refused(2, 11));
    read("20, then an unknown command", "01 02 00, 03 00 00 00 01 00, 00", refused(20, 3));
    read("20 before 8 and 9", "01 02 00, 03 00 00 00 01 00, 24 01, FF 00", refused(20, 3));

    let (laid, parked) = ("02 00 00 00 01 00, ", "03 00 00 00 01 00, ");
    let mut many = |name: &str, parks: usize, last: &str, expected: [usize; 7]| read(name, &format!("01 02 00, {laid} {} {last}", parked.repeat(parks)), expected);
    many("1,023 with parks", 1022, "FF", edges(1023));
    many("1,024 with parks", 1023, "FF", edges(1024));
    many("1,025 with parks", 1024, "FF", refused(4, 6147));
    many("the 1,025th laid", 1023, "02 00 00 00 01 00, FF", refused(4, 6147));
    many("the 1,025th no edge", 1023, "03 00 01 00 00 00, FF", refused(4, 6147));
    many("the 1,025th no node", 1023, "03 00 02 00 00 00, FF", refused(4, 6147));
    many("the 1,025th cut", 1023, "03 00 00 00 01", refused(3, 6147));
    many("the 1,024th no edge", 1022, "03 00 01 00 00 00, FF", refused(20, 6141));
}

// ---- Totals by fitting (document 02, point 5)

fn totals(held: &mut Held) {
    let mut of = |name: &str, text: &str, node: usize, expected: [usize; 4]| held.same(name, judge_node_totals(&hex(text), node), expected);
    for (node, valid) in [3, 3, 2, 2].into_iter().enumerate() {
        of("ring, totals", RING, node, [0, 0, valid, 0]);
        of("nested ring, totals", NESTED_RING, node, [0, 0, valid, 0]);
    }
    for none in [4, 5, 256, 1 << 16, 1 << 32, usize::MAX] {
        of("ring, no node", RING, none, [5, none, 0, 0]);
    }
    let clash = "01 01 00, 02 00 00 00 00 00, 24 01, 24 00, FF";
    of("clash, totals", clash, 0, [0, 0, 0, 2]);
    of("a top and a not of itself", "01 02 00, 20, 24 01, FF", 1, [0, 0, 1, 1]);
    of("no shapes, totals", "01 02 00, FF", 1, [0, 0, 0, 0]);
    of("no nodes, totals", "01 00 00, 20, FF", 0, [5, 0, 0, 0]);
    of("empty input, totals", "", 0, [3, 0, 0, 0]);
    of("empty input, no node", "", 7, [3, 0, 0, 0]);
    of("reading's 5 first", "01 01 00, 20, 30 00 01 00, FF", 7, [5, 4, 0, 0]);
    of("8 before 5", "01 01 00, FF 00", 1, [8, 4, 0, 0]);
    of("9 before 5", "01 01 00, 24 01, FF", 1, [9, 3, 0, 0]);
}

// ---- Cabinets under the old code (document 02, point 6)

fn old_code(held: &mut Held) {
    let ring = hex(RING);
    let vouched = digits(VOUCHED);
    held.same("ring, old code", judge_check_supported(&ring, &vouched), [0, 0, 0, 2, 1]);
    held.same("ring solved, old code", judge_check_supported(&ring, &solved(&ring).1), [0, 0, 0, 1, 1]);
    // the newer code takes it with no levels, few or many of them equal
    let r = &mut Random(1);
    for most in (1..=256).cycle().take(2000) {
        let levels: Vec<u8> = (0..40).map(|_| r.below(most) as u8).collect();
        held.same("ring, newer code", judge_check(&ring, &vouched, &levels)[0], 15);
    }
    let mut of = |name: &str, text: &str, values: &[u8], expected: [usize; 5]| held.same(name, judge_check_supported(&hex(text), values), expected);
    of("nested ring, old code", NESTED_RING, &digits("2222 0000 2000 2222 0222"), [0, 0, 0, 2, 1]);
    of("parked ring, the ring's", PARKED_RING, &vouched, [14, 9, 0, 0, 1]);
    of("parked ring, old code", PARKED_RING, &digits("2222 2000 0022 2022 0200"), [0, 0, 0, 1, 1]);

    let or_itself = "01 01 00, 23 00 00, 30 00 00 00, FF";
    for (value, undetermined, valid) in [(0, 0, 0), (1, 1, 0), (2, 0, 1)] {
        of("or of itself, old code", or_itself, &[value, 255], [0, 0, undetermined, valid, 1]);
    }
    for (value, number) in [(0, 14), (1, 0), (2, 14)] {
        of("not itself, old code", "01 01 00, 24 00, FF", &[value], [number, 0, (number == 0) as usize, 0, 1]);
    }
    of("values short, old code", RING, &[3; 19], [10, 20, 0, 0, 1]);
    of("13 before an earlier 14", RING, &[vec![0; 19], vec![3]].concat(), [13, 19, 0, 0, 1]);
    of("14, a byte behind the pairs", RING, &[vec![0; 20], vec![3]].concat(), [14, 0, 0, 0, 1]);
    of("no pairs, old code", "01 00 00, 20, FF", &[], [0, 0, 0, 0, 1]);
    of("empty input, old code", "", &[], [3, 0, 0, 0, 1]);
    of("9 before 10, old code", "01 01 00, 24 01, FF", &[], [9, 3, 0, 0, 1]);
}

// ---- Answers before the end (document 02, point 7)

/// The replies for so many pairs, and the refusal of the next.
fn replies(held: &mut Held, name: &str, state: &Unfinished, text: &str) {
    let expected = digits(text);
    for (pair, reply) in expected.iter().enumerate() {
        held.same(name, judge_ask(state, pair), [0, 0, *reply as usize]);
    }
    for none in [expected.len(), expected.len() + 1, 4096, 1 << 16, 1 << 32, usize::MAX] {
        held.same(name, judge_ask(state, none), [21, none, 0]);
    }
}

/// The replies before the first round and after each; the last is told as the end, and one more alters nothing.
fn course(held: &mut Held, name: &str, text: &str, expected: &[&str]) {
    let mut state = judge_begin(&hex(text)).unfinished;
    replies(held, name, &state, expected[0]);
    for (round, text) in expected.iter().enumerate().skip(1) {
        let advanced = judge_advance(&state);
        held.same(name, advanced.over, (round == expected.len() - 1) as usize);
        state = advanced.unfinished;
        replies(held, name, &state, text);
    }
    let more = judge_advance(&state);
    held.same(name, (more.over, more.unfinished == state), (1, true));
}

fn unfinished(held: &mut Held) {
    held.same("ring, begun", judge_begin(&hex(RING)).answer, [0, 0, 4, 4, 2, 5, 2]);
    course(held, "ring, replies", RING, &["3333 3333 3333 3333 3333", "2222 2000 0200 2200 3322", "2222 2000 0200 2200 0022"]);
    course(held, "nots of nots, replies", "01 01 00, 20, 24 00, 24 01, 24 02, FF", &["3333", "2333", "2023", "2020"]);
    course(held, "a top, a not of itself, an or of itself, replies", "01 01 00, 20, 24 01, 23 02 02, FF", &["333", "230", "210"]);
    course(held, "clash, replies", "01 01 00, 24 01, 24 00, FF", &["33", "11"]);
    course(held, "no shapes, replies", "01 02 00, FF", &["", ""]);
    course(held, "a refused beginning, replies", "01 01 00, 20, FF 00", &["", ""]);

    let refused_one = judge_begin(&hex("01 01 00, 20, FF 00"));
    held.same("a refused beginning", refused_one.answer, refused(8, 5));
    held.same("what a refused beginning holds", refused_one.unfinished.copy(), &NOTHING[..]);
    held.same("a refused beginning and that of what it holds", refused_one.unfinished == judge_begin(&NOTHING).unfinished, true);
    held.same("empty input, begun", judge_begin(&[]).answer, refused(3, 0));
}

// ---- Long roads (document 02, point 8)

fn refused_profiles(held: &mut Held) {
    let mut read = |name: &str, text: &str, expected: [usize; 7]| held.same(name, judge_read(&hex(text)), expected);
    let nodes = |nodes: usize| [0, 0, nodes, 0, 0, 0, 0];
    let shapes = |shapes: usize| [0, 0, 1, 0, 0, shapes, 0];

    read("00 alone", "00", refused(3, 0));
    read("00 00 alone", "00 00", refused(3, 2));
    read("00 03 alone", "00 03", refused(22, 0));
    read("an unknown profile, then a case", "00 03, 01 00 00, FF", refused(22, 0));
    read("profile 255", "00 FF", refused(22, 0));
    read("a second 00", "00 00 00 00", refused(2, 2));
    read("a second 00, cut", "00 00 00", refused(2, 2));
    read("a second 00, unknown", "00 01 00 03", refused(2, 2));
    read("a second 00, then a case", "00 00, 00 00, 01 00 00, FF", refused(2, 2));
    read("an edge straight after a 00", "00 00, 02 00 00 00 00 00", refused(2, 2));
    read("the end straight after a 00", "00 02, FF", refused(2, 2));
    read("an unknown command after a 00", "00 02, 04", refused(1, 2));
    read("01 cut after a 00", "00 02, 01 00", refused(3, 2));
    read("a second 01 after a 00", "00 02, 01 00 00, 01 00 00, FF", refused(2, 5));
    for (behind, at) in [("", 3), ("02 00 00 00 00 00", 9), ("10 00", 5), ("20", 4), ("20, 30 00 00 00", 8)] {
        read("00 after 01", &format!("01 01 00, {behind} 00 00, FF"), refused(2, at));
        read("00 after 01, cut", &format!("01 01 00, {behind} 00"), refused(2, at));
        read("00 after 00 and 01", &format!("00 00, 01 01 00, {behind} 00 00, FF"), refused(2, at + 2));
    }
    read("00 after the end", "01 00 00, FF, 00 00", refused(8, 4));
    read("no 00 among parts", "00 02, 01 01 00, 28 00 20, FF", refused(1, 5));

    for (profile, most) in [("00 00", 128), ("00 01", 256), ("00 02", 512)] {
        let with = |n: usize| format!("{profile}, 01 {:02X} {:02X}, FF", n % 256, n / 256);
        read("one node below the most", &with(most - 1), nodes(most - 1));
        read("the most nodes", &with(most), nodes(most));
        read("one node above the most", &with(most + 1), refused(4, 2));
        read("the last node", &format!("{profile}, 01 {:02X} {:02X}, 20, 30 00 {:02X} {:02X}, FF", most % 256, most / 256, (most - 1) % 256, (most - 1) / 256), [0, 0, most, 0, 0, 1, 1]);
        read("the node behind it", &format!("{profile}, 01 {:02X} {:02X}, 20, 30 00 {:02X} {:02X}, FF", most % 256, most / 256, most % 256, most / 256), refused(5, 6));
    }
    let tops = |count: usize| "20 ".repeat(count);
    for (profile, most) in [("00 00", 32), ("00 01", 16), ("00 02", 8)] {
        let mut with = |name: &str, written: String, expected: [usize; 7]| read(name, &format!("{profile}, 01 01 00, {written} FF"), expected);
        with("one shape below the most", tops(most - 1), shapes(most - 1));
        with("the most shapes", tops(most), shapes(most));
        with("one shape above the most", tops(most + 1), refused(4, 5 + most));
        with("the most shapes, one fresh", format!("{} 28 24 20,", tops(most - 2)), shapes(most));
        with("one above, fresh", format!("{} 28 24 20,", tops(most - 1)), refused(19, 4 + most));
        with("one above, written after a fresh one", format!("28 24 20, {}", tops(most - 1)), refused(19, 6 + most));
        with("one above, a 28 with nothing behind it", format!("{} 28", tops(most)), refused(4, 5 + most));
    }
    read("8 in one", "00 02, 01 01 00, 28 24 24 24 24 24 24 24 20, FF", shapes(8));
    read("9 in one", "00 02, 01 01 00, 28 22 20 24 24 24 24 24 24 20, FF", refused(19, 5));
    read("9 in one under profile 1", "00 01, 01 01 00, 28 22 20 24 24 24 24 24 24 20, FF", shapes(9));
}

fn roads(held: &mut Held) {
    let road = hex(ROAD);
    held.same("road, read", judge_read(&road), [0, 0, 512, 2, 2, 7, 2]);
    let at = |nodes: &[usize]| (0..512).map(|node| 2 * nodes.contains(&node) as u8).collect::<Vec<u8>>();
    let all: Vec<usize> = (0..512).collect();
    let others: Vec<usize> = (1..511).filter(|node| *node != 300).collect();
    let expected = [at(&all), at(&[300, 511]), at(&[0, 300, 511]), at(&others), at(&[511]), at(&[0]), at(&[300, 511])].concat();
    let (answer, v, l, d) = solved(&road);
    held.same("road", answer, [0, 0, 2, 1030, 0, 1, 0, 1]);
    held.same("road, values", v.clone(), expected);
    held.same("road, verdicts", d, vec![2, 0]);
    let level = |shape: usize, node: usize| l[512 * shape + node];
    held.same("road, levels", [level(0, 0), level(1, 511), level(2, 0), level(2, 300), level(2, 511), level(3, 510), level(4, 511), level(5, 0), level(6, 511)], [1, 2, 2, 4, 6, 1, 2, 1, 5]);
    held.same("road, solved proposal", judge_check(&road, &v, &level_bytes(&l)), [0, 0, 0, 1]);
    held.same("road, old code", judge_check_supported(&road, &v), [0, 0, 0, 1, 1]);
    held.same("road, values short", judge_solve(&road, &mut [0; 3583], &mut [0; 7168], &mut [0; 2]), [10, 3584, 0, 0, 0, 0, 0, 0]);
    for (node, valid) in [(0, 3), (1, 2), (300, 4), (510, 2), (511, 5)] {
        held.same("road, totals", judge_node_totals(&road, node), [0, 0, valid, 0]);
    }
    held.same("road, no node", judge_node_totals(&road, 512), [5, 512, 0, 0]);
    let begun = judge_begin(&road);
    held.same("road, begun", (begun.answer, begun.unfinished.copy() == &road[..]), ([0, 0, 512, 2, 2, 7, 2], true));
    let unknown = judge_begin(&hex("00 03, 01 00 00, FF"));
    held.same("an unknown profile, begun", (unknown.answer, unknown.unfinished.copy() == &NOTHING[..]), (refused(22, 0), true));
    // the ring under each profile is solved as it is without one
    for profile in ["00 00", "00 01", "00 02"] {
        let ring = hex(&format!("{profile}, {RING}"));
        held.same("ring of a profile, read", judge_read(&ring), [0, 0, 4, 4, 2, 5, 2]);
        held.same("ring of a profile", solved(&ring), solved(&hex(RING)));
    }
}

// ---- Links to add (document 02, point 10)

fn found_links(held: &mut Held) {
    let mut of = |name: &str, text: &str, target: usize, list: &str, expected: [usize; 3]| held.same(name, judge_fewest_edges(&hex(text), target, &hex(list)), expected);
    let none = [25, 0, 0];
    let found = |selection: usize| [0, 0, selection];

    // fitting 2 is linked once it, or 3, relays to 1 or to the gateway, or has a gateway's own edge
    of("ring, sure already", RING, 0, "", found(0));
    of("ring, sure already, a candidate", RING, 0, "00 02 00 01 00", found(0));
    of("ring, no candidates", RING, 1, "", none);
    of("ring, one link", RING, 1, "00 03 00 01 00", found(1));
    of("ring, the other way", RING, 1, "00 01 00 03 00", none);
    of("ring, another property", RING, 1, "02 03 00 01 00", none);
    of("ring, an edge that is there", RING, 1, "00 02 00 03 00", none);
    of("ring, as few", RING, 1, "00 03 00 01 00, 00 02 00 01 00", found(1));
    of("ring, behind others", RING, 1, "00 01 00 02 00, 00 02 00 03 00, 00 02 00 01 00, 01 02 00 02 00", found(4));
    of("ring, the twelfth", RING, 1, &format!("{} 00 02 00 01 00", "00 01 00 03 00, ".repeat(11)), found(2048));
    of("nested ring, one link", NESTED_RING, 1, "00 01 00 02 00, 00 03 00 01 00", found(2));

    // the relay of 1 is parked, and so two links are missing
    of("parked ring, the parked one", PARKED_RING, 0, "00 01 00 00 00", found(1));
    of("parked ring, one of two", PARKED_RING, 1, "00 03 00 01 00", none);
    of("parked ring, both", PARKED_RING, 1, "00 01 00 00 00, 00 03 00 01 00", found(3));
    of("parked ring, equal ones", PARKED_RING, 1, "00 01 00 00 00, 00 01 00 00 00, 00 03 00 01 00", found(5));
    of("parked ring, fewer with a larger number", PARKED_RING, 1, "00 01 00 00 00, 00 03 00 01 00, 00 02 00 00 00", found(4));
    of("parked twice and laid again", "01 02 00, 02 00 00 00 01 00, 03 00 00 00 01 00, 03 00 00 00 01 00, 02 00 00 00 01 00, 10 00, 20, 27 01 00 00, 30 01 00 00, FF", 0, "00 00 00 01 00", found(1));

    // at least one on that is node 1, and all on are: another one on spoils it
    let spoilt = "10 00, 21 01 00, 26 00 00, 27 01 00 00, 22 01 02, 30 03 00 00, FF";
    of("one of two alone", &format!("01 03 00, {spoilt}"), 0, "00 00 00 02 00, 00 00 00 01 00", found(2));
    of("spoilt already", &format!("01 03 00, 02 00 00 00 02 00, {spoilt}"), 0, "00 00 00 02 00, 00 00 00 01 00", none);
    of("a not, sure without the link", "01 02 00, 10 00, 20, 27 01 00 00, 24 01, 30 02 00 00, FF", 0, "00 00 00 01 00", found(0));

    // open is not sure: who can move to a loser wins
    let game = "01 02 00, 02 00 00 00 00 00, 10 00, 27 01 00 01, 24 00, 30 00 00 00, FF";
    of("open", game, 0, "", none);
    of("open until it can move to a loser", game, 0, "00 01 00 01 00, 00 00 00 01 00", found(2));

    let gaps = format!("01 0D 00, 10 00, 21 00 00, 23 00 02, 27 01 00 01, {} FF", (0..13).map(|node| format!("30 01 {node:02X} 00, ")).collect::<String>());
    let relays = |count: usize| (1..=count).map(|node| format!("00 {node:02X} 00 {:02X} 00, ", node - 1)).collect::<String>();
    for count in [1, 2, 11, 12] {
        of("all of them", &gaps, count, &relays(count), found((1 << count) - 1));
        of("one too few", &gaps, count, &relays(count - 1), none);
    }
    of("five of twelve", &gaps, 5, &relays(12), found(31));

    let crowded = format!("01 02 00, {} 10 00, 20, 27 01 00 00, 30 01 00 00, FF", "02 07 00 00 01 00, ".repeat(1024));
    of("beside 1,024 edges", &crowded, 0, &format!("{} 00 00 00 00 00", "07 00 00 00 00, ".repeat(11)), found(2048));
    of("a road", ROAD, 1, "00 FE 00 FF 01, 00 FE 01 FF 00, 00 FE 01 2C 01", found(4));
}

fn refused_links(held: &mut Held) {
    let mut of = |name: &str, text: &str, target: usize, list: &[u8], expected: [usize; 3]| held.same(name, judge_fewest_edges(&hex(text), target, list), expected);
    let relay = hex("00 03 00 01 00");
    for (length, number) in [(0, 25), (1, 23), (4, 23), (5, 0), (6, 23), (55, 0), (59, 23), (60, 0), (61, 23), (64, 23), (65, 23), (120, 23)] {
        let place = if number == 23 { length } else { 0 };
        of("a list's length", RING, 1, &relay.repeat(24)[..length], [number, place, (number == 0) as usize]);
        of("a list's length, no target", RING, 2, &relay.repeat(24)[..length], if number == 23 { [23, length, 0] } else { [24, 0, 0] });
    }
    for none in [2, 3, 255, 256, 1 << 16, 1 << 32, usize::MAX] {
        of("no target", RING, none, &relay, [24, 0, 0]);
    }
    of("no targets", "01 04 00, 20, FF", 0, &relay, [24, 0, 0]);
    of("no nodes", "01 00 00, FF", 0, &relay, [24, 0, 0]);
    for (list, place) in [("00 04 00 01 00", 1), ("00 03 00 04 00", 1), ("00 03 01 01 00", 1), ("00 03 00 01 00, 00 03 00 01 01", 2), ("00 03 00 01 00, 00 FF FF FF FF, 00 04 00 04 00", 2)] {
        of("an unknown node", RING, 1, &hex(list), [24, place, 0]);
        of("an unknown node, sure already", RING, 0, &hex(list), [24, place, 0]);
        of("an unknown node, no target", RING, 2, &hex(list), [24, 0, 0]);
        of("an unknown node and a rest", RING, 1, &[hex(list), vec![0]].concat(), [23, hex(list).len() + 1, 0]);
    }
    of("the twelfth unknown", RING, 1, &[relay.repeat(11), hex("00 00 00 04 00")].concat(), [24, 12, 0]);
    of("node 512 of a road", ROAD, 1, &hex("00 FE 01 00 02"), [24, 1, 0]);
    of("empty input, links", "", 7, &[0; 61], [3, 0, 0]);
    of("8 before 23", "01 00 00, FF 00", 7, &[0; 61], [8, 4, 0]);
    of("9 before 24", "01 01 00, 24 01, FF", 7, &relay, [9, 3, 0]);
}
