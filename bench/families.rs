//! The families of cases that are measured, which of them the command line asks for, and the times of repeated calls.

#[path = "pieces.rs"]
pub mod pieces;

use crate::generator::*;
use pieces::{built, fused, heavy, ladder, light, open_from_one, read, vain, watchers, Plan};
use std::time::{Duration, Instant};

const FAMILIES: [&str; 33] = [
    "random", "positive chain", "denial chain", "both chains", "open chain", "open beside denials", "open after denials",
    "open after few denials", "open from one, forward", "open from one, reversed", "light readers, forward", "light readers, reversed", "heavy readers, forward", "heavy readers, reversed", "vain readers, reversed", "fused, forward", "fused, reversed", "watchers", "ladders, forward", "ladders, reversed", WORST,
    "dense, star", "deep paths",
    "feeder, chain", "feeder, ring", "feeder, tree", "feeder, stars in stars", "feeder, star of a sequence", "feeder, sequences of a star", "feeder, 7 paths", "feeder, 8 paths", "feeder, 16 paths", "parks of the last edge",
];

/// What bench/search has stored.
const WORST: &str = "worst found";

/// How many cases a family has at one size. What paths it draws decides how long a case takes.
fn seeds(name: &str) -> u64 {
    if matches!(name, "random" | "deep paths") { 3 } else { 1 }
}

/// A case of a family. Up to 128 nodes it has no 00, so that a library which knows of none reads it too.
/// What fills the shapes has as many as its profile lets in: 32 up to 128 nodes, 16 up to 256, 8 up to 512. So the positive chain has 31, 15 and 7, and two chains beside each other have 17 and 15, 9 and 7, 5 and 3: the pairs, and with them the longest walks, are about as many at 128, 256 and 512 nodes. A feeder has seven shapes at every size.
pub fn family(name: &str, n: usize, seed: u64) -> Vec<u8> {
    let r = &mut Random(seed);
    let shapes = most_shapes(n);
    let (more, less) = (shapes / 2 + 1, shapes / 2 - 1);
    bytes(&match name {
        "random" => {
            // up to 128 nodes eight edges a node, then the most that there can be
            let edges = (8 * n).min(1024);
            let profile = PROFILES.iter().position(|(most, _)| n <= *most).filter(|number| *number > 0);
            let size = Size { profile, nodes: n, edges, shapes, order: Order::Any, layout: Layout::Scattered, nots: 3, grounds: 3, ..full(r) };
            random_case(r, &size)
        }
        "positive chain" => positive_chain(n, shapes - 1),
        "denial chain" => denial_chain(n, shapes),
        "both chains" => both_chains(n, more, less),
        "open chain" => open_chain(n, less, more),
        "open beside denials" => open_beside_denials(n, more, less),
        "open after denials" | "open after few denials" if shapes == 8 => open_after_denials_in_eight(n),
        "open after denials" => open_after_denials(n, more, less),
        "open after few denials" => open_after_denials(n, shapes - 3, 3),
        "dense, star" => dense_star(r, n),
        "feeder, chain" => feeder(n, Feeder::Chain, STAR),
        "feeder, ring" => feeder(n, Feeder::Ring, STAR),
        "feeder, tree" => feeder(n, Feeder::Tree, STAR),
        "feeder, stars in stars" => feeder(n, Feeder::Chain, STARS_IN_STARS),
        "feeder, star of a sequence" => feeder(n, Feeder::Ring, STAR_OF_SEQUENCE),
        // a star over all nodes, and each later path its forerunner twice: every row of every path is full
        "feeder, sequences of a star" => feeder_over(n, Feeder::Ring, (2..16).map(|i| if i == 2 { vec![0x14, 0] } else { vec![0x13, i - 1, i - 1] })),
        "feeder, 7 paths" => feeder_of_steps(n, 7),
        "feeder, 8 paths" => feeder_of_steps(n, 8),
        "feeder, 16 paths" => feeder_of_steps(n, 16),
        "parks of the last edge" => parked_last(n),
        _ => deep_paths(r, n, &[0x13, 0x13, 0x14]),
    })
}

/// The plan of a family that is built from pieces. Forward, the chain walks along ascending nodes and is numbered before what reads it; reversed, it walks along descending nodes, and all shapes are numbered the other way round.
pub fn plan(name: &str, n: usize) -> Option<Plan> {
    Some(match name {
        "open from one, forward" => open_from_one(n, true),
        "open from one, reversed" => open_from_one(n, false).reversed(),
        "light readers, forward" => read(n, true, &light(true)),
        "light readers, reversed" => read(n, false, &light(false)).reversed(),
        "heavy readers, forward" => read(n, true, &heavy(n, true)),
        "heavy readers, reversed" => read(n, false, &heavy(n, false)).reversed(),
        "vain readers, reversed" => read(n, false, &vain(false)).reversed(),
        "fused, forward" => fused(n, true),
        "fused, reversed" => fused(n, false).reversed(),
        "watchers" => watchers(n),
        "ladders, forward" => ladder(n, false),
        "ladders, reversed" => ladder(n, true).reversed(),
        _ => return None,
    })
}

/// Open after denials as it fits into eight shapes: five for the open chain and three for the denials, the open chain starting from the denials alone, since a start at node 0 beside them takes two shapes more. All but the shapes is that of any case with eight over the same ring.
fn open_after_denials_in_eight(n: usize) -> Commands {
    let mut commands = denial_chain(n, 8);
    let first = commands.iter().position(|command| command[0] >= 0x20).expect("shapes");
    let shapes = [vec![0x24, 0], vec![0x22, 5, 0], vec![0x23, 1, 3], vec![0x27, 1, 2, 4], vec![0x27, 1, 2, 2], vec![0x24, 6], vec![0x24, 7], vec![0x27, 1, 0, 5]];
    commands.splice(first..first + 8, shapes);
    commands
}

/// A chain whose paths, so many with the two that every feeder has, lead one step further each: all are worked out, whichever a shape names. At 129 nodes the sets of seven still fit the table of 4,104 words, those of eight do not.
fn feeder_of_steps(n: usize, paths: u8) -> Commands {
    feeder_over(n, Feeder::Chain, (2..paths).map(|i| vec![0x13, if i == 2 { 0 } else { i - 1 }, 0]))
}

/// A feeder with paths that are made on the way.
fn feeder_over(n: usize, kind: Feeder, paths: impl Iterator<Item = Vec<u8>>) -> Commands {
    let paths: Vec<Vec<u8>> = paths.collect();
    feeder(n, kind, &paths.iter().map(Vec::as_slice).collect::<Vec<_>>())
}

// ---- The command line

/// What stands behind a word.
pub fn word<'a>(words: &'a [String], name: &str) -> Option<&'a str> {
    words.iter().position(|w| w == name).and_then(|i| words.get(i + 1)).map(String::as_str)
}

/// The names of the families to be measured: those that hold the word behind --only, or all.
pub fn names(words: &[String]) -> Vec<&'static str> {
    let part = word(words, "--only").unwrap_or("");
    FAMILIES.into_iter().filter(|name| name.contains(part)).collect()
}

/// Those that were built against the solver, and the worst found.
#[allow(dead_code)]
pub fn slow() -> impl Iterator<Item = &'static str> {
    FAMILIES.into_iter().filter(|name| *name == WORST || plan(name, 128).is_some())
}

/// The sizes, in nodes.
pub fn sizes(words: &[String]) -> Vec<usize> {
    let sizes = word(words, "--nodes").unwrap_or("16,32,64,128,256,512");
    sizes.split(',').map(|n| n.parse().expect("--nodes 16,32")).collect()
}

/// The cases of a family at a size. Where no search has been, there is no worst one.
pub fn cases(name: &str, n: usize) -> Vec<Vec<u8>> {
    if name == WORST {
        return stored(n).into_iter().collect();
    }
    match plan(name, n) {
        Some(plan) => vec![built(&plan).expect("a plan within the limits")],
        None => (1..=seeds(name)).map(|seed| family(name, n, seed)).collect(),
    }
}

/// The file of the worst case that a search has found: its bytes in hexadecimal, with '#' comments, as scripts/bytes reads it.
pub fn worst_file(n: usize) -> String {
    format!("bench/worst-{n}.txt")
}

/// That case, if there is one.
pub fn stored(n: usize) -> Option<Vec<u8>> {
    let text = std::fs::read_to_string(worst_file(n)).ok()?;
    let digits = text.lines().map(|line| line.split('#').next().unwrap_or("")).flat_map(str::split_whitespace);
    Some(digits.map(|byte| u8::from_str_radix(byte, 16).expect("a byte in hexadecimal")).collect())
}

// ---- Times

extern "C" {
    fn clock_gettime(clock: i32, time: *mut [i64; 2]) -> i32;
}

/// How long a clock of the system has counted, in seconds.
pub fn clock(which: i32) -> f64 {
    let mut time = [0; 2];
    assert_eq!(unsafe { clock_gettime(which, &mut time) }, 0);
    time[0] as f64 + time[1] as f64 * 1e-9
}

/// Times of repeated calls by a clock, in seconds, in ascending order: at least five, and more until a tenth of a second has passed. Short calls are timed several at once, so that reading the clock does not count.
pub fn times(which: i32, mut call: impl FnMut()) -> Vec<f64> {
    let mut timed = |calls: usize| {
        let start = clock(which);
        (0..calls).for_each(|_| call());
        (clock(which) - start) / calls as f64
    };
    let at_once = (20e-6 / timed(1)).ceil().clamp(1.0, 100.0) as usize;
    let (start, mut times) = (Instant::now(), Vec::new());
    while times.len() < 5 || (start.elapsed() < Duration::from_millis(100) && times.len() < 2000) {
        times.push(timed(at_once));
        if times[times.len() - 1] > 3.0 {
            break;
        }
    }
    times.sort_by(f64::total_cmp);
    times
}

pub fn time(seconds: f64) -> String {
    match seconds {
        s if s < 1e-3 => format!("{:.1} µs", s * 1e6),
        s if s < 1.0 => format!("{:.2} ms", s * 1e3),
        s => format!("{s:.2} s"),
    }
}
