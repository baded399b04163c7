//! Times of each call with two libraries in one run, by turns: the least of many calls with each, and the second's in parts of the first's.
//! Prints a Markdown table. The libraries are shared ones, loaded side by side. Where the first does not read a case, as one that knows no 00 does not above 128 nodes, or has no such call, there is nothing to compare.

#[allow(dead_code)]
#[path = "../tests/differential/generator.rs"]
mod generator;
mod families;

use families::*;
use std::ffi::{c_char, c_int, c_void, CString};

extern "C" {
    fn dlopen(name: *const c_char, flags: c_int) -> *mut c_void;
    fn dlsym(library: *mut c_void, name: *const c_char) -> *mut c_void;
}

#[repr(C)]
#[derive(Clone, Copy)]
struct Answer<const N: usize>([usize; N]);

/// A solve that may be unfinished (judge.h): so many words, which nothing here looks into.
const STATE: usize = (8192 + 4096) / 8 + 3;
type State = Answer<STATE>;

#[repr(C)]
struct With<const N: usize>(Answer<N>, State);

struct Library {
    read: unsafe extern "C" fn(*const u8, usize) -> Answer<7>,
    rank: unsafe extern "C" fn(*const u8, usize, *mut u8, usize) -> Answer<3>,
    check: unsafe extern "C" fn(*const u8, usize, *const u8, usize, *const u8, usize) -> Answer<4>,
    solve: unsafe extern "C" fn(*const u8, usize, *mut u8, usize, *mut u8, usize, *mut u8, usize) -> Answer<8>,
    /// what an older library may lack
    old_check: Option<unsafe extern "C" fn(*const u8, usize, *const u8, usize) -> Answer<5>>,
    totals: Option<unsafe extern "C" fn(*const u8, usize, usize) -> Answer<4>>,
    begin: Option<unsafe extern "C" fn(*const u8, usize) -> With<7>>,
    advance: Option<unsafe extern "C" fn(State) -> With<1>>,
    ask: Option<unsafe extern "C" fn(State, usize) -> Answer<3>>,
}

impl Library {
    fn load(path: &str) -> Library {
        let library = unsafe { dlopen(CString::new(path).unwrap().as_ptr(), 2) };
        assert!(!library.is_null(), "{path} is no shared library");
        let look_for = |name: &str| unsafe { dlsym(library, CString::new(name).unwrap().as_ptr()) };
        let find = |name: &str| {
            let found = look_for(name);
            assert!(!found.is_null(), "{path} has no {name}");
            found
        };
        unsafe {
            Library {
                read: std::mem::transmute(find("judge_read")),
                rank: std::mem::transmute(find("judge_rank")),
                check: std::mem::transmute(find("judge_check")),
                solve: std::mem::transmute(find("judge_solve")),
                old_check: std::mem::transmute(look_for("judge_check_supported")),
                totals: std::mem::transmute(look_for("judge_node_totals")),
                begin: std::mem::transmute(look_for("judge_begin")),
                advance: std::mem::transmute(look_for("judge_advance")),
                ask: std::mem::transmute(look_for("judge_ask")),
            }
        }
    }
}

const CALLS: [&str; 10] = ["read", "rank", "check", "old check", "solve", "all advances", "totals", "begin", "advance", "ask"];

struct Tables {
    values: [u8; 4096],
    levels: [u8; 8192],
    verdicts: [u8; 256],
    strata: [u8; 32],
    /// begun by the library at hand
    begun: State,
}

/// One call on the case, the checks being of what the last solve wrote, the totals those of node 0, the advance the first round and the question one of pair 0. None where the library lacks it.
fn call(library: &Library, name: &str, case: &[u8], t: &mut Tables) -> Option<usize> {
    let (c, n) = (case.as_ptr(), case.len());
    unsafe {
        Some(match name {
            "read" => (library.read)(c, n).0[0],
            "rank" => (library.rank)(c, n, t.strata.as_mut_ptr(), 32).0[2],
            "check" => (library.check)(c, n, t.values.as_ptr(), 4096, t.levels.as_ptr(), 8192).0[0],
            "old check" => (library.old_check?)(c, n, t.values.as_ptr(), 4096).0[0],
            "totals" => (library.totals?)(c, n, 0).0[0],
            "begin" => {
                let With(answer, begun) = (library.begin?)(c, n);
                t.begun = begun;
                answer.0[0]
            }
            "advance" => (library.advance?)(t.begun).0.0[0],
            "ask" => (library.ask?)(t.begun, 0).0[2],
            "all advances" => advances(library.advance?, t.begun),
            _ => (library.solve)(c, n, t.values.as_mut_ptr(), 4096, t.levels.as_mut_ptr(), 8192, t.verdicts.as_mut_ptr(), 256).0[2],
        })
    }
}

/// Advances to the end, and how many they are.
fn advances(advance: unsafe extern "C" fn(State) -> With<1>, mut state: State) -> usize {
    (1..).find(|_| {
        let advanced = unsafe { advance(state) };
        state = advanced.1;
        advanced.0.0[0] == 1
    }).unwrap()
}

fn main() {
    let words: Vec<String> = std::env::args().skip(1).collect();
    let turns: usize = word(&words, "--turns").map_or(5, |w| w.parse().expect("--turns N"));
    let calls: Vec<&str> = CALLS.into_iter().filter(|name| word(&words, "--calls").is_none_or(|list| list.split(',').any(|asked| asked == *name))).collect();
    let libraries = [Library::load(&words[0]), Library::load(&words[1])];
    println!("| case | nodes | {} | {} |", calls.join(" | "), calls.iter().map(|name| format!("{name}, ratio")).collect::<Vec<_>>().join(" | "));
    println!("|{}", "---|".repeat(2 + 2 * calls.len()));
    for name in names(&words) {
        for n in sizes(&words) {
            for case in cases(name, n) {
                compare(&libraries, &calls, turns, name, n, &case);
            }
        }
    }
}

/// The system's clock that goes on whatever runs: the least of many times by it is that of calls which nothing broke into.
const MACHINE: i32 = 1;

/// A line of the table.
fn compare(libraries: &[Library; 2], calls: &[&str], turns: usize, family: &str, n: usize, case: &[u8]) {
    let mut t = Tables { values: [0; 4096], levels: [0; 8192], verdicts: [0; 256], strata: [0; 32], begun: Answer([0; STATE]) };
    let reads: Vec<bool> = libraries.iter().map(|library| call(library, "read", case, &mut t) == Some(0)).collect();
    let rounds: Vec<Option<usize>> = libraries.iter().map(|library| call(library, "solve", case, &mut t)).collect();
    assert!(reads[1] && (!reads[0] || rounds[0] == rounds[1]), "rounds of {family}");
    if calls.contains(&"all advances") {
        call(&libraries[1], "begin", case, &mut t);
        assert!([None, rounds[1]].contains(&call(&libraries[1], "all advances", case, &mut t)), "advances of {family}");
    }
    // a time that was not taken is without end
    let mut least = [vec![f64::INFINITY; calls.len()], vec![f64::INFINITY; calls.len()]];
    for _ in 0..turns {
        for i in (0..2).filter(|i| reads[*i]) {
            call(&libraries[i], "begin", case, &mut t);
            for (which, name) in calls.iter().enumerate() {
                if call(&libraries[i], name, case, &mut t).is_some() {
                    least[i][which] = least[i][which].min(times(MACHINE, || { call(&libraries[i], name, case, &mut t); })[0]);
                }
            }
        }
    }
    let taken = |seconds: f64, shown: String| if seconds.is_finite() { shown } else { "–".to_string() };
    let after: Vec<String> = least[1].iter().map(|s| taken(*s, time(*s))).collect();
    let ratios: Vec<String> = least[0].iter().zip(&least[1]).map(|(before, after)| taken(before + after, format!("{:.3}", after / before))).collect();
    println!("| {family} | {n} | {} | {} |", after.join(" | "), ratios.join(" | "));
}
