//! Solvers run from processes of their own, what they take of the processor and of memory, and the lines of tables.

use crate::families::clock;
use std::process::{Command, Stdio};
use std::time::Duration;

// ---- Processes

/// This program once more.
pub fn me() -> Command {
    Command::new(std::env::current_exe().unwrap())
}

/// What a process has used: seconds and their millionths, the program's and the system's for it, and a peak of memory in kilobytes.
#[repr(C)]
struct Usage {
    times: [i64; 4],
    peak: i64,
    rest: [i64; 13],
}

extern "C" {
    fn wait4(id: i32, status: *mut i32, options: i32, usage: *mut Usage) -> i32;
    fn clock_getcpuclockid(id: i32, clock: *mut i32) -> i32;
}

/// What the last solver wrote.
pub const OUT: &str = "target/tests/bench/out";

/// The word by which a program is told to run a solver.
pub const RUN: &str = "--run";

/// Seconds and peak of memory in kilobytes, or none where the time was over.
pub type Run = Option<(f64, usize)>;

/// Runs a solver from a process of its own: a peak counts from that of the process which starts it, and this one holds whole cases.
pub fn run(limit: f64, command: &[&str]) -> Run {
    let ended = me().args([RUN, &limit.to_string()]).args(command).output().unwrap();
    assert!(ended.status.success(), "{command:?} could not be run");
    let said = String::from_utf8(ended.stdout).unwrap();
    let (seconds, peak) = said.split_once(' ')?;
    Some((seconds.parse().unwrap(), peak.parse().unwrap()))
}

/// That process: says the seconds and the peak, or nothing.
pub fn run_here(limit: f64, command: &[String]) {
    let out = std::fs::File::create(OUT).unwrap();
    let mut child = Command::new(&command[0]).args(&command[1..]).stdin(Stdio::null()).stdout(out).stderr(Stdio::null()).spawn().unwrap();
    let mut usage = Usage { times: [0; 4], peak: 0, rest: [0; 13] };
    let (mut status, mut used) = (0, 0);
    let id = child.id() as i32;
    assert_eq!(unsafe { clock_getcpuclockid(id, &mut used) }, 0);
    while unsafe { wait4(id, &mut status, 1, &mut usage) } == 0 {
        if clock(used) > limit {
            child.kill().ok();
            child.wait().ok();
            return;
        }
        std::thread::sleep(Duration::from_millis(2));
    }
    let [own, own_millionths, system, system_millionths] = usage.times.map(|part| part as f64);
    print!("{} {}", own + system + (own_millionths + system_millionths) / 1e6, usage.peak);
}

/// A comparison of times means nothing where the answers differ.
pub fn agree(what: &str, same: bool) {
    if !same {
        println!("bench: {what} and the library disagree on target/tests/bench/case");
        std::process::exit(1);
    }
}

// ---- Files

const FOLDER: &str = "target/tests/bench";

pub fn make_folder() {
    std::fs::create_dir_all(FOLDER).expect(FOLDER);
}

/// Stores a file for the solvers and for a process of the judge's, and answers its path.
pub fn file(name: &str, content: &[u8]) -> String {
    let path = format!("{FOLDER}/{name}");
    std::fs::write(&path, content).expect(FOLDER);
    path
}

// ---- Tables

pub fn line(cells: &[String]) {
    println!("| {} |", cells.join(" | "));
}

pub fn header(names: &[String]) {
    line(names);
    println!("|{}", "---|".repeat(names.len()));
}

pub fn parts(ratio: f64) -> String {
    match ratio {
        r if r < 0.1 => format!("{r:.2}"),
        r if r < 10.0 => format!("{r:.1}"),
        r => format!("{r:.0}"),
    }
}
