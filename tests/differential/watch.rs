//! A crash, or a call that doesn't come back, still leaves its case behind.

use std::ffi::{CStr, CString};

type Part = (&'static str, *const u8, usize);

const NONE: Part = ("", std::ptr::null(), 0);
static mut TEST: &str = "";
static mut NAME: &str = "";
static mut PARTS: [Part; 4] = [NONE; 4];
static mut FILE: Option<&CStr> = None;
static mut STACK: [u8; 65536] = [0; 65536];

/// Where a case is left behind: beside the program, under its name.
pub fn stored() -> String {
    std::env::args().next().unwrap() + "-failure.hex"
}

/// Comes right before a call of the library, with the slices that it gets; it has a minute from then on.
pub fn watch(name: &'static str, parts: &[(&'static str, &[u8])]) {
    unsafe {
        NAME = name;
        for i in 0..4 {
            PARTS[i] = parts.get(i).map_or(NONE, |(name, bytes)| (*name, bytes.as_ptr(), bytes.len()));
        }
        alarm(60);
    }
}

/// The call is over; what the tests do on their own may take its time.
pub fn rest() {
    unsafe {
        alarm(0);
    }
}

#[repr(C)]
struct Action {
    handler: usize,
    mask: [u64; 16],
    flags: i32,
    restorer: usize,
}

#[repr(C)]
struct AlternateStack {
    start: *mut u8,
    flags: i32,
    length: usize,
}

extern "C" {
    fn alarm(seconds: u32) -> u32;
    fn sigaction(signal: i32, new: *const Action, old: *mut Action) -> i32;
    fn sigaltstack(new: *const AlternateStack, old: *mut AlternateStack) -> i32;
    fn creat(name: *const i8, mode: u32) -> i32;
    fn write(to: i32, bytes: *const u8, length: usize) -> isize;
    fn _exit(status: i32) -> !;
}

unsafe fn say(to: i32, text: &[u8]) {
    write(to, text.as_ptr(), text.len());
}

extern "C" fn on_signal(signal: i32) {
    unsafe {
        let (test, name, parts, stored) = (TEST, NAME, PARTS, FILE.unwrap());
        let file = creat(stored.as_ptr(), 0o644);
        let what: &[u8] = if signal == 14 { b" did not come back within a minute\n" } else { b" crashed\n" };
        let name = name.as_bytes();
        for part in [test.as_bytes(), b": ", name, what, test.as_bytes(), b": case stored in ", stored.to_bytes(), b"\n"] {
            say(1, part);
        }
        for part in [b"# ", name, what, b"call ", name] {
            say(file, part);
        }
        for (name, start, length) in parts.iter().filter(|part| !part.0.is_empty()) {
            say(file, b"\n");
            say(file, name.as_bytes());
            for i in 0..*length {
                let byte = *start.add(i);
                let digit = |d: u8| b"0123456789ABCDEF"[d as usize];
                say(file, &[b' ', digit(byte / 16), digit(byte % 16)]);
            }
        }
        say(file, b"\n");
        _exit(1)
    }
}

pub fn on_signals(test: &'static str) {
    let stored = CString::new(stored()).unwrap();
    unsafe {
        TEST = test;
        FILE = Some(Box::leak(stored.into_boxed_c_str()));
        // a stack of its own, for a stack that ran over
        sigaltstack(&AlternateStack { start: std::ptr::addr_of_mut!(STACK).cast(), flags: 0, length: 65536 }, std::ptr::null_mut());
        // SA_ONSTACK; SIGILL, SIGABRT, SIGBUS, SIGFPE, SIGSEGV, SIGALRM
        let action = Action { handler: on_signal as *const () as usize, mask: [0; 16], flags: 0x0800_0000, restorer: 0 };
        for signal in [4, 6, 7, 8, 11, 14] {
            sigaction(signal, &action, std::ptr::null_mut());
        }
    }
}
