//! A stand-in of the desk program, made from the reference. JUDGE_FAULT in the environment plants a wrong answer in it.

#[allow(dead_code)]
#[path = "../differential/reference.rs"]
mod reference;

use reference::Judge;
use std::io::{Read, Write};

/// A name, and the digits after a blank where there are any.
fn line(name: &str, digits: &[u8]) -> String {
    let text: String = digits.iter().map(|digit| digit.to_string()).collect();
    format!("{name} {text}").trim_end().to_string() + "\n"
}

fn listing(case: &[u8]) -> String {
    let mut judge = Judge::new(case);
    let [_, _, nodes, _, _, shapes, targets] = judge.reading();
    let (mut v, mut l, mut d) = (vec![0; shapes * nodes], vec![0; 2 * shapes * nodes], vec![0; targets]);
    let answer = judge.solving(&mut v, &mut l, &mut d);
    if answer[0] != 0 {
        return format!("refused {} at {}\n", answer[0], answer[1]);
    }
    let rows: String = (0..shapes).map(|s| line(&s.to_string(), &v[s * nodes..(s + 1) * nodes])).collect();
    format!("rounds {}\n{rows}{}", answer[2], line("targets", &d))
}

fn main() {
    let fault = std::env::var("JUDGE_FAULT").unwrap_or_default();
    let mut input = Vec::new();
    if fault == "one-read" {
        // what comes in a later piece is lost
        input = vec![0; 8193];
        let n = std::io::stdin().read(&mut input).unwrap();
        input.truncate(n);
    } else {
        std::io::stdin().take(8193).read_to_end(&mut input).unwrap();
    }
    let most = if fault == "longer" { 8193 } else { 8192 };
    let mut text = if input.len() > most { b"too long\n".to_vec() } else { listing(&input).into_bytes() };
    let last = text.len() - 1;
    match fault.as_str() {
        "byte" => text[last - 1] ^= 1,
        "no-newline" => text.truncate(last),
        "more" => text.push(b'\n'),
        "wrong" => text = b"wrong".to_vec(),
        "nothing" => text.clear(),
        _ => {}
    }
    std::io::stdout().write_all(&text).unwrap();
    match fault.as_str() {
        "crash" => std::process::abort(),
        "status" => std::process::exit(3),
        _ => {}
    }
}
