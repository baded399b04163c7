//! What a test runs: kinds of turns, so many of each, every turn with random numbers of its own from the seed. Turns are counted, and a kind that did not run fails the test.

use crate::generator::Random;
use std::time::{Duration, Instant, SystemTime, UNIX_EPOCH};

/// What a test counts. A turn that adds nothing to it is none.
pub trait Work {
    fn done(&self) -> usize;
}

pub struct Kind<T> {
    pub name: String,
    /// how many the plan has
    turns: usize,
    /// a list is gone through once; what is drawn at random goes on as long as told
    listed: bool,
    turn: Box<dyn Fn(&mut T, &mut Random, usize)>,
}

impl<T> Kind<T> {
    pub fn listed(name: &str, turns: usize, turn: impl Fn(&mut T, &mut Random, usize) + 'static) -> Kind<T> {
        Kind { name: name.to_string(), turns, listed: true, turn: Box::new(turn) }
    }

    pub fn drawn(name: &str, turns: usize, turn: impl Fn(&mut T, &mut Random, usize) + 'static) -> Kind<T> {
        Kind { name: name.to_string(), turns, listed: false, turn: Box::new(turn) }
    }
}

/// So many percent of a number, rounded up.
fn share(number: usize, percent: usize) -> usize {
    (number * percent + 99) / 100
}

pub struct Plan {
    pub seed: u64,
    percent: usize,
    time: Option<Duration>,
    only: Option<String>,
    start: Instant,
}

impl Plan {
    /// --turns N: N percent of the plan's turns; --seconds N: until the time is over, by a fresh seed if none is given; --seed S: other random numbers; --only KIND: no other kind.
    pub fn of(words: &[String]) -> Result<Plan, String> {
        let (mut seed, mut percent, mut time, mut only) = (None, None, None, None);
        for pair in words.chunks(2) {
            let (word, value) = (&pair[0], pair.get(1).ok_or(format!("{}: no value", pair[0]))?);
            let number = || value.parse::<u64>().map_err(|_| format!("{word} {value}: not a number"));
            match word.as_str() {
                "--turns" => percent = Some(number()? as usize),
                "--seconds" => time = Some(Duration::from_secs(number()?)),
                "--seed" => seed = Some(number()?),
                "--only" => only = Some(value.clone()),
                _ => return Err(format!("{word}: unknown word")),
            }
        }
        if percent.is_some() && time.is_some() {
            return Err("--turns and --seconds: one or the other".to_string());
        }
        let fresh = SystemTime::now().duration_since(UNIX_EPOCH).unwrap().as_nanos() as u64;
        let seed = seed.unwrap_or(if time.is_some() { fresh } else { 1 });
        Ok(Plan { seed, percent: percent.unwrap_or(100), time, only, start: Instant::now() })
    }

    /// Whether it is to run for some minutes and more.
    pub fn is_long(&self) -> bool {
        self.percent >= 500 || self.time.map_or(false, |time| time > Duration::from_secs(300))
    }

    pub fn is_whole(&self) -> bool {
        self.only.is_none()
    }

    pub fn seconds(&self) -> u64 {
        self.start.elapsed().as_secs()
    }

    /// Runs the lists, then what is drawn, a hundredth of every kind at a time. Answers each kind with its number of turns.
    pub fn run<T: Work>(&self, kinds: &[Kind<T>], work: &mut T) -> Result<Vec<(String, usize)>, String> {
        let asked = |kind: &&Kind<T>| self.only.as_ref().map_or(true, |name| *name == kind.name);
        let kinds: Vec<&Kind<T>> = kinds.iter().filter(asked).collect();
        if kinds.is_empty() {
            return Err("--only: no kind has this name".to_string());
        }
        let mut turns = vec![0; kinds.len()];
        let mut take = |k: usize, number: usize| {
            let before = work.done();
            (kinds[k].turn)(work, &mut self.random(&kinds[k].name, number), number);
            turns[k] += (work.done() > before) as usize;
        };
        for k in (0..kinds.len()).filter(|k| kinds[*k].listed) {
            let wanted = share(kinds[k].turns, self.percent.min(100));
            (0..wanted).for_each(|i| take(k, i * kinds[k].turns / wanted));
        }
        for step in (0..).take_while(|step| self.goes_on(*step)) {
            for k in (0..kinds.len()).filter(|k| !kinds[*k].listed) {
                let (from, until) = (share(kinds[k].turns, step), share(kinds[k].turns, step + 1));
                (from..until).for_each(|number| take(k, number));
            }
        }
        Ok(kinds.iter().map(|kind| kind.name.clone()).zip(turns).collect())
    }

    /// However short the time, one hundredth is run.
    fn goes_on(&self, step: usize) -> bool {
        self.time.map_or(step < self.percent, |time| step == 0 || self.start.elapsed() < time)
    }

    /// The numbers of one turn, the same whatever else is run.
    pub fn random(&self, kind: &str, number: usize) -> Random {
        let of_kind = kind.bytes().fold(self.seed, |state, byte| Random(state ^ byte as u64).next());
        Random(Random(of_kind ^ number as u64).next())
    }
}

/// What is counted together, name by name.
pub type Group = (&'static str, Vec<(String, usize)>);

/// Shows the counts, a group to a line. A count of 0 fails the test, since what never came was not tried.
pub fn show(groups: &[Group]) -> Result<(), String> {
    for (group, counts) in groups {
        let parts: Vec<String> = counts.iter().map(|(name, count)| format!("{name}: {count}")).collect();
        println!("{group}  {}", parts.join(", "));
    }
    for (group, counts) in groups {
        if let Some((name, _)) = counts.iter().find(|(_, count)| *count == 0) {
            return Err(format!("{group}: {name} never came"));
        }
    }
    Ok(())
}

pub fn names<T>(kinds: &[Kind<T>]) -> String {
    kinds.iter().map(|kind| kind.name.clone()).collect::<Vec<_>>().join("\n")
}

/// Says how the test ended.
pub fn end(test: &str, said: Result<String, String>) {
    match said {
        Ok(text) => println!("{text}"),
        Err(wrong) => {
            println!("{test}: {wrong}");
            std::process::exit(1);
        }
    }
}
