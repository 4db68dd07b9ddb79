//! The proved drive against the model, call by call, through the C interface.
//! `cargo run --release --offline -- CALLS SEED [--broken RULE]`
//!
//! Exit status: 0 no difference; 1 a difference; 2 bad usage; 3 something never met that must be.

use std::env::args;
use std::process::ExitCode;
use std::time::Instant;

mod arena;
mod broken;
mod couriers;
mod faults;
mod host;
mod hostile;
mod imports;
mod messages;
mod office;
mod oracle;
mod pair;
mod places;
mod profile;
mod reader;
mod reads;
mod responses;
mod sweeps;
mod tally;
mod universe;
mod walk;
mod wrapper;
mod wraps;
mod writer;
mod writes;

use broken::Rule;
use embed::Rng;
use office::Office;
use pair::Difference;
use reads::Reads;
use sweeps::Sweeps;
use tally::Tally;
use walk::{LineWalk, TextWalk};
use wraps::Wraps;

const USAGE: &str = "usage: embed CALLS SEED [--broken RULE]
RULE: number, written, lines, image, marks, text, output, guard, room, first-eight, first, short,
fields, behind, data, message, message-room, message-tag, padding, no-reason, bad-digit-last,
bad-digit-first, odd-first, place-high-first, place-byte, start-kek, wrapped-kek, wrapped-half,
wrapped-late, wrap-first, unwrap-value, unwrap-left";

/// With fewer calls a number that is not met says nothing.
const ENOUGH: u64 = 200_000;
/// Of so many turns one goes to a text, so many to reads, one more to a write, two to a key that is
/// wrapped, opened and spoilt; the others to a line each.
const TURNS: usize = 32;
const READS: usize = 8;
const WRITE: usize = READS + 1;
const WRAP: usize = WRITE + 1;
const LAST_WRAP: usize = WRITE + 2;

struct Asked {
    calls: u64,
    seed: u64,
    broken: Option<Rule>,
}

fn main() -> ExitCode {
    let words: Vec<String> = args().skip(1).collect();
    let Some(asked) = asked(&words) else {
        eprintln!("{USAGE}");
        return ExitCode::from(2);
    };
    let mut tally = Tally::new();
    let since = Instant::now();
    if let Err(Difference(told)) = run(&asked, &mut tally) {
        println!("difference: seed {}, after {} calls\n{told}", asked.seed, tally.calls);
        return ExitCode::from(1);
    }
    let seconds = since.elapsed().as_secs_f64();
    tally.print();
    println!("embed: {} calls, seed {}, {seconds:.1} s: no difference", tally.calls, asked.seed);
    let missed = tally.missed();
    if asked.calls >= ENOUGH && !missed.is_empty() {
        println!("embed: never met: {}", missed.join(", "));
        return ExitCode::from(3);
    }
    ExitCode::SUCCESS
}

fn asked(words: &[String]) -> Option<Asked> {
    let (calls, seed, broken) = match words {
        [calls, seed] => (calls, seed, None),
        [calls, seed, flag, rule] if flag == "--broken" => (calls, seed, Some(Rule::named(rule)?)),
        _ => return None,
    };
    Some(Asked { calls: calls.parse().ok()?, seed: seed.parse().ok()?, broken })
}

/// All that makes calls, each from a seed of its own.
struct Parts {
    reads: Reads,
    sweeps: Sweeps,
    by_line: LineWalk,
    by_text: TextWalk,
    office: Office,
    wraps: Wraps,
}

/// What can be gone through from end to end, then walks, reads and keys of at least as many calls as
/// were asked.
fn run(asked: &Asked, tally: &mut Tally) -> Result<(), Difference> {
    let mut rng = Rng::new(asked.seed);
    let mut parts = Parts::new(&mut rng, asked.broken);
    let mut done = parts.sweep_all();
    let before = parts.calls();
    while done.is_ok() && parts.calls() - before < asked.calls {
        done = parts.step(rng.below(TURNS));
    }
    parts.add_to(tally);
    done
}

impl Parts {
    fn new(rng: &mut Rng, broken: Option<Rule>) -> Parts {
        Parts {
            reads: Reads::new(rng.word(), broken),
            sweeps: Sweeps::new(rng.word(), broken),
            by_line: LineWalk::new(rng.word(), broken),
            by_text: TextWalk::new(rng.word(), broken),
            office: Office::new(rng.word(), broken),
            wraps: Wraps::new(rng.word(), broken),
        }
    }

    /// What can be gone through from end to end; what takes less time first.
    fn sweep_all(&mut self) -> Result<(), Difference> {
        self.reads.run()?;
        self.wraps.run()?;
        self.office.writes()?;
        self.sweeps.run()?;
        self.office.couriers()?;
        self.office.imports()
    }

    fn step(&mut self, turn: usize) -> Result<(), Difference> {
        match turn {
            0 => self.by_text.step(),
            1..=READS => self.reads.step(),
            WRITE => self.office.write_step(),
            WRAP..=LAST_WRAP => self.wraps.step(),
            _ => self.by_line.step(),
        }
    }

    fn calls(&self) -> u64 {
        self.tallies().iter().map(|tally| tally.calls).sum::<u64>() + self.office.calls()
    }

    /// But for the sweeps, which no step adds to, and the office, which adds up its own.
    fn tallies(&self) -> [&Tally; 4] {
        let [line, text] = [&self.by_line.pair.tally, &self.by_text.pair.tally];
        [line, text, &self.reads.reader.tally, &self.wraps.wrapper.tally]
    }

    fn add_to(&self, tally: &mut Tally) {
        self.sweeps.add_to(tally);
        self.office.add_to(tally);
        self.tallies().into_iter().for_each(|part| tally.add(part));
    }
}
