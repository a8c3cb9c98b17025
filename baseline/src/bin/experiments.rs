//! Makes and plays random experiments.
//!
//! `experiments SEED COUNT` plays them and prints a summary;
//! `experiments SEED COUNT DIRECTORY` also writes descriptions and results.

use baseline::generate::{experiment, KINDS};
use baseline::play;
use std::path::Path;
use std::process::ExitCode;
use std::time::{Duration, Instant};

fn main() -> ExitCode {
    let args: Vec<String> = std::env::args().skip(1).collect();
    let numbers: Vec<u64> = args.iter().take(2).filter_map(|a| a.parse().ok()).collect();
    let done = match (&numbers[..], args.len()) {
        (&[seed, count], 2 | 3) => run(seed, count, args.get(2).map(Path::new)),
        _ => Err(std::io::Error::other("usage: experiments SEED COUNT [DIRECTORY]")),
    };
    done.map_or_else(failure, |()| ExitCode::SUCCESS)
}

fn failure(error: std::io::Error) -> ExitCode {
    eprintln!("experiments: {error}");
    ExitCode::FAILURE
}

/// What the experiments of a kind came to.
#[derive(Default)]
struct Summary {
    experiments: u64,
    calls: u64,
    ticks: u64,
    time: Duration,
    faults: [u64; 15],
}

impl Summary {
    fn add(&mut self, result: &[u8], time: Duration) {
        self.experiments += 1;
        self.time += time;
        for line in String::from_utf8_lossy(result).lines() {
            let fields: Vec<&str> = line.split(' ').collect();
            if let ["T", ticks, number, ..] = fields[..] {
                self.calls += 1;
                self.ticks += ticks.parse::<u64>().unwrap_or(0);
                self.faults[number.parse::<usize>().unwrap_or(0)] += 1;
            }
        }
    }

    fn print(&self, name: &str) {
        let seconds = self.time.as_secs_f64().max(1e-9);
        println!(
            "{name}: {} experiments, {} calls, {} ticks, {:.2} s, {:.0} experiments/s, {:.1} million ticks/s",
            self.experiments,
            self.calls,
            self.ticks,
            seconds,
            self.experiments as f64 / seconds,
            self.ticks as f64 / seconds / 1e6,
        );
        println!("  outcomes by number: {:?}", self.faults);
    }
}

fn run(seed: u64, count: u64, directory: Option<&Path>) -> std::io::Result<()> {
    let mut summaries: [Summary; 4] = Default::default();
    let mut mark = FNV_START;
    for index in 0..count {
        let (_, experiment) = experiment(seed, index);
        let description = experiment.describe();
        let start = Instant::now();
        let result = play(&description).expect("the generator describes well");
        summaries[(index % 4) as usize].add(&result, start.elapsed());
        mark = fnv(mark, &result);
        if let Some(directory) = directory {
            let name = format!("{seed}-{index}");
            std::fs::write(directory.join(format!("{name}.experiment")), &description)?;
            std::fs::write(directory.join(format!("{name}.result")), &result)?;
        }
    }
    for (kind, summary) in KINDS.iter().zip(&summaries) {
        summary.print(&format!("{kind:?}"));
    }
    println!("mark of all results: {mark:016X}");
    Ok(())
}

const FNV_START: u64 = 0xCBF2_9CE4_8422_2325;

/// FNV-1a, to tell two sets of results apart.
fn fnv(start: u64, bytes: &[u8]) -> u64 {
    bytes.iter().fold(start, |mark, &byte| (mark ^ byte as u64).wrapping_mul(0x0100_0000_01B3))
}
