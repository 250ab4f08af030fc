//! A forward simulation of the uniformized chain of a queueing network.
//!
//! `chain FILE SEED RUNS WARM BATCH COUNT` simulates a network (`bench/events.py` writes the file)
//! RUNS times, each time from its first state. After WARM steps it prints the mean length of the
//! watched queue over each of COUNT batches of BATCH steps, one mean a line. It ends with 2 where
//! its arguments or its file are wrong.

mod network;
mod random;

use network::Network;
use random::Random;
use std::io::{BufWriter, Write};
use std::process::ExitCode;

/// What the command line asks for.
struct Request {
    network: Network,
    seed: u64,
    runs: u64,
    warm: u64,
    batch: u64,
    count: u64,
}

/// Reads the command line; `None` where it is wrong.
fn request() -> Option<Request> {
    let arguments: Vec<String> = std::env::args().skip(1).collect();
    let (file, numbers) = arguments.split_first()?;
    let numbers: Option<Vec<u64>> = numbers.iter().map(|text| text.parse().ok()).collect();
    let [seed, runs, warm, batch, count] = numbers?.try_into().ok()?;
    let network = Network::parse(&std::fs::read_to_string(file).ok()?)?;
    (batch > 0).then_some(Request { network, seed, runs, warm, batch, count })
}

/// Simulates a batch, and returns the mean length of the watched queue over its steps.
fn batch_mean(network: &Network, state: &mut [u32], random: &mut Random, steps: u64) -> f64 {
    let mut sum = 0_u64;
    for _ in 0..steps {
        network.step(state, random.next());
        sum += u64::from(state[network.watched]);
    }
    sum as f64 / steps as f64
}

/// Simulates all runs, and prints the mean of each batch.
fn simulate(request: &Request) -> std::io::Result<()> {
    let mut out = BufWriter::new(std::io::stdout().lock());
    let mut random = Random::new(request.seed);
    for _ in 0..request.runs {
        let mut state = request.network.start.clone();
        for _ in 0..request.warm {
            request.network.step(&mut state, random.next());
        }
        for _ in 0..request.count {
            let mean = batch_mean(&request.network, &mut state, &mut random, request.batch);
            writeln!(out, "{mean}")?;
        }
    }
    out.flush()
}

fn main() -> ExitCode {
    match request() {
        None => ExitCode::from(2),
        Some(request) => match simulate(&request) {
            Ok(()) => ExitCode::SUCCESS,
            Err(_) => ExitCode::FAILURE,
        },
    }
}
