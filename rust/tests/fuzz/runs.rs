//! The runs, by two workers.

use super::cases::{case, worlds, Case};
use super::checks::Run;
use super::secrets::{is_out_of_place, Secrets};
use super::stage::Stage;
use crate::program::process::Ended;
use crate::program::random::variable;
use crate::program::world::World;
use std::thread;

/// How many runs, where WEIGHHARE_RUNS does not say.
const RUNS: u64 = 20_000;

const WORKERS: u64 = 2;

/// How many runs ended with status 0, 1 and 2, and in how many a figure stood where none belongs, so that messages may have it.
type Counts = [u64; 4];

/// What is said where a check fails: enough to see the run, and to repeat it alone.
fn failure(seed: u64, number: u64, case: &Case, ended: &Ended, why: &str) -> String {
    let words: Vec<_> = case.words.iter().map(|word| String::from_utf8_lossy(word)).collect();
    format!(
        "run {number} of seed {seed}: {why}\n{words:?}\nstatus {:?}, signal {:?}, on standard error: {}\nto repeat it: \
         WEIGHHARE_SEED={seed} WEIGHHARE_FIRST={number} WEIGHHARE_RUNS=1 cargo test --offline --test fuzz",
        ended.status,
        ended.signal,
        ended.stderr()
    )
}

/// Every second run, from the worker's own on.
fn work(worlds: &[World], secrets: &Secrets, seed: u64, numbers: impl Iterator<Item = u64>) -> Counts {
    let mut stage = Stage::new();
    let mut counts = Counts::default();
    for number in numbers {
        let case = case(worlds, seed, number);
        let (ended, before, after) = stage.run(&case);
        let run = Run {
            case: &case,
            ended: &ended,
            before: &before,
            after: &after,
            any: stage.any,
        };
        if let Err(why) = run.check(secrets) {
            panic!("{}", failure(seed, number, &case, &ended, &why));
        }
        counts[ended.status.expect("a status") as usize] += 1;
        counts[3] += u64::from(case.figures.iter().any(|figure| is_out_of_place(&case, figure)));
    }
    counts
}

#[test]
fn whatever_it_is_given() {
    let seed = variable("WEIGHHARE_SEED", 1);
    let first = variable("WEIGHHARE_FIRST", 0);
    let runs = variable("WEIGHHARE_RUNS", RUNS);
    let worlds = worlds();
    let secrets = Secrets::of(&worlds);
    let counts = thread::scope(|scope| {
        let workers: Vec<_> = (0..WORKERS)
            .map(|worker| {
                let numbers = (first..first + runs).filter(move |number| number % WORKERS == worker);
                let (worlds, secrets) = (&worlds, &secrets);
                scope.spawn(move || work(worlds, secrets, seed, numbers))
            })
            .collect();
        let counts = workers
            .into_iter()
            .map(|worker| worker.join().unwrap_or_else(|panic| std::panic::resume_unwind(panic)));
        counts.fold(Counts::default(), |sum, more| {
            std::array::from_fn(|index| sum[index] + more[index])
        })
    });
    println!("{runs} runs from seed {seed}: {counts:?} with status 0, 1, 2, and with a figure out of place");
    if runs >= 1000 {
        // What is tried must be of every kind, and the look for figures must be left out seldom.
        assert!(counts[..3].iter().all(|count| *count > runs / 10), "{counts:?}");
        assert!(counts[3] < runs / 20, "{counts:?}");
    }
}
