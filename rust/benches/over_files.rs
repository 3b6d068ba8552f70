//! over_files [ROUNDS]: times the program over files beside the library's calls on buffers, and prints a line of words for each
//! result: the operation, the scheme, the gates, who worked, and the milliseconds of each round.

mod jobs;
mod subject;
mod worker;

// The program's own modules, at the root of this crate as they are at the root of the program.
#[path = "../src/bin/weighhare/arguments.rs"]
mod arguments;
#[allow(dead_code)] // The help of the whole is not asked for here.
#[path = "../src/bin/weighhare/command.rs"]
mod command;
#[path = "../src/bin/weighhare/commands/mod.rs"]
mod commands;
#[path = "../src/bin/weighhare/figure.rs"]
mod figure;
#[path = "../src/bin/weighhare/input.rs"]
mod input;
#[path = "../src/bin/weighhare/output.rs"]
mod output;
#[allow(dead_code)] // Nor is the status that the program ends with.
#[path = "../src/bin/weighhare/trouble.rs"]
mod trouble;

use jobs::{Folder, Job};
use std::env;
use std::error::Error;
use std::process::ExitCode;
use std::time::Instant;
use subject::Subject;
use worker::Worker;

/// The milliseconds of each worker, a number for each round.
type Times = [Vec<f64>; Worker::ALL.len()];

fn main() -> ExitCode {
    // cargo adds --bench.
    let words: Vec<String> = env::args().skip(1).filter(|word| word != "--bench").collect();
    let rounds = match &words[..] {
        [] => Some(31),
        [word] => word.parse().ok().filter(|rounds| *rounds > 0),
        _ => None,
    };
    let Some(rounds) = rounds else {
        eprintln!("usage: over_files [ROUNDS]");
        return ExitCode::from(2);
    };
    match measure_all(rounds) {
        Ok(()) => ExitCode::SUCCESS,
        Err(error) => {
            eprintln!("over_files: {error}");
            ExitCode::FAILURE
        }
    }
}

/// A round goes over all jobs, so that a busy moment of the machine falls on few rounds of each.
fn measure_all(rounds: usize) -> Result<(), Box<dyn Error>> {
    let mut subject = Subject::new();
    let folder = Folder::new(&subject)?;
    let mut jobs = Vec::new();
    for scheme in 1..=4 {
        subject.garble(scheme);
        jobs.extend([folder.garble(scheme), folder.evaluate(&subject, scheme)?]);
    }
    for job in &mut jobs {
        agree_on(job, &mut subject)?;
    }
    jobs.push(Job::compare());
    let mut times: Vec<Times> = jobs.iter().map(|_| Times::default()).collect();
    for round in 0..rounds {
        for (job, times) in jobs.iter_mut().zip(&mut times) {
            measure(job, &mut subject, times, round)?;
        }
    }
    for (job, times) in jobs.iter().zip(&times) {
        print_rounds(job, times);
    }
    Ok(())
}

/// Whether the command and the program write what the library's call writes.
fn agree_on(job: &mut Job, subject: &mut Subject) -> Result<(), Box<dyn Error>> {
    Worker::Library.run(job, subject)?;
    for worker in [Worker::Command, Worker::Program] {
        worker.run(job, subject)?;
        if !job.wrote(subject)? {
            let Job { operation, scheme, .. } = job;
            return Err(format!("{operation} {scheme} over files does not write what the library writes").into());
        }
        worker.put_away(job)?;
    }
    Ok(())
}

/// A job once by each worker, one right after the other. The first of them finds what another job left in the caches, so another
/// is first in the next round.
fn measure(job: &mut Job, subject: &mut Subject, times: &mut Times, round: usize) -> Result<(), Box<dyn Error>> {
    for turn in 0..Worker::ALL.len() {
        let index = (round + turn) % Worker::ALL.len();
        let worker = Worker::ALL[index];
        if worker.takes(job) {
            let start = Instant::now();
            worker.run(job, subject)?;
            times[index].push(1e3 * start.elapsed().as_secs_f64());
            worker.put_away(job)?;
        }
    }
    Ok(())
}

fn print_rounds(job: &Job, times: &Times) {
    for (worker, rounds) in Worker::ALL.into_iter().zip(times) {
        if worker.takes(job) {
            let rounds: String = rounds.iter().map(|time| format!(" {time:.4}")).collect();
            let (operation, scheme, gates, name) = (job.operation, job.scheme, job.gates, worker.name());
            println!("files {operation} {scheme} {gates} {name}{rounds}");
        }
    }
}
