//! Which jobs of document 02 are built: TRACE says it of each, once.

use crate::page::{parts, What};
use std::ops::RangeInclusive;

/// The jobs of 02.
pub const JOBS: RangeInclusive<usize> = 1..=13;

/// What is wrong, a line for each job: a built one has a section "### Job N, .." in "Document 02", any other an
/// item "- Job N, .." in "Not built yet".
pub fn faults(page: &str, text: &str) -> Vec<String> {
    let mut built = Vec::new();
    let mut not_built = Vec::new();
    let mut faults = Vec::new();
    let mut section = String::new();
    let mut last = 1;
    for part in parts(text) {
        let (words, jobs) = match part.what {
            What::Heading { level: 2, title } => {
                section = title;
                last = part.line;
                continue;
            }
            What::Heading { level: 3, title } if section == "Document 02" => (title, &mut built),
            What::Text(item) if section == "Not built yet" => match item.strip_prefix("- ") {
                Some(words) => (words.to_string(), &mut not_built),
                None => continue,
            },
            _ => continue,
        };
        match job(&words) {
            Some(job) => jobs.push((job, part.line)),
            None => faults.push(format!(
                "{page}:{}: this is not \"Job N, ..\" with a job of 02 and words for it: {words}",
                part.line
            )),
        }
    }
    for job in JOBS {
        let all = built.iter().chain(&not_built);
        let lines: Vec<usize> = all.filter(|one| one.0 == job).map(|one| one.1).collect();
        match lines[..] {
            [_] => {}
            [] => faults.push(format!(
                "{page}:{last}: job {job} is neither built nor \"Not built yet\""
            )),
            [_, second, ..] => faults.push(format!(
                "{page}:{second}: job {job} was listed before, as built or as \"Not built yet\""
            )),
        }
    }
    faults
}

/// The number of a job, where some words come after it.
fn job(words: &str) -> Option<usize> {
    let (number, rest) = words.strip_prefix("Job ")?.split_once(", ")?;
    let job = number.parse().ok()?;
    (JOBS.contains(&job) && rest.len() > 3).then_some(job)
}

#[test]
fn each_job_once() {
    let built = |job| format!("### Job {job}, with a name\n\nWords.\n\n");
    let missing = |job| format!("- Job {job}, with a name\n");
    let page = |jobs: &[usize], others: &[usize]| {
        let built: String = jobs.iter().map(|&job| built(job)).collect();
        let missing: String = others.iter().map(|&job| missing(job)).collect();
        format!("## Document 02\n\n{built}## Not built yet\n\n{missing}")
    };
    let count = |jobs: &[usize], others: &[usize]| faults("A.md", &page(jobs, others)).len();
    assert_eq!(count(&[1, 2, 3, 4, 7, 8], &[5, 6, 9, 10, 11, 12, 13]), 0);
    assert_eq!(count(&[1, 2, 4, 7, 8], &[5, 6, 9, 10, 11, 12, 13]), 1);
    assert_eq!(count(&[1, 2, 3, 4, 7, 8], &[3, 5, 6, 9, 10, 11, 12, 13]), 1);
    assert_eq!(count(&[1, 2, 3, 4, 7, 8, 8], &[5, 6, 9, 10, 11, 12, 13]), 1);
    assert_eq!(
        count(&[1, 2, 3, 4, 7, 8, 14], &[5, 6, 9, 10, 11, 12, 13]),
        1
    );
    let merged = page(&[1, 2, 3, 4, 7, 8], &[5, 6, 9, 10, 11, 12]) + "- Jobs 13 of 02\n";
    assert_eq!(faults("A.md", &merged).len(), 2);
}
