//! The page's commands, typed.

use super::page::{Step, SIDES};
use crate::program::folder::Folder;
use crate::program::process::{run, shell};

/// A fresh place with a folder for each side.
pub fn place() -> Folder {
    let place = Folder::new();
    for side in SIDES {
        place.make_folder(side);
    }
    place
}

/// Types commands in turn. Each must end with status 0, print what is due, and say nothing on standard error.
pub fn type_all(place: &Folder, steps: &[Step]) {
    for step in steps {
        let ended = run(&mut shell(&place.path(step.side), &step.command), b"");
        let found = (ended.status, ended.stdout(), ended.stderr());
        let due = (Some(0), step.output.clone(), String::new());
        assert_eq!(found, due, "{}$ {}", step.side, step.command);
    }
}

/// The figure that a command writes to a file by `echo`.
pub fn figure(steps: &[Step], file: &str) -> u64 {
    let end = format!(" > {file}");
    let mut figures = steps
        .iter()
        .filter_map(|step| step.command.strip_prefix("echo ")?.strip_suffix(&end));
    let figure = figures.next().expect("a figure");
    assert_eq!(figures.next(), None, "one {file}");
    figure.parse().expect("a number in decimal")
}

/// The same commands with other figures, and the answer that is due for these.
pub fn with_figures(steps: &[Step], price: u64, ceiling: u64) -> Vec<Step> {
    let mut steps = steps.to_vec();
    for (file, figure) in [("price", price), ("ceiling", ceiling)] {
        let step = steps
            .iter_mut()
            .find(|step| step.command.ends_with(&format!("> {file}")));
        step.expect("a figure").command = format!("echo {figure} > {file}");
    }
    for step in &mut steps {
        if ["yes\n", "no\n"].contains(&step.output.as_str()) {
            step.output = crate::program::due::answer(price <= ceiling).to_owned();
        }
    }
    steps
}
