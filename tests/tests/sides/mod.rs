//! The two that answer a call: the second implementation and the archive.

#[path = "../../src/archive.rs"]
mod archive;

use second::call::Call;
use second::interface::{self, Answer};

/// Who answers a call.
pub type Side = fn(&Call) -> Answer;

pub const SIDES: [(&str, Side); 2] = [("second", interface::expected), ("archive", by_archive)];

fn by_archive(call: &Call) -> Answer {
    let answer = archive::run(call, &interface::buffers(call), 0);
    answer.expect("nothing written beside the buffers")
}
