//! One call on both sides, and what is printed where they differ.

use second::call::Call;
use second::hex;
use second::interface::{self, Answer};

use crate::archive;

/// Longer lists are cut when printed.
const SHOWN: usize = 2048;

/// Runs the call on the archive and compares it with what must come back: the number, the four
/// words, and every output buffer whole. Gives the answer of both.
pub fn compare(call: &Call, skew: usize) -> Result<Answer, String> {
    let expected = interface::expected(call);
    let given = archive::run(call, &interface::buffers(call), skew)?;
    if given == expected {
        return Ok(expected);
    }
    Err(difference(&given, &expected))
}

/// Where two answers differ first.
fn difference(given: &Answer, expected: &Answer) -> String {
    let head = |answer: &Answer| format!("{} {:?}", answer.number, answer.words);
    if head(given) != head(expected) {
        return format!("answered {}, due {}", head(given), head(expected));
    }
    let buffers = given.buffers.iter().zip(&expected.buffers);
    for (index, (given, expected)) in buffers.enumerate() {
        let differs = |(given, expected): (&u8, &u8)| given != expected;
        if let Some(at) = given.iter().zip(expected).position(differs) {
            let (given, expected) = (given[at], expected[at]);
            return format!("output buffer {index}, byte {at}: {given:02x}, due {expected:02x}");
        }
    }
    "the buffers are not as many or as long as handed in".to_string()
}

/// All that the call was handed, one argument to a line.
pub fn arguments(call: &Call) -> String {
    let mut lines = vec![format!("  operation {}", interface::name(call.operation))];
    for (name, bytes) in interface::inputs(call) {
        let cut = if bytes.len() > SHOWN { ".." } else { "" };
        let shown = hex::text(&bytes[..bytes.len().min(SHOWN)]);
        lines.push(format!("  {name}, {} bytes: {shown}{cut}", bytes.len()));
    }
    let Call {
        n,
        m,
        run,
        scheme,
        mark,
        wire,
        bit,
        width,
        ..
    } = call;
    lines.push(format!(
        "  n {n}, m {m}, run {run:016x}, scheme {scheme}, mark {mark:04x}, wire {wire}, bit {bit}, \
         width {width} (where it has one)"
    ));
    lines.push(format!(
        "  output buffers of {:?} bytes, fill {}",
        call.lens, call.fill
    ));
    lines.join("\n")
}
