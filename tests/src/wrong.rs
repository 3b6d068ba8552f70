//! Cases that are wrong on purpose. Each is a right case, of a file that a test program reads, in which one
//! thing was changed that the program compares. None of them may agree: a comparison that looks at nothing,
//! or compares a value with itself, would let one through.

mod forms;

use std::cmp::Reverse;

use crate::call::{Call, Operation};
use crate::generate::room;
use crate::lines;
use crate::vectors::File;

/// What is changed in a right case. All else on its line stays.
#[derive(Clone, Copy, Debug)]
enum Damage {
    /// Of a refused chain: which of its calls refused.
    Caller,
    /// The refusal's number.
    Number,
    /// The refusal's place: one more.
    Place,
    /// The refusal's place: the highest of its 4 bytes.
    FarPlace,
    /// A number that is answered, counted from 0: one more.
    Count(usize),
    /// The first byte of the answer: a refusal's number where it is 0, and 0 where it is one. The bytes
    /// after it stay.
    Mark,
    /// The whole answer: that of a refused case where this one is not refused, and the reverse.
    Answer,
    /// One bit of a byte of a field.
    Byte(usize, At),
    /// A whole field: as the next right case has it, or where cases have an answer, one that is refused
    /// where this one is not, and the reverse.
    Exchanged(usize),
    /// A field without its last byte.
    Shorter(usize),
    /// A field with its last byte twice.
    Longer(usize),
}

/// Which byte of a field.
#[derive(Clone, Copy, Debug)]
enum At {
    First,
    /// The last that the operation writes.
    LastWritten,
    /// The one after that, which is still the fill.
    Past,
    Last,
    Index(usize),
}

/// Which right case is taken: the one with the shortest line among those of this kind from which no wrong
/// case before it in the file was made.
#[derive(Clone, Copy, Debug)]
enum Right {
    /// The one at this index, whatever was made from it.
    Line(usize),
    Refused,
    /// Refused by this call of the chain.
    RefusedBy(u8),
    /// Refused, with bytes in each buffer that the line has.
    Kept,
    /// Refused, with buffers of no byte: of these no answer says anything wrong.
    NoRoom,
    Done,
    /// Not refused, and no number that is answered is 0.
    Counted,
    /// Not refused, in buffers that are longer than what is written.
    Spare,
    /// Not refused, and what is written is the fill: of this buffer no answer says anything wrong.
    Fill,
}

/// A form of comparison: where on a line stands what is compared, and what is changed there.
struct Form {
    /// The file of its wrong cases.
    file: &'static str,
    /// Files of right cases that are compared in this form.
    right: &'static [&'static str],
    /// The field of the answer, where there is one.
    answer: Option<usize>,
    /// The field of the setting, and where in it the fill stands; the buffers' lengths come after it.
    setting: Option<(usize, usize)>,
    /// The fields of what the buffers hold after the call.
    buffers: &'static [usize],
    /// The operations that write these buffers.
    writers: &'static [Operation],
    /// The wrong cases: which right case is taken, and what is changed in it.
    cases: Vec<(Right, Damage)>,
}

/// The fields of a line.
type Fields = Vec<Vec<u8>>;

/// The answer's first byte where nothing is refused.
const DONE: u8 = 0;

/// The number of a refusal, where there was none.
const ANY_REFUSAL: u8 = 3;

/// The files of wrong cases, made from right ones.
pub fn files(right: &[File]) -> Vec<File> {
    let file = |form: Form| File {
        name: form.file,
        text: form.text(right),
    };
    forms::all().into_iter().map(file).collect()
}

impl Form {
    /// The right cases, in the order of their files.
    fn right_cases(&self, files: &[File]) -> Vec<Fields> {
        let by_hand = forms::BY_HAND.into_iter();
        let made = files.iter().map(|file| (file.name, &file.text[..]));
        let files: Vec<(&str, &str)> = by_hand.chain(made).collect();
        let text = |name: &&str| {
            let file = files.iter().find(|(file, _)| file == name);
            file.unwrap_or_else(|| panic!("no file {name}")).1
        };
        let fields = |line| lines::fields_of(line).expect("a line of fields");
        let lines = self.right.iter().flat_map(|name| text(name).lines());
        lines.map(fields).collect()
    }

    /// The lines of the wrong cases.
    fn text(&self, files: &[File]) -> String {
        let right = self.right_cases(files);
        let mut shortest_last: Vec<&Fields> = right.iter().collect();
        shortest_last.reverse();
        shortest_last.sort_by_key(|case| Reverse(lines::line(case).len()));
        let mut take = |kind| match kind {
            Right::Line(index) => Some(right[index].clone()),
            _ => {
                let found = shortest_last.iter().rposition(|case| self.is(kind, case));
                found.map(|index| shortest_last.remove(index).clone())
            }
        };
        let mut text = String::new();
        for &(kind, damage) in &self.cases {
            let case = take(kind);
            let mut case = case.unwrap_or_else(|| panic!("{}: no {kind:?}", self.file));
            self.damage(&right, &mut case, damage);
            text += &lines::line(&case);
        }
        text
    }

    /// Whether a right case is of a kind.
    fn is(&self, kind: Right, case: &Fields) -> bool {
        let refused = self.is_refused(case);
        let mut buffers = self.buffers.iter().map(|&field| buffer(case, field));
        match kind {
            Right::Line(_) => false,
            Right::Refused => refused,
            Right::RefusedBy(call) => self.answer_of(case)[0] == call,
            Right::Kept => refused && buffers.all(|bytes| !bytes.is_empty()),
            Right::NoRoom => refused && self.lengths(case).iter().all(|&byte| byte == 0),
            Right::Done => !refused,
            Right::Counted => {
                let mut numbers = self.answer_of(case)[1..].chunks(4);
                !refused && numbers.all(|number| number != [0; 4])
            }
            Right::Spare => {
                let longer = |(bytes, written): (&[u8], usize)| bytes.len() > written;
                !refused && buffers.zip(self.written(case)).all(longer)
            }
            Right::Fill => {
                let fill = self.fill(case);
                !refused && buffers.all(|bytes| bytes.iter().all(|&byte| byte == fill))
            }
        }
    }

    /// Changes one thing in a case.
    fn damage(&self, right: &[Fields], case: &mut Fields, damage: Damage) {
        let answer = self.answer.unwrap_or_default();
        // In a chain's refusal the call stands before the number.
        let number = usize::from(self.file == "wrong-chain");
        let place = number + 1;
        match damage {
            Damage::Caller => case[answer][0] = case[answer][0] % 5 + 1,
            Damage::Number => case[answer][number] += 1,
            Damage::Place => add_one(&mut case[answer], place),
            Damage::FarPlace => case[answer][place] ^= 0x80,
            Damage::Count(count) => add_one(&mut case[answer], 1 + 4 * count),
            Damage::Mark if self.is_refused(case) => case[answer][0] = DONE,
            Damage::Mark => case[answer][0] = ANY_REFUSAL,
            Damage::Answer => case[answer] = self.exchanged(right, case, answer),
            Damage::Byte(field, at) => {
                let index = self.index(case, field, at);
                case[field][index] ^= 1;
            }
            Damage::Exchanged(field) => case[field] = self.exchanged(right, case, field),
            Damage::Shorter(field) => {
                let last = self.index(case, field, At::Last);
                case[field].truncate(last);
            }
            Damage::Longer(field) => {
                let last = self.index(case, field, At::Last);
                case[field].extend_from_within(last..);
            }
        }
    }

    /// A field as the first right case has it that is refused where this one is not, or the reverse; without
    /// an answer, as the next one has it.
    fn exchanged(&self, right: &[Fields], case: &Fields, field: usize) -> Vec<u8> {
        let refused = self.is_refused(case);
        let other = match self.answer {
            Some(_) => right.iter().find(|other| self.is_refused(other) != refused),
            None => right.iter().skip_while(|&other| other != case).nth(1),
        };
        other.expect("another right case")[field].clone()
    }

    /// Where a byte of a field stands.
    fn index(&self, case: &Fields, field: usize, at: At) -> usize {
        let written = || {
            let buffer = self.buffers.iter().position(|&buffer| buffer == field);
            self.written(case)[buffer.expect("a buffer")]
        };
        match at {
            At::First => 0,
            At::LastWritten => written() - 1,
            At::Past => written(),
            At::Last => case[field].len() - 1,
            At::Index(index) => index,
        }
    }

    /// The bytes that a call that is not refused writes to each buffer.
    fn written(&self, case: &Fields) -> Vec<usize> {
        let scheme = self.setting.map_or(0, |(field, _)| case[field][0]);
        let needed = |&operation: &Operation| {
            let call = Call {
                operation,
                circuit: case[0].clone(),
                scheme,
                ..Call::default()
            };
            room(&call).expect("an accepted circuit")
        };
        self.writers.iter().flat_map(needed).collect()
    }

    fn is_refused(&self, case: &Fields) -> bool {
        self.answer.is_some() && self.answer_of(case)[0] != DONE
    }

    fn answer_of<'a>(&self, case: &'a Fields) -> &'a [u8] {
        &case[self.answer.expect("a form with an answer")]
    }

    fn fill(&self, case: &Fields) -> u8 {
        let (field, at) = self.setting.expect("a form with a setting");
        case[field][at]
    }

    /// The buffers' lengths, 4 bytes each.
    fn lengths<'a>(&self, case: &'a Fields) -> &'a [u8] {
        let (field, at) = self.setting.expect("a form with a setting");
        &case[field][at + 1..][..4 * self.buffers.len()]
    }
}

/// What a buffer holds after the call; nothing where the line leaves it out.
fn buffer(case: &Fields, field: usize) -> &[u8] {
    case.get(field).map_or(&[], |bytes| &bytes[..])
}

/// Adds one to the number of the 4 bytes at an index.
fn add_one(bytes: &mut [u8], at: usize) {
    let four = &mut bytes[at..][..4];
    let number = u32::from_be_bytes([four[0], four[1], four[2], four[3]]);
    four.copy_from_slice(&(number + 1).to_be_bytes());
}
