//! Calls as values: an operation with all it is handed, and what came of it. Any implementation
//! that can run a call can be compared with this one.

use crate::circuit::{Circuit, Gate, Sizes};
use crate::comparator::comparator;
use crate::material::Mark;
use crate::operations::{self as op, Wanted};
use crate::refused::Refused;

/// An operation (01, Operations; 02, jobs 1, 8 and 12).
#[derive(Clone, Copy, Debug, Default, PartialEq, Eq, PartialOrd, Ord)]
pub enum Operation {
    /// Check.
    #[default]
    Check,
    /// Plain.
    Plain,
    /// Garble.
    Garble,
    /// Encode.
    Encode,
    /// Evaluate, from circuit bytes.
    Evaluate,
    /// Evaluate, from a list of gates.
    EvaluateGates,
    /// The outputs' tokens, in their order.
    OutputTokens,
    /// Decode.
    Decode,
    /// Pick.
    Pick,
    /// The comparator of a width.
    Comparator,
}

impl Operation {
    /// All operations.
    pub const ALL: [Operation; 10] = [
        Operation::Check,
        Operation::Plain,
        Operation::Garble,
        Operation::Encode,
        Operation::Evaluate,
        Operation::EvaluateGates,
        Operation::OutputTokens,
        Operation::Decode,
        Operation::Pick,
        Operation::Comparator,
    ];

    /// Whether it takes a circuit's bytes: then the circuit may have either mark.
    pub fn takes_bytes(self) -> bool {
        !matches!(
            self,
            Operation::EvaluateGates | Operation::Pick | Operation::Comparator
        )
    }

    /// The numbers of the refusals that the operation has arguments for, in the order in which they are
    /// tried: 25 and 26 come right after 7, and 21 comes first of all. Garble's 30 is left out: it needs two
    /// tokens with the same hash, and no run is known that has them.
    pub fn refusals(self) -> &'static [u8] {
        match self {
            Operation::Check => &[1, 2, 3, 4, 5, 6, 7, 25, 26],
            Operation::Plain => &[1, 2, 3, 4, 5, 6, 7, 25, 26, 9, 10, 19],
            Operation::Garble => &[1, 2, 3, 4, 5, 6, 7, 25, 26, 8, 13, 14, 19],
            Operation::Encode => &[1, 2, 3, 4, 5, 6, 7, 25, 26, 9, 10, 11, 19],
            Operation::Evaluate => &[
                1, 2, 3, 4, 5, 6, 7, 25, 26, 11, 12, 13, 14, 15, 16, 17, 18, 19,
            ],
            Operation::Decode => &[
                1, 2, 3, 4, 5, 6, 7, 25, 26, 11, 12, 13, 14, 15, 16, 17, 18, 19, 29,
            ],
            Operation::EvaluateGates => &[3, 6, 7, 11, 12, 13, 14, 15, 16, 17, 18, 19],
            Operation::OutputTokens => &[1, 2, 3, 4, 5, 6, 7, 25, 26, 11, 19],
            Operation::Pick => &[10, 11, 20],
            Operation::Comparator => &[21, 19],
        }
    }

    /// The same without 29 and garble's 13: those that there were before 02's job 12. The stored files of cases
    /// of job 8 are drawn from these.
    pub fn refusals_of_job_8(self) -> Vec<u8> {
        let is_new = |number: u8| number == 29 || number == 13 && self == Operation::Garble;
        let numbers = self.refusals().iter().copied();
        numbers.filter(|&number| !is_new(number)).collect()
    }

    /// The same without 21, 25 and 26: those that 01 has. The stored files of cases that were there before
    /// 02's job 8 are drawn from these.
    pub fn refusals_of_01(self) -> Vec<u8> {
        let numbers = self.refusals_of_job_8().into_iter();
        numbers.filter(|&number| number <= 20).collect()
    }

    /// How many of the operation's conditions are tried before that of a number which it has.
    pub fn tried_before(self, number: u8) -> usize {
        let mut numbers = self.refusals().iter();
        let place = numbers.position(|&tried| tried == number);
        place.expect("a refusal of the operation")
    }
}

/// One call. Only the arguments of its operation count; the others are empty, but that the mark is 47 48
/// where nothing else is said.
#[derive(Clone, Debug, PartialEq, Eq)]
pub struct Call {
    /// The operation called.
    pub operation: Operation,
    /// Circuit bytes (all but evaluate's list form, pick and the comparator, which writes them).
    pub circuit: Vec<u8>,
    /// n of the list form.
    pub n: u16,
    /// m of the list form.
    pub m: u16,
    /// The gates of the list form.
    pub gates: Vec<Gate>,
    /// Garble's seed.
    pub seed: Vec<u8>,
    /// Garble's run number.
    pub run: u64,
    /// Garble's scheme byte.
    pub scheme: u8,
    /// The mark of the material that garble is to make.
    pub mark: u16,
    /// The value list of plain and encode.
    pub values: Vec<u8>,
    /// The zero list of encode and pick.
    pub zero: Vec<u8>,
    /// The one list of encode and pick.
    pub one: Vec<u8>,
    /// The tokens of evaluate and decode; those of all wires, which the operation for the outputs' takes.
    pub tokens: Vec<u8>,
    /// The material of evaluate and decode.
    pub material: Vec<u8>,
    /// Pick's wire.
    pub wire: u16,
    /// Pick's bit.
    pub bit: u8,
    /// The comparator's width.
    pub width: u64,
    /// The lengths of the output buffers, in 01's order.
    pub lens: Vec<usize>,
    /// What every byte of the output buffers is before the call.
    pub fill: u8,
}

impl Default for Call {
    fn default() -> Call {
        Call {
            operation: Operation::default(),
            circuit: Vec::new(),
            n: 0,
            m: 0,
            gates: Vec::new(),
            seed: Vec::new(),
            run: 0,
            scheme: 0,
            mark: Mark::Colours.number(),
            values: Vec::new(),
            zero: Vec::new(),
            one: Vec::new(),
            tokens: Vec::new(),
            material: Vec::new(),
            wire: 0,
            bit: 0,
            width: 0,
            lens: Vec::new(),
            fill: 0,
        }
    }
}

/// What came of a call.
#[derive(Clone, Debug, PartialEq, Eq)]
pub struct Outcome {
    /// The numbers returned (check: n, m, q, p; garble: length, calls; evaluate: calls; the comparator:
    /// length; the others none), or the refusal.
    pub answer: Result<Vec<u64>, Refused>,
    /// The whole output buffers after the call; for pick, the part.
    pub buffers: Vec<Vec<u8>>,
}

impl Call {
    /// The output buffers before the call.
    pub fn buffers(&self) -> Vec<Vec<u8>> {
        let buffer = |&len: &usize| vec![self.fill; len];
        self.lens.iter().map(buffer).collect()
    }

    /// The circuit handed in, as bytes or as a list.
    pub fn read_circuit(&self) -> Result<Circuit, Refused> {
        match self.operation {
            Operation::EvaluateGates => Circuit::from_gates(self.n, self.m, &self.gates),
            _ => Circuit::read(&self.circuit),
        }
    }

    /// Runs the call on this implementation.
    pub fn run(&self) -> Outcome {
        self.run_in(self.buffers())
    }

    /// Runs the call on this implementation in output buffers with any bytes in them.
    pub fn run_in(&self, buffers: Vec<Vec<u8>>) -> Outcome {
        match self.operation {
            Operation::Check => self.run_check(),
            Operation::Garble => self.run_garble(buffers),
            Operation::Pick => self.run_pick(),
            _ => self.run_with_one_buffer(buffers),
        }
    }

    fn run_check(&self) -> Outcome {
        let numbers = |sizes: Sizes| {
            let numbers = [sizes.n, sizes.m, sizes.q, sizes.p];
            numbers.map(|number| number as u64).to_vec()
        };
        Outcome {
            answer: op::check(&self.circuit).map(numbers),
            buffers: Vec::new(),
        }
    }

    fn run_garble(&self, mut buffers: Vec<Vec<u8>>) -> Outcome {
        let [material, zeros, ones] = buffers.as_mut_slice() else {
            panic!("garble has three output buffers");
        };
        let wanted = Wanted {
            run: self.run,
            scheme: self.scheme,
            mark: self.mark,
        };
        let garbled = op::garble(&self.circuit, &self.seed, wanted, material, zeros, ones);
        let answer = garbled.map(|garbled| vec![garbled.length, garbled.calls]);
        Outcome { answer, buffers }
    }

    fn run_pick(&self) -> Outcome {
        let (zero, one) = (&self.zero, &self.one);
        let answer = op::check_pick(zero, one, self.wire, self.bit);
        let part = op::pick(zero, one, self.wire, self.bit);
        Outcome {
            answer: answer.map(|()| Vec::new()),
            buffers: vec![part.to_vec()],
        }
    }

    fn run_with_one_buffer(&self, mut buffers: Vec<Vec<u8>>) -> Outcome {
        let [out] = buffers.as_mut_slice() else {
            panic!("{:?} has one output buffer", self.operation);
        };
        let (circuit, tokens, material) = (&self.circuit, &self.tokens, &self.material);
        let nothing = |()| Vec::new();
        let answer = match self.operation {
            Operation::Plain => op::plain(circuit, &self.values, out).map(nothing),
            Operation::Encode => {
                op::encode(circuit, &self.values, &self.zero, &self.one, out).map(nothing)
            }
            Operation::Evaluate => {
                op::evaluate(circuit, tokens, material, out).map(|calls| vec![calls])
            }
            Operation::EvaluateGates => {
                op::evaluate_gates(self.n, self.m, &self.gates, tokens, material, out)
                    .map(|calls| vec![calls])
            }
            Operation::OutputTokens => op::output_tokens(circuit, tokens, out).map(nothing),
            Operation::Decode => op::decode(circuit, tokens, material, out).map(nothing),
            Operation::Comparator => comparator(self.width, out).map(|length| vec![length]),
            Operation::Check | Operation::Garble | Operation::Pick => {
                unreachable!("run sends these elsewhere")
            }
        };
        Outcome { answer, buffers }
    }
}
