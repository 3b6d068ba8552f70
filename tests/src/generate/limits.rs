//! Calls on circuits at the limits of their sizes: the fewest and the most inputs, gates and wires.
//! Faults are at the far end, where a place needs the most bits.

use super::edges::Edge;
use super::hashes::any_mark;
use super::outputs::with_outputs;
use super::{add_run, any_scheme, call_on, circuit, room, with_one_operand};
use crate::block::BLOCK;
use crate::call::{Call, Operation};
use crate::circuit::{Circuit, Mark};
use crate::material;
use crate::random::Random;
use crate::scheme::Scheme;

/// n, q and the charged gates in a hundred: both ends of n with both ends of q, and n+q = 65,535.
const SHAPES: [(u16, u16, usize); 8] = [
    (2, 1, 100),
    (4096, 1, 100),
    (2, 61_439, 50),
    (2, 65_533, 100),
    (2, 65_533, 0),
    (3, 65_532, 30),
    (4095, 61_440, 50),
    (4096, 61_439, 90),
];

/// The same with as many named outputs as there may be: all wires in falling order, so that inputs are among
/// them. The largest has 720,879 bytes, which is the longest circuit there is.
const NAMED_SHAPES: [(u16, u16, usize); 4] = [
    (2, 1, 100),
    (4096, 1, 0),
    (2, 65_533, 40),
    (4096, 61_439, 60),
];

/// A length that 16 bits do not hold.
const LONG: usize = 70_000;

/// The calls on one circuit, gathered one by one.
struct Calls {
    base: Call,
    name: String,
    found: Vec<Edge>,
}

/// The circuit of a shape, by turns with m at both of its ends.
fn shaped(random: &mut Random, shape: usize) -> Option<Vec<u8>> {
    let &(n, q, charged) = SHAPES.get(shape)?;
    let bytes = circuit(random, n, q, charged);
    let mut bytes = with_one_operand(random, bytes);
    let m = if shape.is_multiple_of(2) { q } else { 1 };
    bytes[4..6].copy_from_slice(&m.to_be_bytes());
    Some(bytes)
}

/// The circuit of a shape with named outputs.
fn shaped_by_name(random: &mut Random, shape: usize) -> Option<Vec<u8>> {
    let &(n, q, charged) = NAMED_SHAPES.get(shape)?;
    let bytes = circuit(random, n, q, charged);
    let bytes = with_one_operand(random, bytes);
    let circuit = Circuit::read(&bytes).expect("an accepted circuit");
    let falling: Vec<u16> = (1..=n + q).rev().collect();
    Some(with_outputs(&circuit, &falling))
}

/// The calls of an operation on the shape of that number, each of garble in a run of its own; none
/// past the last. An operation that takes a circuit's bytes has those with named outputs too. The comparator
/// takes no circuit, and has calls for the first shape alone.
pub fn calls(random: &mut Random, operation: Operation, shape: usize) -> Option<Vec<Edge>> {
    if operation == Operation::Comparator && shape > 0 {
        return None;
    }
    let bytes = match shape.checked_sub(SHAPES.len()) {
        None => shaped(random, shape)?,
        Some(shape) if operation.takes_bytes() => shaped_by_name(random, shape)?,
        Some(_) => return None,
    };
    let mut base = call_on(random, operation, &bytes);
    any_scheme(random, &mut base);
    any_mark(random, &mut base);
    base.lens = room(&base).expect("a sound call");
    let [n, m, q] = [2, 4, 6].map(|at| u16::from_be_bytes([bytes[at], bytes[at + 1]]));
    let mut calls = Calls {
        base,
        name: format!("n {n}, m {m}, q {q}, {} bytes", bytes.len()),
        found: Vec::new(),
    };
    calls.add("exact", |_| ());
    calls.of_room();
    match operation {
        Operation::Pick => calls.of_pick(),
        Operation::Comparator => calls.of_width(),
        Operation::EvaluateGates => calls.of_gates(n + q),
        _ => calls.of_circuit(n + q, q),
    }
    calls.of_lists();
    if !calls.base.material.is_empty() {
        calls.of_material();
    }
    for edge in &mut calls.found {
        add_run(random, &mut edge.call);
    }
    Some(calls.found)
}

impl Calls {
    /// Adds the sound call with one change.
    fn add(&mut self, name: &str, change: impl FnOnce(&mut Call)) {
        let mut call = self.base.clone();
        change(&mut call);
        let name = format!("{}, {name}", self.name);
        self.found.push(Edge { name, call });
    }

    /// Each output buffer a byte too short, and longer.
    fn of_room(&mut self) {
        for index in 0..self.base.lens.len() {
            self.add("a buffer a byte short", |call| call.lens[index] -= 1);
            self.add("a longer buffer", |call| call.lens[index] += 100);
        }
    }

    /// The last gate, whose wire is `own`, of q, with each fault; another length; a gate more than q; and the
    /// outputs, where they are named.
    fn of_circuit(&mut self, own: u16, q: u16) {
        let end = 8 + 7 * usize::from(q);
        let last = end - 7;
        if Mark::of(&self.base.circuit) == Some(Mark::Named) {
            self.of_outputs(own);
        }
        let own = own.to_be_bytes();
        self.add("last gate's mark", |call| call.circuit[last] ^= 1);
        self.add("last gate's operand is its own wire", |call| {
            call.circuit[last + 4..last + 6].copy_from_slice(&own)
        });
        self.add("last gate's code", |call| call.circuit[last + 6] = 15);
        self.add("circuit a byte longer", |call| call.circuit.push(0));
        self.add("circuit a byte short", |call| {
            call.circuit.pop();
        });
        self.add("one gate more", |call| {
            call.circuit[6..8].copy_from_slice(&(q + 1).to_be_bytes());
            let gate = [0x43, 0x47, 0, 1, 0, 2, 8];
            call.circuit.splice(end..end, gate);
        });
    }

    /// The last output, with each fault, where `last` is the last wire; an output more, which past 65,535 is
    /// none in the header; and a record more or less than m.
    fn of_outputs(&mut self, last: u16) {
        let m = u16::from_be_bytes([self.base.circuit[4], self.base.circuit[5]]);
        let record = self.base.circuit.len() - 4;
        self.add("last output's mark", |call| call.circuit[record + 1] ^= 8);
        for wire in [0, 1, last, last.wrapping_add(1), 65_535] {
            self.add("last output's wire", |call| {
                call.circuit[record + 2..].copy_from_slice(&wire.to_be_bytes())
            });
        }
        self.add("one output more", |call| {
            call.circuit[4..6].copy_from_slice(&m.wrapping_add(1).to_be_bytes());
            call.circuit.extend([0x43, 0x4F, 0, 1]);
        });
        self.add("one record more", |call| {
            call.circuit.extend([0x43, 0x4F, 0, 1]);
        });
        self.add("one record less", |call| call.circuit.truncate(record));
        self.add("the mark 43 48", |call| call.circuit[1] = 0x48);
    }

    /// The same in the list form.
    fn of_gates(&mut self, own: u16) {
        let last = self.base.gates.len() - 1;
        let gate = self.base.gates[last];
        self.add("last gate's operand is its own wire", |call| {
            call.gates[last].b = own
        });
        self.add("last gate's code", |call| call.gates[last].code = 15);
        self.add("one gate more", |call| call.gates.push(gate));
    }

    /// Lists of other lengths, and a fault in the last value.
    fn of_lists(&mut self) {
        if let Some(last) = self.base.values.len().checked_sub(1) {
            self.add("last value", |call| call.values[last] = 2);
            self.add("many values", |call| call.values.resize(LONG, 0));
        }
        if !self.base.seed.is_empty() {
            self.add("a long seed", |call| call.seed.resize(LONG, 0));
        }
        if !self.base.zero.is_empty() {
            self.add("zeros a byte longer", |call| call.zero.push(0));
            self.add("ones a byte longer", |call| call.one.push(0));
        }
        if !self.base.tokens.is_empty() {
            self.add("tokens a byte longer", |call| call.tokens.push(0));
        }
    }

    /// Material with a fault at its far end.
    fn of_material(&mut self) {
        let last = self.base.material.len() - 1;
        self.add("last byte", |call| call.material[last] = 2);
        self.add("material a byte short", |call| {
            call.material.pop();
        });
        self.add("material a byte longer", |call| call.material.push(0));
        let sizes = self.base.read_circuit().expect("a sound call").sizes();
        if sizes.p > 0 {
            let scheme = Scheme::from_byte(self.base.material[2]);
            let rows = scheme.expect("a sound call").rows();
            let mark = material::Mark::of(&self.base.material).expect("a sound call");
            let record = last + 1 - mark.last_length(sizes.m) - (4 + BLOCK * rows);
            self.add("last row record", |call| call.material[record + 3] ^= 1);
        }
    }

    /// Lists of as many tokens as wires have numbers, and of one more.
    fn of_pick(&mut self) {
        for (count, bit) in [
            (65_535, 0),
            (65_535, 1),
            (65_536, 1),
            (65_535, 2),
            (65_534, 0),
        ] {
            self.add("wire 65,535 of long lists", |call| {
                call.zero.resize(BLOCK * count, 1);
                call.one.resize(BLOCK * count, 2);
                (call.wire, call.bit) = (65_535, bit);
            });
        }
        self.add("lists of two lengths", |call| {
            call.zero.resize(BLOCK * 65_535, 1)
        });
    }

    /// The least and the largest width in a long buffer, and those just past them.
    fn of_width(&mut self) {
        for width in [1, 64, 0, 65, u64::MAX] {
            self.add("a width at a limit", |call| {
                (call.width, call.lens) = (width, vec![LONG])
            });
        }
    }
}
