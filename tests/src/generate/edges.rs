//! The edges of the refusals: from sound calls on small circuits, every argument is moved across
//! each of its limits, one step at a time. Which refusal is due is not known here.

use super::hashes::{has_mark, hash_outputs, BAD_MARKS};
use super::outputs::with_outputs;
use super::{add_run, call_on, circuit, rekey, room, with_one_operand, BAD_WIDTHS};
use crate::block::BLOCK;
use crate::call::{Call, Operation};
use crate::circuit::{Circuit, Gate, Mark};
use crate::material;
use crate::random::Random;

/// A call, and what was done to it.
#[derive(Clone, Debug)]
pub struct Edge {
    /// What was done to the sound call, in words.
    pub name: String,
    /// The call.
    pub call: Call,
}

/// The edges of one sound call, gathered one by one.
struct Edges {
    base: Call,
    found: Vec<Edge>,
}

/// All edges of an operation, each of garble in a run of its own: by each scheme, and with the outputs named
/// by one; and by this one with hashes too.
pub fn edges(random: &mut Random, operation: Operation) -> Vec<Edge> {
    let mut found = Vec::new();
    for (n, q, charged, by_name) in [(2, 1, 100, 4), (3, 2, 0, 2), (5, 9, 60, 1)] {
        let bytes = circuit(random, n, q, charged);
        let bytes = with_one_operand(random, bytes);
        for scheme in 1..=4 {
            let base = with_scheme(random, operation, &bytes, scheme);
            found.extend(around(base));
        }
        let hashed = with_hashes(random, operation, &bytes, by_name);
        found.extend(hashed.into_iter().flat_map(around));
        if operation.takes_bytes() {
            let circuit = Circuit::read(&bytes).expect("an accepted circuit");
            // The last wire, an input, and the last wire again.
            let bytes = with_outputs(&circuit, &[n + q, 2, n + q]);
            let base = with_scheme(random, operation, &bytes, by_name);
            found.extend(around(base));
            let hashed = with_hashes(random, operation, &bytes, by_name);
            found.extend(hashed.into_iter().flat_map(around));
        }
    }
    for edge in &mut found {
        add_run(random, &mut edge.call);
    }
    found
}

/// A sound call of that scheme, where the operation has one, in exact buffers.
fn with_scheme(random: &mut Random, operation: Operation, bytes: &[u8], scheme: u8) -> Call {
    loop {
        let mut call = call_on(random, operation, bytes);
        if scheme == 4 {
            rekey(random, &mut call);
        }
        let of_call = match operation {
            Operation::Garble => call.scheme,
            Operation::Evaluate | Operation::EvaluateGates | Operation::Decode => call.material[2],
            _ => scheme,
        };
        if of_call == scheme {
            call.lens = room(&call).expect("a sound call");
            return call;
        }
    }
}

/// The same with material that ends in hashes, where the operation has a mark.
fn with_hashes(
    random: &mut Random,
    operation: Operation,
    bytes: &[u8],
    scheme: u8,
) -> Option<Call> {
    if !has_mark(operation) {
        return None;
    }
    let mut call = with_scheme(random, operation, bytes, scheme);
    hash_outputs(random, &mut call);
    Some(call)
}

/// The sound call and all edges of its operation's arguments.
fn around(base: Call) -> Vec<Edge> {
    let operation = base.operation;
    let mut edges = Edges {
        base,
        found: Vec::new(),
    };
    edges.add("sound", |_| ());
    match operation {
        Operation::Pick => edges.of_pick(),
        Operation::EvaluateGates => edges.of_gates(),
        Operation::Comparator => edges.of_width(),
        _ => edges.of_circuit(),
    }
    match operation {
        Operation::Check | Operation::Pick | Operation::Comparator => {}
        Operation::Plain => edges.of_values(),
        Operation::Garble => {
            edges.of_seed_and_scheme();
            edges.of_mark();
        }
        Operation::Encode => {
            edges.of_values();
            edges.of_length("zeros", |call| &mut call.zero);
            edges.of_length("ones", |call| &mut call.one);
        }
        Operation::OutputTokens => edges.of_length("wires", |call| &mut call.tokens),
        Operation::Evaluate | Operation::EvaluateGates | Operation::Decode => {
            edges.of_length("tokens", |call| &mut call.tokens);
            edges.of_material();
            edges.of_file_marks();
            if operation == Operation::Decode {
                edges.of_bytes("tokens", |call| &mut call.tokens);
            }
        }
    }
    edges.of_room();
    edges.found
}

impl Edges {
    /// Adds the sound call with one change.
    fn add(&mut self, name: impl Into<String>, change: impl FnOnce(&mut Call)) {
        let mut call = self.base.clone();
        change(&mut call);
        let name = name.into();
        self.found.push(Edge { name, call });
    }

    /// Every shorter length of a list, up to 48 less, every one under 48, and some more bytes.
    fn of_length(&mut self, name: &str, list: impl Fn(&mut Call) -> &mut Vec<u8>) {
        let length = list(&mut self.base).len();
        let near = |&other: &usize| other < 48 || other.abs_diff(length) < 48;
        for other in (0..length + 48).filter(near) {
            let resized = |call: &mut Call| list(call).resize(other, 0);
            self.add(format!("{name} of {other} bytes"), resized);
        }
    }

    /// Each byte of a list changed in several ways.
    fn of_bytes(&mut self, name: &str, list: impl Fn(&mut Call) -> &mut Vec<u8>) {
        for index in 0..list(&mut self.base).len() {
            for (flip, set) in [
                (1, None),
                (0x80, None),
                (0, Some(0)),
                (0, Some(2)),
                (0, Some(255)),
            ] {
                let name = format!("byte {index} of {name}, flip {flip}, set {set:?}");
                self.add(name, |call| {
                    let byte = &mut list(call)[index];
                    *byte = set.unwrap_or(*byte ^ flip);
                });
            }
        }
    }

    fn of_circuit(&mut self) {
        self.of_length("circuit", |call| &mut call.circuit);
        self.of_bytes("circuit", |call| &mut call.circuit);
        for (n, m, q) in sizes() {
            self.add(format!("n {n}, m {m}, q {q} in the header"), |call| {
                let numbers = [n, m, q].map(u16::to_be_bytes).concat();
                call.circuit[2..8].copy_from_slice(&numbers);
            });
        }
        let [n, _, q] = header(&self.base.circuit);
        let last = 8 + 7 * (q - 1);
        for code in 0..=255 {
            self.add(format!("code {code}"), |call| call.circuit[last + 6] = code);
        }
        for (a, b) in operands(n + q) {
            self.add(format!("operands {a}, {b}"), |call| {
                let numbers = [a, b].map(u16::to_be_bytes).concat();
                call.circuit[last + 2..last + 6].copy_from_slice(&numbers);
            });
        }
        if Mark::of(&self.base.circuit) == Some(Mark::Named) {
            self.of_outputs();
        }
    }

    /// Named outputs: the wire of each, also beside another's faulty mark, and from none to one too many.
    fn of_outputs(&mut self) {
        let [n, m, q] = header(&self.base.circuit);
        let start = 8 + 7 * q;
        let wires = (0..=n + q + 2).chain([256, 4096, 65_535]);
        for (k, wire) in (0..m).flat_map(|k| wires.clone().map(move |wire| (k, wire))) {
            let (at, wire) = (start + 4 * k + 2, (wire as u16).to_be_bytes());
            self.add(format!("output {k} is wire {wire:?}"), |call| {
                call.circuit[at..at + 2].copy_from_slice(&wire)
            });
            self.add(format!("output {k} is wire {wire:?}, a mark too"), |call| {
                call.circuit[at..at + 2].copy_from_slice(&wire);
                call.circuit[start + 4 * (m / 2)] ^= 1;
            });
        }
        for count in 0..=n + q + 1 {
            self.add(format!("{count} outputs"), |call| {
                call.circuit[4..6].copy_from_slice(&(count as u16).to_be_bytes());
                call.circuit.truncate(start);
                call.circuit
                    .extend((0..count).flat_map(|_| [0x43, 0x4F, 0, 1]));
            });
        }
    }

    /// The list form of a circuit.
    fn of_gates(&mut self) {
        for (n, m, _) in sizes() {
            self.add(format!("n {n}, m {m}"), |call| (call.n, call.m) = (n, m));
        }
        let (first, count) = (self.base.gates[0], self.base.gates.len());
        for other in [0, count - 1, count + 1, 61_440, 65_535, 65_536, 65_537] {
            let resized = |call: &mut Call| call.gates.resize(other, first);
            self.add(format!("{other} gates"), resized);
        }
        let last = count - 1;
        for code in 0..=255 {
            self.add(format!("code {code}"), |call| call.gates[last].code = code);
        }
        for (a, b) in operands(count + usize::from(self.base.n)) {
            self.add(format!("operands {a}, {b}"), |call| {
                call.gates[last] = Gate {
                    a,
                    b,
                    ..call.gates[last]
                };
            });
        }
    }

    fn of_values(&mut self) {
        self.of_length("values", |call| &mut call.values);
        for index in 0..self.base.values.len() {
            for value in 0..=255 {
                let name = format!("value {index} is {value}");
                self.add(name, |call| call.values[index] = value);
            }
        }
    }

    fn of_seed_and_scheme(&mut self) {
        self.of_length("seed", |call| &mut call.seed);
        for scheme in 0..=255 {
            self.add(format!("scheme {scheme}"), |call| {
                call.scheme = scheme;
                call.lens = room(call).unwrap_or(vec![2000; 3]);
            });
        }
    }

    /// Garble's mark: each second byte, the list of those refused, and each bit of both marks flipped; all of
    /// these with an unknown scheme too.
    fn of_mark(&mut self) {
        let flipped = (0..16).flat_map(|bit| [0x4748 ^ 1 << bit, 0x474A ^ 1 << bit]);
        let marks = (0x4700..0x4800).chain(BAD_MARKS).chain(flipped);
        for mark in marks {
            self.add(format!("mark {mark:04x}"), |call| {
                call.mark = mark;
                call.lens = room(call).unwrap_or(vec![2000; 3]);
            });
            self.add(format!("mark {mark:04x}, scheme 9"), |call| {
                (call.mark, call.scheme) = (mark, 9)
            });
        }
    }

    /// The material with each mark of the header, each of the last record, and the length due to each.
    fn of_file_marks(&mut self) {
        let material = &self.base.material;
        let own = material::Mark::of(material).expect("a sound call");
        let m = self.base.read_circuit().expect("a sound call").sizes().m;
        let last = material.len() - own.last_length(m);
        for length in material::Mark::ALL.map(|mark| mark.last_length(m)) {
            for (header, mark) in [(0x48, 0x44), (0x48, 0x41), (0x4A, 0x44), (0x4A, 0x41)] {
                let name = format!("47 {header:02x}, 47 {mark:02x}, last record of {length} bytes");
                self.add(name, |call| {
                    call.material.resize(last + length, 1);
                    (call.material[1], call.material[last + 1]) = (header, mark);
                });
            }
        }
    }

    fn of_material(&mut self) {
        self.of_length("material", |call| &mut call.material);
        self.of_bytes("material", |call| &mut call.material);
        for scheme in 0..=255 {
            self.add(format!("scheme {scheme}"), |call| call.material[2] = scheme);
        }
    }

    /// Every output buffer: empty, one byte short, exact, longer.
    fn of_room(&mut self) {
        for (index, needed) in self.base.lens.clone().into_iter().enumerate() {
            for len in [
                0,
                1,
                needed - 1,
                needed,
                needed + 1,
                needed + 17,
                3 * needed,
            ] {
                let name = format!("output {index} of {len} bytes");
                self.add(name, |call| call.lens[index] = len);
            }
        }
    }

    fn of_pick(&mut self) {
        for bit in 0..=255 {
            self.add(format!("bit {bit}"), |call| call.bit = bit);
        }
        let past = (self.base.zero.len() / BLOCK + 3) as u16;
        for wire in (0..past).chain([4096, 4097, 65_534, 65_535]) {
            for bit in 0..=2 {
                let numbers = |call: &mut Call| (call.wire, call.bit) = (wire, bit);
                self.add(format!("wire {wire}, bit {bit}"), numbers);
            }
        }
        for (zero, one) in (0..50).flat_map(|zero| (0..50).map(move |one| (zero, one))) {
            self.add(format!("lists of {zero} and {one} bytes"), |call| {
                call.zero.resize(zero, 1);
                call.one.resize(one, 2);
            });
        }
    }

    /// Every width up to past its limit, and some that are far past it, with no room, with a byte less than
    /// is needed, with just that, and with much room.
    fn of_width(&mut self) {
        for width in (0..=70).chain(BAD_WIDTHS) {
            let of_width =
                |len: usize| move |call: &mut Call| (call.width, call.lens) = (width, vec![len]);
            let needed = 28 * width.clamp(1, 64) as usize - 13;
            for len in [0, needed - 1, needed, 2000] {
                self.add(format!("width {width}, {len} bytes"), of_width(len));
            }
        }
    }
}

/// n, m and q of a circuit's header.
fn header(circuit: &[u8]) -> [usize; 3] {
    [2, 4, 6].map(|at| usize::from(u16::from_be_bytes([circuit[at], circuit[at + 1]])))
}

/// Sizes on both sides of every limit, of m for either mark.
fn sizes() -> Vec<(u16, u16, u16)> {
    let mut sizes = Vec::new();
    for n in [0u16, 1, 2, 3, 4095, 4096, 4097, 65_535] {
        for q in [
            0u16, 1, 2, 61_438, 61_439, 61_440, 65_532, 65_533, 65_534, 65_535,
        ] {
            let most = [0, 1, q.saturating_sub(1), q, q.saturating_add(1), 65_535];
            sizes.extend(most.map(|m| (n, m, q)));
            let wires = n.saturating_add(q);
            sizes.extend([wires, wires.saturating_add(1)].map(|m| (n, m, q)));
        }
    }
    sizes
}

/// Pairs of operands up to just past the gate's own wire.
fn operands(wire: usize) -> Vec<(u16, u16)> {
    let numbers = (0..=wire as u16 + 2).chain([256, 65_535]);
    let pairs = numbers
        .clone()
        .flat_map(|a| numbers.clone().map(move |b| (a, b)));
    pairs.collect()
}
