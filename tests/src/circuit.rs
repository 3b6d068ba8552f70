//! Circuits: reading with refusals 1 to 7, 25 and 26, and the plain circuit (01, Circuit; 02, jobs 2
//! and 8).

use crate::refused::{refuse_if, Refused};

const GATE_MARK: [u8; 2] = [0x43, 0x47];
const OUTPUT_MARK: [u8; 2] = [0x43, 0x4F];
const HEADER: usize = 8;
const RECORD: usize = 7;
const OUTPUT_RECORD: usize = 4;

/// The mark of a circuit's header, which says where its outputs are (02, job 8).
#[derive(Clone, Copy, Debug, PartialEq, Eq)]
pub enum Mark {
    /// 43 48: the last m wires.
    LastWires,
    /// 43 49: the wires of the m output records after the gates.
    Named,
}

impl Mark {
    /// The mark that bytes begin with, if there is one.
    pub fn of(bytes: &[u8]) -> Option<Mark> {
        [Mark::LastWires, Mark::Named]
            .into_iter()
            .find(|mark| bytes.starts_with(&mark.bytes()))
    }

    /// Its two bytes.
    pub fn bytes(self) -> [u8; 2] {
        match self {
            Mark::LastWires => [0x43, 0x48],
            Mark::Named => [0x43, 0x49],
        }
    }

    /// The most outputs: q, or n+q.
    fn most_outputs(self, sizes: Sizes) -> usize {
        match self {
            Mark::LastWires => sizes.q,
            Mark::Named => sizes.wires(),
        }
    }

    /// The circuit's length: 8+7q, or 8+7q+4m.
    fn length(self, sizes: Sizes) -> usize {
        let outputs = match self {
            Mark::LastWires => 0,
            Mark::Named => OUTPUT_RECORD * sizes.m,
        };
        HEADER + RECORD * sizes.q + outputs
    }
}

/// A truth value, which is not a colour.
#[derive(Clone, Copy, Debug, PartialEq, Eq)]
pub struct Truth(pub bool);

/// The four pairs of truth values (u, v).
pub const TRUTH_PAIRS: [(Truth, Truth); 4] = [
    (Truth(false), Truth(false)),
    (Truth(false), Truth(true)),
    (Truth(true), Truth(false)),
    (Truth(true), Truth(true)),
];

/// What a gate costs.
#[derive(Clone, Copy, Debug, PartialEq, Eq)]
pub enum Kind {
    /// Has rows in the material.
    Charged,
    /// No rows: XOR, XNOR, and the gates that use one operand.
    Free,
}

/// A gate: operands a and b, and the code.
#[derive(Clone, Copy, Debug, PartialEq, Eq)]
pub struct Gate {
    /// The wire of the first operand.
    pub a: u16,
    /// The wire of the second operand.
    pub b: u16,
    /// The truth table: bit 2u+v is the value for a=u, b=v.
    pub code: u8,
}

impl Gate {
    /// Charged, free, or nothing where the code is refused.
    pub fn kind(self) -> Option<Kind> {
        match self.code {
            1 | 2 | 4 | 7 | 8 | 11 | 13 | 14 => Some(Kind::Charged),
            3 | 5 | 6 | 9 | 10 | 12 => Some(Kind::Free),
            _ => None,
        }
    }

    /// The value for a=u, b=v.
    pub fn value(self, u: Truth, v: Truth) -> Truth {
        let bit = 2 * u8::from(u.0) + u8::from(v.0);
        Truth(self.code >> bit & 1 == 1)
    }

    /// Conditions 6 and 7 of the gate on `wire`.
    fn check(self, wire: usize) -> Result<(), Refused> {
        let in_limit = 1 <= self.a && self.a < self.b && usize::from(self.b) < wire;
        refuse_if(!in_limit, 6, wire)?;
        refuse_if(self.kind().is_none(), 7, wire)
    }
}

/// The numbers that check gives.
#[derive(Clone, Copy, Debug, PartialEq, Eq)]
pub struct Sizes {
    /// Inputs.
    pub n: usize,
    /// Outputs.
    pub m: usize,
    /// Gates.
    pub q: usize,
    /// Charged gates.
    pub p: usize,
}

impl Sizes {
    /// Condition 3 for a mark; n+q is added where it cannot overflow.
    fn check(self, mark: Mark) -> Result<(), Refused> {
        let Sizes { n, m, q, .. } = self;
        let outputs = 1..=mark.most_outputs(self);
        let in_limit = (2..=4096).contains(&n) && 1 <= q && n + q <= 65_535 && outputs.contains(&m);
        refuse_if(!in_limit, 3, 2)
    }

    /// All wires, n+q.
    pub fn wires(self) -> usize {
        self.n + self.q
    }

    /// n, m and q as a header has them, 2 bytes each.
    pub fn header_bytes(self) -> [u8; 6] {
        let [n, m, q] = [self.n, self.m, self.q].map(|size| (size as u16).to_be_bytes());
        [n[0], n[1], m[0], m[1], q[0], q[1]]
    }
}

/// A circuit for which none of conditions 1 to 7, 25 and 26 holds.
#[derive(Clone, Debug, PartialEq, Eq)]
pub struct Circuit {
    mark: Mark,
    sizes: Sizes,
    gates: Vec<Gate>,
    /// The wire of each output, in order: the last m wires, or those named.
    outputs: Vec<u16>,
}

/// A big-endian number of 2 bytes.
fn number(bytes: &[u8], at: usize) -> u16 {
    u16::from_be_bytes([bytes[at], bytes[at + 1]])
}

/// The bytes made from n, m and a list of at most 65,535 gates, accepted or not, whose outputs are the
/// last m wires.
pub fn to_bytes(n: u16, m: u16, gates: &[Gate]) -> Vec<u8> {
    marked_bytes(Mark::LastWires, n, m, gates)
}

/// The same with the wires of the outputs, at most 65,535, named (02, job 8).
pub fn named_bytes(n: u16, outputs: &[u16], gates: &[Gate]) -> Vec<u8> {
    let mut bytes = marked_bytes(Mark::Named, n, outputs.len() as u16, gates);
    for output in outputs {
        bytes.extend(OUTPUT_MARK);
        bytes.extend(output.to_be_bytes());
    }
    bytes
}

/// The header of a mark, and the gates.
fn marked_bytes(mark: Mark, n: u16, m: u16, gates: &[Gate]) -> Vec<u8> {
    let mut bytes = mark.bytes().to_vec();
    for size in [n, m, gates.len() as u16] {
        bytes.extend(size.to_be_bytes());
    }
    for gate in gates {
        bytes.extend(GATE_MARK);
        bytes.extend(gate.a.to_be_bytes());
        bytes.extend(gate.b.to_be_bytes());
        bytes.push(gate.code);
    }
    bytes
}

/// The last m wires.
fn last_wires(sizes: Sizes) -> Vec<u16> {
    let wires = sizes.wires();
    (wires - sizes.m + 1..=wires)
        .map(|wire| wire as u16)
        .collect()
}

/// The wires of output records; conditions 25 and 26. Outputs are counted from 1.
fn read_outputs(records: &[u8], wires: usize) -> Result<Vec<u16>, Refused> {
    let mut outputs = Vec::with_capacity(records.len() / OUTPUT_RECORD);
    for (record, output) in records.chunks_exact(OUTPUT_RECORD).zip(1..) {
        refuse_if(!record.starts_with(&OUTPUT_MARK), 25, output)?;
        let wire = number(record, 2);
        refuse_if(wire == 0 || usize::from(wire) > wires, 26, output)?;
        outputs.push(wire);
    }
    Ok(outputs)
}

impl Circuit {
    /// Reads circuit bytes, or gives the refusal of conditions 1 to 7, 25 and 26.
    pub fn read(bytes: &[u8]) -> Result<Circuit, Refused> {
        refuse_if(bytes.len() < HEADER, 1, bytes.len())?;
        let mark = Mark::of(bytes).ok_or(Refused::new(2, 0))?;
        let [n, m, q] = [2, 4, 6].map(|at| usize::from(number(bytes, at)));
        let sizes = Sizes { n, m, q, p: 0 };
        sizes.check(mark)?;
        refuse_if(bytes.len() != mark.length(sizes), 4, bytes.len())?;
        let (gates, outputs) = bytes[HEADER..].split_at(RECORD * q);
        let mut circuit = Circuit::without_gates(mark, sizes);
        for (record, wire) in gates.chunks_exact(RECORD).zip(n + 1..) {
            refuse_if(!record.starts_with(&GATE_MARK), 5, wire)?;
            let (a, b, code) = (number(record, 2), number(record, 4), record[6]);
            circuit.push(Gate { a, b, code }, wire)?;
        }
        if mark == Mark::Named {
            circuit.outputs = read_outputs(outputs, sizes.wires())?;
        }
        Ok(circuit)
    }

    /// Takes n, m and the gates already read; conditions 3, 6 and 7. The outputs are the last m wires.
    pub fn from_gates(n: u16, m: u16, gates: &[Gate]) -> Result<Circuit, Refused> {
        let (n, m, q) = (usize::from(n), usize::from(m), gates.len());
        refuse_if(q > 65_535, 3, 2)?;
        let sizes = Sizes { n, m, q, p: 0 };
        sizes.check(Mark::LastWires)?;
        let mut circuit = Circuit::without_gates(Mark::LastWires, sizes);
        for (&gate, wire) in gates.iter().zip(n + 1..) {
            circuit.push(gate, wire)?;
        }
        Ok(circuit)
    }

    /// A circuit of sizes within their limits, with neither gates nor named outputs yet.
    fn without_gates(mark: Mark, sizes: Sizes) -> Circuit {
        let outputs = match mark {
            Mark::LastWires => last_wires(sizes),
            Mark::Named => Vec::new(),
        };
        Circuit {
            mark,
            sizes,
            gates: Vec::with_capacity(sizes.q),
            outputs,
        }
    }

    fn push(&mut self, gate: Gate, wire: usize) -> Result<(), Refused> {
        gate.check(wire)?;
        self.sizes.p += usize::from(gate.kind() == Some(Kind::Charged));
        self.gates.push(gate);
        Ok(())
    }

    /// Of a list of items, one for each wire, those of the outputs, in order.
    pub fn of_outputs<T: Copy>(&self, items: &[T]) -> Vec<T> {
        // Wires are numbered from 1.
        let item = |&wire: &u16| items[usize::from(wire) - 1];
        self.outputs.iter().map(item).collect()
    }

    /// n, m, q and p.
    pub fn sizes(&self) -> Sizes {
        self.sizes
    }

    /// The gates in file order, each with its wire number.
    pub fn gates(&self) -> impl Iterator<Item = (usize, Gate)> + '_ {
        (self.sizes.n + 1..).zip(self.gates.iter().copied())
    }

    /// The wire numbers of the charged gates, in order.
    pub fn charged_wires(&self) -> impl Iterator<Item = usize> + '_ {
        self.gates()
            .filter(|(_, gate)| gate.kind() == Some(Kind::Charged))
            .map(|(wire, _)| wire)
    }

    /// The circuit's bytes, with the mark that it has.
    pub fn to_bytes(&self) -> Vec<u8> {
        let Sizes { n, m, .. } = self.sizes;
        match self.mark {
            Mark::LastWires => to_bytes(n as u16, m as u16, &self.gates),
            Mark::Named => named_bytes(n as u16, &self.outputs, &self.gates),
        }
    }

    /// The same circuit with its outputs named: "43 48 circuits stand for the list of their last m
    /// wires" (02, job 8).
    pub fn with_named_outputs(&self) -> Circuit {
        Circuit {
            mark: Mark::Named,
            ..self.clone()
        }
    }

    /// Works something over all wires in order: `inputs` first, then one item for each gate, made
    /// from the gate's wire number, the gate and the items of its operands.
    pub fn over_wires<T: Copy>(
        &self,
        inputs: Vec<T>,
        mut step: impl FnMut(usize, Gate, T, T) -> T,
    ) -> Vec<T> {
        let mut items = inputs;
        for (wire, gate) in self.gates() {
            // Wires are numbered from 1.
            let a = items[usize::from(gate.a) - 1];
            let b = items[usize::from(gate.b) - 1];
            items.push(step(wire, gate, a, b));
        }
        items
    }

    /// The plain circuit: the truth value on every wire, from those on the inputs.
    pub fn plain(&self, inputs: Vec<Truth>) -> Vec<Truth> {
        self.over_wires(inputs, |_, gate, u, v| gate.value(u, v))
    }
}
