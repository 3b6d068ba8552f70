//! What is due to a call, worked out once more, from its arguments, 01 and 02 alone. Library `second`
//! gives only the call, the refusals that its operation has, the bytes made from a list, and AES.

use second::block::Block;
use second::call::{Call, Operation};
use second::cipher::{Cipher, FIXED_KEY};
use second::circuit::to_bytes;
use second::refused::Refused;

const CHARGED: [u8; 8] = [1, 2, 4, 7, 8, 11, 13, 14];
const FREE: [u8; 6] = [3, 5, 6, 9, 10, 12];

/// The answer due: the first condition that holds, in the order in which they are tried, or the numbers
/// returned.
pub fn answer(call: &Call) -> Result<Vec<u64>, Refused> {
    let given = Given::new(call);
    for &number in call.operation.refusals() {
        if let Some(place) = given.place(number) {
            return Err(Refused::new(number, place));
        }
    }
    let numbers = given.numbers().into_iter();
    Ok(numbers.map(|number| number as u64).collect())
}

/// The bytes that the output buffers need, in 01's order, if no condition before 19 holds.
pub fn room(call: &Call) -> Vec<usize> {
    Given::new(call).room()
}

/// A call, and its circuit, read without a check.
struct Given<'a> {
    call: &'a Call,
    /// The circuit's bytes; in the list form those made from the list.
    circuit: Vec<u8>,
    n: usize,
    m: usize,
    q: usize,
}

/// The number of the 2 bytes at an index; 0 where there are none.
fn number_at(bytes: &[u8], at: usize) -> usize {
    let number = |two: &[u8]| 256 * usize::from(two[0]) + usize::from(two[1]);
    bytes.get(at..at + 2).map_or(0, number)
}

/// The bytes of a row record, 4+16r: r is 4, 3, 2, 2 in schemes 1, 2, 3, 4.
fn record_length(scheme: u8) -> usize {
    4 + 16 * [4, 3, 2, 2][usize::from(scheme) - 1]
}

/// π(2x ⊕ t) ⊕ 2x ⊕ t for the token x of output k and t = 2(65,536+k).
fn output_hash(token: &[u8], k: usize) -> Vec<u8> {
    let number = |bytes: &[u8]| bytes.iter().fold(0, |n: u128, &b| n << 8 | u128::from(b));
    let (x, t) = (number(token), 2 * (65_536 + k as u128));
    let twice = x << 1 ^ if x >> 127 == 1 { 0x87 } else { 0 };
    let block = twice ^ t;
    let made = Cipher::default().encrypt(FIXED_KEY, Block(block.to_be_bytes()));
    (number(&made.0) ^ block).to_be_bytes().to_vec()
}

impl Given<'_> {
    fn new(call: &Call) -> Given<'_> {
        let is_list = call.operation == Operation::EvaluateGates;
        let circuit = match is_list {
            true => to_bytes(call.n, call.m, &call.gates),
            false => call.circuit.clone(),
        };
        let [n, m, q] = [2, 4, 6].map(|at| number_at(&circuit, at));
        // A list may have more gates than 2 bytes can count.
        let q = if is_list { call.gates.len() } else { q };
        Given {
            call,
            circuit,
            n,
            m,
            q,
        }
    }

    /// Whether the outputs are named, by the mark 43 49.
    fn is_named(&self) -> bool {
        self.circuit[..2] == [0x43, 0x49]
    }

    /// The gate records in file order, each with its wire number.
    fn gates(&self) -> impl Iterator<Item = (&[u8], usize)> {
        let records = self.circuit.get(8..).unwrap_or_default();
        records.chunks_exact(7).zip(self.n + 1..=self.n + self.q)
    }

    /// The wire numbers of the charged gates, in file order.
    fn charged(&self) -> Vec<usize> {
        let charged = self.gates().filter(|(gate, _)| CHARGED.contains(&gate[6]));
        charged.map(|(_, wire)| wire).collect()
    }

    /// The scheme byte: garble's argument, or the material's.
    fn scheme(&self) -> u8 {
        match self.call.operation {
            Operation::Garble => self.call.scheme,
            _ => self.call.material[2],
        }
    }

    /// Whether material ends in hashes: by garble's mark, or by the material's own.
    fn is_hashed(&self) -> bool {
        match self.call.operation {
            Operation::Garble => self.call.mark == 0x474A,
            _ => self.call.material.starts_with(&[0x47, 0x4A]),
        }
    }

    /// 13: garble's mark, or the material's own, is neither of the two.
    fn wrong_mark(&self) -> bool {
        let is_coloured = match self.call.operation {
            Operation::Garble => self.call.mark == 0x4748,
            _ => self.call.material.starts_with(&[0x47, 0x48]),
        };
        !is_coloured && !self.is_hashed()
    }

    /// The bytes after the last record's mark: m, or 32m with hashes.
    fn last_bytes(&self) -> usize {
        self.m * if self.is_hashed() { 32 } else { 1 }
    }

    /// The material's length, 9+p(4+16r)+2+m, or with hashes 32m for m.
    fn material_length(&self) -> usize {
        9 + self.charged().len() * record_length(self.scheme()) + 2 + self.last_bytes()
    }

    fn room(&self) -> Vec<usize> {
        let (n, wires) = (self.n, self.n + self.q);
        match self.call.operation {
            Operation::Check | Operation::Pick => vec![],
            Operation::Plain => vec![wires],
            Operation::Garble => vec![self.material_length(), 16 * wires, 16 * n],
            Operation::Encode => vec![16 * n],
            Operation::OutputTokens => vec![16 * self.m],
            Operation::Evaluate | Operation::EvaluateGates => vec![16 * wires],
            Operation::Decode => vec![self.m],
            Operation::Comparator => vec![28 * self.call.width as usize - 13],
        }
    }

    /// The numbers that an operation returns if it is not refused.
    fn numbers(&self) -> Vec<usize> {
        let p = self.charged().len();
        match self.call.operation {
            Operation::Check => vec![self.n, self.m, self.q, p],
            Operation::Garble => {
                let hashes = if self.is_hashed() { 2 * self.m } else { 0 };
                vec![self.material_length(), 4 * p + hashes]
            }
            Operation::Evaluate | Operation::EvaluateGates => match self.scheme() {
                1 | 2 => vec![p],
                _ => vec![2 * p],
            },
            Operation::Comparator => self.room(),
            _ => vec![],
        }
    }

    /// The place of a condition, if it holds. None before it does, so there is what it looks at.
    fn place(&self, number: u8) -> Option<usize> {
        let Given { call, circuit, .. } = self;
        let (n, material) = (self.n, &call.material);
        let (holds, place) = match (number, call.operation) {
            (1, _) => (circuit.len() < 8, circuit.len()),
            (2, _) => (circuit[..2] != [0x43, 0x48] && !self.is_named(), 0),
            (3, _) => (self.breaks_limit(), 2),
            (4, _) => (circuit.len() != self.circuit_length(), circuit.len()),
            (5..=7 | 25 | 26, _) => {
                let (found, place) = self.faulty(number)?;
                (found == number, place)
            }
            (8, _) => (call.seed.len() != 16, call.seed.len()),
            (9, _) => (call.values.len() != n, call.values.len()),
            (10, Operation::Pick) => (call.bit > 1, 0),
            (10, _) => return call.values.iter().position(|&value| value > 1),
            (11, Operation::Pick) => {
                let (zero, one) = (call.zero.len(), call.one.len());
                (zero != one || zero % 16 != 0, zero)
            }
            (11, _) => return self.wrong_list(),
            (12, _) => (material.len() < 9, material.len()),
            (13, _) => (self.wrong_mark(), 0),
            (14, _) => (!(1..=4).contains(&self.scheme()), self.scheme().into()),
            (15, _) => (material[3..9] != circuit[2..8], 3),
            (16, _) => (material.len() != self.material_length(), material.len()),
            (17, _) => return self.faulty_record(),
            (18, _) => return self.faulty_last_record(),
            (19, _) => return self.short_buffer(),
            (20, _) => return self.wrong_wire(),
            (21, _) => (!(1..=64).contains(&call.width), call.width as usize),
            (29, _) => return self.unknown_token(),
            _ => panic!("there is no refusal {number}"),
        };
        holds.then_some(place)
    }

    /// 3: n, q or n+q, or m, which has another limit where the outputs are named.
    fn breaks_limit(&self) -> bool {
        let Given { n, m, q, .. } = *self;
        let most = if self.is_named() { n + q } else { q };
        let sizes = (2..=4096).contains(&n) && 1 <= q && n + q <= 65_535;
        !sizes || m < 1 || m > most
    }

    /// 4: the length due to the circuit.
    fn circuit_length(&self) -> usize {
        let outputs = if self.is_named() { 4 * self.m } else { 0 };
        8 + 7 * self.q + outputs
    }

    /// 18: where the last record starts, if its mark is wrong or a colour's byte exceeds 1.
    fn faulty_last_record(&self) -> Option<usize> {
        let material = &self.call.material;
        let (before, last) = material.split_at(material.len() - 2 - self.last_bytes());
        let wrong = match self.is_hashed() {
            true => last[..2] != [0x47, 0x41],
            false => last[..2] != [0x47, 0x44] || last[2..].iter().any(|&byte| byte > 1),
        };
        wrong.then_some(before.len())
    }

    /// 29: the first output whose token's hash is none of its two, where there are hashes.
    fn unknown_token(&self) -> Option<usize> {
        if !self.is_hashed() {
            return None;
        }
        let material = &self.call.material;
        let hashes = material[material.len() - 32 * self.m..].chunks(32);
        let mut outputs = self.call.tokens.chunks(16).zip(hashes).zip(1..);
        let found = outputs.find(|((token, pair), k)| {
            let hash = output_hash(token, *k);
            pair[..16] != hash && pair[16..] != hash
        });
        found.map(|(_, k)| k)
    }

    /// What the search finds that looks for a number: that of the gates, or of the outputs.
    fn faulty(&self, number: u8) -> Option<(u8, usize)> {
        match number {
            25 | 26 => self.faulty_output(),
            _ => self.faulty_gate(),
        }
    }

    /// 25 and 26, one search: the first output record with a fault, and its lower number.
    fn faulty_output(&self) -> Option<(u8, usize)> {
        let records = self.circuit[8 + 7 * self.q..].chunks(4).zip(1..);
        records.into_iter().find_map(|(record, output)| {
            let wire = number_at(record, 2);
            let faults = [
                (25, record[..2] != [0x43, 0x4F]),
                (26, wire == 0 || wire > self.n + self.q),
            ];
            let lower = faults.into_iter().find(|&(_, holds)| holds);
            lower.map(|(number, _)| (number, output))
        })
    }

    /// 5 to 7, one search: the first gate with a fault, and that gate's lowest number.
    fn faulty_gate(&self) -> Option<(u8, usize)> {
        self.gates().find_map(|(gate, wire)| {
            let (a, b, code) = (number_at(gate, 2), number_at(gate, 4), gate[6]);
            let faults = [
                (5, gate[..2] != [0x43, 0x47]),
                (6, !(1 <= a && a < b && b < wire)),
                (7, !CHARGED.contains(&code) && !FREE.contains(&code)),
            ];
            let lowest = faults.into_iter().find(|&(_, holds)| holds);
            lowest.map(|(number, _)| (number, wire))
        })
    }

    /// 11: the length of the first token list that is wrong.
    fn wrong_list(&self) -> Option<usize> {
        let call = self.call;
        let (lists, due) = match call.operation {
            Operation::Encode => (vec![&call.zero, &call.one], 16 * self.n),
            Operation::Decode => (vec![&call.tokens], 16 * self.m),
            Operation::OutputTokens => (vec![&call.tokens], 16 * (self.n + self.q)),
            _ => (vec![&call.tokens], 16 * self.n),
        };
        let mut lengths = lists.into_iter().map(Vec::len);
        lengths.find(|&length| length != due)
    }

    /// 17: the wire number due in the first record that has a wrong mark or wire number.
    fn faulty_record(&self) -> Option<usize> {
        let records = self.call.material[9..].chunks(record_length(self.scheme()));
        records.zip(self.charged()).find_map(|(record, wire)| {
            let wrong = record[..2] != [0x47, 0x54] || number_at(record, 2) != wire;
            wrong.then_some(wire)
        })
    }

    /// 20: pick's wire, if it is 0 or past the lists.
    fn wrong_wire(&self) -> Option<usize> {
        let wire = usize::from(self.call.wire);
        (wire == 0 || 16 * wire > self.call.zero.len()).then_some(wire)
    }

    /// 19: the bytes needed in the first output buffer that is too short.
    fn short_buffer(&self) -> Option<usize> {
        let mut buffers = self.room().into_iter().zip(&self.call.lens);
        buffers.find_map(|(needed, &len)| (len < needed).then_some(needed))
    }
}
