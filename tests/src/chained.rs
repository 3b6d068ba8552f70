//! Cases of the chain garble, encode, evaluate, the outputs' tokens, decode on one circuit, each call handed
//! what those before it wrote (01, demand 3; 02, job 8).

use crate::block::BLOCK;
use crate::circuit::Circuit;
use crate::evaluator::SCHEMES;
use crate::generate;
use crate::lines;
use crate::material::{self, Mark};
use crate::operations::{self as op, Wanted};
use crate::random::Random;
use crate::refused::Refused;
use crate::scheme::Scheme;

/// The arguments of a chain.
#[derive(Clone, Debug)]
pub struct Chain {
    /// The circuit's bytes.
    pub circuit: Vec<u8>,
    /// Garble's seed.
    pub seed: Vec<u8>,
    /// Garble's run number.
    pub run: u64,
    /// Encode's values.
    pub values: Vec<u8>,
    /// Garble's scheme byte.
    pub scheme: u8,
    /// The mark of the material.
    pub mark: u16,
    fill: u8,
    /// The lengths of the buffers: material, zero tokens, one tokens, tokens, wires, bits.
    pub lens: [usize; 6],
    /// The length of the buffer of the outputs' tokens.
    pub output_room: usize,
}

/// The room for the outputs' tokens of a line that does not say it.
const OUTPUT_ROOM: usize = 1 << 16;

/// The call that refused, and its refusal: garble is 1, encode 2, evaluate 3, decode 4, and the outputs'
/// tokens, which come before decode, 5.
type Ended = Result<(), (u8, Refused)>;

/// The call that must refuse, and its refusal's number; nothing where the chain must run.
type Due = Option<(u8, u8)>;

/// Which field of a chain's line is the setting.
const SETTING: usize = 3;

impl Chain {
    /// Runs the calls in turn, up to the first that refuses, in the buffers given.
    fn run_in(&self, buffers: &mut [Vec<u8>; 6]) -> Ended {
        let [material, zeros, ones, tokens, wires, bits] = buffers;
        let (circuit, seed) = (&self.circuit, &self.seed);
        let by = |call: u8| move |refused: Refused| (call, refused);
        let wanted = Wanted {
            run: self.run,
            scheme: self.scheme,
            mark: self.mark,
        };
        let garbled = op::garble(circuit, seed, wanted, material, zeros, ones);
        let length = garbled.map_err(by(1))?.length as usize;
        let sizes = op::check(circuit).map_err(by(1))?;
        let list = BLOCK * sizes.n;
        let (end, outputs) = (BLOCK * sizes.wires(), BLOCK * sizes.m);
        let material = &material[..length];
        let (zeros, ones) = (&zeros[..list], &ones[..list]);
        op::encode(circuit, &self.values, zeros, ones, tokens).map_err(by(2))?;
        op::evaluate(circuit, &tokens[..list], material, wires).map_err(by(3))?;
        let mut chosen = vec![self.fill; self.output_room];
        op::output_tokens(circuit, &wires[..end], &mut chosen).map_err(by(5))?;
        op::decode(circuit, &chosen[..outputs], material, bits).map_err(by(4))
    }

    /// The line of a chain of run 0. `due` is the call that must refuse, and its refusal's number.
    pub fn case(&self, due: Due) -> String {
        assert_eq!(self.run, 0, "a line that has no run number");
        assert_eq!(self.output_room, OUTPUT_ROOM, "a line that does not say it");
        assert_eq!(self.mark, Mark::Colours.number(), "a line that has no mark");
        lines::line(&self.fields(due))
    }

    /// The line of a chain that has its run number.
    pub fn case_with_run(&self, due: Due) -> String {
        assert_eq!(self.output_room, OUTPUT_ROOM, "a line that does not say it");
        assert_eq!(self.mark, Mark::Colours.number(), "a line that has no mark");
        let mut fields = self.fields(due);
        lines::add_run(&mut fields[SETTING], self.run);
        lines::line(&fields)
    }

    /// The line of a chain that has its run number and the room for the outputs' tokens.
    pub fn case_with_room(&self, due: Due) -> String {
        assert_eq!(self.mark, Mark::Colours.number(), "a line that has no mark");
        lines::line(&self.fields_with_room(due))
    }

    /// The line of a chain that has its run number, the room for the outputs' tokens and its mark.
    pub fn case_with_mark(&self, due: Due) -> String {
        let mut fields = self.fields_with_room(due);
        lines::add_mark(&mut fields[SETTING], self.mark);
        lines::line(&fields)
    }

    /// The fields of the chain, with its run number and the room for the outputs' tokens in the setting.
    fn fields_with_room(&self, due: Due) -> [Vec<u8>; 7] {
        let mut fields = self.fields(due);
        lines::add_run(&mut fields[SETTING], self.run);
        assert!(self.output_room <= OUTPUT_ROOM, "more than `vectors` has");
        fields[SETTING].extend((self.output_room as u32).to_be_bytes());
        fields
    }

    /// The fields of the chain: circuit, seed, values, setting, answer, and the buffers of the wires
    /// and the bits after it.
    fn fields(&self, due: Due) -> [Vec<u8>; 7] {
        let mut buffers = self.lens.map(|length| vec![self.fill; length]);
        let ended = self.run_in(&mut buffers);
        let given = ended.err().map(|(call, refused)| (call, refused.number));
        assert_eq!(given, due, "{self:?}");
        if ended.is_ok() {
            self.check_plain(&buffers[5]);
        }
        let answer = match ended {
            Ok(()) => vec![0],
            Err((call, refused)) => [vec![call], lines::answer(&Err(refused))].concat(),
        };
        let mut setting = vec![self.scheme, self.fill];
        for length in self.lens {
            assert!(length <= 1 << 16, "more room than `vectors` has");
            setting.extend((length as u32).to_be_bytes());
        }
        let [.., wires, bits] = buffers;
        let (circuit, seed) = (self.circuit.clone(), self.seed.clone());
        let values = self.values.clone();
        [circuit, seed, values, setting, answer, wires, bits]
    }

    /// The bits of a chain that ran are those of the plain circuit.
    fn check_plain(&self, bits: &[u8]) {
        let circuit = Circuit::read(&self.circuit).expect("an accepted circuit");
        let mut carried = vec![0; circuit.sizes().wires()];
        op::plain(&self.circuit, &self.values, &mut carried).expect("room");
        assert_eq!(bits[..circuit.sizes().m], circuit.of_outputs(&carried));
    }
}

/// A chain that runs, on any circuit of 01's codes.
fn chain(random: &mut Random, scheme: Scheme) -> Chain {
    let circuit = generate::small_circuit(random);
    chain_on(random, scheme, circuit)
}

/// A chain of run 0 that runs, with room to spare.
pub fn chain_on(random: &mut Random, scheme: Scheme, circuit: Vec<u8>) -> Chain {
    let sizes = op::check(&circuit).expect("an accepted circuit");
    let (list, wires) = (BLOCK * sizes.n, BLOCK * sizes.wires());
    let material = material::length(sizes, scheme, Mark::Colours);
    let needed = [material, wires, list, list, wires, sizes.m];
    Chain {
        circuit,
        seed: generate::seed(random),
        run: 0,
        values: generate::values(random, sizes.n),
        scheme: scheme.byte(),
        mark: Mark::Colours.number(),
        fill: random.byte(),
        lens: needed.map(|length| length + random.below(20)),
        output_room: OUTPUT_ROOM,
    }
}

/// For each scheme of 01: chains that run, and chains ended by each refusal that a call can give, alone
/// and with the next.
pub fn cases() -> String {
    let mut random = Random::new(3_003);
    let random = &mut random;
    let mut text = String::new();
    for scheme in SCHEMES {
        for _ in 0..25 {
            text += &chain(random, scheme).case(None);
        }
        for (call, number) in ENDS {
            let mut chain = chain(random, scheme);
            spoil(&mut chain, call, number);
            text += &chain.case(Some((call, number)));
        }
        // Two at once: the first in order is given.
        for (index, &(call, number)) in ENDS.iter().enumerate().skip(1) {
            let mut chain = chain(random, scheme);
            let (first, first_number) = ENDS[index - 1];
            spoil(&mut chain, first, first_number);
            spoil(&mut chain, call, number);
            text += &chain.case(Some((first, first_number)));
        }
    }
    text
}

/// The calls, and the refusals that they can give in a chain, in order, as the lines of 01 have them.
pub const ENDS: [(u8, u8); 15] = [
    (1, 1),
    (1, 2),
    (1, 3),
    (1, 4),
    (1, 5),
    (1, 6),
    (1, 7),
    (1, 8),
    (1, 14),
    (1, 19),
    (2, 9),
    (2, 10),
    (2, 19),
    (3, 19),
    (4, 19),
];

/// Changes an argument so that a call gives a refusal.
pub fn spoil(chain: &mut Chain, call: u8, number: u8) {
    let circuit = &mut chain.circuit;
    match (call, number) {
        (1, 1) => circuit.truncate(7),
        // 01 refused 43 49 too. In a circuit under 8 bytes, which comes first, stored cases have it still.
        (1, 2) if circuit.len() < 8 => circuit[1] ^= 1,
        (1, 2) => circuit[1] = 0x4A,
        (1, 3) => circuit[4..6].fill(0),
        (1, 4) => circuit.push(0),
        (1, 5) => circuit[9] ^= 1,
        (1, 6) => circuit[10..12].fill(0),
        // 01 refused 3. Beside a faulty operand, which comes first, stored cases have it still.
        (1, 7) if circuit[10..12] == [0, 0] => circuit[14] = 3,
        (1, 7) => circuit[14] = 15,
        (1, 8) => chain.seed.push(0),
        // 01 refused 4 as well. Beside a faulty seed, which comes first, stored cases have it still.
        (1, 14) if chain.seed.len() != BLOCK => chain.scheme = 4,
        (1, 14) => chain.scheme = 5,
        (1, 19) => chain.lens[0] = 0,
        (2, 9) => chain.values.push(0),
        (2, 10) => chain.values[0] = 2,
        (2, 19) => chain.lens[3] = 0,
        (3, 19) => chain.lens[4] = 0,
        (4, 19) => chain.lens[5] = 0,
        other => panic!("no way to {other:?}"),
    }
}
