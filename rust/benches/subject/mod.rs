//! The circuit that is measured, like that of `bench/subject.c`, and the library's calls on it, on buffers that are there already.

const INPUTS: usize = 128;
const OUTPUTS: usize = 128;
pub const GATES: usize = 60_000;
const WIRES: usize = INPUTS + GATES;

/// The circuit, the seed, and the buffers of the calls.
pub struct Subject {
    pub circuit: Vec<u8>,
    pub seed: [u8; 16],
    /// What the last garbling wrote: the material is this long, the tokens fill their buffers.
    material: Vec<u8>,
    length: usize,
    zeros: Vec<u8>,
    pub ones: Vec<u8>,
    /// A token for each input, for 0 and 1 in turn.
    pub tokens: Vec<u8>,
    wires: Vec<u8>,
}

impl Subject {
    pub fn new() -> Self {
        let mut random = Random(88_172_645_463_325_252);
        let mut subject = Self {
            circuit: circuit(&mut random),
            seed: std::array::from_fn(|_| random.below(256) as u8),
            // As long as any scheme's: four rows for each charged gate.
            material: vec![0; 11 + OUTPUTS + GATES / 2 * (4 + 64)],
            length: 0,
            zeros: vec![0; 16 * WIRES],
            ones: vec![0; 16 * INPUTS],
            tokens: vec![0; 16 * INPUTS],
            wires: vec![0; 16 * WIRES],
        };
        // An input's tokens come from the seed alone: every scheme has the same.
        subject.garble(1);
        subject.choose_tokens();
        subject
    }

    fn choose_tokens(&mut self) {
        let values: Vec<u8> = (0..INPUTS).map(|input| (input % 2) as u8).collect();
        let zeros = &self.zeros[..16 * INPUTS];
        let encoded = weighhare::encode(&self.circuit, &values, zeros, &self.ones, &mut self.tokens);
        encoded.expect("encode refuses nothing here");
    }

    pub fn garble(&mut self, scheme: u8) {
        let garbled = weighhare::garble(
            &self.circuit,
            &self.seed,
            0,
            scheme,
            weighhare::Mark::Colours.number(),
            &mut self.material,
            &mut self.zeros,
            &mut self.ones,
        );
        self.length = garbled.expect("garble refuses nothing here").length;
    }

    /// Evaluates what was garbled last.
    pub fn evaluate(&mut self) {
        let material = &self.material[..self.length];
        let evaluated = weighhare::evaluate(&self.circuit, &self.tokens, material, &mut self.wires);
        evaluated.expect("evaluate refuses nothing here");
    }

    pub fn material(&self) -> &[u8] {
        &self.material[..self.length]
    }

    pub fn input_zeros(&self) -> &[u8] {
        &self.zeros[..16 * INPUTS]
    }

    /// The outputs are the last wires.
    pub fn outputs(&self) -> &[u8] {
        &self.wires[16 * (WIRES - OUTPUTS)..]
    }
}

/// A gate's operands are any two wires before it, and half of the gates are charged, in random order.
fn circuit(random: &mut Random) -> Vec<u8> {
    let mut bytes = vec![0x43, 0x48];
    for number in [INPUTS, OUTPUTS, GATES] {
        bytes.extend(sixteen_bits(number));
    }
    let mut charged = GATES / 2;
    for gate in 0..GATES {
        let b = 2 + random.below(INPUTS + gate - 1);
        let a = 1 + random.below(b - 1);
        let is_charged = random.below(GATES - gate) < charged;
        let code = if is_charged {
            charged -= 1;
            [1, 2, 4, 7, 8, 11, 13, 14][random.below(8)]
        } else {
            [6, 9][random.below(2)]
        };
        bytes.extend([0x43, 0x47]);
        bytes.extend(sixteen_bits(a));
        bytes.extend(sixteen_bits(b));
        bytes.push(code);
    }
    bytes
}

fn sixteen_bits(number: usize) -> [u8; 2] {
    u16::try_from(number).expect("a number of 16 bits").to_be_bytes()
}

/// Numbers that are the same in each run.
struct Random(u64);

impl Random {
    fn below(&mut self, bound: usize) -> usize {
        self.0 ^= self.0 << 13;
        self.0 ^= self.0 >> 7;
        self.0 ^= self.0 << 17;
        ((self.0 >> 11) % bound as u64) as usize
    }
}
