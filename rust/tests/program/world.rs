//! The files of one exchange, as the library's functions on slices make them.

use super::due;
use std::collections::BTreeMap;

/// An exchange: who chose what, and each file by its name.
pub struct World {
    pub width: usize,
    pub price: u64,
    pub ceiling: u64,
    pub run: u64,
    pub scheme: u8,
    /// The mark of its material.
    pub mark: u16,
    pub files: BTreeMap<&'static str, Vec<u8>>,
}

/// The files that are no secret. All others are written for their owner alone.
const PUBLIC: [&str; 3] = ["circuit", "material", "bits"];

pub fn is_secret(file: &str) -> bool {
    !PUBLIC.contains(&file)
}

impl World {
    /// An exchange with material of mark 47 48.
    pub fn new(width: usize, figures: [u64; 2], seed: [u8; 16], run: u64, scheme: u8) -> Self {
        Self::with(due::COLOURS, width, figures, seed, run, scheme)
    }

    /// An exchange with material of mark 47 4A.
    pub fn hashed(width: usize, figures: [u64; 2], seed: [u8; 16], run: u64, scheme: u8) -> Self {
        Self::with(due::HASHES, width, figures, seed, run, scheme)
    }

    fn with(mark: u16, width: usize, [price, ceiling]: [u64; 2], seed: [u8; 16], run: u64, scheme: u8) -> Self {
        let files = BTreeMap::from([
            ("circuit", due::comparator(width).expect("a width from 1 to 64")),
            ("seed", seed.to_vec()),
            ("price", format!("{price}\n").into_bytes()),
            ("ceiling", ceiling.to_string().into_bytes()),
            (
                "values",
                [due::values(price, width), due::values(ceiling, width)].concat(),
            ),
        ]);
        let mut world = Self {
            width,
            price,
            ceiling,
            run,
            scheme,
            mark,
            files,
        };
        world.garble();
        world.evaluate();
        world
    }

    pub fn file(&self, name: &str) -> &[u8] {
        &self.files[name]
    }

    fn garble(&mut self) {
        let (circuit, seed) = (self.file("circuit"), self.file("seed"));
        let garbled = due::garble_with(self.mark, circuit, seed, self.run, self.scheme).expect("garbled");
        let (zeros, ones) = (garbled.zeros().to_vec(), garbled.ones);
        let values = self.file("values");
        let (price, ceiling) = values.split_at(self.width);
        let picked = |first: usize, bits: &[u8]| due::pick(&zeros, &ones, first as u16, bits).expect("picked");
        let (price, ceiling) = (picked(1, price), picked(self.width + 1, ceiling));
        let tokens = due::encode(self.file("circuit"), values, &zeros, &ones).expect("encoded");
        self.files.extend([
            ("material", garbled.material),
            ("all-zeros", garbled.all_zeros),
            ("first-zero", zeros[..16].to_vec()),
            ("zeros", zeros),
            ("ones", ones),
            ("price.tokens", price),
            ("ceiling.tokens", ceiling),
            ("tokens", tokens),
        ]);
    }

    fn evaluate(&mut self) {
        let [circuit, material] = ["circuit", "material"].map(|name| self.file(name));
        let wires = due::evaluate(circuit, self.file("tokens"), material).expect("evaluated");
        let outputs = due::output_tokens(circuit, &wires).expect("gathered");
        let bits = due::decode(circuit, &outputs, material).expect("decoded");
        assert_eq!(bits, [u8::from(self.price <= self.ceiling)], "the library's answer");
        let plain = due::plain(circuit, self.file("values")).expect("evaluated");
        self.files.extend([
            ("wires", wires),
            ("outputs", outputs),
            ("bits", bits),
            ("plain-wires", plain),
        ]);
    }
}
