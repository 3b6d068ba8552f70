//! A circuit that was checked, and the operations on it, which allocate what they write.

use crate::{operations, Garbling, Mark, Refusal, Scheme, Secret, Seed, Sizes};

/// The mark of a circuit whose outputs are its last wires: so their tokens are the last, and the library need not check the whole
/// circuit once more to find them.
const LAST_WIRES: [u8; 2] = [0x43, 0x48];

/// A circuit that was checked and is accepted. It knows its sizes, so that its operations allocate what they write, and refuse
/// no circuit.
///
/// ```
/// use weighhare::{Circuit, Scheme, Seed};
///
/// // Wire 3 is wire 1 AND wire 2. Everybody has the circuit.
/// let circuit = Circuit::new([0x43, 0x48, 0, 2, 0, 1, 0, 1, 0x43, 0x47, 0, 1, 0, 2, 8])?;
///
/// // The garbler's side: it sends the material, and a token for each input.
/// let garbling = circuit.garble(&Seed::draw()?, 0, Scheme::HalfGates);
/// let tokens = circuit.encode(&[1, 1], garbling.input_zeros(), garbling.ones())?;
///
/// // The evaluator's side.
/// let wires = circuit.evaluate(&tokens, garbling.material())?.wires;
/// let outputs = circuit.output_tokens(&wires)?;
/// assert_eq!(circuit.decode(&outputs, garbling.material())?, [1]);
/// # Ok::<(), Box<dyn std::error::Error>>(())
/// ```
#[derive(Clone, Debug, PartialEq, Eq, Hash)]
pub struct Circuit {
    bytes: Vec<u8>,
    sizes: Sizes,
}

/// What [`Circuit::evaluate`] answers.
#[derive(Debug)]
#[must_use]
pub struct Evaluation {
    /// The token of every wire, 16(n+q) bytes.
    pub wires: Secret,
    /// The calls of the block cipher made: p in schemes 1 and 2, 2p in schemes 3 and 4.
    pub calls: usize,
}

impl Circuit {
    /// Checks a circuit's bytes, of either mark, and keeps them.
    ///
    /// # Errors
    ///
    /// Refusals 1 to 7, 25, 26, as [`check`](crate::check) gives them.
    ///
    /// ```
    /// use weighhare::{Circuit, Refusal};
    ///
    /// let refusal = Circuit::new([0x43, 0x48, 0, 2, 0, 1, 0]).unwrap_err();
    /// assert_eq!(refusal, Refusal::CircuitShort { length: 7 });
    /// ```
    pub fn new(bytes: impl Into<Vec<u8>>) -> Result<Self, Refusal> {
        let bytes = bytes.into();
        let sizes = operations::check(&bytes)?;
        Ok(Self { bytes, sizes })
    }

    /// The circuit that compares two figures of `width` bits each, a price and a ceiling: its one output is 1 exactly when
    /// price <= ceiling. Inputs 1 to w are the price, the next w the ceiling, the lowest bit of each first, as
    /// [`figures_to_values`](crate::figures_to_values) has them.
    ///
    /// # Errors
    ///
    /// [`Refusal::Width`], 21, where the width is not 1 to 64.
    ///
    /// ```
    /// use weighhare::{figures_to_values, Circuit};
    ///
    /// let circuit = Circuit::comparator(16)?;
    /// let values = figures_to_values(&[1200, 1500], 16)?;
    /// assert_eq!(circuit.plain_outputs(&values)?, [1]);
    /// # Ok::<(), Box<dyn std::error::Error>>(())
    /// ```
    pub fn comparator(width: usize) -> Result<Self, Refusal> {
        let mut bytes = vec![0; crate::comparator_length(width).unwrap_or(0)];
        operations::comparator(width, &mut bytes)?;
        Self::new(bytes)
    }

    /// The circuit's bytes.
    ///
    /// ```
    /// let circuit = weighhare::Circuit::comparator(16)?;
    /// assert_eq!(circuit.bytes()[..2], [0x43, 0x48]);
    /// # Ok::<(), weighhare::Refusal>(())
    /// ```
    #[must_use]
    pub fn bytes(&self) -> &[u8] {
        &self.bytes
    }

    /// The circuit's sizes.
    ///
    /// ```
    /// let sizes = weighhare::Circuit::comparator(16)?.sizes();
    /// assert_eq!((sizes.n, sizes.m, sizes.q, sizes.p), (32, 1, 61, 16));
    /// # Ok::<(), weighhare::Refusal>(())
    /// ```
    pub fn sizes(&self) -> Sizes {
        self.sizes
    }

    /// The value of every wire of the plain circuit, n+q bytes, for the values of its inputs, n bytes, each 0 or 1.
    ///
    /// # Errors
    ///
    /// Refusals 9 and 10.
    ///
    /// ```
    /// # use weighhare::Circuit;
    /// let circuit = Circuit::new([0x43, 0x48, 0, 2, 0, 1, 0, 1, 0x43, 0x47, 0, 1, 0, 2, 8])?;
    /// assert_eq!(circuit.plain(&[1, 0])?[..], [1, 0, 0]);
    /// # Ok::<(), weighhare::Refusal>(())
    /// ```
    pub fn plain(&self, values: &[u8]) -> Result<Secret, Refusal> {
        let mut wires = Secret::zeroed(self.sizes.wires());
        operations::plain(&self.bytes, values, &mut wires)?;
        Ok(wires)
    }

    /// The outputs' bits of the plain circuit, m bytes, each 0 or 1, in the order of the outputs.
    ///
    /// # Errors
    ///
    /// Refusals 9 and 10.
    ///
    /// ```
    /// # use weighhare::Circuit;
    /// let circuit = Circuit::new([0x43, 0x48, 0, 2, 0, 1, 0, 1, 0x43, 0x47, 0, 1, 0, 2, 8])?;
    /// assert_eq!(circuit.plain_outputs(&[1, 1])?, [1]);
    /// # Ok::<(), weighhare::Refusal>(())
    /// ```
    pub fn plain_outputs(&self, values: &[u8]) -> Result<Vec<u8>, Refusal> {
        // Which wires the outputs are is the library's to say: a value becomes 16 bytes, and these are gathered like tokens.
        let wires = self.plain(values)?;
        let spread = Secret::from(wires.iter().flat_map(|value| [*value; 16]).collect::<Vec<u8>>());
        let outputs = self.output_tokens(&spread)?;
        Ok(outputs.iter().step_by(16).copied().collect())
    }

    /// Garbles the circuit, to material of mark 47 48, by which any token decodes to some bit. Nothing is refused: the
    /// circuit was checked, a seed has 16 bytes, and every run number is taken.
    ///
    /// A seed is for one garbling for each run number; 0 for a seed that has one alone. In the library no look-up and
    /// no branch depends on the seed or a token, which is tested and not proved, as [`garble`](crate::garble) says.
    ///
    /// ```
    /// use weighhare::{Circuit, Scheme, Seed};
    ///
    /// let circuit = Circuit::comparator(16)?;
    /// let garbling = circuit.garble(&Seed::draw()?, 0, Scheme::HalfGates);
    /// assert_eq!(garbling.material().len(), circuit.sizes().material_length(Scheme::HalfGates));
    /// # Ok::<(), Box<dyn std::error::Error>>(())
    /// ```
    pub fn garble(&self, seed: &Seed, run: u64, scheme: Scheme) -> Garbling {
        let garbling = Garbling::of(self, seed, run, scheme, Mark::Colours);
        garbling.expect("garble refuses no such arguments: its contract")
    }

    /// Garbles the circuit, to material of mark 47 4A: it has hashes of the outputs' tokens, so that
    /// [`decode`](Self::decode) refuses a token that is none of its output's two. [`Mark`] says what that shows, and
    /// what it does not. All else is as in [`garble`](Self::garble), and the tokens are the same.
    ///
    /// # Errors
    ///
    /// [`Refusal::OutputHashes`], 30, where an output's two hashes are equal. No run is known that meets it.
    ///
    /// ```
    /// use weighhare::{Circuit, Refusal, Scheme, Seed};
    ///
    /// let circuit = Circuit::comparator(16)?;
    /// let garbling = circuit.garble_hashed(&Seed::draw()?, 0, Scheme::HalfGates)?;
    /// assert_eq!(garbling.material().len(), circuit.sizes().hashed_material_length(Scheme::HalfGates));
    ///
    /// // The output is the last wire. Its zero token decodes to 0; with a bit of it mistyped, it is refused.
    /// let mut output = *garbling.zeros().last_chunk::<16>().expect("a wire");
    /// assert_eq!(circuit.decode(&output, garbling.material()), Ok(vec![0]));
    /// output[3] ^= 0x10;
    /// assert_eq!(circuit.decode(&output, garbling.material()), Err(Refusal::OutputToken { output: 1 }));
    /// # Ok::<(), Box<dyn std::error::Error>>(())
    /// ```
    pub fn garble_hashed(&self, seed: &Seed, run: u64, scheme: Scheme) -> Result<Garbling, Refusal> {
        Garbling::of(self, seed, run, scheme, Mark::Hashes)
    }

    /// The inputs' tokens for their values, 16n bytes: `values` has n bytes, each 0 or 1, `zeros` and `ones` 16n bytes each.
    ///
    /// In the library no look-up and no branch depends on a token or on which bit a value is, which is tested and not
    /// proved, as [`encode`](crate::encode) says.
    ///
    /// # Errors
    ///
    /// Refusals 9, 10 and 11.
    ///
    /// ```
    /// # use weighhare::{Circuit, Scheme, Seed};
    /// let circuit = Circuit::new([0x43, 0x48, 0, 2, 0, 1, 0, 1, 0x43, 0x47, 0, 1, 0, 2, 8])?;
    /// let garbling = circuit.garble(&Seed::draw()?, 0, Scheme::Gax);
    /// let tokens = circuit.encode(&[1, 0], garbling.input_zeros(), garbling.ones())?;
    /// assert_eq!(tokens[..16], garbling.ones()[..16]);
    /// assert_eq!(tokens[16..], garbling.input_zeros()[16..]);
    /// # Ok::<(), Box<dyn std::error::Error>>(())
    /// ```
    pub fn encode(&self, values: &[u8], zeros: &[u8], ones: &[u8]) -> Result<Secret, Refusal> {
        let mut tokens = Secret::zeroed(self.sizes.input_tokens_length());
        operations::encode(&self.bytes, values, zeros, ones, &mut tokens)?;
        Ok(tokens)
    }

    /// Evaluates the garbled circuit: from a token for each input, 16n bytes, the token of every wire.
    ///
    /// The three warnings of [`evaluate`](crate::evaluate) hold: it is not constant-time, and others on the same machine
    /// may learn the tokens; a garbling is for one evaluation; somebody else's material can be well-formed and wrong.
    ///
    /// # Errors
    ///
    /// Refusals 11 to 18.
    ///
    /// ```
    /// # use weighhare::{Circuit, Scheme, Seed};
    /// let circuit = Circuit::new([0x43, 0x48, 0, 2, 0, 1, 0, 1, 0x43, 0x47, 0, 1, 0, 2, 8])?;
    /// let garbling = circuit.garble(&Seed::draw()?, 0, Scheme::Gax);
    /// let tokens = circuit.encode(&[0, 1], garbling.input_zeros(), garbling.ones())?;
    /// let evaluation = circuit.evaluate(&tokens, garbling.material())?;
    /// assert_eq!(evaluation.wires[32..], garbling.zeros()[32..]);
    /// assert_eq!(evaluation.calls, 1);
    /// # Ok::<(), Box<dyn std::error::Error>>(())
    /// ```
    pub fn evaluate(&self, tokens: &[u8], material: &[u8]) -> Result<Evaluation, Refusal> {
        let mut wires = Secret::zeroed(self.sizes.wire_tokens_length());
        let calls = operations::evaluate(&self.bytes, tokens, material, &mut wires)?;
        Ok(Evaluation { wires, calls })
    }

    /// The outputs' tokens, 16m bytes in the order of the outputs, from those of all wires.
    ///
    /// # Errors
    ///
    /// Refusal 11.
    ///
    /// ```
    /// # use weighhare::Circuit;
    /// let circuit = Circuit::new([0x43, 0x48, 0, 2, 0, 1, 0, 1, 0x43, 0x47, 0, 1, 0, 2, 8])?;
    /// let wires = [[1; 16], [2; 16], [3; 16]].concat();
    /// assert_eq!(circuit.output_tokens(&wires)?[..], [3; 16]);
    /// # Ok::<(), weighhare::Refusal>(())
    /// ```
    pub fn output_tokens(&self, wires: &[u8]) -> Result<Secret, Refusal> {
        let length = self.sizes.output_tokens_length();
        if self.bytes.starts_with(&LAST_WIRES) && wires.len() == self.sizes.wire_tokens_length() {
            return Ok(Secret::from(wires[wires.len() - length..].to_vec()));
        }
        let mut tokens = Secret::zeroed(length);
        operations::output_tokens(&self.bytes, wires, &mut tokens)?;
        Ok(tokens)
    }

    /// The outputs' bits, m bytes, each 0 or 1, in the order of the outputs, from their tokens, 16m bytes.
    ///
    /// With material of mark 47 48 any tokens decode; with 47 4A a token that is none of its output's two is refused.
    /// Either way somebody else's material can be well-formed and wrong.
    ///
    /// # Errors
    ///
    /// Refusals 11 to 18, and 29.
    ///
    /// ```
    /// use weighhare::{Circuit, Refusal};
    ///
    /// let circuit = Circuit::comparator(16)?;
    /// let refusal = circuit.decode(&[0; 16], &[0x47, 0x48]).unwrap_err();
    /// assert_eq!(refusal, Refusal::MaterialShort { length: 2 });
    /// # Ok::<(), Refusal>(())
    /// ```
    pub fn decode(&self, tokens: &[u8], material: &[u8]) -> Result<Vec<u8>, Refusal> {
        let mut bits = vec![0; self.sizes.m];
        operations::decode(&self.bytes, tokens, material, &mut bits)?;
        Ok(bits)
    }
}
