//! What the garbler holds of one garbling.

use crate::{operations, Circuit, Mark, Refusal, Scheme, Secret, Seed};

/// A garbled circuit: the material, which the evaluator gets, and the tokens, of which it gets one for each input and which
/// are wiped when this is dropped.
///
/// A garbling is for one evaluation.
#[derive(Debug)]
#[must_use]
pub struct Garbling {
    material: Vec<u8>,
    zeros: Secret,
    ones: Secret,
    calls: usize,
}

impl Garbling {
    /// Garbles a circuit that was checked. Only refusal 30 is left, of [`Mark::Hashes`].
    pub(crate) fn of(circuit: &Circuit, seed: &Seed, run: u64, scheme: Scheme, mark: Mark) -> Result<Self, Refusal> {
        let sizes = circuit.sizes();
        let mut garbling = Self {
            material: vec![0; sizes.length_with(mark, scheme)],
            zeros: Secret::zeroed(sizes.wire_tokens_length()),
            ones: Secret::zeroed(sizes.input_tokens_length()),
            calls: 0,
        };
        let garbled = operations::garble(
            circuit.bytes(),
            seed.bytes(),
            run,
            scheme.number(),
            mark.number(),
            &mut garbling.material,
            &mut garbling.zeros,
            &mut garbling.ones,
        );
        garbling.calls = garbled?.calls;
        Ok(garbling)
    }

    /// The material: for the evaluator.
    ///
    /// ```
    /// # use weighhare::{Circuit, Scheme, Seed};
    /// let garbling = Circuit::comparator(8)?.garble(&Seed::draw()?, 0, Scheme::HalfGates);
    /// assert_eq!(garbling.material()[..3], [0x47, 0x48, 3]);
    /// # Ok::<(), Box<dyn std::error::Error>>(())
    /// ```
    #[must_use]
    pub fn material(&self) -> &[u8] {
        &self.material
    }

    /// The zero token of every wire, 16(n+q) bytes. Secret.
    ///
    /// ```
    /// # use weighhare::{Circuit, Scheme, Seed};
    /// let garbling = Circuit::comparator(8)?.garble(&Seed::draw()?, 0, Scheme::HalfGates);
    /// assert_eq!(garbling.zeros().len(), 16 * 45);
    /// # Ok::<(), Box<dyn std::error::Error>>(())
    /// ```
    #[must_use]
    pub fn zeros(&self) -> &[u8] {
        &self.zeros
    }

    /// The zero token of every input, 16n bytes: the front of [`zeros`](Self::zeros), which encode and pick take. Secret.
    ///
    /// ```
    /// # use weighhare::{Circuit, Scheme, Seed};
    /// let garbling = Circuit::comparator(8)?.garble(&Seed::draw()?, 0, Scheme::HalfGates);
    /// assert_eq!(garbling.input_zeros().len(), garbling.ones().len());
    /// # Ok::<(), Box<dyn std::error::Error>>(())
    /// ```
    #[must_use]
    pub fn input_zeros(&self) -> &[u8] {
        &self.zeros[..self.ones.len()]
    }

    /// The one token of every input, 16n bytes. Secret.
    ///
    /// ```
    /// # use weighhare::{Circuit, Scheme, Seed};
    /// let garbling = Circuit::comparator(8)?.garble(&Seed::draw()?, 0, Scheme::HalfGates);
    /// assert_eq!(garbling.ones().len(), 16 * 16);
    /// # Ok::<(), Box<dyn std::error::Error>>(())
    /// ```
    #[must_use]
    pub fn ones(&self) -> &[u8] {
        &self.ones
    }

    /// The calls of the block cipher made: 4p, and with hashes another 2m.
    ///
    /// ```
    /// # use weighhare::{Circuit, Scheme, Seed};
    /// let garbling = Circuit::comparator(8)?.garble(&Seed::draw()?, 0, Scheme::HalfGates);
    /// assert_eq!(garbling.calls(), 4 * 8);
    /// # Ok::<(), Box<dyn std::error::Error>>(())
    /// ```
    #[must_use]
    pub fn calls(&self) -> usize {
        self.calls
    }

    /// The token of an input for a bit, 16 bytes: `wire` counts from 1, `bit` is 0 or 1. Where it lies shows the bit, as
    /// [`pick`](crate::pick) says.
    ///
    /// # Errors
    ///
    /// Refusals 10 and 20.
    ///
    /// ```
    /// # use weighhare::{Circuit, Scheme, Seed};
    /// let garbling = Circuit::comparator(8)?.garble(&Seed::draw()?, 0, Scheme::HalfGates);
    /// assert_eq!(garbling.pick(2, 1)?, &garbling.ones()[16..32]);
    /// # Ok::<(), Box<dyn std::error::Error>>(())
    /// ```
    pub fn pick(&self, wire: u16, bit: u8) -> Result<&[u8], Refusal> {
        operations::pick(self.input_zeros(), self.ones(), wire, bit)
    }
}
