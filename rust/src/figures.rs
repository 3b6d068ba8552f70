//! Figures, and the value bytes of their bits: what stands before a comparator's call and after it.

use crate::Secret;
use std::error::Error;
use std::fmt;

/// A figure that does not fit: it has more bits than there are value bytes for it. It does not say which figure: that is
/// secret.
#[derive(Clone, Copy, Debug, PartialEq, Eq, Hash)]
#[non_exhaustive]
pub struct FigureTooLarge {
    /// The bits that there are for it.
    pub bits: usize,
}

impl fmt::Display for FigureTooLarge {
    fn fmt(&self, f: &mut fmt::Formatter<'_>) -> fmt::Result {
        let ending = if self.bits == 1 { "" } else { "s" };
        write!(f, "the figure does not fit in {} bit{ending}", self.bits)
    }
}

impl Error for FigureTooLarge {}

/// The figure without its lowest bits; 0 where it has no more.
fn without_lowest(figure: u64, bits: usize) -> u64 {
    if bits < 64 {
        figure >> bits
    } else {
        0
    }
}

/// Writes a figure as value bytes, 0 or 1 each, lowest bit first: as many as `values` has, all past the 64th 0.
///
/// A comparator's list of values is the price's and then the ceiling's.
///
/// # Errors
///
/// [`FigureTooLarge`], where the figure does not fit; nothing is written then.
///
/// ```
/// let mut values = [9; 4];
/// weighhare::figure_values(11, &mut values)?;
/// assert_eq!(values, [1, 1, 0, 1]);
///
/// let refused = weighhare::figure_values(16, &mut values).unwrap_err();
/// assert_eq!(refused.to_string(), "the figure does not fit in 4 bits");
/// assert_eq!(values, [1, 1, 0, 1]);
/// # Ok::<(), weighhare::FigureTooLarge>(())
/// ```
pub fn figure_values(figure: u64, values: &mut [u8]) -> Result<(), FigureTooLarge> {
    let bits = values.len();
    if without_lowest(figure, bits) != 0 {
        return Err(FigureTooLarge { bits });
    }
    for (index, value) in values.iter_mut().enumerate() {
        *value = (without_lowest(figure, index) & 1) as u8;
    }
    Ok(())
}

/// The value bytes of figures, one after the other, each of so many bits, 0 or 1, lowest bit first: for a comparator the price
/// and the ceiling.
///
/// # Errors
///
/// [`FigureTooLarge`], where one of them does not fit.
///
/// ```
/// use weighhare::figures_to_values;
///
/// assert_eq!(figures_to_values(&[11, 2], 4)?[..], [1, 1, 0, 1, 0, 1, 0, 0]);
/// assert_eq!(figures_to_values(&[11, 16], 4).unwrap_err().bits, 4);
/// # Ok::<(), weighhare::FigureTooLarge>(())
/// ```
pub fn figures_to_values(figures: &[u64], bits: u16) -> Result<Secret, FigureTooLarge> {
    let bits = usize::from(bits);
    let mut values = Secret::zeroed(bits * figures.len());
    for (index, figure) in figures.iter().enumerate() {
        figure_values(*figure, &mut values[bits * index..bits * (index + 1)])?;
    }
    Ok(values)
}

/// The figure of value bytes, lowest bit first; nothing where a byte is neither 0 nor 1, or one past the 64th is 1.
///
/// ```
/// assert_eq!(weighhare::values_figure(&[1, 1, 0, 1]), Some(11));
/// assert_eq!(weighhare::values_figure(&[1, 2]), None);
/// ```
pub fn values_figure(values: &[u8]) -> Option<u64> {
    let mut figure = 0;
    for (index, value) in values.iter().enumerate() {
        match (value, index) {
            (0, _) => {}
            (1, 0..64) => figure |= 1 << index,
            _ => return None,
        }
    }
    Some(figure)
}
