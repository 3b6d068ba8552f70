//! Bytes that are wiped when they are dropped.

use crate::Refusal;
use std::arch::asm;
use std::fmt;
use std::io;
use std::ops::{Deref, DerefMut};

/// Overwrites bytes with zeros, by writes that a compiler does not drop.
fn wipe(bytes: &mut [u8]) {
    bytes.fill(0);
    // SAFETY: there is no instruction. What the compiler must take from it is that the bytes may be read here, so that they
    // have to be zero.
    unsafe { asm!("/* {} */", in(reg) bytes.as_ptr(), options(nostack, preserves_flags)) };
}

/// Bytes that are secret: tokens, or the values of a figure. They are wiped when they are dropped, and `Debug` shows how many
/// they are and no more.
///
/// They are used as the slice that they are. Wiped are these bytes alone, and no copy that was made of them.
///
/// ```
/// use weighhare::Secret;
///
/// let secret = Secret::from(vec![7; 16]);
/// assert_eq!(secret[0], 7);
/// assert_eq!(format!("{secret:?}"), "Secret(16 bytes)");
/// ```
#[derive(Default)]
pub struct Secret(Vec<u8>);

impl Secret {
    /// So many zeros, to be written to.
    pub(crate) fn zeroed(length: usize) -> Self {
        Self(vec![0; length])
    }

    /// The bytes, which are no longer wiped: for what has turned out to be no secret.
    ///
    /// ```
    /// assert_eq!(weighhare::Secret::from(vec![1, 2]).into_vec(), [1, 2]);
    /// ```
    #[must_use]
    pub fn into_vec(mut self) -> Vec<u8> {
        std::mem::take(&mut self.0)
    }

    /// The first bytes alone, the others wiped; all of them where there are no more.
    ///
    /// ```
    /// assert_eq!(weighhare::Secret::from(vec![1, 2, 3]).front(2)[..], [1, 2]);
    /// ```
    #[must_use]
    pub fn front(mut self, length: usize) -> Self {
        if let Some(rest) = self.0.get_mut(length..) {
            wipe(rest);
            self.0.truncate(length);
        }
        self
    }
}

impl From<Vec<u8>> for Secret {
    fn from(bytes: Vec<u8>) -> Self {
        Self(bytes)
    }
}

impl Deref for Secret {
    type Target = [u8];

    fn deref(&self) -> &[u8] {
        &self.0
    }
}

impl DerefMut for Secret {
    fn deref_mut(&mut self) -> &mut [u8] {
        &mut self.0
    }
}

impl AsRef<[u8]> for Secret {
    fn as_ref(&self) -> &[u8] {
        self
    }
}

impl fmt::Debug for Secret {
    fn fmt(&self, f: &mut fmt::Formatter<'_>) -> fmt::Result {
        write!(f, "Secret({} bytes)", self.len())
    }
}

impl Drop for Secret {
    fn drop(&mut self) {
        wipe(&mut self.0);
    }
}

extern "C" {
    /// `getrandom(2)`, of the system's C library.
    fn getrandom(bytes: *mut u8, length: usize, flags: u32) -> isize;
}

/// A seed: 16 secret bytes, from which everything random of a garbling comes. It is wiped when it is dropped.
///
/// One seed is for one garbling for each run number.
pub struct Seed(Secret);

impl Seed {
    /// The bytes of a seed.
    const LENGTH: usize = 16;

    /// A seed from the system's random numbers, by `getrandom(2)`.
    ///
    /// # Errors
    ///
    /// The system's, where it gives none.
    ///
    /// ```
    /// let seed = weighhare::Seed::draw()?;
    /// assert_eq!(seed.bytes().len(), 16);
    /// # Ok::<(), std::io::Error>(())
    /// ```
    pub fn draw() -> io::Result<Self> {
        let mut bytes = Secret::zeroed(Self::LENGTH);
        // SAFETY: the pointer and the length are a slice's, borrowed alone.
        let drawn = unsafe { getrandom(bytes.as_mut_ptr(), bytes.len(), 0) };
        match usize::try_from(drawn) {
            Ok(Self::LENGTH) => Ok(Self(bytes)),
            Ok(_) => Err(io::ErrorKind::UnexpectedEof.into()),
            Err(_) => Err(io::Error::last_os_error()),
        }
    }

    /// The seed of 16 bytes. They are copied, and the caller wipes its own.
    ///
    /// # Errors
    ///
    /// [`Refusal::SeedLength`], 8, where there are not 16 bytes.
    ///
    /// ```
    /// use weighhare::{Refusal, Seed};
    ///
    /// assert_eq!(Seed::from_bytes(&[7; 16])?.bytes(), [7; 16]);
    /// assert_eq!(Seed::from_bytes(&[7; 15]).unwrap_err(), Refusal::SeedLength { length: 15 });
    /// # Ok::<(), Refusal>(())
    /// ```
    pub fn from_bytes(bytes: &[u8]) -> Result<Self, Refusal> {
        if bytes.len() == Self::LENGTH {
            Ok(Self(Secret::from(bytes.to_vec())))
        } else {
            Err(Refusal::SeedLength { length: bytes.len() })
        }
    }

    /// The 16 bytes.
    ///
    /// ```
    /// assert_eq!(weighhare::Seed::from_bytes(&[7; 16])?.bytes(), [7; 16]);
    /// # Ok::<(), weighhare::Refusal>(())
    /// ```
    #[must_use]
    pub fn bytes(&self) -> &[u8] {
        &self.0
    }
}

impl fmt::Debug for Seed {
    fn fmt(&self, f: &mut fmt::Formatter<'_>) -> fmt::Result {
        f.write_str("Seed(16 bytes)")
    }
}
