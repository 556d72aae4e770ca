//! The KMAC generator.

use std::fmt;

use super::{Drawing, Fresh, Held, Seeding, State};
use crate::ffi;
use crate::refusal::{Refusal, Runs};

impl State for ffi::hf_kmac_generator {
    const ZERO: Self = ffi::hf_kmac_generator { key: [0; 64], seeded: 0 };
    const NAME: &'static str = "KmacGenerator";
    const FRESH: Fresh<Self> = ffi::hf_kmac_generator_fresh;
    const SEED: Seeding<Self> = ffi::hf_kmac_generator_seed;
    const DRAW: Drawing<Self> = ffi::hf_kmac_generator_draw;

    fn seeded(&self) -> bool {
        self.seeded != 0
    }
}

/// The KMAC generator, made of KMACXOF256, for those whose policy names KMAC.
///
/// All that is said of [`Generator`](crate::Generator) holds of it, but a piece of a draw takes 4 runs, and it makes its own bytes of the same
/// seeds.
///
/// ```
/// use hailfeather::{Generator, KmacGenerator};
///
/// let (mut kmac, mut cshake) = (KmacGenerator::new(), Generator::new());
/// kmac.seed(b"a seed for a test", b"keys of depot 7")?;
/// cshake.seed(b"a seed for a test", b"keys of depot 7")?;
/// let mut keys = [[0; 32]; 2];
/// kmac.draw(b"", &mut keys[0])?;
/// cshake.draw(b"", &mut keys[1])?;
/// assert_ne!(keys[0], keys[1]);
/// # Ok::<(), hailfeather::Refusal>(())
/// ```
pub struct KmacGenerator(Held<ffi::hf_kmac_generator>);

impl KmacGenerator {
    /// A generator that was never seeded: it refuses every draw until it is.
    ///
    /// ```
    /// let mut generator = hailfeather::KmacGenerator::new();
    /// assert_eq!(generator.draw(b"", &mut [0; 32]).unwrap_err().to_string(), "refused 1: the generator was never seeded");
    /// ```
    pub fn new() -> KmacGenerator {
        KmacGenerator(Held::fresh())
    }

    /// Makes a new key as [`Generator::seed`](crate::Generator::seed) does. Refuses with 3, 5.
    ///
    /// ```
    /// let mut generator = hailfeather::KmacGenerator::new();
    /// assert_eq!(generator.seed(b"a seed for a test", b"")?.0, 3);
    /// assert_eq!(generator.seed(b"", &[0; 85]).unwrap_err().number(), 3);
    /// # Ok::<(), hailfeather::Refusal>(())
    /// ```
    pub fn seed(&mut self, seed: &[u8], personalisation: &[u8]) -> Result<Runs, Refusal> {
        self.0.seed(seed, personalisation)
    }

    /// Fills `out` as [`Generator::draw`](crate::Generator::draw) does, but with 4 runs for each piece of 208 bytes. Refuses with 1, 3, 6.
    ///
    /// ```
    /// let mut generator = hailfeather::KmacGenerator::new();
    /// generator.seed(b"a seed for a test", b"")?;
    /// assert_eq!(generator.draw(b"", &mut [0; 208])?.0, 4);
    /// assert_eq!(generator.draw(b"", &mut [0; 209])?.0, 8);
    /// # Ok::<(), hailfeather::Refusal>(())
    /// ```
    pub fn draw(&mut self, additional: &[u8], out: &mut [u8]) -> Result<Runs, Refusal> {
        self.0.draw(additional, out)
    }
}

/// As [`KmacGenerator::new`].
impl Default for KmacGenerator {
    fn default() -> KmacGenerator {
        KmacGenerator::new()
    }
}

/// Shows whether it was seeded, and nothing of its key.
///
/// ```
/// assert_eq!(format!("{:?}", hailfeather::KmacGenerator::new()), "KmacGenerator { seeded: false, .. }");
/// ```
impl fmt::Debug for KmacGenerator {
    fn fmt(&self, formatter: &mut fmt::Formatter<'_>) -> fmt::Result {
        self.0.fmt(formatter)
    }
}
