//! The cSHAKE generator.

use std::fmt;

use super::{Drawing, Fresh, Held, Seeding, State};
use crate::ffi;
use crate::refusal::{Refusal, Runs};

impl State for ffi::hf_generator {
    const ZERO: Self = ffi::hf_generator { key: [0; 64], seeded: 0 };
    const NAME: &'static str = "Generator";
    const FRESH: Fresh<Self> = ffi::hf_generator_fresh;
    const SEED: Seeding<Self> = ffi::hf_generator_seed;
    const DRAW: Drawing<Self> = ffi::hf_generator_draw;

    fn seeded(&self) -> bool {
        self.seeded != 0
    }
}

/// A generator of bytes that cannot be foretold without its seeds: the cSHAKE generator, made of cSHAKE256.
///
/// **It gathers no randomness: all of it comes from the seeds**, and the same seeds and draws give the same bytes. Seed it with at least 32 bytes of
/// the operating system's randomness wherever the bytes have to be secret.
///
/// There is no `Clone` on purpose: two copies would give one stream twice. It is overwritten with zeros when it is dropped. Copies that a move or a
/// call leaves on the stack are not.
///
/// ```
/// use hailfeather::Generator;
/// use std::fs::File;
/// use std::io::Read;
///
/// let mut seed = [0; 64];
/// File::open("/dev/urandom")?.read_exact(&mut seed)?;
/// let mut generator = Generator::new();
/// generator.seed(&seed, b"keys of depot 7")?;
/// let mut key = [0; 32];
/// generator.draw(b"", &mut key)?;
/// # assert_ne!(key, [0; 32]);
/// # Ok::<(), std::io::Error>(())
/// ```
pub struct Generator(Held<ffi::hf_generator>);

impl Generator {
    /// A generator that was never seeded: it refuses every draw until it is.
    ///
    /// ```
    /// let mut generator = hailfeather::Generator::new();
    /// assert_eq!(generator.draw(b"", &mut [0; 32]).unwrap_err().to_string(), "refused 1: the generator was never seeded");
    /// ```
    pub fn new() -> Generator {
        Generator(Held::fresh())
    }

    /// Makes a new key of the old one, the seed (at most 65,536 bytes) and the personalisation (at most 84).
    ///
    /// It may be done again at any time. An empty seed is accepted and counts as a seeding. Refuses with 3, 5.
    ///
    /// ```
    /// let mut generator = hailfeather::Generator::new();
    /// generator.seed(b"a seed for a test", b"")?;
    /// assert_eq!(generator.seed(b"", &[0; 85]).unwrap_err().number(), 3);
    /// # Ok::<(), hailfeather::Refusal>(())
    /// ```
    pub fn seed(&mut self, seed: &[u8], personalisation: &[u8]) -> Result<Runs, Refusal> {
        self.0.seed(seed, personalisation)
    }

    /// Fills `out`, with an additional input of at most 84 bytes.
    ///
    /// The bytes come in pieces of 208, each of which takes 3 runs and makes a new key, so two draws of 10 bytes are not one of 20. A draw of no
    /// bytes is accepted and leaves the key. Refuses with 1, 3, 6.
    ///
    /// ```
    /// let mut generator = hailfeather::Generator::new();
    /// generator.seed(b"a seed for a test", b"")?;
    /// assert_eq!(generator.draw(b"", &mut [0; 208])?.0, 3);
    /// assert_eq!(generator.draw(b"", &mut [0; 209])?.0, 6);
    /// # Ok::<(), hailfeather::Refusal>(())
    /// ```
    pub fn draw(&mut self, additional: &[u8], out: &mut [u8]) -> Result<Runs, Refusal> {
        self.0.draw(additional, out)
    }
}

/// As [`Generator::new`].
impl Default for Generator {
    fn default() -> Generator {
        Generator::new()
    }
}

/// Shows whether it was seeded, and nothing of its key.
///
/// ```
/// assert_eq!(format!("{:?}", hailfeather::Generator::new()), "Generator { seeded: false, .. }");
/// ```
impl fmt::Debug for Generator {
    fn fmt(&self, formatter: &mut fmt::Formatter<'_>) -> fmt::Result {
        self.0.fmt(formatter)
    }
}
