//! The generators, and what they share.

mod cshake;
mod kmac;

use std::fmt;

pub use cshake::Generator;
pub use kmac::KmacGenerator;

use crate::ffi;
use crate::refusal::{check, Refusal, Runs};

type Fresh<S> = unsafe extern "C" fn() -> S;
type Seeding<S> = unsafe extern "C" fn(S, *const u8, usize, *const u8, usize) -> ffi::Draw<S>;
type Drawing<S> = unsafe extern "C" fn(S, *const u8, usize, *mut u8, usize) -> ffi::Draw<S>;

/// A generator's state in C, and the library's functions for it.
trait State: Copy {
    /// What it is overwritten with.
    const ZERO: Self;
    /// The type that its users see.
    const NAME: &'static str;
    const FRESH: Fresh<Self>;
    const SEED: Seeding<Self>;
    const DRAW: Drawing<Self>;
    fn seeded(&self) -> bool;
}

/// Holds a generator's state, and overwrites it when it is dropped.
struct Held<S: State>(S);

impl<S: State> Held<S> {
    fn fresh() -> Held<S> {
        // SAFETY: the function takes nothing and hands back a plain value.
        Held(unsafe { S::FRESH() })
    }

    fn seed(&mut self, seed: &[u8], personalisation: &[u8]) -> Result<Runs, Refusal> {
        // SAFETY: each pointer comes from a slice with its length; a slice's pointer is never null.
        let answer = unsafe { S::SEED(self.0, seed.as_ptr(), seed.len(), personalisation.as_ptr(), personalisation.len()) };
        self.go_on("seed", answer)
    }

    fn draw(&mut self, additional: &[u8], out: &mut [u8]) -> Result<Runs, Refusal> {
        // SAFETY: as in `seed`; `out` overlaps nothing.
        let answer = unsafe { S::DRAW(self.0, additional.as_ptr(), additional.len(), out.as_mut_ptr(), out.len()) };
        self.go_on("draw", answer)
    }

    /// Puts the generator that was handed back in place, which on a refusal is the old one.
    fn go_on(&mut self, entry: &str, answer: ffi::Draw<S>) -> Result<Runs, Refusal> {
        self.0 = answer.generator;
        check(entry, answer.number).map(|()| Runs(answer.runs))
    }
}

impl<S: State> Drop for Held<S> {
    fn drop(&mut self) {
        ffi::overwrite(&mut self.0, S::ZERO);
    }
}

impl<S: State> fmt::Debug for Held<S> {
    fn fmt(&self, formatter: &mut fmt::Formatter<'_>) -> fmt::Result {
        formatter.debug_struct(S::NAME).field("seeded", &self.0.seeded()).finish_non_exhaustive()
    }
}
