//! The generator that later lines go on with, be it of the one kind or of the other.

use hailfeather::{cshake256, kmacxof256, Generator, KmacGenerator, Refusal, Runs};

use super::bytes::{bytes, number};
use super::lent::Lent;
use super::one_call::{number_of, runs_of, same, Compared};

/// The bytes of the call that a piece of a draw is made of: the new key, and the stream.
const CALL: usize = 272;
const KEY: usize = 64;

/// A generator of either kind.
pub trait Drawn {
    fn seed(&mut self, seed: &[u8], personalisation: &[u8]) -> Result<Runs, Refusal>;
    fn draw(&mut self, additional: &[u8], out: &mut [u8]) -> Result<Runs, Refusal>;
    /// The call that a piece with no additional input is made of, by this key.
    fn defined(&self, key: &[u8], out: &mut [u8]) -> Result<Runs, Refusal>;
}

/// The methods of a generator's type, and the call that a piece is made of.
macro_rules! drawn {
    ($generator:ident, $defined:expr) => {
        impl Drawn for $generator {
            fn seed(&mut self, seed: &[u8], personalisation: &[u8]) -> Result<Runs, Refusal> {
                $generator::seed(self, seed, personalisation)
            }

            fn draw(&mut self, additional: &[u8], out: &mut [u8]) -> Result<Runs, Refusal> {
                $generator::draw(self, additional, out)
            }

            fn defined(&self, key: &[u8], out: &mut [u8]) -> Result<Runs, Refusal> {
                $defined(key, out)
            }
        }
    };
}

drawn!(Generator, |key, out| cshake256(b"cSHAKE-DRNG generate", key, &[0], out));
drawn!(KmacGenerator, |key, out| kmacxof256(key, b"KMAC-DRNG generate", &[0], out));

#[derive(Default)]
pub struct Generators {
    last: Option<Box<dyn Drawn>>,
    /// The key that the last line shows, once the generator is seeded.
    key: Option<Vec<u8>>,
}

impl Generators {
    fn running(&mut self) -> Result<&mut dyn Drawn, String> {
        match &mut self.last {
            Some(generator) => Ok(generator.as_mut()),
            None => Err("no fresh generator stands before".into()),
        }
    }

    pub fn seed(&mut self, [seed, personalisation]: [&str; 2], [refusal, runs, key]: [&str; 3]) -> Compared {
        let found = self.running()?.seed(&bytes(seed), &bytes(personalisation));
        self.key = (found.is_ok() || self.key.is_some()).then(|| bytes(key));
        same(&[refusal, runs], runs_of(found))?;
        Ok(found.err())
    }

    pub fn draw(&mut self, [additional, length]: [&str; 2], [refusal, runs, output, key]: [&str; 4]) -> Compared {
        let mut out = Lent::new(number(length));
        let found = self.running()?.draw(&bytes(additional), out.middle());
        self.key = self.key.is_some().then(|| bytes(key));
        same(&[refusal, runs], runs_of(found))?;
        out.check(found.is_err(), output)?;
        Ok(found.err())
    }

    /// Puts a fresh generator in place of the old one.
    pub fn begin(&mut self, fresh: impl Drawn + 'static) -> Compared {
        self.end()?;
        self.last = Some(Box::new(fresh));
        Ok(None)
    }

    /// Ends with the last generator. A key cannot be seen, so its last is compared by a draw more, which by its definition is what the call gives
    /// after the new key.
    pub fn end(&mut self) -> Result<(), String> {
        let Some(mut last) = self.last.take() else { return Ok(()) };
        let (mut stream, mut defined) = ([0; CALL - KEY], [0; CALL]);
        let found = last.draw(b"", &mut stream);
        let Some(key) = self.key.take() else {
            return same(&["1"], number_of(&found));
        };
        last.defined(&key, &mut defined).map_err(|refusal| refusal.to_string())?;
        match found.is_ok() && stream == defined[KEY..] {
            true => Ok(()),
            false => Err("the generator of the lines before has another key".into()),
        }
    }
}
