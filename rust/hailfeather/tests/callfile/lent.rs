//! Lent buffers, with canaries in them and on both sides.

use std::fmt::Debug;
use std::str::FromStr;

use super::bytes::{agrees, crc32, list, repeated};

/// Elements before and after the part of a buffer that is lent.
const MARGIN: usize = 64;

/// A buffer of which the middle is lent. All of it holds a pattern first, so that every element written can be seen.
pub struct Lent<T = u8> {
    all: Vec<T>,
    before: Vec<T>,
}

impl<T: Copy + From<u8> + PartialEq> Lent<T> {
    pub fn new(length: usize) -> Lent<T> {
        let block: Vec<u8> = (0..251).map(|i| 0xA5 ^ i).collect(); // 251 is prime, so no block of the library's is in step with it
        let all: Vec<T> = repeated(&block, length + 2 * MARGIN).into_iter().map(T::from).collect();
        Lent { before: all.clone(), all }
    }

    pub fn middle(&mut self) -> &mut [T] {
        let end = self.all.len() - MARGIN;
        &mut self.all[MARGIN..end]
    }

    /// What the call wrote: all that is lent, or nothing on a refusal, when all is to be as before and the file shows `-`.
    fn written(&self, refused: bool, output: &str) -> Result<Option<&[T]>, String> {
        let end = self.all.len() - MARGIN;
        if refused {
            return if self.all == self.before && output == "-" {
                Ok(None)
            } else {
                Err("a lent buffer is not as before the refusal".into())
            };
        }
        if self.all[..MARGIN] != self.before[..MARGIN] || self.all[end..] != self.before[end..] {
            return Err("an element outside the lent buffer was written".into());
        }
        Ok(Some(&self.all[MARGIN..end]))
    }

    /// Compares what the call left with the list that the file shows.
    pub fn check_list(&self, refused: bool, shown: &str) -> Result<(), String>
    where
        T: Debug + FromStr,
    {
        match self.written(refused, shown)? {
            Some(written) if written != list::<T>(shown) => Err(format!("the list is {written:?}")),
            _ => Ok(()),
        }
    }
}

impl Lent {
    /// Compares what the call left with the output that the file shows.
    pub fn check(&self, refused: bool, output: &str) -> Result<(), String> {
        match self.written(refused, output)? {
            Some(written) if !agrees(output, written) => {
                let shown: String = written.iter().take(64).map(|byte| format!("{byte:02x}")).collect();
                Err(format!("the output is {} bytes, {shown}.., CRC {:08x}", written.len(), crc32(written)))
            }
            _ => Ok(()),
        }
    }
}
