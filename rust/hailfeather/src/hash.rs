//! The permutation, and the three hash functions in one call.

use crate::ffi;
use crate::refusal::{counted, Refusal, Runs};

/// Keccak-p[1600, 24] (FIPS 202) of 25 lanes where they stand; the lane (x, y) is `lanes[5 * y + x]`.
///
/// ```
/// let mut lanes = [0; 25];
/// hailfeather::keccak_p(&mut lanes);
/// assert_eq!(lanes[0], 0xF1258F7940E1DDE7);
/// assert_eq!(lanes[24], 0xEAF1FF7B5CECA249);
/// ```
pub fn keccak_p(lanes: &mut [u64; 25]) {
    // SAFETY: the function reads and writes the 25 lanes behind the pointer.
    unsafe { ffi::hf_keccak_p(lanes.as_mut_ptr()) }
}

/// cSHAKE256 (SP 800-185, 3): fills `out`.
///
/// With no name and no customisation it is SHAKE256. A shorter output is the beginning of a longer one, and an output of no bytes is accepted. The
/// name is for functions that a standard defines: leave it empty, and tell your own uses apart by the customisation. Refuses with 3, 4, 5, 6.
///
/// ```
/// let mut out = [0; 64];
/// hailfeather::cshake256(b"", b"Email Signature", &[0, 1, 2, 3], &mut out)?;
/// assert_eq!(out[..8], [0xD0, 0x08, 0x82, 0x8E, 0x2B, 0x80, 0xAC, 0x9D]); // NIST's sample 3
/// # Ok::<(), hailfeather::Refusal>(())
/// ```
pub fn cshake256(name: &[u8], customisation: &[u8], message: &[u8], out: &mut [u8]) -> Result<Runs, Refusal> {
    one_call("cshake256", ffi::hf_cshake256, name, customisation, message, out)
}

/// KMAC256 (SP 800-185, 4): fills `out` with the authentication code of the message.
///
/// The output's length is part of what is authenticated, so a code of 16 bytes is not the beginning of one of 32; it may not be 0. Refuses with 2,
/// 3, 5, 6.
///
/// ```
/// let key: Vec<u8> = (0x40..0x60).collect();
/// let mut out = [0; 64];
/// hailfeather::kmac256(&key, b"My Tagged Application", &[0, 1, 2, 3], &mut out)?;
/// assert_eq!(out[..8], [0x20, 0xC5, 0x70, 0xC3, 0x13, 0x46, 0xF7, 0x03]); // NIST's sample 4
/// # Ok::<(), hailfeather::Refusal>(())
/// ```
pub fn kmac256(key: &[u8], customisation: &[u8], message: &[u8], out: &mut [u8]) -> Result<Runs, Refusal> {
    one_call("kmac256", ffi::hf_kmac256, key, customisation, message, out)
}

/// KMACXOF256 (SP 800-185, 4.3.1): fills `out` with as many bytes as are asked for.
///
/// A shorter output is the beginning of a longer one, and an output of no bytes is accepted: for streams and for keys made of a key. Refuses with 2,
/// 3, 5, 6.
///
/// ```
/// let key: Vec<u8> = (0x40..0x60).collect();
/// let mut out = [0; 64];
/// hailfeather::kmacxof256(&key, b"My Tagged Application", &[0, 1, 2, 3], &mut out)?;
/// assert_eq!(out[..8], [0x17, 0x55, 0x13, 0x3F, 0x15, 0x34, 0x75, 0x2A]); // NIST's sample 4
///
/// let mut beginning = [0; 20];
/// hailfeather::kmacxof256(&key, b"My Tagged Application", &[0, 1, 2, 3], &mut beginning)?;
/// assert_eq!(beginning, out[..20]);
/// # Ok::<(), hailfeather::Refusal>(())
/// ```
pub fn kmacxof256(key: &[u8], customisation: &[u8], message: &[u8], out: &mut [u8]) -> Result<Runs, Refusal> {
    one_call("kmacxof256", ffi::hf_kmacxof256, key, customisation, message, out)
}

/// An entry of the library that takes a name or a key, a customisation and a message.
type Entry = unsafe extern "C" fn(*const u8, usize, *const u8, usize, *const u8, usize, *mut u8, usize) -> ffi::hf_outcome;

fn one_call(name: &str, entry: Entry, first: &[u8], customisation: &[u8], message: &[u8], out: &mut [u8]) -> Result<Runs, Refusal> {
    // SAFETY: each pointer comes from a slice with its length, a slice's pointer is never null, and `out` overlaps nothing.
    let outcome = unsafe {
        entry(
            first.as_ptr(),
            first.len(),
            customisation.as_ptr(),
            customisation.len(),
            message.as_ptr(),
            message.len(),
            out.as_mut_ptr(),
            out.len(),
        )
    };
    counted(name, outcome)
}
