//! Sealing and opening by the KMAC AEAD.

use crate::ffi;
use crate::refusal::{counted, Refusal, Runs};

/// Seals `text` under a key of 32 bytes and an IV: the ciphertext into `out`, which is as long as the text, and a tag of 16 to 64 bytes into `tag`.
///
/// **Never seal twice with one key and one IV**: whoever sees both ciphertexts learns where the texts differ, and how. A counter that is kept, or a
/// plan's number, makes a good IV.
///
/// The label is authenticated with the text and not encrypted. The tag covers ciphertext and label joined, not the place where one ends and the
/// other begins, so give labels of one fixed length, or with their length inside, wherever texts have many lengths. A shorter tag is the beginning
/// of a longer one. Refuses with 2, 3, 5, 6, 7.
///
/// ```
/// use hailfeather::{open, seal};
/// let (key, iv, label) = ([7; 32], b"plan 1", b"depot 7");
/// let text = b"chute 1 to lorry 300";
/// let (mut ciphertext, mut tag) = ([0; 20], [0; 32]);
/// let runs = seal(&key, iv, text, label, &mut ciphertext, &mut tag)?;
/// assert_eq!(runs.0, 6);
///
/// let mut opened = [0; 20];
/// open(&key, iv, &ciphertext, label, &mut opened, &tag)?;
/// assert_eq!(&opened, text);
/// # Ok::<(), hailfeather::Refusal>(())
/// ```
pub fn seal(key: &[u8], iv: &[u8], text: &[u8], label: &[u8], out: &mut [u8], tag: &mut [u8]) -> Result<Runs, Refusal> {
    // SAFETY: each pointer comes from a slice with its length; a slice's pointer is never null, and `out` and `tag` overlap nothing.
    let outcome = unsafe {
        ffi::hf_seal(
            key.as_ptr(),
            key.len(),
            iv.as_ptr(),
            iv.len(),
            text.as_ptr(),
            text.len(),
            label.as_ptr(),
            label.len(),
            out.as_mut_ptr(),
            out.len(),
            tag.as_mut_ptr(),
            tag.len(),
        )
    };
    counted("seal", outcome)
}

/// Opens what was sealed with the same key, IV and label: writes the text into `out` only if the tag is the one worked out afresh.
///
/// `out` is as long as the ciphertext. The tag may be cut, down to 16 bytes: demand the length that you sealed with. The time that the comparison
/// takes is not hidden. Refuses with 2, 3, 5, 6, 7, 8.
///
/// ```
/// use hailfeather::{open, seal};
/// let (key, iv) = ([7; 32], b"plan 1");
/// let (mut ciphertext, mut tag) = ([0; 5], [0; 32]);
/// seal(&key, iv, b"night", b"", &mut ciphertext, &mut tag)?;
///
/// tag[31] ^= 1;
/// let mut opened = [0; 5];
/// let refusal = open(&key, iv, &ciphertext, b"", &mut opened, &tag).unwrap_err();
/// assert_eq!(refusal.to_string(), "refused 8: the tag does not match");
/// assert_eq!(opened, [0; 5]); // nothing was written
/// # Ok::<(), hailfeather::Refusal>(())
/// ```
pub fn open(key: &[u8], iv: &[u8], ciphertext: &[u8], label: &[u8], out: &mut [u8], tag: &[u8]) -> Result<Runs, Refusal> {
    // SAFETY: as in `seal`; the tag is only read.
    let outcome = unsafe {
        ffi::hf_open(
            key.as_ptr(),
            key.len(),
            iv.as_ptr(),
            iv.len(),
            ciphertext.as_ptr(),
            ciphertext.len(),
            label.as_ptr(),
            label.len(),
            out.as_mut_ptr(),
            out.len(),
            tag.as_ptr(),
            tag.len(),
        )
    };
    counted("open", outcome)
}
