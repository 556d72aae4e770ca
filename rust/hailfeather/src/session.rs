//! Running sessions over cSHAKE256 and KMACXOF256.

use std::fmt;
use std::io;

use crate::ffi;
use crate::refusal::{check, Refusal};

/// What a session is overwritten with.
const ZERO: ffi::hf_session = ffi::hf_session {
    lanes: [0; 25],
    taken: 0,
    given: 0,
    limit: 0,
    position: 0,
    phase: 0,
    suffix: 0,
    kmac: 0,
};

/// A hash function that takes its message in pieces and then gives its output in portions.
///
/// The bytes given, joined, are the first bytes of what the one call gives over the pieces, joined; refused calls count for nothing. The first
/// accepted ask for output, be it for no bytes, ends the message for good. A clone goes on from the same point.
///
/// A session is also an [`io::Write`], which takes, and an [`io::Read`], which gives, so that files can be copied through it. `io::Read` has a
/// `take` of its own, for so many bytes at most: where that trait is in scope, write `Session::take(&mut session, piece)` for the one and
/// `Read::take(&mut session, length)` for the other.
///
/// It is overwritten with zeros when it is dropped. Copies that a move or a call leaves on the stack are not.
///
/// ```
/// use hailfeather::Session;
/// use std::io::{self, Read, Write};
///
/// let mut session = Session::cshake256(b"", b"Email Signature")?;
/// io::copy(&mut &[0, 1, 2, 3][..], &mut session)?;
/// let mut out = [0; 64];
/// session.read_exact(&mut out)?;
///
/// let mut once = [0; 64];
/// hailfeather::cshake256(b"", b"Email Signature", &[0, 1, 2, 3], &mut once)?;
/// assert_eq!(out, once);
/// # Ok::<(), io::Error>(())
/// ```
#[derive(Clone)]
pub struct Session {
    state: ffi::hf_session,
}

impl Session {
    /// Starts a session of cSHAKE256. Refuses with 3, 4.
    ///
    /// ```
    /// let mut session = hailfeather::Session::cshake256(b"", b"")?;
    /// let mut out = [0; 4];
    /// session.give(&mut out)?;
    /// assert_eq!(out, [0x46, 0xB9, 0xDD, 0x2B]); // SHAKE256 of the empty message
    /// # Ok::<(), hailfeather::Refusal>(())
    /// ```
    pub fn cshake256(name: &[u8], customisation: &[u8]) -> Result<Session, Refusal> {
        // SAFETY: each pointer comes from a slice with its length; a slice's pointer is never null.
        let step = unsafe { ffi::hf_session_cshake256(name.as_ptr(), name.len(), customisation.as_ptr(), customisation.len()) };
        check("session_cshake256", step.number).map(|()| Session { state: step.session })
    }

    /// Starts a session of KMACXOF256. Refuses with 2, 3.
    ///
    /// ```
    /// let key: Vec<u8> = (0x40..0x60).collect();
    /// let mut session = hailfeather::Session::kmacxof256(&key, b"My Tagged Application")?;
    /// session.take(&[0, 1, 2, 3])?;
    /// let mut out = [0; 4];
    /// session.give(&mut out)?;
    /// assert_eq!(out, [0x17, 0x55, 0x13, 0x3F]); // NIST's sample 4
    /// # Ok::<(), hailfeather::Refusal>(())
    /// ```
    pub fn kmacxof256(key: &[u8], customisation: &[u8]) -> Result<Session, Refusal> {
        // SAFETY: as in `cshake256`.
        let step = unsafe { ffi::hf_session_kmacxof256(key.as_ptr(), key.len(), customisation.as_ptr(), customisation.len()) };
        check("session_kmacxof256", step.number).map(|()| Session { state: step.session })
    }

    /// Takes a piece of the message. An empty piece changes nothing. Refuses with 1, 5.
    ///
    /// ```
    /// let mut session = hailfeather::Session::cshake256(b"", b"depot 7")?;
    /// session.take(b"a pl")?;
    /// session.take(b"an")?;
    /// let mut out = [0; 32];
    /// session.give(&mut out)?;
    /// assert_eq!(session.take(b"").unwrap_err().number(), 1); // the message has ended
    ///
    /// let mut once = [0; 32];
    /// hailfeather::cshake256(b"", b"depot 7", b"a plan", &mut once)?;
    /// assert_eq!(out, once);
    /// # Ok::<(), hailfeather::Refusal>(())
    /// ```
    pub fn take(&mut self, piece: &[u8]) -> Result<(), Refusal> {
        // SAFETY: as in `cshake256`.
        let step = unsafe { ffi::hf_session_take(self.state, piece.as_ptr(), piece.len()) };
        self.go_on("take", step)
    }

    /// Fills `out` with the next bytes of output. Refuses with 6.
    ///
    /// ```
    /// let mut session = hailfeather::Session::cshake256(b"", b"depot 7")?;
    /// let mut out = [0; 300];
    /// let (first, second) = out.split_at_mut(137);
    /// session.give(first)?;
    /// session.give(second)?;
    ///
    /// let mut once = [0; 300];
    /// hailfeather::cshake256(b"", b"depot 7", b"", &mut once)?;
    /// assert_eq!(out, once);
    /// # Ok::<(), hailfeather::Refusal>(())
    /// ```
    pub fn give(&mut self, out: &mut [u8]) -> Result<(), Refusal> {
        // SAFETY: as in `cshake256`; `out` overlaps nothing.
        let step = unsafe { ffi::hf_session_give(self.state, out.as_mut_ptr(), out.len()) };
        self.go_on("give", step)
    }

    /// Puts the session that was handed back in place, which on a refusal is the old one.
    fn go_on(&mut self, entry: &str, step: ffi::hf_step) -> Result<(), Refusal> {
        self.state = step.session;
        check(entry, step.number)
    }
}

impl Drop for Session {
    fn drop(&mut self) {
        ffi::overwrite(&mut self.state, ZERO);
    }
}

/// Shows how far the session is, and nothing of its secrets.
impl fmt::Debug for Session {
    fn fmt(&self, formatter: &mut fmt::Formatter<'_>) -> fmt::Result {
        formatter
            .debug_struct("Session")
            .field("taken", &self.state.taken)
            .field("given", &self.state.given)
            .finish_non_exhaustive()
    }
}

/// Takes the whole of each buffer, or refuses it whole: the [`Refusal`] is inside the error.
impl io::Write for Session {
    fn write(&mut self, piece: &[u8]) -> io::Result<usize> {
        Session::take(self, piece)?;
        Ok(piece.len())
    }

    fn flush(&mut self) -> io::Result<()> {
        Ok(())
    }
}

/// Fills each buffer; the output ends where the session has given 16,777,216 bytes in all.
impl io::Read for Session {
    fn read(&mut self, out: &mut [u8]) -> io::Result<usize> {
        let length = out.len().min(self.state.limit - self.state.given);
        self.give(&mut out[..length])?;
        Ok(length)
    }
}
