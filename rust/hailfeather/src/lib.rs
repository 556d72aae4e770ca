//! Hailfeather for Rust: cSHAKE256, KMAC256 and KMACXOF256 in one call and in sessions, sealing and opening, two generators, chute plans
//! and hall plans.
//!
//! The work is done by the static library `libhailfeather.a`, in which every function is proved against its contract: for every input, of every
//! content and length, the answer, the count and the final contents of all lent memory are fixed. This package is the safe way to it from Rust. It
//! is not itself proved; it lends your slices to the library, and makes a [`Refusal`] of each number but 0. It asks for no memory of its own, but
//! for [`plan::to_vec`], [`plan::migrate`], [`hall::to_vec`] and [`hall::to_halls`].
//!
//! # What to choose
//!
//! | To | choose | because |
//! |---|---|---|
//! | keep a text secret and notice changes | [`seal`] and [`open`] | opening writes nothing unless the tag matches |
//! | show that a message comes from a holder of the key | [`kmac256`] | the code's length is authenticated too: a shortened code does not pass |
//! | make keys or a stream of one key | [`kmacxof256`] | it gives as many bytes as are asked for; the customisation tells the uses apart |
//! | name data by a digest, without a key | [`cshake256`] | with a customisation, a digest made for one purpose serves no other |
//! | do either of the two above in pieces | [`Session`] | it is a writer and a reader, for [`std::io::copy`] |
//! | make many secret bytes of a seed | [`Generator`] | each piece of 208 bytes makes a new key, and the old one is gone |
//! | the same where a policy names KMAC | [`KmacGenerator`] | it is made of KMACXOF256; a piece takes 4 permutation runs, and the other's 3 |
//! | read, write or ask chute plans | [`plan`] | a plan that is bad anywhere is refused whole |
//! | bring an old copy of a chute plan under the present rule | [`plan::migrate`] | it reads numbers in more groups than they need, which everything else refuses |
//! | read, write or ask plans by hall and line | [`hall`] | chutes stand in halls, which stand in halls, and count through all of them |
//!
//! [`keccak_p`] is the permutation below all of them; hardly anyone needs it alone.
//!
//! # Sealing a plan and opening it
//!
//! ```
//! use hailfeather::{open, plan, seal, Generator, Refusal};
//!
//! # let secret = [0x5A; 64]; // in earnest from the operating system
//! let mut generator = Generator::new();
//! generator.seed(&secret, b"sealing keys")?; // at least 32 secret bytes, which are yours to gather
//! let mut key = [0; 32];
//! generator.draw(b"", &mut key)?;
//!
//! let text = plan::to_vec(&[7, 300, 0])?;
//! let mut ciphertext = vec![0; text.len()];
//! let mut tag = [0; 32];
//! seal(&key, b"plan 1", &text, b"depot 7", &mut ciphertext, &mut tag)?; // never twice with one key and one IV
//!
//! let mut opened = vec![0; ciphertext.len()];
//! open(&key, b"plan 1", &ciphertext, b"depot 7", &mut opened, &tag)?;
//! assert_eq!(plan::destination(&opened, 2)?, 300);
//!
//! let refusal = open(&key, b"plan 1", &ciphertext, b"depot 8", &mut opened, &tag).unwrap_err();
//! assert_eq!(refusal.to_string(), "refused 8: the tag does not match");
//! # Ok::<(), Refusal>(())
//! ```
//!
//! # The digest of a file
//!
//! ```
//! use hailfeather::Session;
//! use std::fs::File;
//! use std::io::{self, Read};
//!
//! let mut session = Session::cshake256(b"", b"digest of a file")?;
//! io::copy(&mut File::open("Cargo.toml")?, &mut session)?;
//! let mut digest = [0; 32];
//! session.read_exact(&mut digest)?;
//! # let mut once = [0; 32];
//! # hailfeather::cshake256(b"", b"digest of a file", &std::fs::read("Cargo.toml")?, &mut once)?;
//! # assert_eq!(digest, once);
//! # Ok::<(), io::Error>(())
//! ```
//!
//! # Refusals
//!
//! A call is done, or it is refused and has changed nothing: not the lent buffers, not the session, not the generator. A [`Refusal`] has the number
//! that the library gave and says what is wrong in words, for a malformed plan with the byte; as an [`std::io::Error`] it goes through `?` in programs
//! that read and write files. No input makes a call panic. The [`limits`] say how long what may be. Most calls answer how many permutation [`Runs`]
//! they take, which tells what they cost.
//!
//! # What is not promised
//!
//! How long a call takes is not promised to be independent of secrets. No randomness is gathered. Sessions and generators are overwritten when they
//! are dropped, but not the copies that moves and calls leave on the stack.
//!
//! # Building
//!
//! In its repository the package finds the library, or builds it with the Rattle toolchain. Elsewhere, set the environment variable
//! `HAILFEATHER_ARCHIVE` to the path of a `libhailfeather.a` that was built before. The library is for x86-64.
#![deny(missing_docs)]

mod ffi;
mod generator;
pub mod hall;
mod hash;
pub mod limits;
pub mod plan;
mod refusal;
mod seal;
mod session;

pub use generator::{Generator, KmacGenerator};
pub use hash::{cshake256, keccak_p, kmac256, kmacxof256};
pub use refusal::{refusals, Reason, Refusal, Runs};
pub use seal::{open, seal};
pub use session::Session;
