//! The limits of lengths, in bytes unless said otherwise. What is longer is refused.

use std::ops::RangeInclusive;

/// The longest message, in a session in all; and the longest text and label together.
pub const MESSAGE: usize = 16_777_216;
/// The longest output, in a session in all; and the longest draw.
pub const OUTPUT: usize = 16_777_216;
/// The longest name, customisation, KMAC key and IV.
pub const STRING: usize = 4_096;
/// The longest additional input and personalisation.
pub const SHORT: usize = 84;
/// The longest seed.
pub const SEED: usize = 65_536;
/// The longest plan to be read, and the longest hall plan to be written.
pub const PLAN: usize = 65_536;
/// The length of a sealing key.
pub const SEALING_KEY: usize = 32;
/// The lengths of a tag.
pub const TAG: RangeInclusive<usize> = 16..=64;
/// The most rows of a plan.
pub const ROWS: usize = 4_096;
/// The most chutes of a hall plan, in all its halls.
pub const CHUTES: usize = 4_096;
/// The most levels of a hall plan, of which the outermost is the first.
pub const LEVELS: usize = 8;
/// The greatest destination, and the greatest number of entries of a hall.
pub const DESTINATION: u32 = 2_097_151;
