//! `include/hailfeather.h` in Rust: its structs and functions under their names there, and their layout in C.
#![allow(non_camel_case_types)]

mod plans;

pub use plans::*;
use std::mem::{offset_of, size_of};

/// HF_VERSION of the header: 0.3.0.
#[cfg(test)]
pub const VERSION: u32 = 300;

#[repr(C)]
pub struct hf_outcome {
    pub runs: usize,
    pub number: u8,
}

#[derive(Clone, Copy)]
#[repr(C)]
pub struct hf_session {
    pub lanes: [u64; 25],
    pub taken: usize,
    pub given: usize,
    pub limit: usize,
    pub position: usize,
    pub phase: u8,
    pub suffix: u8,
    pub kmac: u8,
}

#[repr(C)]
pub struct hf_step {
    pub session: hf_session,
    pub number: u8,
}

#[derive(Clone, Copy)]
#[repr(C)]
pub struct hf_generator {
    pub key: [u8; 64],
    pub seeded: u8,
}

#[derive(Clone, Copy)]
#[repr(C)]
pub struct hf_kmac_generator {
    pub key: [u8; 64],
    pub seeded: u8,
}

/// What a seeding or a draw of either generator hands back.
#[repr(C)]
pub struct Draw<G> {
    pub generator: G,
    pub runs: usize,
    pub number: u8,
}

pub type hf_draw = Draw<hf_generator>;
pub type hf_kmac_draw = Draw<hf_kmac_generator>;

extern "C" {
    #[cfg(test)]
    pub fn hf_version() -> u32;
    pub fn hf_keccak_p(lanes: *mut u64);
    pub fn hf_cshake256(
        name: *const u8,
        name_length: usize,
        customisation: *const u8,
        customisation_length: usize,
        message: *const u8,
        message_length: usize,
        out: *mut u8,
        out_length: usize,
    ) -> hf_outcome;
    pub fn hf_kmac256(
        key: *const u8,
        key_length: usize,
        customisation: *const u8,
        customisation_length: usize,
        message: *const u8,
        message_length: usize,
        out: *mut u8,
        out_length: usize,
    ) -> hf_outcome;
    pub fn hf_kmacxof256(
        key: *const u8,
        key_length: usize,
        customisation: *const u8,
        customisation_length: usize,
        message: *const u8,
        message_length: usize,
        out: *mut u8,
        out_length: usize,
    ) -> hf_outcome;

    pub fn hf_session_cshake256(name: *const u8, name_length: usize, customisation: *const u8, customisation_length: usize) -> hf_step;
    pub fn hf_session_kmacxof256(key: *const u8, key_length: usize, customisation: *const u8, customisation_length: usize) -> hf_step;
    pub fn hf_session_take(session: hf_session, piece: *const u8, piece_length: usize) -> hf_step;
    pub fn hf_session_give(session: hf_session, out: *mut u8, out_length: usize) -> hf_step;

    pub fn hf_seal(
        key: *const u8,
        key_length: usize,
        iv: *const u8,
        iv_length: usize,
        text: *const u8,
        text_length: usize,
        label: *const u8,
        label_length: usize,
        out: *mut u8,
        out_length: usize,
        tag: *mut u8,
        tag_length: usize,
    ) -> hf_outcome;
    pub fn hf_open(
        key: *const u8,
        key_length: usize,
        iv: *const u8,
        iv_length: usize,
        ciphertext: *const u8,
        ciphertext_length: usize,
        label: *const u8,
        label_length: usize,
        out: *mut u8,
        out_length: usize,
        tag: *const u8,
        tag_length: usize,
    ) -> hf_outcome;

    pub fn hf_generator_fresh() -> hf_generator;
    pub fn hf_generator_seed(
        generator: hf_generator,
        seed: *const u8,
        seed_length: usize,
        personalisation: *const u8,
        personalisation_length: usize,
    ) -> hf_draw;
    pub fn hf_generator_draw(generator: hf_generator, additional: *const u8, additional_length: usize, out: *mut u8, out_length: usize) -> hf_draw;

    pub fn hf_kmac_generator_fresh() -> hf_kmac_generator;
    pub fn hf_kmac_generator_seed(
        generator: hf_kmac_generator,
        seed: *const u8,
        seed_length: usize,
        personalisation: *const u8,
        personalisation_length: usize,
    ) -> hf_kmac_draw;
    pub fn hf_kmac_generator_draw(
        generator: hf_kmac_generator,
        additional: *const u8,
        additional_length: usize,
        out: *mut u8,
        out_length: usize,
    ) -> hf_kmac_draw;
}

/// Puts `with` in place of a secret by a volatile write, which is made even though the secret is never read again.
pub fn overwrite<T: Copy>(secret: &mut T, with: T) {
    // SAFETY: a reference is valid for writes, and a Copy type has nothing to drop.
    unsafe { std::ptr::write_volatile(secret, with) }
}

// What a C compiler for x86-64 makes of the header's structs: size, and the place of the last field.
const _: () = {
    assert!(size_of::<hf_outcome>() == 16 && offset_of!(hf_outcome, number) == 8);
    assert!(size_of::<hf_session>() == 240 && offset_of!(hf_session, taken) == 200 && offset_of!(hf_session, kmac) == 234);
    assert!(size_of::<hf_step>() == 248 && offset_of!(hf_step, number) == 240);
    assert!(size_of::<hf_generator>() == 65 && offset_of!(hf_generator, seeded) == 64);
    assert!(size_of::<hf_draw>() == 88 && offset_of!(hf_draw, runs) == 72 && offset_of!(hf_draw, number) == 80);
    assert!(size_of::<hf_kmac_generator>() == 65 && offset_of!(hf_kmac_generator, seeded) == 64);
    assert!(size_of::<hf_kmac_draw>() == 88 && offset_of!(hf_kmac_draw, runs) == 72 && offset_of!(hf_kmac_draw, number) == 80);
};
