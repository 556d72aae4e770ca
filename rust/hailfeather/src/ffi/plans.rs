//! The header's parts on chute plans and on hall plans.

use std::mem::{offset_of, size_of};

#[repr(C)]
pub struct hf_rows {
    pub place: usize,
    pub rows: u32,
    pub number: u8,
}

#[repr(C)]
pub struct hf_destination {
    pub place: usize,
    pub destination: u32,
    pub number: u8,
}

#[repr(C)]
pub struct hf_row {
    pub start: usize,
    pub length: usize,
    pub place: usize,
    pub source: u8,
    pub malformed: u8,
    pub number: u8,
}

#[repr(C)]
pub struct hf_length {
    pub length: usize,
    pub place: usize,
    pub number: u8,
}

#[repr(C)]
pub struct hf_written {
    pub place: usize,
    pub number: u8,
}

#[derive(Clone, Copy, Debug)]
#[repr(C)]
pub struct hf_cursor {
    pub at: usize,
    pub place: usize,
    pub number: u8,
}

#[repr(C)]
pub struct hf_walk {
    pub next: usize,
    pub place: usize,
    pub destination: u32,
    pub number: u8,
}

#[repr(C)]
pub struct hf_halls {
    pub entries: usize,
    pub place: usize,
    pub outer: u32,
    pub chutes: u32,
    pub number: u8,
}

extern "C" {
    pub fn hf_plan_read(plan: *const u8, plan_length: usize) -> hf_rows;
    pub fn hf_plan_destination(plan: *const u8, plan_length: usize, chute: u64) -> hf_destination;
    pub fn hf_plan_row(site: *const u8, site_length: usize, house: *const u8, house_length: usize, chute: u64) -> hf_row;
    pub fn hf_plan_length(rows: *const u32, rows_length: usize) -> hf_length;
    pub fn hf_plan_write(rows: *const u32, rows_length: usize, out: *mut u8, out_length: usize) -> hf_written;
    pub fn hf_plan_migrated_length(plan: *const u8, plan_length: usize) -> hf_length;
    pub fn hf_plan_migrate(plan: *const u8, plan_length: usize, out: *mut u8, out_length: usize) -> hf_written;
    pub fn hf_plan_start(plan: *const u8, plan_length: usize) -> hf_cursor;
    pub fn hf_plan_step(plan: *const u8, plan_length: usize, walk: hf_cursor) -> hf_walk;

    pub fn hf_hall_read(plan: *const u8, plan_length: usize) -> hf_halls;
    pub fn hf_hall_destination(plan: *const u8, plan_length: usize, chute: u64) -> hf_destination;
    pub fn hf_hall_read_into(
        plan: *const u8,
        plan_length: usize,
        kinds: *mut u8,
        kinds_length: usize,
        values: *mut u32,
        values_length: usize,
    ) -> hf_halls;
    pub fn hf_hall_length(outer: u64, kinds: *const u8, kinds_length: usize, values: *const u32, values_length: usize) -> hf_length;
    pub fn hf_hall_write(
        outer: u64,
        kinds: *const u8,
        kinds_length: usize,
        values: *const u32,
        values_length: usize,
        out: *mut u8,
        out_length: usize,
    ) -> hf_written;
}

// What a C compiler for x86-64 makes of these structs: size, and the place of each field but the first.
const _: () = {
    assert!(size_of::<hf_rows>() == 16 && offset_of!(hf_rows, rows) == 8 && offset_of!(hf_rows, number) == 12);
    assert!(size_of::<hf_destination>() == 16 && offset_of!(hf_destination, destination) == 8 && offset_of!(hf_destination, number) == 12);
    assert!(size_of::<hf_row>() == 32 && offset_of!(hf_row, length) == 8 && offset_of!(hf_row, place) == 16);
    assert!(offset_of!(hf_row, source) == 24 && offset_of!(hf_row, malformed) == 25 && offset_of!(hf_row, number) == 26);
    assert!(size_of::<hf_length>() == 24 && offset_of!(hf_length, place) == 8 && offset_of!(hf_length, number) == 16);
    assert!(size_of::<hf_written>() == 16 && offset_of!(hf_written, place) == 0 && offset_of!(hf_written, number) == 8);
    assert!(size_of::<hf_cursor>() == 24 && offset_of!(hf_cursor, place) == 8 && offset_of!(hf_cursor, number) == 16);
    assert!(size_of::<hf_walk>() == 24 && offset_of!(hf_walk, place) == 8);
    assert!(offset_of!(hf_walk, destination) == 16 && offset_of!(hf_walk, number) == 20);
    assert!(size_of::<hf_halls>() == 32 && offset_of!(hf_halls, place) == 8 && offset_of!(hf_halls, outer) == 16);
    assert!(offset_of!(hf_halls, chutes) == 20 && offset_of!(hf_halls, number) == 24);
};
