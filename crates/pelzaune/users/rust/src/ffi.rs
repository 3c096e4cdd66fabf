//! The functions of `include/pelzaune.h`.
use crate::{Date, Instant, Local, Moment, Time};

/// A date, a time and an offset, each with a status of its own.
#[repr(C)]
#[derive(Clone, Copy)]
pub struct Parts {
    pub date: Date,
    pub time: Time,
    pub offset: i32,
    pub date_status: u32,
    pub time_status: u32,
    pub offset_status: u32,
}

/// Where a text fails.
#[repr(C)]
#[derive(Clone, Copy)]
pub struct Place {
    pub index: usize,
    pub byte: u8,
}

/// A parsed description. Its numbers are internal to the library.
#[repr(C)]
#[derive(Clone, Copy)]
pub struct Description {
    pub numbers: [u64; 129],
}

const _: () = assert!(size_of::<Date>() == 8 && size_of::<Time>() == 8 && size_of::<Local>() == 16);
const _: () = assert!(size_of::<Moment>() == 20 && size_of::<Instant>() == 16);
const _: () = assert!(size_of::<Parts>() == 32 && size_of::<Description>() == 1032 && size_of::<Place>() == 16);

const fn size_of<T>() -> usize {
    std::mem::size_of::<T>()
}

extern "C" {
    pub fn pelzaune_version() -> u32;
    pub fn pelzaune_write_text(status: u32, buffer: *mut u8, capacity: usize) -> usize;
    pub fn pelzaune_parse_moment(format: u32, text: *const u8, length: usize, out: *mut Moment) -> u32;
    pub fn pelzaune_parse_local(format: u32, text: *const u8, length: usize, out: *mut Local) -> u32;
    pub fn pelzaune_parse_utc(format: u32, text: *const u8, length: usize, out: *mut Local) -> u32;
    pub fn pelzaune_parse_date(format: u32, text: *const u8, length: usize, out: *mut Date) -> u32;
    pub fn pelzaune_parse_time(format: u32, text: *const u8, length: usize, out: *mut Time) -> u32;
    pub fn pelzaune_parse_offset(format: u32, text: *const u8, length: usize, out: *mut i32) -> u32;
    pub fn pelzaune_parse_instant(format: u32, text: *const u8, length: usize, out: *mut Instant) -> u32;
    pub fn pelzaune_parse_nanoseconds(format: u32, text: *const u8, length: usize, out: *mut i64) -> u32;
    pub fn pelzaune_describe(syntax: u32, text: *const u8, length: usize, out: *mut Description, index: *mut usize) -> u32;
    pub fn pelzaune_described_moment(description: *const Description, text: *const u8, length: usize, out: *mut Moment) -> u32;
    pub fn pelzaune_described_local(description: *const Description, text: *const u8, length: usize, out: *mut Local) -> u32;
    pub fn pelzaune_described_utc(description: *const Description, text: *const u8, length: usize, out: *mut Local) -> u32;
    pub fn pelzaune_described_date(description: *const Description, text: *const u8, length: usize, out: *mut Date) -> u32;
    pub fn pelzaune_described_time(description: *const Description, text: *const u8, length: usize, out: *mut Time) -> u32;
    pub fn pelzaune_described_offset(description: *const Description, text: *const u8, length: usize, out: *mut i32) -> u32;
    pub fn pelzaune_described_instant(description: *const Description, text: *const u8, length: usize, out: *mut Instant) -> u32;
    pub fn pelzaune_described_nanoseconds(description: *const Description, text: *const u8, length: usize, out: *mut i64) -> u32;
    pub fn pelzaune_described_parts(description: *const Description, text: *const u8, length: usize, out: *mut Parts) -> u32;
    pub fn pelzaune_missing(needs: u32, format: u32, text: *const u8, length: usize) -> u32;
    pub fn pelzaune_described_missing(needs: u32, description: *const Description, text: *const u8, length: usize) -> u32;
    pub fn pelzaune_locate(format: u32, text: *const u8, length: usize, out: *mut Place) -> u32;
    pub fn pelzaune_read_locate(syntax: u32, description: *const u8, size: usize, text: *const u8, length: usize, out: *mut Place) -> u32;
    pub fn pelzaune_parse_parts(format: u32, text: *const u8, length: usize, out: *mut Parts) -> u32;
    pub fn pelzaune_column(format: u32, text: *const u8, length: usize, entries: *mut i64, capacity: usize, refused: *mut usize) -> usize;
    pub fn pelzaune_described_column(description: *const Description, text: *const u8, length: usize, entries: *mut i64, capacity: usize, refused: *mut usize) -> usize;
    pub fn pelzaune_format_moment(format: u32, moment: *const Moment, buffer: *mut u8, capacity: usize, length: *mut usize) -> u32;
    pub fn pelzaune_described_format_moment(description: *const Description, moment: *const Moment, buffer: *mut u8, capacity: usize, length: *mut usize) -> u32;
}
