//! Parses date-time texts by RFC 3339, mail dates of RFC 2822, ISO 8601, and descriptions of your own.
//!
//! This crate is a safe layer over the proved static library `libpelzaune.a`. A call parses a whole text, given as text
//! or as bytes, allocates nothing and keeps no state.
//!
//! ```
//! use pelzaune::{Format, Moment};
//!
//! let moment = Moment::parse("1985-04-12T23:20:50.52-08:30", Format::Rfc3339)?;
//! assert_eq!((moment.year, moment.month, moment.day), (1985, 4, 12));
//! assert_eq!(moment.offset, -30_600);
//!
//! let error = Moment::parse("1985-04-31T00:00:00Z", Format::Rfc3339).unwrap_err();
//! assert_eq!(error.to_string(), "day is out of range for the other components");
//! # Ok::<(), pelzaune::Error>(())
//! ```
//!
//! The types also have the traits of the standard library: `FromStr` by RFC 3339 (an [`Instant`] and a [`Moment`]) or ISO
//! 8601 (a [`Date`], a [`Time`] and a [`Local`]), and `TryFrom` between an [`Instant`] and a `SystemTime`:
//!
//! ```
//! use pelzaune::{Date, Instant};
//! use std::time::{SystemTime, UNIX_EPOCH};
//!
//! let date: Date = "2020-W53-6".parse()?;
//! assert_eq!((date.year, date.month, date.day), (2021, 1, 2));
//! let time = SystemTime::try_from("1970-01-01T00:00:00Z".parse::<Instant>()?)?;
//! assert_eq!(time, UNIX_EPOCH);
//! # Ok::<(), Box<dyn std::error::Error>>(())
//! ```
//!
//! A description is a format too. It is parsed once, and then parses many texts, and writes moments as such texts:
//!
//! ```
//! use pelzaune::{Date, Description, Format, Moment};
//!
//! let description = Description::strftime("%d.%m.%Y")?;
//! let date = Date::parse("02.01.2021", Format::Described(&description))?;
//! assert_eq!((date.year, date.month, date.day), (2021, 1, 2));
//! let moment = Moment::parse("1985-04-12T23:20:50.52Z", Format::Rfc3339)?;
//! assert_eq!(description.format(&moment)?.to_string(), "12.04.1985");
//! assert_eq!(Description::brackets("[year]-[moth]").unwrap_err().index, Some(8));
//! # Ok::<(), Box<dyn std::error::Error>>(())
//! ```
//!
//! A moment is written into text, and the lines of a file are parsed into a column of numbers:
//!
//! ```
//! use pelzaune::{column, Format, Moment};
//!
//! let moment = Moment::parse("1985-04-12T23:20:50.52Z", Format::Rfc3339)?;
//! assert_eq!(moment.text(Format::Rfc2822)?.as_str(), "Fri, 12 Apr 1985 23:20:50 +0000");
//!
//! let mut entries = [0; 2];
//! let column = column("1970-01-02T00:00:00Z\n?\n", Format::Rfc3339, &mut entries);
//! assert_eq!((entries, column.lines, column.refused), ([86_400_000_000_000, i64::MIN], 2, 1));
//! # Ok::<(), pelzaune::Error>(())
//! ```

use std::mem::MaybeUninit;
use std::num::NonZeroU32;
use std::time::{Duration, SystemTime, UNIX_EPOCH};

mod column;
mod convert;
mod description;
mod error;
mod ffi;
mod format;
mod locate;
mod parts;
mod text;

pub use column::{column, Column};
pub use convert::OutOfRange;
pub use description::{Description, InvalidDescription};
pub use error::{Error, Kind};
pub use format::{Format, UnknownFormat};
pub use locate::{locate, Place};
pub use parts::Parts;
pub use text::{DescribedText, MomentText};

/// A date in the proleptic Gregorian calendar.
#[repr(C)]
#[derive(Clone, Copy, Debug, PartialEq, Eq, PartialOrd, Ord, Hash)]
pub struct Date {
    /// -999999 to 999999.
    pub year: i32,
    /// 1 to 12.
    pub month: u8,
    /// 1 to 31.
    pub day: u8,
}

/// A time of day.
#[repr(C)]
#[derive(Clone, Copy, Debug, PartialEq, Eq, Hash)]
pub struct Time {
    /// 0 to 999999999.
    pub nanosecond: u32,
    /// 0 to 23.
    pub hour: u8,
    /// 0 to 59.
    pub minute: u8,
    /// 0 to 59.
    pub second: u8,
}

/// A date and a time without an offset.
#[repr(C)]
#[derive(Clone, Copy, Debug, PartialEq, Eq, Hash)]
pub struct Local {
    /// -999999 to 999999.
    pub year: i32,
    /// 0 to 999999999.
    pub nanosecond: u32,
    /// 1 to 12.
    pub month: u8,
    /// 1 to 31.
    pub day: u8,
    /// 0 to 23.
    pub hour: u8,
    /// 0 to 59.
    pub minute: u8,
    /// 0 to 59.
    pub second: u8,
}

/// A date and a time with an offset from UTC.
#[repr(C)]
#[derive(Clone, Copy, Debug, PartialEq, Eq, Hash)]
pub struct Moment {
    /// -999999 to 999999.
    pub year: i32,
    /// 0 to 999999999.
    pub nanosecond: u32,
    /// Seconds ahead of UTC, -93599 to 93599.
    pub offset: i32,
    /// 1 to 12.
    pub month: u8,
    /// 1 to 31.
    pub day: u8,
    /// 0 to 23.
    pub hour: u8,
    /// 0 to 59.
    pub minute: u8,
    /// 0 to 59.
    pub second: u8,
}

/// An instant, as the time since 1970-01-01T00:00:00Z.
#[repr(C)]
#[derive(Clone, Copy, Debug, PartialEq, Eq, PartialOrd, Ord, Hash)]
pub struct Instant {
    /// Whole seconds, rounded down.
    pub seconds: i64,
    /// The nanoseconds after them, 0 to 999999999.
    pub nanoseconds: u32,
}

// The value that a call wrote if it returned status 0.
pub(crate) fn answer<T>(call: impl FnOnce(*mut T) -> u32) -> Result<T, Error> {
    let mut value = MaybeUninit::uninit();
    match NonZeroU32::new(call(value.as_mut_ptr())) {
        // SAFETY: a call that returns status 0 has written each member of the value.
        None => Ok(unsafe { value.assume_init() }),
        Some(status) => Err(Error::new(status)),
    }
}

// What a value needs: a sum of these.
pub(crate) const DATE: u32 = 1;
pub(crate) const TIME: u32 = 2;
pub(crate) const OFFSET: u32 = 4;

// The error of a text, which names the missing component if one is missing for what is needed.
pub(crate) fn with_missing(error: Error, needs: u32, text: &[u8], format: Format<'_>) -> Error {
    if error.kind() != Kind::Insufficient {
        return error;
    }
    // SAFETY: the pointers and the lengths are those of slices.
    let status = unsafe {
        match format {
            Format::Described(Description { held, .. }) => {
                ffi::pelzaune_described_missing(needs, held, text.as_ptr(), text.len())
            }
            _ => ffi::pelzaune_missing(needs, format.number(), text.as_ptr(), text.len()),
        }
    };
    NonZeroU32::new(status).map_or(error, Error::new)
}

// Calls the library on a text, given as text or as bytes: the first function by a format's number, the second by a
// description. `$needs` is what the value needs.
macro_rules! parse {
    ($parse:ident, $described:ident, $needs:expr, $text:expr, $format:expr) => {{
        let text = $text.as_ref();
        let format = $format;
        let parsed = if let Format::Described(Description { held, .. }) = format {
            // SAFETY: the pointer and the length are those of a slice, and nothing else accesses the value.
            answer(|out| unsafe { ffi::$described(held, text.as_ptr(), text.len(), out) })
        } else {
            // SAFETY: the pointer and the length are those of a slice, and nothing else accesses the value.
            answer(|out| unsafe { ffi::$parse(format.number(), text.as_ptr(), text.len(), out) })
        };
        parsed.map_err(|error| crate::with_missing(error, $needs, text, format))
    }};
}

pub(crate) use parse;

impl Date {
    /// The date of a whole text.
    pub fn parse(text: impl AsRef<[u8]>, format: Format<'_>) -> Result<Date, Error> {
        parse!(pelzaune_parse_date, pelzaune_described_date, DATE, text, format)
    }
}

impl Time {
    /// The time of a whole text.
    pub fn parse(text: impl AsRef<[u8]>, format: Format<'_>) -> Result<Time, Error> {
        parse!(pelzaune_parse_time, pelzaune_described_time, TIME, text, format)
    }
}

impl Local {
    /// The date and time of a whole text. An offset is parsed and dropped.
    pub fn parse(text: impl AsRef<[u8]>, format: Format<'_>) -> Result<Local, Error> {
        parse!(pelzaune_parse_local, pelzaune_described_local, DATE + TIME, text, format)
    }

    /// The date and time in UTC of a whole text. A text without an offset is taken as UTC.
    pub fn parse_utc(text: impl AsRef<[u8]>, format: Format<'_>) -> Result<Local, Error> {
        parse!(pelzaune_parse_utc, pelzaune_described_utc, DATE + TIME, text, format)
    }
}

impl Moment {
    /// The date, time and offset of a whole text.
    pub fn parse(text: impl AsRef<[u8]>, format: Format<'_>) -> Result<Moment, Error> {
        parse!(pelzaune_parse_moment, pelzaune_described_moment, DATE + TIME + OFFSET, text, format)
    }
}

impl Instant {
    /// The instant of a whole text that has a date, a time and an offset.
    pub fn parse(text: impl AsRef<[u8]>, format: Format<'_>) -> Result<Instant, Error> {
        parse!(pelzaune_parse_instant, pelzaune_described_instant, DATE + TIME + OFFSET, text, format)
    }

    /// This instant as a `SystemTime`, or `None` if the system's clock can't represent it. `TryFrom` does the same.
    pub fn to_system_time(self) -> Option<SystemTime> {
        let whole = Duration::from_secs(self.seconds.unsigned_abs());
        let second = if self.seconds < 0 {
            UNIX_EPOCH.checked_sub(whole)
        } else {
            UNIX_EPOCH.checked_add(whole)
        };
        second?.checked_add(Duration::from_nanos(self.nanoseconds.into()))
    }
}

/// The offset of a whole text, in seconds ahead of UTC.
pub fn parse_offset(text: impl AsRef<[u8]>, format: Format<'_>) -> Result<i32, Error> {
    parse!(pelzaune_parse_offset, pelzaune_described_offset, OFFSET, text, format)
}

/// The nanoseconds from 1970-01-01T00:00:00Z to the instant of a whole text. The error is [`Kind::TooWide`] where they
/// don't fit 64 bits.
pub fn parse_nanoseconds(text: impl AsRef<[u8]>, format: Format<'_>) -> Result<i64, Error> {
    parse!(pelzaune_parse_nanoseconds, pelzaune_described_nanoseconds, DATE + TIME + OFFSET, text, format)
}

/// The version of the library's interface: 256 times its major number, and its minor number.
pub fn version() -> u32 {
    // SAFETY: the call has no precondition.
    unsafe { ffi::pelzaune_version() }
}
