//! The date, the time and the offset of a text.
use crate::{answer, ffi, parse, Date, Description, Error, Format, Time};
use std::num::NonZeroU32;

/// The date, the time and the offset of a text, each as a value or as the error with which it is rejected.
#[derive(Clone, Copy, Debug, PartialEq, Eq)]
pub struct Parts {
    /// The date.
    pub date: Result<Date, Error>,
    /// The time.
    pub time: Result<Time, Error>,
    /// The offset, in seconds ahead of UTC.
    pub offset: Result<i32, Error>,
}

// The part, or the error of its status.
fn part<T>(value: T, status: u32) -> Result<T, Error> {
    NonZeroU32::new(status).map_or(Ok(value), |status| Err(Error::new(status)))
}

impl Parts {
    /// Parses a whole text once into its parts. The error is that of a text that isn't parsed as a whole.
    pub fn parse(text: impl AsRef<[u8]>, format: Format<'_>) -> Result<Parts, Error> {
        let found = Parts::found(text.as_ref(), format)?;
        Ok(Parts {
            date: part(found.date, found.date_status),
            time: part(found.time, found.time_status),
            offset: part(found.offset, found.offset_status),
        })
    }

    fn found(text: &[u8], format: Format<'_>) -> Result<ffi::Parts, Error> {
        parse!(pelzaune_parse_parts, pelzaune_described_parts, 0, text, format)
    }
}
