//! Conversions by the traits of the standard library.
use crate::{Date, Error, Format, Instant, Local, Moment, Time};
use std::fmt;
use std::str::FromStr;
use std::time::{Duration, SystemTime, UNIX_EPOCH};

// Parses a type by the format that its standard text has.
macro_rules! from_str {
    ($type:ident, $format:ident, $doc:literal) => {
        impl FromStr for $type {
            type Err = Error;

            #[doc = $doc]
            fn from_str(text: &str) -> Result<$type, Error> {
                $type::parse(text, Format::$format)
            }
        }
    };
}

from_str!(Moment, Rfc3339, "Parses a whole text by RFC 3339.");
from_str!(Instant, Rfc3339, "Parses a whole text by RFC 3339.");
from_str!(Local, Iso8601, "Parses a whole text by ISO 8601.");
from_str!(Date, Iso8601, "Parses a whole text by ISO 8601.");
from_str!(Time, Iso8601, "Parses a whole text by ISO 8601.");

/// The error of an instant that the other type can't represent.
#[derive(Clone, Copy, Debug, PartialEq, Eq, Hash)]
pub struct OutOfRange(());

impl fmt::Display for OutOfRange {
    fn fmt(&self, f: &mut fmt::Formatter<'_>) -> fmt::Result {
        f.write_str("instant out of range")
    }
}

impl std::error::Error for OutOfRange {}

impl TryFrom<Instant> for SystemTime {
    type Error = OutOfRange;

    fn try_from(instant: Instant) -> Result<SystemTime, OutOfRange> {
        instant.to_system_time().ok_or(OutOfRange(()))
    }
}

impl TryFrom<SystemTime> for Instant {
    type Error = OutOfRange;

    fn try_from(time: SystemTime) -> Result<Instant, OutOfRange> {
        match time.duration_since(UNIX_EPOCH) {
            Ok(after) => since_epoch(after),
            Err(error) => before_epoch(error.duration()),
        }
    }
}

fn since_epoch(after: Duration) -> Result<Instant, OutOfRange> {
    let seconds = i64::try_from(after.as_secs()).map_err(|_| OutOfRange(()))?;
    Ok(Instant { seconds, nanoseconds: after.subsec_nanos() })
}

// The seconds of an instant are rounded down, and the nanoseconds after them positive.
fn before_epoch(before: Duration) -> Result<Instant, OutOfRange> {
    let Instant { seconds, nanoseconds } = since_epoch(before)?;
    Ok(match nanoseconds {
        0 => Instant { seconds: -seconds, nanoseconds: 0 },
        _ => Instant { seconds: -seconds - 1, nanoseconds: 1_000_000_000 - nanoseconds },
    })
}
