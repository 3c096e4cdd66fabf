//! Moments as text.
use crate::{ffi, Description, Error, Format, Moment};
use std::fmt;
use std::num::NonZeroU32;
use std::str::Utf8Error;

// The longest text of a moment by a format, and by a description.
const ROOM: usize = 35;
const DESCRIBED_ROOM: usize = 1024;

/// The text of a moment, of at most `MOST` bytes, stored without an allocation. A description writes a
/// [`DescribedText`].
#[derive(Clone, Copy, PartialEq, Eq, Hash)]
pub struct MomentText<const MOST: usize = ROOM> {
    bytes: [u8; MOST],
    length: usize,
}

/// The text of a moment by a description, of at most 1024 bytes.
pub type DescribedText = MomentText<DESCRIBED_ROOM>;

impl<const MOST: usize> MomentText<MOST> {
    // The text that a call writes into the buffer. The call returns a status, and stores the length of the text.
    fn written(call: impl FnOnce(&mut [u8; MOST], &mut usize) -> u32) -> Result<MomentText<MOST>, Error> {
        let mut text = MomentText { bytes: [0; MOST], length: 0 };
        let status = call(&mut text.bytes, &mut text.length);
        NonZeroU32::new(status).map_or(Ok(text), |status| Err(Error::new(status)))
    }

    /// The bytes of the text.
    pub fn as_bytes(&self) -> &[u8] {
        &self.bytes[..self.length]
    }

    /// The text. A text whose description has literal bytes that aren't UTF-8 is an error.
    pub fn to_str(&self) -> Result<&str, Utf8Error> {
        std::str::from_utf8(self.as_bytes())
    }
}

impl MomentText {
    /// The text.
    pub fn as_str(&self) -> &str {
        self.to_str().unwrap_or("")
    }
}

/// Displays bytes that aren't UTF-8 as U+FFFD.
impl<const MOST: usize> fmt::Display for MomentText<MOST> {
    fn fmt(&self, f: &mut fmt::Formatter<'_>) -> fmt::Result {
        f.pad(&String::from_utf8_lossy(self.as_bytes()))
    }
}

impl<const MOST: usize> fmt::Debug for MomentText<MOST> {
    fn fmt(&self, f: &mut fmt::Formatter<'_>) -> fmt::Result {
        fmt::Debug::fmt(&String::from_utf8_lossy(self.as_bytes()), f)
    }
}

impl Moment {
    /// The text of the moment in a format. RFC 3339 has as many digits of a fraction as it needs, RFC 2822 none, and
    /// ISO 8601 nine.
    ///
    /// The error is that of a member that is out of its range, [`Kind::NoText`](crate::Kind::NoText) where the format
    /// can't write the moment, or `Unknown` for a description, which has [`Description::format`].
    pub fn text(&self, format: Format<'_>) -> Result<MomentText, Error> {
        MomentText::written(|bytes, length| {
            // SAFETY: the pointer and the length are those of an array, which is borrowed exclusively, as the length is.
            unsafe { ffi::pelzaune_format_moment(format.number(), self, bytes.as_mut_ptr(), bytes.len(), length) }
        })
    }
}

impl Description<'_> {
    /// The text of a moment by the description, with all optional items and the first of each choice. A fraction
    /// without a fixed number of digits has as many as it needs, and at least one. A count from 1970 is rounded down.
    ///
    /// ```
    /// use pelzaune::{Description, Format, Moment};
    ///
    /// let log = Description::strftime("%d/%b/%Y:%H:%M:%S %z")?;
    /// let moment = Moment::parse("1985-04-12T23:20:50.52-08:30", Format::Rfc3339)?;
    /// assert_eq!(log.format(&moment)?.to_string(), "12/Apr/1985:23:20:50 -0830");
    /// # Ok::<(), Box<dyn std::error::Error>>(())
    /// ```
    ///
    /// The error is that of a member that is out of its range, [`Kind::NoText`](crate::Kind::NoText) for an `ignore`
    /// and for a year outside -9999 to 9999 in a component of the standard range, or
    /// [`Kind::TextTooLong`](crate::Kind::TextTooLong).
    pub fn format(&self, moment: &Moment) -> Result<DescribedText, Error> {
        DescribedText::written(|bytes, length| {
            // SAFETY: the pointer and the length are those of an array, which is borrowed exclusively, as the length is.
            unsafe {
                ffi::pelzaune_described_format_moment(&self.held, moment, bytes.as_mut_ptr(), bytes.len(), length)
            }
        })
    }
}
