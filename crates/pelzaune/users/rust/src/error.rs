//! Errors of parses, and of moments that are written.
use crate::ffi;
use std::fmt;
use std::num::NonZeroU32;

/// The kind of an error.
#[derive(Clone, Copy, Debug, PartialEq, Eq, Hash)]
#[non_exhaustive]
pub enum Kind {
    /// A required byte is missing.
    InvalidLiteral,
    /// The component can't be parsed.
    InvalidComponent,
    /// Bytes remain after the value.
    Trailing,
    /// The text has too few components for the value.
    Insufficient,
    /// The component is out of its range.
    Range,
    /// The component is out of the range that other components leave.
    RangeOfOthers,
    /// The nanoseconds of the instant don't fit 64 bits.
    TooWide,
    /// Of a description: an opening bracket is never closed.
    UnclosedBracket,
    /// No component has that name.
    ComponentName,
    /// The component has no such modifier, or the modifier no such value.
    Modifier,
    /// Brackets without the name of a component.
    MissingName,
    /// The component needs a modifier.
    MissingModifier,
    /// Something else is expected.
    Expected,
    /// A conversion or component that no description supports.
    NotSupported,
    /// The description has too many steps.
    TooLong,
    /// Of a moment that is written: the format or the description can't write the component.
    NoText,
    /// Of a moment that is written: the text by the description has more than 1024 bytes.
    TextTooLong,
    /// A kind that this crate doesn't know.
    Unknown,
}

impl Kind {
    // The kind of a status.
    pub(crate) fn of(status: u32) -> Kind {
        match status & 0xff {
            1 => Kind::InvalidLiteral,
            2 => Kind::InvalidComponent,
            3 => Kind::Trailing,
            4 => Kind::Insufficient,
            5 => Kind::Range,
            6 => Kind::RangeOfOthers,
            7 => Kind::TooWide,
            9 => Kind::UnclosedBracket,
            10 => Kind::ComponentName,
            11 => Kind::Modifier,
            12 => Kind::MissingName,
            13 => Kind::MissingModifier,
            14 => Kind::Expected,
            15 => Kind::NotSupported,
            16 => Kind::TooLong,
            18 => Kind::NoText,
            19 => Kind::TextTooLong,
            _ => Kind::Unknown,
        }
    }
}

/// The error of a parse, or of a moment that is written. It displays as the library's text of its status.
#[derive(Clone, Copy, PartialEq, Eq, Hash)]
pub struct Error(NonZeroU32);

// Longer than any text of a status.
const ROOM: usize = 128;

impl Error {
    pub(crate) fn new(status: NonZeroU32) -> Error {
        Error(status)
    }

    /// The kind of the error.
    pub fn kind(self) -> Kind {
        Kind::of(self.0.get())
    }

    /// The name of the component that the error is about, if it names one.
    pub fn component(self) -> Option<String> {
        component_of(self.0.get())
    }
}

// The name of a status's component, if it has one.
pub(crate) fn component_of(status: u32) -> Option<String> {
    let number = status >> 8;
    if number == 0 {
        return None;
    }
    let text = text_of(5 + 256 * number);
    Some(text.strip_suffix(" is out of range")?.to_string())
}

// The library's text of a status.
pub(crate) fn text_of(status: u32) -> String {
    let mut text = [0; ROOM];
    // SAFETY: the pointer and the length are those of the array, which is borrowed exclusively.
    let length = unsafe { ffi::pelzaune_write_text(status, text.as_mut_ptr(), text.len()) };
    String::from_utf8_lossy(&text[..length.min(ROOM)]).into_owned()
}

impl fmt::Display for Error {
    fn fmt(&self, f: &mut fmt::Formatter<'_>) -> fmt::Result {
        f.write_str(&text_of(self.0.get()))
    }
}

impl fmt::Debug for Error {
    fn fmt(&self, f: &mut fmt::Formatter<'_>) -> fmt::Result {
        f.debug_struct("Error").field("kind", &self.kind()).field("component", &self.component()).finish()
    }
}

impl std::error::Error for Error {}
