//! Descriptions of your own.
use crate::error::{text_of, Kind};
use crate::ffi;
use std::fmt;

/// A description of how a text is written. It is parsed once, and then parses and writes many texts. It has at most 64
/// steps: each component and each byte between components is one.
#[derive(Clone, Copy)]
pub struct Description<'a> {
    pub(crate) held: ffi::Description,
    pub(crate) syntax: u32,
    pub(crate) text: &'a [u8],
}

impl<'a> Description<'a> {
    /// Parses a description in brackets, version 2, such as `[year]-[month]-[day]`.
    pub fn brackets<T: AsRef<[u8]> + ?Sized>(text: &'a T) -> Result<Description<'a>, InvalidDescription> {
        Description::read(2, text.as_ref())
    }

    /// Parses a description in brackets, version 1, in which `[[` is a literal bracket.
    pub fn brackets_1<T: AsRef<[u8]> + ?Sized>(text: &'a T) -> Result<Description<'a>, InvalidDescription> {
        Description::read(1, text.as_ref())
    }

    /// Parses a description of strftime, such as `%Y-%m-%d`.
    pub fn strftime<T: AsRef<[u8]> + ?Sized>(text: &'a T) -> Result<Description<'a>, InvalidDescription> {
        Description::read(3, text.as_ref())
    }

    fn read(syntax: u32, text: &'a [u8]) -> Result<Description<'a>, InvalidDescription> {
        let mut index = usize::MAX;
        let mut held = ffi::Description { numbers: [0; 129] };
        // SAFETY: the pointer and the length are those of a slice, and the description and the index are borrowed
        // exclusively.
        let status = unsafe { ffi::pelzaune_describe(syntax, text.as_ptr(), text.len(), &mut held, &mut index) };
        if status == 0 {
            return Ok(Description { held, syntax, text });
        }
        let index = Some(index).filter(|index| *index != usize::MAX);
        Err(InvalidDescription { status, index })
    }
}

impl fmt::Debug for Description<'_> {
    fn fmt(&self, f: &mut fmt::Formatter<'_>) -> fmt::Result {
        write!(f, "Description({:?})", String::from_utf8_lossy(self.text))
    }
}

/// The error of a malformed description.
#[derive(Clone, Copy, PartialEq, Eq, Hash)]
pub struct InvalidDescription {
    status: u32,
    /// The index of the first fault, or `None` where the description is too long.
    pub index: Option<usize>,
}

impl InvalidDescription {
    /// The kind of the fault.
    pub fn kind(self) -> Kind {
        Kind::of(self.status)
    }
}

impl fmt::Debug for InvalidDescription {
    fn fmt(&self, f: &mut fmt::Formatter<'_>) -> fmt::Result {
        f.debug_struct("InvalidDescription").field("kind", &self.kind()).field("index", &self.index).finish()
    }
}

impl fmt::Display for InvalidDescription {
    fn fmt(&self, f: &mut fmt::Formatter<'_>) -> fmt::Result {
        f.write_str(&text_of(self.status))?;
        match self.index {
            Some(index) => write!(f, " at byte index {index}"),
            None => Ok(()),
        }
    }
}

impl std::error::Error for InvalidDescription {}
