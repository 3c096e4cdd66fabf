//! Locates the errors of parses.
use crate::error::{component_of, text_of, Kind};
use crate::{ffi, Description, Format};
use std::fmt;

/// Where a rejected text fails. It displays as the library's text of what was expected there.
#[derive(Clone, Copy, PartialEq, Eq, Hash)]
pub struct Place {
    /// The index in the text of the part that was expected, or the text's length if it ends there.
    pub index: usize,
    /// The first byte of the literal that was expected there, or `None` where none was.
    pub byte: Option<u8>,
    status: u32,
}

impl Place {
    /// What was expected there: a literal, a component, or by [`Kind::Trailing`] the end of the text.
    pub fn kind(self) -> Kind {
        Kind::of(self.status)
    }

    /// The name of the component that was expected there, if one was.
    pub fn component(self) -> Option<String> {
        component_of(self.status)
    }
}

impl fmt::Debug for Place {
    fn fmt(&self, f: &mut fmt::Formatter<'_>) -> fmt::Result {
        let mut shown = f.debug_struct("Place");
        shown.field("index", &self.index).field("byte", &self.byte);
        shown.field("kind", &self.kind()).field("component", &self.component()).finish()
    }
}

impl fmt::Display for Place {
    fn fmt(&self, f: &mut fmt::Formatter<'_>) -> fmt::Result {
        write!(f, "{} at byte index {}", text_of(self.status), self.index)
    }
}

/// Where a text fails, or `None` where it is parsed whole, also where the calendar has no such date.
pub fn locate(text: impl AsRef<[u8]>, format: Format<'_>) -> Option<Place> {
    let text = text.as_ref();
    let mut found = ffi::Place { index: 0, byte: 0 };
    let status = if let Format::Described(Description { syntax, text: described, .. }) = format {
        // SAFETY: the pointers and the lengths are those of slices, and the place is borrowed exclusively.
        unsafe {
            ffi::pelzaune_read_locate(
                *syntax, described.as_ptr(), described.len(), text.as_ptr(), text.len(), &mut found,
            )
        }
    } else {
        // SAFETY: the pointer and the length are those of a slice, and the place is borrowed exclusively.
        unsafe { ffi::pelzaune_locate(format.number(), text.as_ptr(), text.len(), &mut found) }
    };
    place(status, found)
}

// The place, unless the status is 0.
fn place(status: u32, found: ffi::Place) -> Option<Place> {
    let byte = Some(found.byte).filter(|_| Kind::of(status) == Kind::InvalidLiteral);
    Some(Place { index: found.index, byte, status }).filter(|_| status != 0)
}
