//! Columns: the lines of a text, each as the nanoseconds of its moment.
use crate::{ffi, Description, Format};

/// The outcome of a column.
#[derive(Clone, Copy, Debug, PartialEq, Eq)]
pub struct Column {
    /// How many lines the whole text has.
    pub lines: usize,
    /// How many of the lines with an entry are rejected.
    pub refused: usize,
}

/// Parses each line of a text, and stores the nanoseconds from 1970-01-01T00:00:00Z to its instant in the entry at the
/// line's index. The entry of a rejected line becomes `i64::MIN`, and an entry without a line is unchanged. A line ends
/// with LF or CR LF, which are optional after the last one.
pub fn column(text: impl AsRef<[u8]>, format: Format<'_>, entries: &mut [i64]) -> Column {
    let text = text.as_ref();
    let (start, room) = (entries.as_mut_ptr(), entries.len());
    let mut refused = 0;
    let lines = if let Format::Described(Description { held, .. }) = format {
        // SAFETY: the pointers and the lengths are those of slices, and the entries are borrowed exclusively.
        unsafe { ffi::pelzaune_described_column(held, text.as_ptr(), text.len(), start, room, &mut refused) }
    } else {
        // SAFETY: the pointers and the lengths are those of slices, and the entries are borrowed exclusively.
        unsafe { ffi::pelzaune_column(format.number(), text.as_ptr(), text.len(), start, room, &mut refused) }
    };
    Column { lines, refused }
}
