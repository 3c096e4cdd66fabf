//! The formats, and their names.
use crate::Description;
use std::fmt;
use std::str::FromStr;

/// The formats. One with a name is parsed from it, in any case:
///
/// ```
/// use pelzaune::{Format, Moment};
///
/// let format: Format = "RFC2822".parse()?;
/// assert_eq!(format.name(), Some("rfc2822"));
/// assert!("rfc822".parse::<Format>().is_err());
/// # Ok::<(), pelzaune::UnknownFormat>(())
/// ```
#[derive(Clone, Copy, Debug)]
pub enum Format<'a> {
    /// RFC 3339, section 5.6, as `1985-04-12T23:20:50.52Z`. As in the crate `time`, any byte may be between date and time.
    Rfc3339,
    /// RFC 3339 with only `T`, `t` or a space between date and time. In Python, JavaScript and SQL this is `rfc3339`.
    Rfc3339Strict,
    /// Mail dates, RFC 2822, section 3.3, as `Sat, 02 Jan 2021 03:04:05 +0000`.
    Rfc2822,
    /// ISO 8601, as `20210102T0304Z`, `2020-W53-6` or `2020-366`.
    Iso8601,
    /// A description of your own.
    Described(&'a Description<'a>),
}

// The formats with names.
const NAMED: [Format<'static>; 4] = [Format::Rfc3339, Format::Rfc3339Strict, Format::Rfc2822, Format::Iso8601];

impl Format<'_> {
    // The name of a format, and its number in the library.
    fn entry(self) -> Option<(&'static str, u32)> {
        match self {
            Format::Rfc3339 => Some(("rfc3339", 1)),
            Format::Rfc3339Strict => Some(("rfc3339-strict", 4)),
            Format::Rfc2822 => Some(("rfc2822", 2)),
            Format::Iso8601 => Some(("iso8601", 3)),
            Format::Described(_) => None,
        }
    }

    /// The name of the format, or `None` for a description.
    pub fn name(self) -> Option<&'static str> {
        self.entry().map(|(name, _)| name)
    }

    // The number of the format in the library, or 0, which no format has, for a description.
    pub(crate) fn number(self) -> u32 {
        self.entry().map_or(0, |(_, number)| number)
    }
}

impl FromStr for Format<'static> {
    type Err = UnknownFormat;

    fn from_str(name: &str) -> Result<Format<'static>, UnknownFormat> {
        let is_named = |format: &Format<'static>| format.name().is_some_and(|it| it.eq_ignore_ascii_case(name));
        NAMED.into_iter().find(is_named).ok_or(UnknownFormat(()))
    }
}

/// The error of a name that no format has.
#[derive(Clone, Copy, Debug, PartialEq, Eq, Hash)]
pub struct UnknownFormat(());

impl fmt::Display for UnknownFormat {
    fn fmt(&self, f: &mut fmt::Formatter<'_>) -> fmt::Result {
        f.write_str("unknown format, expected one of")?;
        NAMED.into_iter().filter_map(Format::name).try_for_each(|name| write!(f, " `{name}`"))
    }
}

impl std::error::Error for UnknownFormat {}
