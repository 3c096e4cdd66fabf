//! Parses each line by the crate `time`, and prints the value as `time_parse` does, or `error: ` and the reason.
//!
//!     beside FORMAT TARGET
use std::io::{self, BufRead, Write};
use time::format_description::well_known::{Rfc2822, Rfc3339};
use time::format_description::{self, FormatItem};
use time::parsing::Parsable;
use time::{error::Parse, Date, OffsetDateTime, PrimitiveDateTime, Time, UtcOffset};

fn date_text(date: Date) -> String {
    let sign = if date.year() < 0 { "-" } else { "" };
    format!("{sign}{:04}-{:02}-{:02}", date.year().abs(), date.month() as u8, date.day())
}

fn time_text(time: Time) -> String {
    let (hour, minute, second, nanosecond) = time.as_hms_nano();
    format!("{hour:02}:{minute:02}:{second:02}.{nanosecond:09}")
}

fn offset_text(offset: UtcOffset) -> String {
    let (hours, minutes, seconds) = offset.as_hms();
    let sign = if offset.is_negative() { '-' } else { '+' };
    format!("{sign}{:02}:{:02}:{:02}", hours.abs(), minutes.abs(), seconds.abs())
}

fn answer<F: Parsable>(format: &F, target: &str, text: &[u8]) -> Result<String, Parse> {
    let text = String::from_utf8_lossy(text);
    Ok(match target {
        "date" => date_text(Date::parse(&text, format)?),
        "time" => time_text(Time::parse(&text, format)?),
        "offset" => offset_text(UtcOffset::parse(&text, format)?),
        "plain" => {
            let value = PrimitiveDateTime::parse(&text, format)?;
            format!("{} {}", date_text(value.date()), time_text(value.time()))
        }
        _ => {
            let value = OffsetDateTime::parse(&text, format)?;
            let (date, time) = (date_text(value.date()), time_text(value.time()));
            format!("{date} {time} {}", offset_text(value.offset()))
        }
    })
}

fn main() -> io::Result<()> {
    let arguments: Vec<String> = std::env::args().skip(1).collect();
    let [format, target] = &arguments[..] else {
        panic!("usage: beside FORMAT TARGET");
    };
    let items: Vec<FormatItem<'_>> = match format.as_str() {
        "rfc3339" | "rfc2822" => Vec::new(),
        text => format_description::parse(text).expect("no description"),
    };
    let mut out = io::BufWriter::new(io::stdout().lock());
    for line in io::stdin().lock().split(b'\n') {
        let line = line?;
        let said = match format.as_str() {
            "rfc3339" => answer(&Rfc3339, target, &line),
            "rfc2822" => answer(&Rfc2822, target, &line),
            _ => answer(&items, target, &line),
        };
        match said {
            Ok(text) => writeln!(out, "{text}")?,
            Err(error) => writeln!(out, "error: {error}")?,
        }
    }
    out.flush()
}
