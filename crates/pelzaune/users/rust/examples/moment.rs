//! Prints the moment of a text of RFC 3339, and its Unix seconds.
use pelzaune::{Error, Format, Instant, Moment};
use std::process::ExitCode;

fn answer(text: &str) -> Result<String, Error> {
    let moment = Moment::parse(text, Format::Rfc3339)?;
    let instant = Instant::parse(text, Format::Rfc3339)?;
    Ok(format!("{} {}", moment.text(Format::Rfc3339)?, instant.seconds))
}

fn main() -> ExitCode {
    match answer(&std::env::args().nth(1).unwrap_or_default()) {
        Ok(line) => {
            println!("{line}");
            ExitCode::SUCCESS
        }
        Err(error) => {
            eprintln!("{error}");
            ExitCode::FAILURE
        }
    }
}
