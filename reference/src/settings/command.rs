//! The workbench's settings command (WORKBENCH.md, "Settings").

use super::Settings;
use crate::script::{Error, Stop, Words};
use std::io::Write;

/// Carries out a line whose first word was `settings`.
pub fn settings(words: &mut Words, output: &mut impl Write) -> Result<(), Stop> {
    match words.due()? {
        b"read" => read_frame(words, output),
        _ => Err(Error::UnknownCommand.into()),
    }
}

fn read_frame(words: &mut Words, output: &mut impl Write) -> Result<(), Stop> {
    let frame = words.last_bytes()?;
    words.end()?;

    let settings = Settings::read(&frame)?;
    writeln!(output, "{settings}")?;
    Ok(())
}
