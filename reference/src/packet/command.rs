//! The workbench's packet commands (WORKBENCH.md, "Packets").

use super::{read, write, PLACE};
use crate::script::{place, Error, Hexadecimal, Stop, Words};
use std::io::Write;

/// The place's size where a write leaves it out.
const SIZE: usize = 104;

/// Carries out a line whose first word was `packet`.
pub fn packet(words: &mut Words, output: &mut impl Write) -> Result<(), Stop> {
    match words.due()? {
        b"read" => read_burst(words, output),
        b"write" => write_packet(words, output),
        _ => Err(Error::UnknownCommand.into()),
    }
}

fn read_burst(words: &mut Words, output: &mut impl Write) -> Result<(), Stop> {
    let kind = words.kind()?;
    let burst = words.last_bytes()?;
    words.end()?;

    let packet = read(kind, &burst)?;
    let (letter, length) = (char::from(packet.letter), packet.field.len());
    let field = Hexadecimal(packet.field);
    writeln!(
        output,
        "letter={letter} place={PLACE} length={length} field={field}"
    )?;
    Ok(())
}

fn write_packet(words: &mut Words, output: &mut impl Write) -> Result<(), Stop> {
    let kind = words.kind()?;
    let letter = words.letter()?;
    let field = words.last_bytes()?;
    let size = words.size()?.unwrap_or(SIZE);
    words.end()?;

    let mut place = place(size)?;
    let length = write(kind, letter, &field, &mut place)?;
    let burst = Hexadecimal(&place[..length]);
    writeln!(output, "length={length} burst={burst}")?;
    Ok(())
}
