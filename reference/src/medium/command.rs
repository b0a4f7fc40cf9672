//! The workbench's medium commands (WORKBENCH.md, "Media").

use super::{Medium, LONGEST};
use crate::script::{Error, Hexadecimal, Stop, Words};
use std::io::Write;

/// The media in use, in the order of their names.
pub type Media = [Option<Medium>; 2];

/// Carries out a line whose first word was `medium`.
pub fn medium(media: &mut Media, words: &mut Words, output: &mut impl Write) -> Result<(), Stop> {
    let medium = &mut media[words.medium_name()?];
    match words.due()? {
        b"make" => make(medium, words, output),
        b"offer" => offer(medium, words, output),
        b"take" => take(medium, words, output),
        b"count" => count(medium, words, output),
        b"holds" => holds(medium, words, output),
        _ => Err(Error::UnknownCommand.into()),
    }
}

fn made(medium: &mut Option<Medium>) -> Result<&mut Medium, Error> {
    medium.as_mut().ok_or(Error::NoMedium)
}

fn make(
    medium: &mut Option<Medium>,
    words: &mut Words,
    output: &mut impl Write,
) -> Result<(), Stop> {
    let spec = words.spec()?;
    words.end()?;

    *medium = Some(Medium::new(spec));
    writeln!(output, "made")?;
    Ok(())
}

fn offer(
    medium: &mut Option<Medium>,
    words: &mut Words,
    output: &mut impl Write,
) -> Result<(), Stop> {
    let burst = words.last_bytes()?;
    words.end()?;

    let answer = made(medium)?.offer(&burst);
    writeln!(output, "{answer}")?;
    Ok(())
}

fn take(
    medium: &mut Option<Medium>,
    words: &mut Words,
    output: &mut impl Write,
) -> Result<(), Stop> {
    words.end()?;

    let mut place = [0xEE; LONGEST];
    let length = made(medium)?.take(&mut place);
    let burst = Hexadecimal(&place[..length]);
    writeln!(output, "length={length} burst={burst}")?;
    Ok(())
}

fn count(
    medium: &mut Option<Medium>,
    words: &mut Words,
    output: &mut impl Write,
) -> Result<(), Stop> {
    words.end()?;

    let count = made(medium)?.count();
    writeln!(output, "{count}")?;
    Ok(())
}

fn holds(
    medium: &mut Option<Medium>,
    words: &mut Words,
    output: &mut impl Write,
) -> Result<(), Stop> {
    words.end()?;

    let medium = made(medium)?;
    let (commands, answers) = (medium.holds_commands(), medium.holds_answers());
    writeln!(output, "commands={commands} answers={answers}")?;
    Ok(())
}
