//! The workbench's line commands (WORKBENCH.md, "A line").

use super::call::{Action, Call};
use super::Line;
use crate::medium::Medium;
use crate::script::{Error, Stop, Words};
use std::io::Write;

/// The place's size where a read-out leaves it out.
const SIZE: usize = 96;

/// Carries out a line whose first word was `line`.
pub fn line(
    line: &mut Option<Line>,
    words: &mut Words,
    output: &mut impl Write,
) -> Result<(), Stop> {
    match words.due()? {
        b"open" => open(line, words, output),
        b"state" => state(line, words, output),
        word => {
            let call = call(word, words)?;
            let line = line.as_mut().ok_or(Error::NoLine)?;
            let answer = line.call(&call)?;
            writeln!(output, "{answer}")?;
            Ok(())
        }
    }
}

fn open(line: &mut Option<Line>, words: &mut Words, output: &mut impl Write) -> Result<(), Stop> {
    let kind = words.kind()?;
    let (west, east) = (words.bytes()?, words.bytes()?);
    let specs = [words.spec()?, words.spec()?];
    words.end()?;

    // Refused, the opening leaves no line.
    *line = None;
    let (opened, reports) = Line::open(kind, [&west, &east], specs.map(Medium::new))?;
    *line = Some(opened);
    let [west, east] = reports;
    writeln!(output, "opened west {west} east {east}")?;
    Ok(())
}

fn state(line: &mut Option<Line>, words: &mut Words, output: &mut impl Write) -> Result<(), Stop> {
    let side = words.side()?;
    words.end()?;

    let state = line.as_ref().ok_or(Error::NoLine)?.state(side)?;
    writeln!(output, "{state}")?;
    Ok(())
}

/// The call that this word begins.
pub fn call(word: &[u8], words: &mut Words) -> Result<Call, Error> {
    let action: fn(&mut Words) -> Result<Action, Error> = match word {
        b"submit" => |words| Ok(Action::Submit(words.last_bytes()?.into_owned())),
        b"timeout" => |_| Ok(Action::Timeout),
        b"arrive" => |_| Ok(Action::Arrive),
        b"read" => |words| Ok(Action::Read(words.size()?.unwrap_or(SIZE))),
        b"collect" => |_| Ok(Action::Collect),
        b"settings" => |words| Ok(Action::Settings(words.last_bytes()?.into_owned())),
        _ => return Err(Error::UnknownCommand),
    };
    let side = words.side()?;
    let action = action(words)?;
    words.end()?;
    Ok(Call { side, action })
}
