//! A second, independent implementation of the protocol and its workbench,
//! written from docs/PROTOCOL.md and docs/WORKBENCH.md alone.

mod cells;
mod counts;
mod end;
mod generate;
mod line;
mod medium;
mod monitor;
mod packet;
mod play;
mod random;
mod refusal;
mod run;
mod script;
mod settings;

use std::env;
use std::io::{self, BufWriter, Write};
use std::process::ExitCode;

const USAGE: &str = "usage: reference run
       reference generate packets
       reference generate media
       reference generate stations
       reference generate line
       reference generate workbench
       reference counts
       reference monitor SECONDS [SEED]";

fn main() -> ExitCode {
    let arguments: Vec<_> = env::args_os().skip(1).collect();
    let arguments: Vec<_> = arguments.iter().map(|argument| argument.to_str()).collect();
    let mut output = BufWriter::new(io::stdout());
    let done = match arguments[..] {
        // The standard output writes each line out, so an answer is there before the next command is read.
        [Some("run")] => run::run(io::stdin().lock(), io::stdout().lock()),
        [Some("generate"), Some("packets")] => output.write_all(&generate::packets()),
        [Some("generate"), Some("media")] => output.write_all(&generate::media()),
        [Some("generate"), Some("stations")] => output.write_all(&generate::stations()),
        [Some("generate"), Some("line")] => output.write_all(&generate::line()),
        [Some("counts")] => write!(output, "{}", counts::Counts::of(&generate::workbench())),
        [Some("generate"), Some("workbench")] => output.write_all(&generate::workbench()),
        [Some("monitor"), Some(seconds)] => watch(seconds, "0", &mut output),
        [Some("monitor"), Some(seconds), Some(seed)] => watch(seconds, seed, &mut output),
        _ => {
            eprintln!("{USAGE}");
            return ExitCode::from(2);
        }
    };
    match done.and_then(|()| output.flush()) {
        Ok(()) => ExitCode::SUCCESS,
        Err(error) => {
            eprintln!("reference: {error}");
            ExitCode::FAILURE
        }
    }
}

/// Runs the monitor; a promise that fails is an error, and so is too little play.
fn watch(seconds: &str, seed: &str, output: &mut impl Write) -> io::Result<()> {
    let number = |word: &str| word.parse().map_err(io::Error::other);
    if monitor::monitor(number(seconds)?, number(seed)?, output)? {
        return Ok(());
    }
    output.flush()?;
    Err(io::Error::other(
        "the line broke a promise, or cells were not met",
    ))
}
