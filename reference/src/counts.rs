//! What a script's line commands meet: refusals, errors, and cells of the
//! stations' tables.

use crate::cells::cell as cell_of;
use crate::line::call::Call;
use crate::line::command::call;
use crate::run::Bench;
use crate::script::Words;
use std::collections::BTreeMap;
use std::fmt;

/// How often the line commands of a script met what.
#[derive(Default)]
pub struct Counts {
    pub commands: usize,
    pub printed: usize,
    pub refusals: BTreeMap<u8, usize>,
    pub errors: BTreeMap<String, usize>,
    pub cells: BTreeMap<String, usize>,
}

impl Counts {
    pub fn of(script: &[u8]) -> Self {
        let mut bench = Bench::default();
        let mut counts = Counts::default();
        for text in script.split(|&byte| byte == b'\n') {
            let cell = bench.line().zip(call_of(text));
            let cell = cell.and_then(|(line, call)| cell_of(line, &call));
            let mut answer = Vec::new();
            let done = bench.run(text, &mut answer);
            done.expect("memory takes what is printed");
            if Words::new(text).due() == Ok(b"line") {
                counts.answer(&String::from_utf8_lossy(&answer), cell);
            }
        }
        counts
    }

    fn answer(&mut self, answer: &str, cell: Option<String>) {
        self.commands += 1;
        self.printed += answer.len();
        let answer = answer.trim_end();
        let refused = answer.strip_prefix("refused ");
        if let Some(error) = answer.strip_prefix("error: ") {
            *self.errors.entry(error.to_string()).or_default() += 1;
        } else if let Some(number) = refused.and_then(|number| number.parse().ok()) {
            *self.refusals.entry(number).or_default() += 1;
        }
        if let Some(cell) = cell.filter(|_| refused.is_none_or(|number| number == "18")) {
            *self.cells.entry(cell).or_default() += 1;
        }
    }
}

/// The call that a line of a script makes.
fn call_of(text: &[u8]) -> Option<Call> {
    let mut words = Words::new(text);
    words.due().ok().filter(|&word| word == b"line")?;
    call(words.due().ok()?, &mut words).ok()
}

impl fmt::Display for Counts {
    fn fmt(&self, out: &mut fmt::Formatter) -> fmt::Result {
        let Counts {
            commands, printed, ..
        } = self;
        writeln!(out, "{commands:7} line commands, {printed} bytes printed")?;
        for (refusal, count) in &self.refusals {
            writeln!(out, "{count:7} refused {refusal}")?;
        }
        for (what, count) in self.errors.iter().chain(&self.cells) {
            writeln!(out, "{count:7} {what}")?;
        }
        Ok(())
    }
}
