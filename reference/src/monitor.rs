//! Plays random calls on random lines and watches what the sides agree on.

mod agreement;

use crate::cells::{cell, REACHED};
use crate::line::call::{Answer, Call};
use crate::line::{Line, LineReport};
use crate::play::{Opening, Player, SPECS};
use crate::random::Random;
use crate::refusal::Refusal;
use agreement::Agreement;
use std::collections::BTreeMap;
use std::fmt;
use std::io::{self, Write};
use std::time::{Duration, Instant};

/// The longest line and the longest one that is checked after each call.
const LONG: usize = 600;
const SHORT: usize = 80;

/// A run of this many seconds or more has to meet every cell that a line reaches.
const ENOUGH: u64 = 10;

/// Plays for some seconds. Answers whether every promise held and enough was met.
pub fn monitor(seconds: u64, seed: u64, output: &mut impl Write) -> io::Result<bool> {
    let end = Instant::now() + Duration::from_secs(seconds);
    let mut player = Player::new(Random::seeded(seed));
    let mut tally = Tally::default();
    while Instant::now() < end {
        if let Err(failure) = play(&mut player, &mut tally) {
            write!(output, "{failure}")?;
            return Ok(false);
        }
    }
    write!(output, "{tally}")?;
    let missed = tally.missed();
    for cell in &missed {
        writeln!(output, "not met: {cell}")?;
    }
    Ok(missed.is_empty() || seconds < ENOUGH)
}

/// How often what was met.
#[derive(Default)]
struct Tally {
    lines: usize,
    calls: usize,
    checks: usize,
    refusals: BTreeMap<u8, usize>,
    cells: BTreeMap<String, usize>,
}

impl Tally {
    fn refusal(&mut self, refusal: Refusal) {
        *self.refusals.entry(refusal.number()).or_default() += 1;
    }

    fn call(&mut self, cell: Option<String>, answer: &Result<Answer, Refusal>) {
        self.calls += 1;
        if let (Ok(_) | Err(Refusal::Off), Some(cell)) = (answer, cell) {
            *self.cells.entry(cell).or_default() += 1;
        }
        if let Err(refusal) = answer {
            self.refusal(*refusal);
        }
    }

    /// The cells that a line reaches and that were not met.
    fn missed(&self) -> Vec<&'static str> {
        let mut missed = REACHED.to_vec();
        missed.retain(|&cell| !self.cells.contains_key(cell));
        missed
    }
}

impl fmt::Display for Tally {
    fn fmt(&self, out: &mut fmt::Formatter) -> fmt::Result {
        let Tally {
            lines,
            calls,
            checks,
            ..
        } = self;
        let refusals: Vec<String> = self.refusals.keys().map(u8::to_string).collect();
        let (refusals, cells) = (refusals.join(" "), self.cells.len());
        writeln!(out, "lines={lines} calls={calls} checks={checks}")?;
        writeln!(out, "refusals met: {refusals}; cells met: {cells}")
    }
}

/// A promise that failed, and the script up to there with its answers.
#[derive(Debug)]
struct Failure {
    promise: String,
    transcript: Vec<String>,
}

impl fmt::Display for Failure {
    fn fmt(&self, out: &mut fmt::Formatter) -> fmt::Result {
        for line in &self.transcript {
            writeln!(out, "{line}")?;
        }
        writeln!(out, "BAD: {}", self.promise)
    }
}

/// An opened line and what was called on it.
struct Game {
    opening: Opening,
    reports: [LineReport; 2],
    calls: Vec<(Call, Result<Answer, Refusal>)>,
    line: Line,
    agreement: Agreement,
}

impl Game {
    /// A call, and a check after it where that is wanted.
    fn call(&mut self, call: Call, tally: &mut Tally, check: bool) -> Result<(), String> {
        let cell = cell(&self.line, &call);
        let answer = self.line.call(&call);
        tally.call(cell, &answer);
        let taken = self.agreement.call(&call, &answer);
        self.calls.push((call, answer));
        taken?;
        if check {
            tally.checks += 1;
            self.agreement.check(&self.line)?;
        }
        Ok(())
    }

    fn failure(&self, promise: String) -> Failure {
        let [west, east] = &self.reports;
        let mut transcript = vec![
            self.opening.to_string(),
            format!("    opened west {west} east {east}"),
        ];
        for (call, answer) in &self.calls {
            transcript.push(call.to_string());
            transcript.push(match answer {
                Ok(answer) => format!("    {answer}"),
                Err(refusal) => format!("    refused {}", refusal.number()),
            });
        }
        Failure {
            promise,
            transcript,
        }
    }
}

/// Opens a line and plays on it.
fn play(player: &mut Player, tally: &mut Tally) -> Result<(), Failure> {
    let pair = tally.lines % (SPECS * SPECS);
    tally.lines += 1;
    let opening = player.opening([pair / SPECS, pair % SPECS]);
    let mut media = opening.media();
    if player.one_in(50) {
        let side = player.random.below(2);
        media[side].offer(b"\x02E\x03\xC8");
    }
    let (line, reports) = match opening.open(media) {
        Ok(opened) => opened,
        Err(refusal) => {
            tally.refusal(refusal);
            return Ok(());
        }
    };
    let bad = |promise| Failure {
        promise,
        transcript: vec![opening.to_string()],
    };
    let agreement = Agreement::open(&opening.frames, &reports).map_err(bad)?;
    let mut game = Game {
        opening,
        reports,
        calls: Vec::new(),
        line,
        agreement,
    };
    let most = *player.random.pick(&[SHORT, SHORT, SHORT, LONG]);
    let length = player.random.below(most);
    for number in 1..=length {
        let check = length <= SHORT || number % 16 == 0 || number == length;
        let played = game.call(player.call(), tally, check);
        played.map_err(|promise| game.failure(promise))?;
    }
    Ok(())
}

#[cfg(test)]
mod tests {
    use super::*;

    #[test]
    fn every_promise_holds_and_every_refusal_and_cell_is_met() {
        let mut player = Player::new(Random::new());
        let mut tally = Tally::default();
        for _ in 0..5000 {
            play(&mut player, &mut tally).unwrap();
        }
        let met: Vec<u8> = tally.refusals.keys().copied().collect();
        let given = (8..=21).chain([23]).chain(25..=28);
        let garbled = [2, 3, 5, 6, 7];
        assert_eq!(met, garbled.into_iter().chain(given).collect::<Vec<u8>>());
        assert!(tally.checks > 50_000, "{tally}");
        assert_eq!(tally.cells.keys().collect::<Vec<_>>(), REACHED.each_ref());
        assert!(tally.missed().is_empty());
        tally.cells.remove(REACHED[20]);
        assert_eq!(tally.missed(), [REACHED[20]]);
    }
}
