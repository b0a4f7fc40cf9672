//! The workbench's end commands (WORKBENCH.md, "Ends").

use super::{End, Report, Slip, State, Timer, PLACE};
use crate::script::{place, Error, Hexadecimal, Stop, Words};
use std::fmt;
use std::io::Write;

/// The place's size where a take leaves it out.
const SIZE: usize = 96;

/// The ends that are open and the slips that are kept, in the order of the names.
#[derive(Default)]
pub struct Ends {
    ends: [Option<End>; 2],
    slips: [Option<Slip>; 2],
}

/// Carries out a line whose first word was `end`.
pub fn end(ends: &mut Ends, words: &mut Words, output: &mut impl Write) -> Result<(), Stop> {
    let name = words.end_name()?;
    match words.due()? {
        b"open" => ends.open(name, words, output),
        b"submit" => ends.submit(name, words, output),
        b"timeout" => ends.timeout(name, words, output),
        b"arrive" => ends.arrive(name, words, output),
        b"take" => ends.take(name, words, output),
        b"give" => ends.give(name, words, output),
        b"collect" => ends.collect(name, words, output),
        b"settings" => ends.settings(name, words, output),
        b"state" => ends.state(name, words, output),
        _ => Err(Error::UnknownCommand.into()),
    }
}

impl Ends {
    /// Gives every kept slip back: to the end that it was taken from, or to the
    /// other, where that one's slip was given to the first.
    pub fn close(&mut self) {
        for slip in &mut self.slips {
            for end in self.ends.iter_mut().flatten() {
                if let Some(kept) = slip.take() {
                    *slip = end.give(kept).err().map(|(_, kept)| kept);
                }
            }
        }
    }

    pub fn keep_a_slip(&self) -> bool {
        self.slips.iter().any(Option::is_some)
    }

    fn opened(&mut self, name: usize) -> Result<&mut End, Error> {
        self.ends[name].as_mut().ok_or(Error::NoEnd)
    }

    /// Whether the name's end is open and has a delivery out.
    fn is_out(&self, name: usize) -> bool {
        let end = self.ends[name].as_ref();
        end.is_some_and(|end| end.state().out.is_some())
    }

    fn open(
        &mut self,
        name: usize,
        words: &mut Words,
        output: &mut impl Write,
    ) -> Result<(), Stop> {
        let line = words.line()?;
        let kind = words.kind()?;
        let frame = words.last_bytes()?;
        words.end()?;

        if self.slips[name].is_some() || self.is_out(name) {
            return Err(Error::SlipKept.into());
        }
        let mut place = [0xEE; PLACE];
        let (end, report) = End::open(line, kind, &frame, &mut place)?;
        self.ends[name] = Some(end);
        writeln!(output, "opened {}", Told(report, &place))?;
        Ok(())
    }

    fn submit(
        &mut self,
        name: usize,
        words: &mut Words,
        output: &mut impl Write,
    ) -> Result<(), Stop> {
        let message = words.last_bytes()?;
        words.end()?;

        let mut place = [0xEE; PLACE];
        let report = self.opened(name)?.submit(&message, &mut place)?;
        writeln!(output, "{}", Told(report, &place))?;
        Ok(())
    }

    fn timeout(
        &mut self,
        name: usize,
        words: &mut Words,
        output: &mut impl Write,
    ) -> Result<(), Stop> {
        words.end()?;

        let mut place = [0xEE; PLACE];
        let report = self.opened(name)?.timeout(&mut place);
        writeln!(output, "{}", Told(report, &place))?;
        Ok(())
    }

    fn arrive(
        &mut self,
        name: usize,
        words: &mut Words,
        output: &mut impl Write,
    ) -> Result<(), Stop> {
        let burst = words.last_bytes()?;
        words.end()?;

        let mut place = [0xEE; PLACE];
        let report = self.opened(name)?.arrive(&burst, &mut place)?;
        writeln!(output, "{}", Told(report, &place))?;
        Ok(())
    }

    fn take(
        &mut self,
        name: usize,
        words: &mut Words,
        output: &mut impl Write,
    ) -> Result<(), Stop> {
        let size = words.size()?.unwrap_or(SIZE);
        words.end()?;

        self.opened(name)?;
        if self.slips[name].is_some() && !self.is_out(name) {
            return Err(Error::SlipKept.into());
        }
        let mut place = place(size)?;
        let (length, slip) = self.opened(name)?.take(&mut place)?;
        let message = Hexadecimal(&place[..length]);
        let Slip { line, buffer } = slip;
        writeln!(
            output,
            "length={length} message={message} slip={line},{buffer}"
        )?;
        self.slips[name] = Some(slip);
        Ok(())
    }

    fn give(
        &mut self,
        name: usize,
        words: &mut Words,
        output: &mut impl Write,
    ) -> Result<(), Stop> {
        let from = words.from()?.unwrap_or(name);
        words.end()?;

        self.opened(name)?;
        let slip = self.slips[from].take().ok_or(Error::NoSlip)?;
        if let Err((refusal, slip)) = self.opened(name)?.give(slip) {
            self.slips[from] = Some(slip);
            return Err(refusal.into());
        }
        writeln!(output, "given back")?;
        Ok(())
    }

    fn collect(
        &mut self,
        name: usize,
        words: &mut Words,
        output: &mut impl Write,
    ) -> Result<(), Stop> {
        words.end()?;

        let outcome = self.opened(name)?.collect()? as u8;
        writeln!(output, "outcome={outcome}")?;
        Ok(())
    }

    fn settings(
        &mut self,
        name: usize,
        words: &mut Words,
        output: &mut impl Write,
    ) -> Result<(), Stop> {
        let frame = words.last_bytes()?;
        words.end()?;

        self.opened(name)?.set(&frame)?;
        writeln!(output, "set")?;
        Ok(())
    }

    fn state(
        &mut self,
        name: usize,
        words: &mut Words,
        output: &mut impl Write,
    ) -> Result<(), Stop> {
        words.end()?;

        let state = self.opened(name)?.state();
        writeln!(output, "{state}")?;
        Ok(())
    }
}

/// REPORT: what a call told, with the place that its packet was written to.
struct Told<'a>(Report, &'a [u8; PLACE]);

impl fmt::Display for Told<'_> {
    fn fmt(&self, out: &mut fmt::Formatter) -> fmt::Result {
        let Told(report, place) = self;
        write!(out, "{} {}", Sent(report, place), Rest(report))
    }
}

/// The front of REPORT: the packet that was sent.
pub struct Sent<'a>(pub &'a Report, pub &'a [u8; PLACE]);

impl fmt::Display for Sent<'_> {
    fn fmt(&self, out: &mut fmt::Formatter) -> fmt::Result {
        let Sent(report, place) = self;
        match report.sent {
            Some((letter, length)) => {
                let burst = Hexadecimal(&place[..length]);
                write!(out, "sent={} burst={burst}", char::from(letter))
            }
            None => write!(out, "sent=none burst=-"),
        }
    }
}

/// The rest of REPORT: timer and outcomes.
pub struct Rest<'a>(pub &'a Report);

impl fmt::Display for Rest<'_> {
    fn fmt(&self, out: &mut fmt::Formatter) -> fmt::Result {
        let Rest(report) = self;
        match report.timer {
            Some(Timer::Enq(period)) => write!(out, "timer=enq:{period}")?,
            Some(Timer::Data(period)) => write!(out, "timer=data:{period}")?,
            None => write!(out, "timer=none")?,
        }
        let [arrived, given_up, no_connection] = report.outcomes;
        write!(out, " outcomes={arrived},{given_up},{no_connection}")
    }
}

/// STATE.
impl fmt::Display for State {
    fn fmt(&self, out: &mut fmt::Formatter) -> fmt::Result {
        let out_of = match self.out {
            Some(buffer) => buffer.to_string(),
            None => "none".to_string(),
        };
        write!(
            out,
            "state={} number={} attempts={} credit={} {} last={} held={} out={out_of} \
             sending={} outcomes={}",
            self.name,
            self.number,
            self.attempts,
            self.credit.unwrap_or(9),
            self.settings,
            char::from(self.last),
            self.held,
            self.sending,
            self.outcomes,
        )
    }
}

#[cfg(test)]
mod tests {
    use super::*;

    /// Carries out lines on both ends and answers the last one's answer.
    fn last_answer(ends: &mut Ends, lines: &[&str]) -> String {
        let mut answer = String::new();
        for line in lines {
            let mut output = Vec::new();
            answer = match end(ends, &mut Words::new(line.as_bytes()), &mut output) {
                Ok(()) => String::from_utf8(output).unwrap(),
                Err(Stop::Refused(refusal)) => format!("refused {}", refusal.number()),
                Err(Stop::Error(error)) => format!("error: {error}"),
                Err(Stop::Output(error)) => panic!("{error}"),
            };
        }
        answer
    }

    #[test]
    fn kept_slips_are_given_back_at_the_end() {
        let frame = "010006 00C8 012C 03 08".replace(' ', "");
        let mut open = Ends::default();
        for name in ["a", "b"] {
            let opened = format!("{name} open 7 sum {frame}");
            let arrived = format!("{name} arrive 02304F4B03CD");
            let lines = [&opened[..], &arrived, &format!("{name} take")];
            let answer = last_answer(&mut open, &lines);
            assert_eq!(answer, "length=2 message=4F4B slip=7,0\n");
        }
        // The slip of a frees the buffer of b; that of b is for a.
        assert_eq!(last_answer(&mut open, &["b give a"]), "given back\n");
        assert!(open.is_out(0) && !open.is_out(1));
        open.close();
        assert!(!open.is_out(0) && !open.is_out(1));
        assert_eq!(open.slips, [None, None]);
        assert_eq!(
            last_answer(&mut open, &["a give b"]),
            "error: no slip is kept"
        );
    }
}
