//! An end of a line: a primary and a secondary station (PROTOCOL.md, "An end").

pub mod command;
mod primary;
mod secondary;

use crate::packet::{read, write, Kind};
use crate::refusal::Refusal;
use crate::settings::Settings;
use primary::{Answer, Primary};
use secondary::{Command, Secondary};

pub use primary::Outcome;

/// The size of the place for a packet that is sent.
pub const PLACE: usize = 104;

/// A packet to be sent.
#[derive(Clone, Debug, PartialEq, Eq)]
struct Packet {
    letter: u8,
    field: Vec<u8>,
}

/// A timer that was started, with its period.
#[derive(Clone, Copy, Debug, PartialEq, Eq)]
pub enum Timer {
    Enq(u16),
    Data(u16),
}

/// What a station did.
#[derive(Debug, Default, PartialEq, Eq)]
struct Done {
    sent: Option<Packet>,
    timer: Option<Timer>,
    /// How many messages got each outcome.
    outcomes: [usize; 3],
}

/// What a call tells.
#[derive(Debug, PartialEq, Eq)]
pub struct Report {
    /// The letter of the packet that was sent, and its length.
    pub sent: Option<(u8, usize)>,
    pub timer: Option<Timer>,
    pub outcomes: [usize; 3],
}

/// What a take gives: it stands for the delivery until it is given back.
#[derive(Debug, PartialEq, Eq)]
pub struct Slip {
    pub line: u8,
    pub buffer: u8,
}

/// An end.
#[derive(Clone, Debug)]
pub struct End {
    line: u8,
    kind: Kind,
    settings: Settings,
    primary: Primary,
    secondary: Secondary,
}

/// All that can be asked of an end.
#[derive(Debug, PartialEq, Eq)]
pub struct State {
    pub name: &'static str,
    pub number: u8,
    pub attempts: u8,
    /// The credit last heard.
    pub credit: Option<u8>,
    pub settings: Settings,
    /// The last answer's letter.
    pub last: u8,
    pub held: usize,
    /// The buffer that is out.
    pub out: Option<u8>,
    pub sending: usize,
    pub outcomes: usize,
}

impl End {
    /// Opens an end.
    pub fn open(
        line: u8,
        kind: Kind,
        frame: &[u8],
        place: &mut [u8; PLACE],
    ) -> Result<(End, Report), Refusal> {
        let settings = Settings::read(frame)?;
        let (primary, done) = Primary::open(&settings);
        let end = End {
            line,
            kind,
            settings,
            primary,
            secondary: Secondary::default(),
        };
        let report = end.report(done, place);
        Ok((end, report))
    }

    /// Writes the packet that is sent and tells what was done.
    fn report(&self, done: Done, place: &mut [u8; PLACE]) -> Report {
        let sent = done.sent.map(|packet| {
            let length = write(self.kind, packet.letter, &packet.field, place);
            let length = length.expect("a station sends packets only");
            (packet.letter, length)
        });
        Report {
            sent,
            timer: done.timer,
            outcomes: done.outcomes,
        }
    }

    pub fn submit(&mut self, message: &[u8], place: &mut [u8; PLACE]) -> Result<Report, Refusal> {
        let done = self.primary.submit(&self.settings, message)?;
        Ok(self.report(done, place))
    }

    pub fn timeout(&mut self, place: &mut [u8; PLACE]) -> Report {
        let done = self.primary.timeout(&self.settings);
        self.report(done, place)
    }

    /// A burst arrives.
    pub fn arrive(&mut self, burst: &[u8], place: &mut [u8; PLACE]) -> Result<Report, Refusal> {
        let packet = read(self.kind, burst)?;
        let done = match packet.letter {
            b'E' => self.command(Command::Enq),
            b'R' => self.primary.hear(&self.settings, Answer::Reset),
            letter @ (b'0' | b'1') => self.command(Command::Data {
                number: letter - b'0',
                message: packet.field,
            }),
            letter => {
                let number = letter - b'A';
                let credit = packet.field[0] - b'0';
                let answer = Answer::Ack { number, credit };
                self.primary.hear(&self.settings, answer)
            }
        };
        Ok(self.report(done, place))
    }

    fn command(&mut self, command: Command) -> Done {
        let sent = self.secondary.hear(self.settings.receive, command);
        Done {
            sent,
            ..Done::default()
        }
    }

    /// Takes the oldest delivery to the front of `place`; answers its length and
    /// the slip.
    pub fn take(&mut self, place: &mut [u8]) -> Result<(usize, Slip), Refusal> {
        let (length, buffer) = self.secondary.take(place)?;
        let line = self.line;
        Ok((length, Slip { line, buffer }))
    }

    /// Gives a slip back. Refused, it is handed back.
    pub fn give(&mut self, slip: Slip) -> Result<(), (Refusal, Slip)> {
        if slip.line == self.line && Some(slip.buffer) == self.secondary.out() {
            self.secondary.free_out();
            return Ok(());
        }
        Err((Refusal::Slip, slip))
    }

    pub fn collect(&mut self) -> Result<Outcome, Refusal> {
        self.primary.collect()
    }

    /// Changes the settings.
    pub fn set(&mut self, frame: &[u8]) -> Result<(), Refusal> {
        let busy = self.primary.is_busy();
        let held = self.secondary.held();
        self.settings = Settings::read_where(frame, |settings| {
            [
                (Refusal::Busy, busy),
                (Refusal::BelowHeld, usize::from(settings.receive) < held),
            ]
        })?;
        Ok(())
    }

    pub fn state(&self) -> State {
        State {
            name: self.primary.state(),
            number: self.primary.number(),
            attempts: self.primary.attempts(),
            credit: self.primary.credit(),
            settings: self.settings,
            last: self.secondary.last(),
            held: self.secondary.held(),
            out: self.secondary.out(),
            sending: self.primary.sending(),
            outcomes: self.primary.outcomes(),
        }
    }
}
