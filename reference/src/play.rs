//! Random openings of lines and random calls on them.

use crate::line::call::{Action, Call};
use crate::line::{Line, LineReport};
use crate::medium::Medium;
use crate::packet::Kind;
use crate::random::Random;
use crate::refusal::Refusal;
use crate::script::{Hexadecimal, Words};
use std::fmt;

/// How often each call is drawn: submissions, timeouts, arrivals, read-outs,
/// collections and settings. A player is in one of these moods for a while.
const MOODS: [[usize; 6]; 6] = [
    [4, 3, 10, 3, 3, 1],
    [2, 12, 3, 1, 1, 1],
    [9, 2, 7, 1, 1, 0],
    [4, 6, 12, 0, 2, 1],
    [1, 8, 12, 1, 2, 2],
    [1, 2, 7, 6, 6, 6],
];

/// The kinds of SPEC.
pub const SPECS: usize = 6;

/// An opening of a line.
pub struct Opening {
    kind: Kind,
    pub frames: [Vec<u8>; 2],
    specs: [String; 2],
}

impl Opening {
    pub fn media(&self) -> [Medium; 2] {
        let medium = |spec: &String| {
            let spec = Words::new(spec.as_bytes()).spec();
            Medium::new(spec.expect("a SPEC is drawn"))
        };
        [medium(&self.specs[0]), medium(&self.specs[1])]
    }

    /// Opens the line over these media.
    pub fn open(&self, media: [Medium; 2]) -> Result<(Line, [LineReport; 2]), Refusal> {
        let [west, east] = &self.frames;
        Line::open(self.kind, [west, east], media)
    }
}

/// A line of a script.
impl fmt::Display for Opening {
    fn fmt(&self, out: &mut fmt::Formatter) -> fmt::Result {
        let kind = self.kind.name();
        let [west, east] = &self.frames;
        let (west, east) = (Hexadecimal(west), Hexadecimal(east));
        let [eastward, westward] = &self.specs;
        write!(out, "line open {kind} {west} {east} {eastward} {westward}")
    }
}

pub struct Player {
    pub random: Random,
    mood: [usize; 6],
    /// The messages drawn.
    messages: usize,
}

impl Player {
    pub fn new(random: Random) -> Self {
        let mood = MOODS[0];
        Player {
            random,
            mood,
            messages: 0,
        }
    }

    /// Whether something happens that does once in `many` times.
    pub fn one_in(&mut self, many: usize) -> bool {
        self.random.below(many) == 0
    }

    /// An opening over media of these two kinds of SPEC; mostly one that is not
    /// refused.
    pub fn opening(&mut self, specs: [usize; 2]) -> Opening {
        Opening {
            kind: *self.random.pick(&Kind::ALL),
            frames: [self.frame(16), self.frame(16)],
            specs: specs.map(|number| self.spec(number)),
        }
    }

    /// A call at any side, a wrong one now and then.
    pub fn call(&mut self) -> Call {
        if self.one_in(30) {
            self.mood = *self.random.pick(&MOODS);
        }
        let side = match self.one_in(100) {
            true => 2 + self.random.below(254) as u8,
            false => self.random.below(2) as u8,
        };
        let action = self.action();
        Call { side, action }
    }

    fn action(&mut self) -> Action {
        let mut drawn = self.random.below(self.mood.iter().sum());
        let mut event = 0;
        while drawn >= self.mood[event] {
            drawn -= self.mood[event];
            event += 1;
        }
        match event {
            0 => Action::Submit(self.message()),
            1 => Action::Timeout,
            2 => Action::Arrive,
            3 => Action::Read(*self.random.pick(&[96, 96, 96, 96, 96, 96, 104, 95, 0])),
            4 => Action::Collect,
            _ => Action::Settings(self.frame(4)),
        }
    }

    /// A message, mostly a short one and mostly unlike those before.
    fn message(&mut self) -> Vec<u8> {
        self.messages += 1;
        match self.random.below(80) {
            0 => vec![b'x'; *self.random.pick(&[0, 97, 200])],
            1 => vec![b'x', *self.random.pick(b"\x00\x1F\x7F\xFF")],
            2 => (0..*self.random.pick(&[20, 95, 96]))
                .map(|_| 0x20 + self.random.below(95) as u8)
                .collect(),
            3..=12 => b"x".to_vec(),
            13..=17 => b"~~~~".to_vec(),
            _ => (self.messages % 1000).to_string().into_bytes(),
        }
    }

    /// A settings frame, wrong once in `wrong` times.
    fn frame(&mut self, wrong: usize) -> Vec<u8> {
        let any_limit = 1 + self.random.below(20) as u8;
        let attempts = *self.random.pick(&[1, 1, 2, 2, 3, 4, 20, any_limit]);
        let receive = *self.random.pick(&[1, 1, 2, 3, 5, 8, 1 + any_limit % 8]);
        let mut frame = vec![1, 0, 6];
        for _ in 0..2 {
            let any_period = 10 + self.random.below(5991) as u16;
            let period: u16 = *self.random.pick(&[10, 200, 6000, any_period]);
            frame.extend(period.to_be_bytes());
        }
        frame.extend([attempts, receive]);
        if self.one_in(wrong) {
            let place = self.random.below(10);
            match frame.get_mut(place) {
                Some(byte) => *byte = *self.random.pick(&[0, 9, 21, 0xFF]),
                None => frame.truncate(self.random.below(9)),
            }
        }
        frame
    }

    /// A SPEC of a kind, mostly with room for a few bursts.
    fn spec(&mut self, number: usize) -> String {
        let places = *self.random.pick(&[0, 1, 2, 2, 3, 4, 8]);
        let below = match number % 3 {
            0 => format!("queue:{places}"),
            1 => {
                let bytes = *self.random.pick(&[6, 7, 14, 30, 106, 400]);
                format!("packed:{bytes}")
            }
            _ => format!("noisy:{places}:{:X}", self.pattern()),
        };
        match number / 3 {
            0 => below,
            _ => format!("lossy:{:x}/{below}", self.pattern()),
        }
    }

    /// A pattern that hits anything from every second time to very seldom.
    fn pattern(&mut self) -> u32 {
        let times = 1 + self.random.below(4);
        let any = |_| self.random.below(1 << 32) as u32;
        (0..times).map(any).fold(!0, |all, one| all & one)
    }
}
