//! The script of settings and end commands.

mod frames;
mod lines;
mod primary;
mod secondary;
mod walks;

use super::{Case, Script};
use crate::packet::{assemble, Kind};
pub use lines::BEFORE_OPENING;

const NAMES: [&str; 2] = ["a", "b"];

/// The states of a primary station.
const STATES: [&str; 4] = ["Off", "Ready", "Waiting", "Asking"];

/// The whole script. Its last line has no line end.
pub fn stations() -> Vec<u8> {
    Script::of(&[&BEFORE_OPENING[..], &sections()].concat(), LAST)
}

/// Its sections after those on calls before an end is opened.
pub fn sections() -> Vec<fn(&mut Script)> {
    let sections = [
        &frames::SECTIONS[..],
        &primary::SECTIONS,
        &secondary::SECTIONS,
        &walks::SECTIONS,
        &lines::SECTIONS,
    ];
    sections.concat()
}

/// The last line.
pub const LAST: &str = "end b state";

/// A settings frame, right or wrong.
#[derive(Clone, Copy)]
struct Frame {
    version: u8,
    length: u16,
    enq: u16,
    data: u16,
    attempts: u8,
    receive: u8,
}

impl Frame {
    const USUAL: Frame = Frame {
        version: 1,
        length: 6,
        enq: 200,
        data: 300,
        attempts: 3,
        receive: 8,
    };

    /// The usual frame with these limits.
    fn limits(attempts: u8, receive: u8) -> Self {
        Frame {
            attempts,
            receive,
            ..Frame::USUAL
        }
    }

    fn bytes(self) -> Vec<u8> {
        let mut bytes = vec![self.version];
        for number in [self.length, self.enq, self.data] {
            bytes.extend(number.to_be_bytes());
        }
        bytes.extend([self.attempts, self.receive]);
        bytes
    }
}

/// A name with the line number and the check kind of the end that it is for.
#[derive(Clone, Copy)]
struct Seat {
    name: &'static str,
    line: u8,
    kind: Kind,
}

impl Seat {
    fn new(name: &'static str, line: u8, kind: Kind) -> Self {
        Seat { name, line, kind }
    }

    /// Names, lines and kinds in turn.
    fn turn(number: usize) -> Self {
        let line = [7, 0, 255, 7, 128][number % 5];
        Seat::new(NAMES[number % 2], line, Kind::ALL[number / 2 % 2])
    }

    fn packet(self, letter: u8, field: &[u8]) -> Vec<u8> {
        assemble(self.kind, letter, field)
    }
}

/// What a primary station is brought to.
#[derive(Clone, Copy)]
struct Stage {
    state: &'static str,
    number: u8,
    /// The messages that wait behind the current one.
    behind: usize,
}

/// Every state under both numbers, without messages behind the current one.
fn stages() -> impl Iterator<Item = Stage> {
    let stage = |state| {
        [0, 1].map(|number| Stage {
            state,
            number,
            behind: 0,
        })
    };
    STATES.into_iter().flat_map(stage)
}

/// Lines that several sections need.
impl Script {
    fn end(&mut self, name: &str, call: impl AsRef<str>) {
        self.line(format!("end {name} {}", call.as_ref()));
    }

    fn state(&mut self, name: &str) {
        self.end(name, "state");
    }

    /// A call and the state after it. Answers what the call was answered.
    fn call(&mut self, name: &str, call: impl AsRef<str>) -> String {
        self.end(name, call);
        let answer = self.answer.clone();
        self.state(name);
        answer
    }

    fn hexadecimal(&mut self, bytes: &[u8]) -> String {
        let digits = self.bytes(Case::Upper, bytes);
        String::from_utf8(digits).expect("digits are text")
    }

    fn open(&mut self, seat: Seat, frame: Frame) -> String {
        let frame = self.hexadecimal(&frame.bytes());
        let (line, kind) = (seat.line, seat.kind.name());
        self.call(seat.name, format!("open {line} {kind} {frame}"))
    }

    fn set(&mut self, name: &str, frame: Frame) -> String {
        let frame = self.hexadecimal(&frame.bytes());
        self.call(name, format!("settings {frame}"))
    }

    fn arrive(&mut self, name: &str, burst: &[u8]) -> String {
        let burst = self.hexadecimal(burst);
        self.call(name, format!("arrive {burst}"))
    }

    /// A packet arrives.
    fn hear(&mut self, seat: Seat, letter: u8, field: &[u8]) -> String {
        self.arrive(seat.name, &seat.packet(letter, field))
    }

    /// ACK under the number, with a random credit.
    fn hear_ack(&mut self, seat: Seat, number: u8) -> String {
        let credit = self.run_of(1, 0x30, 0x38);
        self.hear(seat, b'A' + number, &credit)
    }

    fn submit(&mut self, name: &str, message: &[u8]) -> String {
        let message = self.hexadecimal(message);
        self.call(name, format!("submit {message}"))
    }

    /// A short message is submitted, as text.
    fn submit_some(&mut self, name: &str) -> String {
        let length = 1 + self.random.below(5);
        let text = self.run_of(length, 0x41, 0x5A);
        let text = String::from_utf8(text).expect("letters are text");
        self.call(name, format!("submit '{text}"))
    }

    /// Opens an end and brings its primary station to the stage. The state is
    /// asked for only at the end.
    fn reach(&mut self, seat: Seat, frame: Frame, stage: Stage) {
        let name = seat.name;
        let bytes = self.hexadecimal(&frame.bytes());
        self.end(
            name,
            format!("open {} {} {bytes}", seat.line, seat.kind.name()),
        );
        let ready = match stage.state {
            "Ready" => stage.number,
            _ => 1 - stage.number,
        };
        // The number is 1 at the opening.
        if stage.state != "Off" || stage.number == 0 {
            let ack = seat.packet(b'A' + ready, b"8");
            let ack = self.hexadecimal(&ack);
            self.end(name, format!("arrive {ack}"));
        }
        match stage.state {
            "Off" if stage.number == 0 => {
                self.end(name, "submit 'X");
                for _ in 0..=frame.attempts {
                    self.end(name, "timeout");
                }
                self.end(name, "collect");
            }
            "Waiting" | "Asking" => {
                for number in 0..=stage.behind {
                    self.end(name, format!("submit 'M{number}"));
                }
                if stage.state == "Asking" {
                    self.end(name, "timeout");
                }
            }
            _ => {}
        }
        self.state(name);
        let reached = format!("state={} number={} ", stage.state, stage.number);
        assert!(self.answer.starts_with(&reached), "{}", self.answer);
    }

    /// So many messages arrive, under numbers in turn, and nothing is taken.
    fn deliver(&mut self, seat: Seat, count: usize) {
        for number in 0..count {
            let field = format!("D{number}");
            self.hear(seat, b'0' + (number % 2) as u8, field.as_bytes());
        }
    }
}

/// What stands after the name in an answer.
fn told<'a>(answer: &'a str, name: &str) -> &'a str {
    let mut words = answer.split(' ');
    let told = words.find_map(|word| word.strip_prefix(name)?.strip_prefix('='));
    told.unwrap_or_else(|| panic!("{name} is not told: {answer}"))
}

#[cfg(test)]
pub mod tests {
    use super::*;
    use crate::generate::tests::answers;
    use std::cmp::Ordering::{self, Equal, Greater, Less};
    use std::collections::BTreeMap;

    #[test]
    fn the_script_is_whole() {
        let script = stations();
        assert_eq!(script, stations());
        assert!(script.len() < 2_500_000);
        assert!(script.ends_with(b"\nend b state"));
        assert!(answers(&script).len() >= 12_000);
    }

    /// A call on an end whose state was told just before and just after it.
    pub struct Call {
        pub call: String,
        pub argument: String,
        pub answer: String,
        pub before: String,
        pub after: String,
        /// The name of the end's check kind.
        pub kind: String,
    }

    impl Call {
        pub fn before(&self, name: &str) -> &str {
            told(&self.before, name)
        }

        fn number_before(&self, name: &str) -> usize {
            self.before(name).parse().unwrap()
        }

        /// The letter of the packet that arrived.
        fn letter(&self) -> Option<u8> {
            let digits = self.argument.get(2..4)?;
            let letter = u8::from_str_radix(digits, 16).ok()?;
            Some(letter).filter(|_| self.call == "arrive" && self.answer.starts_with("sent="))
        }

        /// What happened to the primary station.
        fn event(&self) -> Option<&'static str> {
            let number = self.number_before("number") as u8;
            match (&self.call[..], self.letter()) {
                ("submit", _) if self.answer.starts_with("sent=") => Some("submission"),
                ("submit", _) if self.answer == "refused 18" => Some("submission"),
                ("timeout", _) => Some("timeout"),
                (_, Some(b'R')) => Some("RESET"),
                (_, Some(letter)) if letter == b'A' + number => Some("ACK n"),
                (_, Some(b'A' | b'B')) => Some("another ACK"),
                _ => None,
            }
        }
    }

    pub fn calls(script: &[u8]) -> Vec<Call> {
        let mut calls = Vec::new();
        // By name: the state last told, where nothing came after it, and a call
        // after which none was told yet.
        let mut states: BTreeMap<String, String> = BTreeMap::new();
        let mut open: BTreeMap<String, Call> = BTreeMap::new();
        let mut kinds: BTreeMap<String, String> = BTreeMap::new();
        for (command, answer) in answers(script) {
            let command = String::from_utf8_lossy(&command).into_owned();
            let words: Vec<&str> = command.split(' ').filter(|word| !word.is_empty()).collect();
            let ["end", name @ ("a" | "b"), call, ref arguments @ ..] = words[..] else {
                continue;
            };
            if call == "open" && answer.starts_with("opened") {
                kinds.insert(name.to_string(), arguments[1].to_string());
            }
            if call == "state" && answer.starts_with("state=") {
                if let Some(mut call) = open.remove(name) {
                    call.after = answer.clone();
                    calls.push(call);
                }
                states.insert(name.to_string(), answer);
                continue;
            }
            open.remove(name);
            if let Some(before) = states.remove(name) {
                let call = Call {
                    call: call.to_string(),
                    argument: arguments.join(" "),
                    answer,
                    before,
                    after: String::new(),
                    kind: kinds[name].clone(),
                };
                open.insert(name.to_string(), call);
            }
        }
        calls
    }

    /// Makes sure that refusals and errors change nothing, and counts them.
    pub fn refused_and_unchanged(calls: &[Call]) -> usize {
        let mut count = 0;
        for call in calls {
            if call.answer.starts_with("refused") || call.answer.starts_with("error") {
                assert_eq!(call.before, call.after, "{}", call.call);
                count += 1;
            }
        }
        count
    }

    #[test]
    fn refusals_and_errors_change_nothing() {
        assert!(refused_and_unchanged(&calls(&stations())) > 2000);
    }

    /// Makes sure that each call is refused with each of its numbers in every
    /// state in which it can be.
    pub fn refused_in_every_state(calls: &[Call]) {
        let mut counts: BTreeMap<(String, String, String), usize> = BTreeMap::new();
        for call in calls {
            if let Some(number) = call.answer.strip_prefix("refused ") {
                let state = call.before("state").to_string();
                let key = (call.call.clone(), number.to_string(), state);
                *counts.entry(key).or_default() += 1;
            }
        }
        let all = &STATES[..];
        let busy = &STATES[2..];
        let idle = &STATES[..2];
        let refusals = [
            ("arrive", 1..=7, all),
            ("open", 8..=13, all),
            ("settings", 8..=13, all),
            ("settings", 14..=14, busy),
            ("settings", 15..=15, idle),
            ("submit", 16..=17, all),
            ("submit", 18..=18, &STATES[..1]),
            ("submit", 19..=19, &STATES[1..]),
            ("collect", 20..=20, all),
            ("take", 21..=23, all),
            ("give", 24..=24, all),
        ];
        for (call, numbers, states) in refusals {
            for number in numbers {
                for state in states {
                    let key = (call.to_string(), number.to_string(), state.to_string());
                    assert!(counts.contains_key(&key), "{key:?}");
                }
            }
        }
    }

    #[test]
    fn every_refusal_occurs_in_every_state() {
        refused_in_every_state(&calls(&stations()));
        let read = answers(&stations());
        for number in 8..=13 {
            let refused = format!("refused {number}");
            let reads = read.iter().filter(|(command, answer)| {
                command.starts_with(b"settings read") && *answer == refused
            });
            assert!(reads.count() >= 5, "{number}");
        }
    }

    /// Makes sure that each cell of the primary station's table occurs so often
    /// under each kind, with and without messages behind the current one.
    pub fn primary_cells(calls: &[Call], least: usize) {
        let mut counts: BTreeMap<(String, &str, bool, String), usize> = BTreeMap::new();
        for call in calls {
            if let Some(event) = call.event() {
                let state = call.before("state").to_string();
                let behind = call.number_before("sending") > 1;
                let key = (state, event, behind, call.kind.clone());
                *counts.entry(key).or_default() += 1;
            }
        }
        for state in STATES {
            for event in ["submission", "RESET", "ACK n", "another ACK", "timeout"] {
                for behind in [false, true] {
                    for kind in Kind::ALL {
                        let key = (state.to_string(), event, behind, kind.name().to_string());
                        let possible = !behind || state == "Waiting" || state == "Asking";
                        let count = counts.get(&key).copied().unwrap_or(0);
                        assert_eq!(count >= least, possible, "{key:?}");
                    }
                }
            }
        }
    }

    /// Makes sure that timeouts come so often with attempts below, at and above
    /// the limit.
    pub fn timeouts_around_the_limit(calls: &[Call], least: usize) {
        let mut counts: BTreeMap<(&str, Ordering), usize> = BTreeMap::new();
        for call in calls.iter().filter(|call| call.call == "timeout") {
            let limit = call.number_before("M");
            let order = call.number_before("attempts").cmp(&limit);
            *counts.entry((call.before("state"), order)).or_default() += 1;
        }
        for key in [
            ("Off", Greater),
            ("Waiting", Less),
            ("Waiting", Equal),
            ("Waiting", Greater),
            ("Asking", Less),
            ("Asking", Equal),
        ] {
            assert!(counts[&key] >= least, "{key:?}");
        }
    }

    #[test]
    fn every_cell_of_the_primary_station_occurs() {
        let calls = calls(&stations());
        primary_cells(&calls, 5);
        timeouts_around_the_limit(&calls, 10);
    }

    /// How often each command came after each last answer, with so many buffers
    /// free and a delivery out or not.
    pub fn secondary_cells(calls: &[Call]) -> BTreeMap<(String, u8, usize, bool), usize> {
        let mut counts = BTreeMap::new();
        for call in calls {
            let Some(letter @ (b'E' | b'0' | b'1')) = call.letter() else {
                continue;
            };
            let free = call.number_before("R") - call.number_before("held");
            let out = call.before("out") != "none";
            let key = (call.before("last").to_string(), letter, free, out);
            *counts.entry(key).or_default() += 1;
        }
        counts
    }

    #[test]
    fn every_cell_of_the_secondary_station_occurs() {
        let counts = secondary_cells(&calls(&stations()));
        for last in ["R", "A", "B"] {
            for letter in *b"E01" {
                for free in 0..=8 {
                    for out in [false, true] {
                        let key = (last.to_string(), letter, free, out);
                        let possible = match last {
                            // Nothing is held, and R is at least 1.
                            "R" => free > 0 && !out,
                            _ => !out || free < 8,
                        };
                        // After RESET, some values of R suffice.
                        let wanted = possible && (last != "R" || [1, 2, 3, 8].contains(&free));
                        let count = counts.get(&key).copied().unwrap_or(0);
                        assert!(!wanted || count > 0, "{key:?}");
                        assert!(possible || count == 0, "{key:?}");
                    }
                }
            }
        }
    }

    #[test]
    fn every_answer_and_error_occurs() {
        let answers = answers(&stations());
        let count = |wanted: &str| {
            let holds = |(_, answer): &&(Vec<u8>, String)| answer.starts_with(wanted);
            answers.iter().filter(holds).count()
        };
        for answer in [
            "opened sent=E ",
            "sent=E ",
            "sent=0 ",
            "sent=1 ",
            "sent=A ",
            "sent=B ",
            "sent=R ",
            "sent=none ",
            "length=",
            "given back",
            "outcome=1",
            "outcome=2",
            "outcome=3",
            "set",
            "enq=",
            "error: unknown command",
            "error: too few words",
            "error: KIND is sum or xor",
            "error: BYTES are pairs of hexadecimal digits",
            "error: SIZE is a decimal number",
            "error: NAME is a or b",
            "error: LINE is a number from 0 to 255",
            "error: too many words",
            "error: no end of that name is open",
            "error: no slip is kept",
            "error: a slip is kept",
        ] {
            assert!(count(answer) >= 30, "{answer}: {}", count(answer));
        }
        assert!(count("state=Off number=1 attempts=255 ") >= 3);
        for buffer in 0..8 {
            assert!(answers
                .iter()
                .any(|(_, answer)| answer.ends_with(&format!(" slip=255,{buffer}"))));
        }
    }
}
