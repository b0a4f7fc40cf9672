//! Sections on the secondary station, its deliveries and their slips.

use super::{stages, told, Frame, Script, Seat, NAMES};
use crate::generate::words;
use crate::packet::{Kind, LONGEST};

pub const SECTIONS: [fn(&mut Script); 8] = [
    every_cell,
    histories,
    buffers_go_round,
    deliveries,
    refused_takes,
    slips_of_one_line,
    slips_of_two_lines,
    kept_slips,
];

const COMMANDS: [(u8, &[u8]); 3] = [(b'E', b""), (b'0', b"ZERO"), (b'1', b"ONE")];

/// Each command after this last answer, with every number of deliveries held.
fn cells(script: &mut Script, turn: &mut usize, last: u8, receive: u8) {
    for held in 0..=usize::from(receive) {
        // After RESET nothing is held.
        if last == b'R' && held > 0 {
            continue;
        }
        for out in [false, true] {
            if out && held == 0 {
                continue;
            }
            for (letter, field) in COMMANDS {
                let seat = Seat::turn(*turn);
                script.secondary(seat, receive, last, held, out);
                script.hear(seat, letter, field);
                if out {
                    script.end(seat.name, "give");
                }
                *turn += 1;
            }
        }
    }
}

fn every_cell(script: &mut Script) {
    let mut turn = 0;
    for limits in [[1, 2], [3, 8]] {
        for last in *b"RAB" {
            let [few, more] = limits;
            let last_answer = char::from(last);
            script.section(&format!(
                "the last answer {last_answer}: ENQ and DATA, R = {few} and {more}, all numbers held"
            ));
            for receive in limits {
                cells(script, &mut turn, last, receive);
            }
        }
    }
    script.section("the same commands in every state of the primary station");
    for (number, stage) in stages().enumerate() {
        let seat = Seat::turn(number);
        script.reach(seat, Frame::limits(3, 3), stage);
        for (letter, field) in COMMANDS.into_iter().chain(COMMANDS) {
            script.hear(seat, letter, field);
        }
        script.call(seat.name, "take");
        script.call(seat.name, "give");
        script.hear(seat, b'E', b"");
    }
}

impl Script {
    /// Opens an end and brings its secondary station to the last answer, with so
    /// many deliveries held and the oldest of them out or not.
    fn secondary(&mut self, seat: Seat, receive: u8, last: u8, held: usize, out: bool) {
        let name = seat.name;
        let frame = self.hexadecimal(&Frame::limits(3, receive).bytes());
        self.end(
            name,
            format!("open {} {} {frame}", seat.line, seat.kind.name()),
        );
        let data = seat.packet(last.wrapping_sub(b'A').wrapping_add(b'0'), b"M");
        let data = self.hexadecimal(&data);
        if last != b'R' && held == 0 {
            self.end(name, format!("arrive {data}"));
            self.end(name, "take");
            self.end(name, "give");
        }
        for _ in 0..held {
            self.end(name, format!("arrive {data}"));
        }
        if out {
            self.end(name, "take");
        }
        self.state(name);
        let held = held.to_string();
        assert_eq!(told(&self.answer, "last"), char::from(last).to_string());
        assert_eq!(told(&self.answer, "held"), held);
    }
}

fn histories(script: &mut Script) {
    for (receive, held) in [(1, 0), (2, 0), (2, 1), (3, 1)] {
        script.section(&format!(
            "every history of ENQ, DATA, take and give, with R = {receive} and {held} held"
        ));
        for history in 0..64 {
            let seat = Seat::turn(history);
            let last = if held == 0 { b'R' } else { b'B' };
            script.secondary(seat, receive, last, held, false);
            for step in [history / 16, history / 4 % 4, history % 4] {
                match step {
                    0 => drop(script.hear(seat, b'E', b"")),
                    1 => drop(script.hear(seat, b'0' + (history % 2) as u8, b"M")),
                    2 => drop(script.call(seat.name, "take")),
                    _ => drop(script.call(seat.name, "give")),
                }
            }
            if told(&script.answer, "out") != "none" {
                script.end(seat.name, "give");
            }
        }
    }
}

fn buffers_go_round(script: &mut Script) {
    script.section("the buffers run from 0 to 7 and round, whatever R is");
    for receive in 1..=8u8 {
        let seat = Seat::turn(receive.into());
        script.open(seat, Frame::limits(3, receive));
        let rounds = if receive % 7 == 1 { 19 } else { 10 };
        for number in 0..rounds {
            script.hear(seat, b'0' + number % 2, format!("N{number}").as_bytes());
            script.call(seat.name, "take");
            script.call(seat.name, "give");
        }
    }
    script.section("as many held as R allows, while the buffers run round");
    for receive in [2, 3, 7, 8u8] {
        let seat = Seat::turn(receive.into());
        script.open(seat, Frame::limits(3, receive));
        for number in 0..usize::from(receive) {
            script.hear(seat, b'0', format!("F{number}").as_bytes());
        }
        for number in 0..10u8 {
            script.hear(seat, b'1', b"NONE FREE");
            script.call(seat.name, "take");
            script.hear(seat, b'E', b"");
            script.call(seat.name, "give");
            script.hear(seat, b'0' + number % 2, format!("G{number}").as_bytes());
        }
    }
    script.section("the same DATA twice is stored twice");
    for name in NAMES {
        let seat = Seat::new(name, 1, Kind::Xor);
        script.open(seat, Frame::USUAL);
        for _ in 0..3 {
            script.hear(seat, b'1', b"TWICE");
        }
        for _ in 0..4 {
            script.call(name, "take");
            script.call(name, "give");
        }
    }
}

fn deliveries(script: &mut Script) {
    script.section("deliveries of every length");
    let seat = Seat::turn(1);
    script.open(seat, Frame::limits(3, 2));
    for length in [LONGEST, 1, LONGEST - 1, 2]
        .into_iter()
        .chain(3..LONGEST - 1)
    {
        let message = script.message(length);
        let data = seat.packet(b'0' + (length % 2) as u8, &message);
        let data = script.hexadecimal(&data);
        script.end(seat.name, format!("arrive {data}"));
        script.end(seat.name, "take");
        script.call(seat.name, "give");
    }
    script.section("into places of every telling size");
    let seat = Seat::turn(2);
    script.open(seat, Frame::USUAL);
    for size in [
        0, 1, 2, 50, 94, 95, 96, 97, 104, 127, 128, 255, 256, 4096, 65535, 65536,
    ] {
        for length in [1, 95, 96] {
            let message = script.message(length);
            script.hear(seat, b'0', &message);
            script.call(seat.name, format!("take {size}"));
            if told(&script.answer, "out") == "none" {
                script.call(seat.name, "take");
            }
            script.call(seat.name, "give");
        }
    }
    script.section("into places larger than any memory");
    for size in words::HUGE_SIZE.split(' ') {
        script.hear(seat, b'0', b"OK");
        script.call(seat.name, format!("take {size}"));
        script.call(seat.name, format!("take {size}"));
        script.call(seat.name, "give");
        script.call(seat.name, format!("take {size}"));
    }
    script.section("short ones after long ones");
    for length in [96, 1, 95, 2, 96, 1, 50, 3, 1] {
        script.hear(seat, b'1', &vec![b'z'; length]);
    }
    for _ in 0..9 {
        script.call(seat.name, "take 65536");
        script.call(seat.name, "give");
    }
}

fn refused_takes(script: &mut Script) {
    script.section("refused takes: 21 before 22 before 23, in every state");
    for (number, stage) in stages().enumerate() {
        let seat = Seat::turn(number);
        script.reach(seat, Frame::limits(3, 3), stage);
        for call in ["take 95", "take", "take 96", "give", "take 0"] {
            script.call(seat.name, call);
        }
        script.deliver(seat, 2);
        for call in [
            "take 95",
            "take 0",
            "take 096",
            "take 95",
            "take",
            "take 96",
            "take 65536",
            "give",
            "take 95",
            "take",
            "take",
            "give",
            "give",
            "take 95",
            "take",
        ] {
            script.call(seat.name, call);
        }
    }
    script.section("refused gives in every state: the slip of another line");
    for (number, stage) in stages().enumerate() {
        let seat = Seat::turn(number);
        let other = Seat::new(NAMES[(number + 1) % 2], seat.line ^ 1, seat.kind);
        script.open(other, Frame::USUAL);
        script.deliver(other, 1);
        script.call(other.name, "take");
        script.reach(seat, Frame::USUAL, stage);
        script.call(seat.name, format!("give {}", other.name));
        script.deliver(seat, 1);
        script.call(seat.name, format!("give {}", other.name));
        script.call(seat.name, "take");
        script.call(seat.name, format!("give {}", other.name));
        script.call(other.name, format!("give {}", seat.name));
        script.call(seat.name, "give");
        script.call(seat.name, format!("give {}", other.name));
        script.call(other.name, "give");
    }
}

/// Opens both ends, under these line numbers.
fn both(script: &mut Script, lines: [u8; 2], kind: Kind) -> [Seat; 2] {
    let seats = [0, 1].map(|end| Seat::new(NAMES[end], lines[end], kind));
    for seat in seats {
        script.open(seat, Frame::USUAL);
    }
    seats
}

impl Script {
    /// A message arrives and is taken.
    fn deliver_and_take(&mut self, seat: Seat) {
        self.hear(seat, b'0', b"M");
        self.call(seat.name, "take");
    }
}

fn slips_of_one_line(script: &mut Script) {
    for kind in Kind::ALL {
        script.section("two ends of one line number, each with its buffer 0 out: slips exchanged");
        let [a, b] = both(script, [7, 7], kind);
        script.deliver_and_take(a);
        script.call("b", "give a");
        script.hear(b, b'1', b"HELD");
        script.call("b", "give a");
        script.call("b", "take");
        script.call("b", "give a");
        script.section("now a has a delivery out and no slip, b a slip and nothing out");
        for [name, call] in [
            ["a", "give"],
            ["a", "take"],
            ["a", "take 5"],
            ["a", "open 7 sum 01000600C8012C0308"],
            ["a", "open 7 sum -"],
            ["b", "give a"],
            ["b", "take"],
            ["b", "take 5"],
            ["b", "give"],
            ["b", "open 7 sum 01000600C8012C0308"],
            ["b", "open 7 sum -"],
        ] {
            script.call(name, call);
        }
        script.hear(b, b'0', b"WAITS");
        script.call("b", "take");
        script.hear(a, b'0', b"WAITS TOO");
        script.call("a", "take");
        script.section("the slip of b goes to a, and both are free again");
        script.call("a", "give b");
        script.call("a", "give b");
        script.call("b", "take");
        script.call("a", "take");
        script.call("b", "give a");
        script.call("a", "give a");
        script.call("b", "give b");
    }
    script.section("every buffer of the one against every buffer of the other");
    for apart in 0..8 {
        let [a, b] = both(script, [200, 200], Kind::ALL[apart % 2]);
        for _ in 0..apart {
            script.deliver_and_take(b);
            script.end("b", "give");
        }
        for _ in 0..8 {
            for seat in [a, b] {
                let data = script.hexadecimal(&seat.packet(b'1', b"M"));
                script.end(seat.name, format!("arrive {data}"));
                script.end(seat.name, "take");
            }
            script.call("b", "give a");
            script.call("a", "give b");
            script.end("a", "give");
            script.end("b", "give");
        }
    }
    script.section("slips go back and forth between two ends of one line number");
    let seats = both(script, [0, 0], Kind::Xor);
    for _ in 0..250 {
        let seat = *script.random.pick(&seats);
        let from = *script.random.pick(&NAMES);
        match script.random.below(6) {
            0 | 1 => drop(script.hear(seat, b'1', b"M")),
            2 | 3 => drop(script.call(seat.name, "take")),
            4 => drop(script.call(seat.name, format!("give {from}"))),
            _ => drop(script.call(seat.name, "give")),
        }
    }
    finish(script);
}

/// Gives all slips back.
fn finish(script: &mut Script) {
    for call in ["give", "give b", "give a"] {
        for name in NAMES {
            script.call(name, call);
        }
    }
    for name in NAMES {
        script.state(name);
        assert_eq!(told(&script.answer, "out"), "none");
    }
}

fn slips_of_two_lines(script: &mut Script) {
    script.section("two ends of different line numbers: each slip only to its own");
    for lines in [[7, 8], [0, 255], [255, 0], [1, 129], [16, 0], [5, 4]] {
        let seats = both(script, lines, Kind::Sum);
        for round in 0..2 {
            for seat in seats {
                script.deliver_and_take(seat);
            }
            for name in NAMES {
                script.call("a", format!("give {name}"));
                script.call("b", format!("give {name}"));
            }
            if round == 0 {
                // The buffers are no longer the same.
                script.deliver_and_take(seats[0]);
                script.call("b", "give a");
                script.call("a", "give a");
            }
        }
    }
    script.section("slips go back and forth between two ends of different line numbers");
    let seats = both(script, [31, 32], Kind::Sum);
    for _ in 0..100 {
        let seat = *script.random.pick(&seats);
        let from = *script.random.pick(&NAMES);
        match script.random.below(5) {
            0 => drop(script.hear(seat, b'1', b"M")),
            1 | 2 => drop(script.call(seat.name, "take")),
            3 => drop(script.call(seat.name, format!("give {from}"))),
            _ => drop(script.call(seat.name, "give")),
        }
    }
    finish(script);
}

fn kept_slips(script: &mut Script) {
    script.section("a name is not opened again while its slip is kept");
    for (number, stage) in stages().enumerate() {
        let seat = Seat::turn(number);
        script.reach(seat, Frame::USUAL, stage);
        script.deliver(seat, 2);
        script.call(seat.name, "take");
        script.open(seat, Frame::USUAL);
        script.open(
            seat,
            Frame {
                version: 9,
                ..Frame::USUAL
            },
        );
        script.call(seat.name, "open 256 sum 00");
        script.call(seat.name, "open 255 sum 0");
        script.call(seat.name, "give");
        script.open(
            seat,
            Frame {
                version: 9,
                ..Frame::USUAL
            },
        );
        script.open(seat, Frame::limits(4, 5));
        script.call(seat.name, "give");
    }
    script.section("a slip from before the other end was opened again");
    for line in [77, 78] {
        let [a, b] = both(script, [77, 78], Kind::Sum);
        script.deliver_and_take(a);
        script.call("b", "give a");
        let again = Seat { line, ..b };
        script.open(again, Frame::USUAL);
        script.call("b", "give a");
        script.deliver_and_take(again);
        script.call("b", "give a");
        script.call("a", "give b");
        script.call("a", "give a");
        script.call("b", "give b");
        script.call("b", "give a");
        finish(script);
    }
    script.section("no slip is kept");
    both(script, [1, 1], Kind::Sum);
    for call in ["give", "give a", "give b"] {
        for name in NAMES {
            script.call(name, call);
        }
    }
}
