//! Sections on the primary station: its table, its attempts and its send buffers.

use super::{stages, told, Frame, Script, Seat, Stage, NAMES, STATES};
use crate::generate::words;
use crate::packet::{Kind, LONGEST};

pub const SECTIONS: [fn(&mut Script); 10] = [
    every_cell,
    cells_in_pairs,
    three_events,
    credits,
    attempts_up_to_255,
    given_up_from_waiting,
    send_buffers,
    outcomes,
    submissions,
    refused_arrivals,
];

/// What can happen to a primary station.
const EVENTS: [&str; 5] = ["submission", "RESET", "ACK n", "another ACK", "timeout"];

impl Script {
    /// Lets the event happen to an end whose state was just told.
    fn happen(&mut self, seat: Seat, event: &str) {
        let number = told(&self.answer, "number").parse().unwrap_or(0);
        match event {
            "submission" => self.submit_some(seat.name),
            "RESET" => self.hear(seat, b'R', b""),
            "ACK n" => self.hear_ack(seat, number),
            "another ACK" => self.hear_ack(seat, 1 - number),
            _ => self.call(seat.name, "timeout"),
        };
    }

    /// Lets the current message arrive, where there is one, and collects it.
    fn arrive_and_collect(&mut self, seat: Seat) {
        if told(&self.answer, "state") == "Waiting" {
            let number: u8 = told(&self.answer, "number").parse().unwrap_or(0);
            let ack = self.hexadecimal(&seat.packet(b'A' + number, b"4"));
            self.end(seat.name, format!("arrive {ack}"));
            self.end(seat.name, "collect");
        }
    }

    /// ACKs the current message until none is without an outcome.
    fn hear_all(&mut self, seat: Seat) {
        while told(&self.answer, "sending") != "0" {
            self.happen(seat, "ACK n");
        }
    }
}

fn every_cell(script: &mut Script) {
    for stage in stages() {
        let behinds: &[usize] = match stage.state {
            "Off" | "Ready" => &[0],
            _ => &[0, 1, 7],
        };
        for &behind in behinds {
            let Stage { state, number, .. } = stage;
            script.section(&format!(
                "{state} under {number}, {behind} behind: submission, RESET, ACKs, timeout"
            ));
            for (turn, event) in EVENTS.into_iter().enumerate() {
                for kind in Kind::ALL {
                    let seat = Seat {
                        kind,
                        ..Seat::turn(turn)
                    };
                    script.reach(seat, Frame::USUAL, Stage { behind, ..stage });
                    script.happen(seat, event);
                }
            }
        }
    }
}

fn cells_in_pairs(script: &mut Script) {
    script.section("every two events one after the other, from every state");
    let mut turn = 0;
    for stage in stages() {
        for first in EVENTS {
            // In Ready only a submission leads on.
            if stage.state == "Ready" && first != "submission" {
                continue;
            }
            for second in EVENTS {
                let seat = Seat::turn(turn);
                script.reach(seat, Frame::limits(1 + turn as u8 % 3, 8), stage);
                script.happen(seat, first);
                script.happen(seat, second);
                turn += 1;
            }
        }
    }
}

fn three_events(script: &mut Script) {
    for (state, behind) in [("Waiting", 1), ("Asking", 1), ("Waiting", 0)] {
        script.section(&format!(
            "every three events one after the other, from {state} with {behind} behind"
        ));
        for history in 0..64 {
            let seat = Seat::turn(history);
            let number = (history / 2 % 2) as u8;
            let stage = Stage {
                state,
                number,
                behind,
            };
            script.reach(seat, Frame::limits(2, 8), stage);
            for step in [history / 16, history / 4 % 4, history % 4] {
                script.happen(seat, EVENTS[1 + step]);
            }
        }
    }
}

fn credits(script: &mut Script) {
    script.section("every credit, under both numbers and from every state");
    for (turn, state) in STATES.into_iter().enumerate() {
        for credit in 0..=8 {
            for letter in [b'A', b'B'] {
                let seat = Seat::turn(turn + usize::from(credit));
                let number = (credit / 2 + letter) % 2;
                let stage = Stage {
                    state,
                    number,
                    behind: 0,
                };
                script.reach(seat, Frame::limits(1, 8), stage);
                script.hear(seat, letter, &[b'0' + credit]);
            }
        }
    }
}

fn attempts_up_to_255(script: &mut Script) {
    script.section("timeouts in Off from the opening: the attempts stay at 255");
    let seat = Seat::turn(0);
    script.open(seat, Frame::USUAL);
    for timeout in 0..258 {
        script.end(seat.name, "timeout");
        if timeout % 50 == 0 || timeout > 250 {
            script.state(seat.name);
        }
    }
    script.call(seat.name, "submit 'X");
    script.hear(seat, b'R', b"");
    script.call(seat.name, "timeout");
    script.submit_some(seat.name);
    script.call(seat.name, "timeout");
    script.section("timeouts in Off after a message was given up, with the limit at 20");
    let seat = Seat::turn(3);
    script.reach(
        seat,
        Frame::limits(20, 8),
        Stage {
            state: "Off",
            number: 0,
            behind: 0,
        },
    );
    for timeout in 0..260 {
        script.end(seat.name, "timeout");
        if timeout % 20 == 0 || timeout > 250 {
            script.state(seat.name);
        }
    }
    script.set(seat.name, Frame::limits(1, 1));
    script.call(seat.name, "timeout");
    script.hear_ack(seat, 0);
    script.submit_some(seat.name);
    script.call(seat.name, "timeout");
    script.call(seat.name, "timeout");
    script.call(seat.name, "timeout");
    script.section("attempts kept from Off to Ready, of every count up to 8");
    for attempts in 1..=8 {
        let seat = Seat::turn(attempts);
        script.open(seat, Frame::USUAL);
        for _ in 1..attempts {
            script.end(seat.name, "timeout");
        }
        match attempts % 3 {
            0 => script.hear(seat, b'R', b""),
            _ => script.hear_ack(seat, attempts as u8 % 2),
        };
        script.submit_some(seat.name);
    }
}

fn given_up_from_waiting(script: &mut Script) {
    for limit in [1, 2, 3, 4, 20] {
        script.section(&format!(
            "a limit of {limit} is reached while Waiting, none behind: by another ACK and by RESET"
        ));
        for (number, again) in [(0, "another ACK"), (1, "RESET")] {
            let seat = Seat::turn(usize::from(limit + number));
            let stage = Stage {
                state: "Waiting",
                number,
                behind: 0,
            };
            script.reach(seat, Frame::limits(limit, 8), stage);
            while told(&script.answer, "state") != "Off" {
                script.happen(seat, "timeout");
                if told(&script.answer, "state") == "Asking" {
                    script.happen(seat, again);
                }
            }
            script.call(seat.name, "collect");
        }
    }
}

fn send_buffers(script: &mut Script) {
    for number in 0..2 {
        script.section("eight send buffers full of messages without an outcome");
        let seat = Seat::turn(number);
        script.reach(
            seat,
            Frame::USUAL,
            Stage {
                state: "Ready",
                number: 1,
                behind: 0,
            },
        );
        for _ in 0..9 {
            script.submit_some(seat.name);
        }
        script.submit(seat.name, &[b'x'; 97]);
        script.submit(seat.name, &[]);
        script.submit(seat.name, &[0x1F]);
        script.call(seat.name, "collect");
        script.section("then of outcomes that were not collected");
        for _ in 0..8 {
            script.happen(seat, "ACK n");
            script.submit_some(seat.name);
        }
        script.section("each collection frees one");
        for _ in 0..8 {
            script.call(seat.name, "collect");
            script.submit_some(seat.name);
            script.submit_some(seat.name);
        }
        script.call(seat.name, "collect");
        script.hear_all(seat);
        for _ in 0..9 {
            script.call(seat.name, "collect");
        }
    }
    script.section("eight messages given up: 18 while Off, 19 when Ready");
    for state in ["Waiting", "Asking"] {
        for behind in [0, 1, 6, 7] {
            let seat = Seat::turn(behind);
            script.reach(
                seat,
                Frame::limits(1, 8),
                Stage {
                    state,
                    number: 0,
                    behind,
                },
            );
            while told(&script.answer, "state") != "Off" {
                script.call(seat.name, "timeout");
            }
            script.submit_some(seat.name);
            script.happen(seat, "RESET");
            for _ in behind..8 {
                script.submit_some(seat.name);
            }
            script.hear_all(seat);
            script.submit_some(seat.name);
            for _ in 0..9 {
                script.call(seat.name, "collect");
            }
        }
    }
    script.section("every number of messages with and without an outcome");
    for total in [1, 2, 4, 7, 8] {
        for settled in 0..=total {
            let seat = Seat::turn(total + settled);
            let stage = Stage {
                state: "Waiting",
                number: 1,
                behind: total - 1,
            };
            script.reach(seat, Frame::USUAL, stage);
            for _ in 0..settled {
                script.happen(seat, "ACK n");
            }
            script.submit_some(seat.name);
            script.call(seat.name, "collect");
        }
    }
    script.section("the buffers run round");
    for number in 0..2 {
        let seat = Seat::turn(number + 2);
        script.reach(
            seat,
            Frame::USUAL,
            Stage {
                state: "Ready",
                number: 0,
                behind: 0,
            },
        );
        for _ in 0..150 {
            match script.random.below(7) {
                0..=2 => script.happen(seat, "submission"),
                3 | 4 => script.happen(seat, "ACK n"),
                _ => drop(script.call(seat.name, "collect")),
            }
        }
    }
}

fn outcomes(script: &mut Script) {
    script.section("arrived, given up and no connection, collected in the order of acceptance");
    for arrived in 0..=4 {
        for behind in 0..=3 {
            let seat = Seat::turn(arrived + behind);
            let stage = Stage {
                state: "Waiting",
                number: 0,
                behind: arrived + behind,
            };
            script.reach(seat, Frame::limits(1, 8), stage);
            for _ in 0..arrived {
                script.happen(seat, "ACK n");
            }
            if (arrived + behind) % 2 == 0 {
                script.call(seat.name, "collect");
            }
            script.happen(seat, "timeout");
            script.happen(seat, "timeout");
            script.happen(seat, "RESET");
            script.happen(seat, "submission");
            script.happen(seat, "ACK n");
            while told(&script.answer, "outcomes") != "0" {
                script.call(seat.name, "collect");
            }
            script.call(seat.name, "collect");
        }
    }
    script.section("collections in every state with nothing to collect, and with something");
    for (number, stage) in stages().enumerate() {
        let seat = Seat::turn(number);
        script.reach(seat, Frame::limits(1, 8), stage);
        script.call(seat.name, "collect");
        for event in ["RESET", "submission", "timeout", "timeout", "timeout"] {
            script.happen(seat, event);
            script.call(seat.name, "collect");
        }
    }
}

fn submissions(script: &mut Script) {
    script.section("messages of every length");
    let seat = Seat::turn(0);
    script.open(seat, Frame::USUAL);
    script.hear_ack(seat, 1);
    let telling = [LONGEST, LONGEST + 1, 1, 0, 1000];
    for length in telling
        .into_iter()
        .chain(0..=LONGEST + 9)
        .chain([128, 255, 256])
    {
        let text = script.message(length);
        script.joined(&[b"end a submit '", &text]);
        script.state("a");
        script.arrive_and_collect(seat);
    }
    script.section("every byte as a message, and edges at a message's end");
    let seat = Seat::turn(1);
    script.open(seat, Frame::USUAL);
    script.hear_ack(seat, 0);
    let telling = [0x1F, 0x20, 0x7E, 0x7F, 0x00, 0x0A, 0x80, 0xA0, 0xFF];
    for byte in telling.into_iter().chain(0..=0xFFu8) {
        let edge = byte % 0x20 == 0 || byte % 0x20 >= 0x1E;
        let messages = [&[byte][..], &[b'o', b'k', byte]];
        for message in &messages[..1 + usize::from(edge)] {
            script.submit("b", message);
            script.arrive_and_collect(seat);
        }
    }
    script.section("refused submissions in every state: 16 before 17, 17 before 18 and 19");
    for (number, stage) in stages().enumerate() {
        for behind in [0, 7] {
            let seat = Seat::turn(number);
            script.reach(seat, Frame::USUAL, Stage { behind, ..stage });
            for message in [
                &b""[..],
                &[b'x'; 97],
                &[0x00; 97],
                &[0x7F],
                &[0x1F, b'x'],
                &[b'x', 0x80],
                &[0xFF; 96],
                b"x",
            ] {
                script.submit(seat.name, message);
            }
        }
    }
    script.section("submissions as text");
    let seat = Seat::turn(2);
    script.open(seat, Frame::USUAL);
    script.hear_ack(seat, 1);
    for text in words::TEXTS.split('|') {
        script.call("a", format!("submit '{text}"));
        script.arrive_and_collect(seat);
    }
}

fn refused_arrivals(script: &mut Script) {
    script.section("refused arrivals in every state: 1 to 7");
    for (number, stage) in stages().enumerate() {
        let seat = Seat::turn(number);
        script.reach(seat, Frame::USUAL, stage);
        script.deliver(seat, 1);
        let enq = seat.packet(b'E', b"");
        let ack = seat.packet(b'A' + stage.number, b"7");
        let data = seat.packet(b'0', b"OK");
        let longest = seat.packet(b'1', &[b'x'; 97]);
        let first = [&[0x03], &ack[1..]].concat();
        let end = [&enq[..2], &[0x04], &enq[3..]].concat();
        let check = [&ack[..4], &[ack[4] ^ 1]].concat();
        for burst in [
            &b""[..],
            &enq[..3],
            &longest,
            &first,
            &seat.packet(b'C', b"7"),
            &seat.packet(b'e', b""),
            &seat.packet(b'0', b""),
            &seat.packet(b'R', b"0"),
            &seat.packet(b'A', b""),
            &seat.packet(b'B', b"9"),
            &seat.packet(b'1', b"\x7F"),
            &end,
            &check,
            &data[..5],
            &[&data[..], &[0x00]].concat(),
        ] {
            script.arrive(seat.name, burst);
        }
        // The other kind's packets.
        let other = Seat::turn(number + 2);
        for (letter, field) in [(b'E', &b""[..]), (b'A', b"5"), (b'0', b"HI"), (b'R', b"")] {
            script.arrive(seat.name, &other.packet(letter, field));
        }
    }
    script.section("packets altered in one byte");
    for (number, state) in STATES.into_iter().enumerate() {
        let seat = Seat::turn(number);
        let stage = Stage {
            state,
            number: 0,
            behind: 1,
        };
        script.reach(seat, Frame::limits(20, 8), stage);
        for _ in 0..40 {
            let mut burst = script.packet(seat.kind, 5);
            let place = script.random.below(burst.len());
            burst[place] = script.other(burst[place]);
            script.arrive(seat.name, &burst);
        }
    }
    script.section("arrivals as text, and with digits of either case");
    for name in NAMES {
        let seat = Seat::new(name, 3, Kind::Sum);
        script.open(seat, Frame::USUAL);
        script.joined(&[b"end ", name.as_bytes(), b" arrive '\x02R\x03\xD5"]);
        script.state(name);
        script.call(name, "arrive 02413703fb");
        script.call(name, "arrive   02423703Fc ");
        script.joined(&[b"end ", name.as_bytes(), b" arrive '\x020OK\x03\xCD"]);
        script.joined(&[b"end ", name.as_bytes(), b" arrive '\x020OK\x03\xCD "]);
        script.state(name);
    }
}
