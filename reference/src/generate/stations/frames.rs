//! Sections on settings frames: read, at an opening and at an open end.

use super::{stages, told, Frame, Script, Seat, Stage, NAMES};
use crate::packet::Kind;

pub const SECTIONS: [fn(&mut Script); 9] = [
    frames_read,
    several_conditions,
    openings,
    refused_openings,
    frames_at_ends,
    an_old_fault,
    receive_limit,
    periods,
    attempt_limit,
];

const PERIODS: [u16; 18] = [
    0, 1, 9, 10, 11, 12, 200, 255, 256, 257, 2560, 5999, 6000, 6001, 6144, 9999, 32768, 65535,
];

/// Frames at each edge of each range, and beyond.
fn edges() -> Vec<Frame> {
    let usual = Frame::USUAL;
    let mut frames = vec![usual];
    frames.extend(PERIODS.map(|enq| Frame { enq, ..usual }));
    frames.extend(PERIODS.map(|data| Frame { data, ..usual }));
    let limits = [0, 1, 2, 19, 20, 21, 22, 32, 127, 128, 129, 255];
    frames.extend(limits.map(|attempts| Frame { attempts, ..usual }));
    let limits = [0, 1, 2, 7, 8, 9, 10, 16, 127, 128, 129, 255];
    frames.extend(limits.map(|receive| Frame { receive, ..usual }));
    let versions = [0, 2, 3, 16, 0x31, 0x81, 255];
    frames.extend(versions.map(|version| Frame { version, ..usual }));
    let lengths = [0, 1, 5, 7, 9, 0x0106, 0x0600, 0x0606, 0x8006, 0xFFFF];
    frames.extend(lengths.map(|length| Frame { length, ..usual }));
    for [enq, data] in [[10, 6000], [6000, 10], [9, 6001], [6001, 9], [10, 10]] {
        frames.push(Frame { enq, data, ..usual });
    }
    for [attempts, receive] in [[1, 1], [20, 8], [1, 8], [20, 1], [0, 0], [21, 9]] {
        frames.push(Frame::limits(attempts, receive));
    }
    frames
}

/// Frames under which any set of the conditions 9 to 13 holds.
fn sets(script: &mut Script) -> Vec<Frame> {
    let mut frames = Vec::new();
    for set in 0..32u8 {
        let holds = |number: u8| set >> (number - 9) & 1 == 1;
        let mut frame = Frame {
            enq: 10 + script.random.below(5991) as u16,
            data: 10 + script.random.below(5991) as u16,
            attempts: 1 + script.random.below(20) as u8,
            receive: 1 + script.random.below(8) as u8,
            ..Frame::USUAL
        };
        if holds(9) {
            frame.version = *script.random.pick(&[0, 2, 255]);
        }
        if holds(10) {
            frame.length = *script.random.pick(&[0, 5, 7, 0x0106, 0x0600]);
        }
        if holds(11) {
            let period = *script.random.pick(&[0, 9, 6001, 65535]);
            match script.random.below(3) {
                0 => frame.enq = period,
                1 => frame.data = period,
                _ => (frame.enq, frame.data) = (period, 6001),
            }
        }
        if holds(12) {
            frame.attempts = *script.random.pick(&[0, 21, 255]);
        }
        if holds(13) {
            frame.receive = *script.random.pick(&[0, 9, 255]);
        }
        frames.push(frame);
    }
    frames
}

impl Script {
    fn read_frame(&mut self, bytes: &[u8]) {
        let bytes = self.hexadecimal(bytes);
        self.line(format!("settings read {bytes}"));
    }
}

fn frames_read(script: &mut Script) {
    script.section("settings frames: the worked one, and each edge of each range");
    for frame in edges() {
        script.read_frame(&frame.bytes());
    }
    script.section("every version, every limit, every higher and lower byte");
    for byte in 0..=0xFFu8 {
        let usual = Frame::USUAL;
        let frames = [
            Frame {
                version: byte,
                ..usual
            },
            Frame {
                attempts: byte,
                ..usual
            },
            Frame {
                receive: byte,
                ..usual
            },
        ];
        script.read_frame(&frames[usize::from(byte) % 3].bytes());
        for place in [1, 2, 3, 4, 5, 6] {
            if (usize::from(byte) + place) % 7 == 0 || byte < 25 {
                let mut bytes = usual.bytes();
                bytes[place] = byte;
                script.read_frame(&bytes);
            }
        }
    }
    script.section("frames of every length from 0 to 20 bytes, and far more");
    let long = [Frame::USUAL.bytes(), vec![0x01; 300]].concat();
    for length in (0..=20).chain([255, 256, 265, 300]) {
        script.read_frame(&long[..length]);
        script.read_frame(&long[long.len() - length..]);
    }
    script.section("frames as text");
    for line in [
        "settings read '",
        "settings read ' ",
        "settings read '123456789",
        "settings read '\u{1}\u{0}\u{6}\u{1} \u{1} \u{3}\u{8}",
        "settings read '\u{1}\u{0}\u{6}    \u{14}\u{1}",
        "settings read '\u{1}\u{0}\u{6}    \u{14}\u{1} ",
        "settings read   '\u{1}\u{0}\u{6}\u{10}\u{10}\u{10}\u{10}\u{1}\u{1}",
        "settings  read 01000600c8012c0308",
        "settings read 01000600C8012c0308 ",
    ] {
        script.line(line);
    }
    script.section("random frames");
    for number in 0..120 {
        let mut frame = Frame::USUAL.bytes();
        for _ in 0..1 + number % 3 {
            let place = script.random.below(frame.len());
            frame[place] = script.byte();
        }
        script.read_frame(&frame);
    }
}

fn several_conditions(script: &mut Script) {
    script.section("frames under which any set of the conditions 8 to 13 holds");
    for frame in sets(script) {
        let bytes = frame.bytes();
        script.read_frame(&bytes);
        script.read_frame(&bytes[..8]);
        script.read_frame(&[&bytes[..], &[0x08]].concat());
    }
    script.section("the same at an opening and at an open end");
    for (number, frame) in sets(script).into_iter().enumerate() {
        let seat = Seat::turn(number);
        script.open(seat, Frame::USUAL);
        script.open(seat, frame);
        script.open(seat, Frame::USUAL);
        script.set(seat.name, frame);
        let short = script.hexadecimal(&frame.bytes()[..number % 9]);
        script.call(seat.name, format!("settings {short}"));
        script.call(seat.name, format!("open 9 sum {short}"));
    }
}

fn openings(script: &mut Script) {
    script.section("openings with every telling line number, and both kinds");
    for line in [0, 1, 2, 9, 10, 99, 100, 127, 128, 199, 200, 254, 255] {
        for kind in Kind::ALL {
            let name = NAMES[usize::from(line) % 2];
            let seat = Seat::new(name, line, kind);
            script.open(seat, Frame::USUAL);
            script.hear(seat, b'0', b"OK");
            script.call(name, "take");
            script.call(name, "give");
        }
    }
    script.section("line numbers with leading zeros");
    for line in ["00", "007", "000", "0255", "000000000000000000000255"] {
        script.call("a", format!("open {line} sum 01000600C8012C0308"));
        script.call("a", "arrive 02304F4B03CD");
        script.call("a", "take");
        script.call("a", "give");
    }
    script.section("openings with each edge of each range");
    for (number, frame) in edges().into_iter().enumerate() {
        let seat = Seat::turn(number);
        script.open(seat, frame);
        script.end(seat.name, "timeout");
    }
    script.section("opened again in every state: all is as at the first opening");
    for (number, stage) in stages().enumerate() {
        let seat = Seat::turn(number);
        script.reach(seat, Frame::limits(2, 5), stage);
        script.hear(seat, b'1', b"HELD");
        script.hear(seat, b'0', b"HELD TOO");
        script.submit_some(seat.name);
        let again = Seat::turn(number + 2 * (number % 3));
        script.open(
            Seat {
                name: seat.name,
                ..again
            },
            Frame::USUAL,
        );
        script.call(seat.name, "collect");
        script.call(seat.name, "take");
        script.call(seat.name, "give");
        script.call(seat.name, "timeout");
        script.hear(
            Seat {
                name: seat.name,
                ..again
            },
            b'E',
            b"",
        );
    }
}

fn refused_openings(script: &mut Script) {
    script.section("refused openings leave an open end as it was, in every state");
    for (number, stage) in stages().enumerate() {
        let seat = Seat::turn(number);
        script.reach(seat, Frame::limits(2, 3), stage);
        script.deliver(seat, 1 + number % 3);
        for (frame, cut) in [
            (Frame::USUAL, 8),
            (
                Frame {
                    version: 2,
                    ..Frame::USUAL
                },
                9,
            ),
            (
                Frame {
                    length: 7,
                    ..Frame::USUAL
                },
                9,
            ),
            (
                Frame {
                    enq: 9,
                    ..Frame::USUAL
                },
                9,
            ),
            (
                Frame {
                    data: 6001,
                    ..Frame::USUAL
                },
                9,
            ),
            (Frame::limits(21, 8), 9),
            (Frame::limits(3, 9), 9),
        ] {
            let bytes = script.hexadecimal(&frame.bytes()[..cut]);
            script.call(seat.name, format!("open 33 xor {bytes}"));
        }
        script.submit_some(seat.name);
        script.hear(seat, b'E', b"");
        script.call(seat.name, "timeout");
    }
}

fn frames_at_ends(script: &mut Script) {
    script.section("settings with each edge of each range at an open end");
    for number in 0..2 {
        let seat = Seat::turn(number + 1);
        script.open(seat, Frame::USUAL);
        if number == 1 {
            script.hear_ack(seat, 0);
        }
        for frame in edges() {
            script.set(seat.name, frame);
        }
    }
    script.section("refused settings in every state: 8 to 13, and 14 before 15");
    for (number, stage) in stages().enumerate() {
        let seat = Seat::turn(number);
        script.reach(seat, Frame::limits(2, 3), stage);
        script.deliver(seat, 2);
        for frame in [
            Frame {
                version: 0,
                ..Frame::limits(9, 1)
            },
            Frame {
                length: 5,
                ..Frame::limits(9, 1)
            },
            Frame {
                enq: 6001,
                ..Frame::limits(9, 1)
            },
            Frame {
                data: 9,
                ..Frame::limits(9, 1)
            },
            Frame::limits(0, 1),
            Frame::limits(21, 9),
            Frame::limits(9, 0),
            Frame::limits(9, 9),
            Frame::limits(9, 1),
        ] {
            script.set(seat.name, frame);
        }
        script.call(seat.name, "settings -");
        let long = script.hexadecimal(&[&Frame::USUAL.bytes()[..], &[0]].concat());
        script.call(seat.name, format!("settings {long}"));
        script.set(seat.name, Frame::limits(9, 2));
        script.call(seat.name, "timeout");
        script.hear(seat, b'E', b"");
    }
}

fn an_old_fault(script: &mut Script) {
    script.section("a DATA period out of range with another M, in every state");
    for (number, stage) in stages().enumerate() {
        let seat = Seat::turn(number);
        script.reach(seat, Frame::limits(3, 4), stage);
        let frame = Frame {
            data: 6001,
            ..Frame::limits(7, 4)
        };
        script.set(seat.name, frame);
        script.call(seat.name, "timeout");
    }
    script.section("more of these: refused with 11, nothing changes");
    for (number, stage) in stages().enumerate() {
        for held in [0, 2] {
            let seat = Seat::turn(number);
            script.reach(seat, Frame::limits(3, 4), stage);
            script.deliver(seat, held);
            if held > 0 {
                script.call(seat.name, "take");
            }
            for data in [0, 9, 6001, 65535] {
                for attempts in [1, 7, 20] {
                    let frame = Frame {
                        data,
                        ..Frame::limits(attempts, 4)
                    };
                    script.set(seat.name, frame);
                }
                let frame = Frame {
                    data,
                    enq: 77,
                    ..Frame::limits(5, 8)
                };
                script.set(seat.name, frame);
                let frame = Frame {
                    data,
                    enq: 6001,
                    ..Frame::limits(0, 1)
                };
                script.set(seat.name, frame);
                let frame = Frame {
                    data: 77,
                    enq: data,
                    ..Frame::limits(9, 2)
                };
                script.set(seat.name, frame);
            }
            // M and the periods are still the old ones.
            for _ in 0..4 {
                script.call(seat.name, "timeout");
            }
            if held > 0 {
                script.call(seat.name, "give");
            }
        }
    }
    script.section("the same at an opening of an open end");
    for (number, stage) in stages().enumerate() {
        let seat = Seat::turn(number);
        script.reach(seat, Frame::limits(3, 4), stage);
        for data in [9, 6001] {
            script.open(
                seat,
                Frame {
                    data,
                    ..Frame::limits(7, 8)
                },
            );
        }
        script.call(seat.name, "timeout");
    }
}

fn receive_limit(script: &mut Script) {
    script.section("every R over every number of deliveries held, one of them out or none");
    for held in 0..=8 {
        for out in [false, true] {
            let seat = Seat::turn(held + usize::from(out));
            script.open(seat, Frame::USUAL);
            script.deliver(seat, held);
            if out {
                script.call(seat.name, "take");
            }
            for receive in 1..=8 {
                script.set(seat.name, Frame::limits(3, receive));
                script.hear(seat, b'E', b"");
            }
            for receive in (1..=8).rev() {
                let frame = script.hexadecimal(&Frame::limits(4, receive).bytes());
                script.end(seat.name, format!("settings {frame}"));
            }
            script.hear(seat, b'1', b"ONE MORE");
            if out {
                script.call(seat.name, "give");
                script.hear(seat, b'E', b"");
            }
        }
    }
    script.section("R lowered and raised while deliveries come and go");
    for number in 0..4 {
        let seat = Seat::turn(number);
        script.open(seat, Frame::USUAL);
        if number % 2 == 1 {
            script.hear_ack(seat, 1);
        }
        for _ in 0..60 {
            match script.random.below(8) {
                0..=2 => {
                    let letter = *script.random.pick(b"01");
                    script.hear(seat, letter, b"M");
                }
                3 => drop(script.hear(seat, b'E', b"")),
                4 => drop(script.call(seat.name, "take")),
                5 => drop(script.call(seat.name, "give")),
                _ => {
                    let receive = 1 + script.random.below(8) as u8;
                    script.set(seat.name, Frame::limits(3, receive));
                }
            }
        }
        script.call(seat.name, "give");
    }
}

fn periods(script: &mut Script) {
    script.section("periods as set at each moment");
    for number in 0..6u16 {
        let seat = Seat::turn(number.into());
        let frame = |step: u16| Frame {
            enq: 10 + 100 * step + number,
            data: 6000 - 100 * step - number,
            ..Frame::USUAL
        };
        script.open(seat, frame(0));
        script.call(seat.name, "timeout");
        script.set(seat.name, frame(1));
        script.call(seat.name, "timeout");
        script.set(seat.name, frame(2));
        script.hear(seat, b'R', b"");
        script.set(seat.name, frame(3));
        script.submit_some(seat.name);
        script.set(seat.name, frame(4));
        script.call(seat.name, "timeout");
        script.set(seat.name, frame(5));
        script.hear(seat, b'R', b"");
        script.submit_some(seat.name);
        let current = told(&script.answer, "number").parse().unwrap_or(0);
        script.hear_ack(seat, current);
        script.hear_ack(seat, 1 - current);
        script.set(seat.name, frame(6));
        script.submit_some(seat.name);
        for _ in 0..5 {
            script.call(seat.name, "timeout");
        }
        script.set(seat.name, frame(7));
        script.call(seat.name, "timeout");
    }
}

fn attempt_limit(script: &mut Script) {
    script.section("timeouts until the message is given up");
    for attempts in [1, 2, 3, 4, 5, 6, 7, 10, 19, 20] {
        let seat = Seat::turn(attempts.into());
        let stage = Stage {
            state: "Waiting",
            number: attempts % 2,
            behind: usize::from(attempts) % 3,
        };
        script.reach(seat, Frame::limits(attempts, 8), stage);
        while told(&script.answer, "state") != "Off" {
            script.call(seat.name, "timeout");
        }
        script.call(seat.name, "collect");
        script.call(seat.name, "timeout");
    }
    script.section("timeouts and repetitions until the message is given up");
    for attempts in [1, 2, 3, 4, 5, 6, 7, 10, 19, 20] {
        let seat = Seat::turn(attempts.into());
        let stage = Stage {
            state: "Waiting",
            number: attempts % 2,
            behind: 1,
        };
        script.reach(seat, Frame::limits(attempts, 8), stage);
        while told(&script.answer, "state") != "Off" {
            script.call(seat.name, "timeout");
            if told(&script.answer, "state") == "Asking" {
                match script.random.below(3) {
                    0 => script.hear(seat, b'R', b""),
                    1 => script.hear_ack(seat, 1 - stage.number),
                    _ => script.call(seat.name, "timeout"),
                };
            }
        }
        script.call(seat.name, "collect");
    }
    script.section("M raised and lowered between messages");
    for number in 0..2 {
        let seat = Seat::turn(number);
        script.open(seat, Frame::limits(20, 8));
        for attempts in [1, 5, 2, 7, 1] {
            script.set(seat.name, Frame::limits(attempts, 8));
            script.hear_ack(seat, attempts % 2);
            script.submit_some(seat.name);
            while told(&script.answer, "state") != "Off" {
                script.call(seat.name, "timeout");
            }
            script.call(seat.name, "collect");
        }
    }
}
