//! Sections that lead two ends wired to each other. The bursts that an end sends
//! are known from its answers; they arrive at the other end, or are lost, damaged,
//! cut short or doubled.

use super::{told, Frame, Script, Seat, NAMES};
use crate::packet::Kind;
use std::collections::VecDeque;

pub const SECTIONS: [fn(&mut Script); 4] = [
    messages_both_ways,
    good_and_bad_lines,
    slow_takers,
    foreign_ends,
];

/// Two ends and the bursts that are on their way to each.
struct Wire {
    seats: [Seat; 2],
    bursts: [VecDeque<Vec<u8>>; 2],
    /// The ends with a delivery out.
    out: [bool; 2],
}

/// How often things happen, out of a hundred.
struct Habit {
    lost: usize,
    damaged: usize,
    doubled: usize,
    takes: usize,
    collects: usize,
    settings: usize,
}

const GOOD: Habit = Habit {
    lost: 2,
    damaged: 2,
    doubled: 2,
    takes: 20,
    collects: 12,
    settings: 2,
};

impl Wire {
    fn new(script: &mut Script, lines: [u8; 2], kinds: [Kind; 2], frames: [Frame; 2]) -> Self {
        let mut wire = Wire {
            seats: [0, 1].map(|end| Seat::new(NAMES[end], lines[end], kinds[end])),
            bursts: [VecDeque::new(), VecDeque::new()],
            out: [false; 2],
        };
        for (end, frame) in frames.into_iter().enumerate() {
            let answer = script.open(wire.seats[end], frame);
            wire.carry(end, &answer);
        }
        wire
    }

    /// Puts what the end sent on its way to the other one.
    fn carry(&mut self, end: usize, answer: &str) {
        if !answer.contains(" burst=") {
            return;
        }
        let digits = told(answer, "burst").as_bytes().chunks_exact(2);
        let burst: Vec<u8> = digits
            .filter_map(|pair| u8::from_str_radix(std::str::from_utf8(pair).ok()?, 16).ok())
            .collect();
        if !burst.is_empty() {
            self.bursts[1 - end].push_back(burst);
        }
    }

    /// A burst arrives at the end, and its answer is on its way.
    fn arrive(&mut self, script: &mut Script, end: usize, burst: &[u8]) {
        let answer = script.arrive(self.seats[end].name, burst);
        self.carry(end, &answer);
    }

    /// Lets the oldest burst to the end arrive, or something else happen to it.
    fn fate(&mut self, script: &mut Script, end: usize, habit: &Habit) {
        let Some(mut burst) = self.bursts[end].pop_front() else {
            return;
        };
        let fate = script.random.below(100);
        let damaged = habit.lost + habit.damaged;
        let doubled = damaged + habit.doubled;
        if fate < habit.lost {
            return;
        }
        if fate < damaged {
            match script.random.below(4) {
                0 => drop(burst.pop()),
                1 => burst.push(0x03),
                _ => {
                    let place = script.random.below(burst.len());
                    burst[place] = script.other(burst[place]);
                }
            }
        }
        self.arrive(script, end, &burst);
        if (damaged..doubled).contains(&fate) {
            match script.random.below(2) {
                0 => self.arrive(script, end, &burst),
                _ => self.bursts[end].push_back(burst),
            }
        }
    }

    /// All bursts on their way arrive, and those that they are answered with.
    fn settle(&mut self, script: &mut Script) {
        while let Some(end) = [0, 1].into_iter().find(|&end| !self.bursts[end].is_empty()) {
            if let Some(burst) = self.bursts[end].pop_front() {
                self.arrive(script, end, &burst);
            }
        }
    }

    fn call(&mut self, script: &mut Script, end: usize, call: impl AsRef<str>) {
        let answer = script.call(self.seats[end].name, call);
        self.carry(end, &answer);
    }

    fn submit(&mut self, script: &mut Script, end: usize) {
        let length = match script.random.below(30) {
            0 => *script.random.pick(&[0, 95, 96, 97]),
            _ => 1 + script.random.below(6),
        };
        let mut message = script.message(length);
        if let Some(byte) = message.last_mut().filter(|_| script.random.below(40) == 0) {
            *byte = *script.random.pick(&[0x0A, 0x1F, 0x7F, 0xFF]);
        }
        let answer = script.submit(self.seats[end].name, &message);
        self.carry(end, &answer);
    }

    /// A random walk of so many steps.
    fn walk(&mut self, script: &mut Script, steps: usize, habit: &Habit) {
        for _ in 0..steps {
            let end = script.random.below(2);
            match script.random.below(100) {
                dice if dice < habit.takes => self.take_or_give(script, end),
                dice if dice < habit.takes + habit.collects => self.call(script, end, "collect"),
                dice if dice < habit.takes + habit.collects + habit.settings => {
                    let frame = Frame {
                        enq: 10 + script.random.below(6000) as u16,
                        data: 10 + script.random.below(6000) as u16,
                        attempts: script.random.below(6) as u8,
                        receive: script.random.below(9) as u8,
                        ..Frame::USUAL
                    };
                    script.set(self.seats[end].name, frame);
                }
                _ if script.random.below(5) == 0 => self.submit(script, end),
                _ => match [end, 1 - end]
                    .into_iter()
                    .find(|&end| !self.bursts[end].is_empty())
                {
                    Some(end) => self.fate(script, end, habit),
                    None => self.call(script, end, "timeout"),
                },
            }
            if script.random.below(50) == 0 {
                self.call(script, end, "timeout");
            }
        }
    }

    /// What is out is given back, mostly with its own slip, and else something is
    /// taken.
    fn take_or_give(&mut self, script: &mut Script, end: usize) {
        let out = self.out[end];
        let call = match script.random.below(10) {
            0 => "give a".to_string(),
            1 => "give b".to_string(),
            2 => format!("take {}", 90 + script.random.below(10)),
            3 => "take".to_string(),
            _ if out => "give".to_string(),
            _ => "take".to_string(),
        };
        self.call(script, end, call);
        self.out[end] = told(&script.answer, "out") != "none";
    }
}

fn messages_both_ways(script: &mut Script) {
    for kind in Kind::ALL {
        script.section("two ends wired to each other: messages both ways, nothing is lost");
        let frames = [Frame::limits(3, 2), Frame::limits(5, 8)];
        let mut wire = Wire::new(script, [1, 2], [kind, kind], frames);
        wire.settle(script);
        for number in 0..9 {
            for end in [0, 1] {
                let text = format!("submit 'MESSAGE {number}");
                wire.call(script, end, text);
            }
            wire.settle(script);
            for end in [0, 1] {
                wire.call(script, end, "take");
                wire.call(script, end, "give");
                wire.call(script, end, "collect");
            }
        }
    }
    script.section("each burst lost in turn");
    for lost in 0..8 {
        let mut wire = Wire::new(script, [3, 3], [Kind::Sum; 2], [Frame::limits(4, 8); 2]);
        let mut sent = 0;
        for step in 0..10 {
            if step == 2 {
                wire.call(script, 0, "submit 'FIRST");
            }
            if step == 3 {
                wire.call(script, 0, "submit 'SECOND");
            }
            let mut idle = true;
            for end in [1, 0] {
                while let Some(burst) = wire.bursts[end].pop_front() {
                    if sent != lost {
                        wire.arrive(script, end, &burst);
                        idle = false;
                    }
                    sent += 1;
                }
            }
            if idle {
                wire.call(script, 0, "timeout");
            }
        }
        for end in [0, 1] {
            for _ in 0..3 {
                wire.call(script, end, "take");
                wire.call(script, end, "give");
                wire.call(script, end, "collect");
            }
        }
    }
}

fn good_and_bad_lines(script: &mut Script) {
    let bad = Habit {
        lost: 12,
        damaged: 10,
        doubled: 10,
        ..GOOD
    };
    let broken = Habit {
        lost: 30,
        damaged: 15,
        doubled: 5,
        ..GOOD
    };
    let [sum, xor] = Kind::ALL;
    for (what, habit, kind) in [
        ("good", &GOOD, sum),
        ("good", &GOOD, xor),
        ("bad", &bad, sum),
        ("bad", &bad, xor),
        ("broken", &broken, sum),
    ] {
        script.section(&format!(
            "a random walk over both ends on a {what} line, checked by {}",
            kind.name()
        ));
        let frames = [Frame::limits(2, 3), Frame::limits(4, 8)];
        let mut wire = Wire::new(script, [9, 9], [kind, kind], frames);
        wire.walk(script, 450, habit);
        free(script);
    }
}

/// Gives back what is out, so that both names can be opened again.
fn free(script: &mut Script) {
    for call in ["give", "give a", "give b"] {
        for name in NAMES {
            script.end(name, call);
        }
    }
}

fn slow_takers(script: &mut Script) {
    script.section("a random walk with slow takers: commands are ignored, messages given up");
    let slow = Habit { takes: 3, ..GOOD };
    let frames = [Frame::limits(1, 1), Frame::limits(3, 2)];
    let mut wire = Wire::new(script, [0, 255], [Kind::Sum; 2], frames);
    wire.walk(script, 450, &slow);
    free(script);
    script.section("a random walk without collections: the send buffers stay full");
    let never = Habit {
        collects: 2,
        ..GOOD
    };
    let mut wire = Wire::new(script, [4, 4], [Kind::Xor; 2], [Frame::limits(20, 8); 2]);
    wire.walk(script, 400, &never);
    free(script);
    script.section("a random walk with many changes of settings");
    let often = Habit {
        settings: 25,
        ..GOOD
    };
    let mut wire = Wire::new(script, [8, 9], [Kind::Sum; 2], [Frame::limits(3, 4); 2]);
    wire.walk(script, 400, &often);
    free(script);
}

fn foreign_ends(script: &mut Script) {
    script.section("ends of different kinds: every burst is refused");
    let mut wire = Wire::new(
        script,
        [1, 1],
        [Kind::Sum, Kind::Xor],
        [Frame::limits(2, 8); 2],
    );
    for _ in 0..4 {
        wire.settle(script);
        wire.call(script, 0, "timeout");
        wire.call(script, 1, "timeout");
    }
    script.section("an end's own bursts arrive at itself");
    for name in [0, 1] {
        let mut wire = Wire::new(script, [1, 1], [Kind::Xor; 2], [Frame::limits(2, 3); 2]);
        for step in 0..14 {
            if step % 4 == 1 {
                wire.submit(script, name);
            }
            if let Some(burst) = wire.bursts[1 - name].pop_front() {
                wire.arrive(script, name, &burst);
            } else {
                wire.call(script, name, "timeout");
            }
        }
    }
}
