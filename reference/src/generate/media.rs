//! The script of medium commands.

use super::{line_bytes, words, Case, Script, LETTERS};
use crate::medium::LONGEST;
use crate::packet::{assemble, Kind};

const NAMES: [&str; 2] = ["m", "n"];

/// Lengths of bursts at the edges and beyond them.
const LENGTHS: [usize; 8] = [0, 1, 2, 3, 103, 104, 105, 200];

/// The most telling patterns.
const PATTERNS: [u32; 16] = [
    0x0000_0000,
    0x0000_0001,
    0x0000_0002,
    0x0000_0003,
    0x8000_0000,
    0x8000_0001,
    0x4000_0000,
    0xC000_0000,
    0x0001_0000,
    0x7FFF_FFFF,
    0xFFFF_FFFE,
    0xFFFF_FFFF,
    0x5555_5555,
    0xAAAA_AAAA,
    0x0000_FFFF,
    0x9ABC_DEF1,
];

/// The name in turn.
fn turn(number: usize) -> &'static str {
    NAMES[number % NAMES.len()]
}

/// They come first: once a name's medium was made, there is always one.
pub const BEFORE_MAKING: [fn(&mut Script); 1] = [no_medium];

pub const SECTIONS: [fn(&mut Script); 30] = [
    first_bursts,
    lengths,
    second_bytes,
    one_byte_bursts,
    letters_together,
    small_queues,
    small_packed,
    packed_edges,
    packed_around,
    patterns_of_noise,
    patterns_of_losses,
    noise_by_length,
    noise_by_changing_lengths,
    hit_and_full,
    altered_letters,
    what_moves_no_pattern,
    lossy_over_each,
    short_histories,
    made_again,
    full_queue,
    full_noisy,
    full_packed,
    full_under_losses,
    specs,
    texts_and_cases,
    unknown_commands,
    too_few_and_too_many_words,
    foreign_bytes,
    random_histories,
    random_lines,
];

/// The whole script. Its last line has no line end.
pub fn media() -> Vec<u8> {
    let sections = [&BEFORE_MAKING[..], &SECTIONS].concat();
    Script::of(&sections, LAST)
}

/// The last line.
pub const LAST: &str = "medium n take";

/// Lines that several sections need.
impl Script {
    fn make(&mut self, name: &str, spec: impl AsRef<str>) {
        self.line(format!("medium {name} make {}", spec.as_ref()));
    }

    fn offer(&mut self, name: &str, burst: &[u8]) {
        let burst = self.bytes(Case::Upper, burst);
        self.words(&[b"medium", name.as_bytes(), b"offer", &burst]);
    }

    fn offer_text(&mut self, name: &str, text: &[u8]) {
        self.joined(&[b"medium ", name.as_bytes(), b" offer '", text]);
    }

    fn take(&mut self, name: &str) {
        self.line(format!("medium {name} take"));
    }

    fn count(&mut self, name: &str) {
        self.line(format!("medium {name} count"));
    }

    fn holds(&mut self, name: &str) {
        self.line(format!("medium {name} holds"));
    }

    fn count_and_holds(&mut self, name: &str) {
        self.count(name);
        self.holds(name);
    }

    /// Takes until nothing is under way, and once more.
    fn take_all(&mut self, name: &str) {
        self.take(name);
        while self.answer != "length=0 burst=-" {
            self.take(name);
        }
    }

    /// A random burst with a likely second byte.
    fn burst(&mut self, length: usize) -> Vec<u8> {
        let mut burst = self.run_of(length, 0x00, 0xFF);
        if let Some(second) = burst.get_mut(1) {
            *second = *self.random.pick(b"E01ABRD@CSQF/2\x00\xC5");
        }
        burst
    }

    fn pattern(&mut self) -> u32 {
        self.random.below(1 << 32) as u32
    }

    /// A random SPEC of one of the six kinds, of small memory or of none.
    fn spec(&mut self) -> String {
        let places = *self.random.pick(&[0, 1, 2, 3, 4, 8]);
        let noise = match self.random.below(3) {
            0 => *self.random.pick(&PATTERNS),
            _ => self.pattern(),
        };
        let below = match self.random.below(3) {
            0 => format!("queue:{places}"),
            1 => format!("packed:{}", self.random.below(40)),
            _ => format!("noisy:{places}:{noise:X}"),
        };
        match self.random.below(2) {
            0 => below,
            _ => format!("lossy:{:x}/{below}", self.pattern() & self.pattern()),
        }
    }
}

/// A medium of each of the six kinds, with room for several bursts.
fn kinds() -> [&'static str; 6] {
    [
        "queue:9",
        "packed:500",
        "noisy:9:12",
        "lossy:24/queue:9",
        "lossy:48/packed:500",
        "lossy:90/noisy:9:21",
    ]
}

fn no_medium(script: &mut Script) {
    script.section("commands before a medium is made");
    for command in [
        "take",
        "count",
        "holds",
        "offer 024503C8",
        "offer -",
        "offer '",
    ] {
        for name in NAMES {
            script.line(format!("medium {name} {command}"));
        }
    }
    script.section("wrong words come before that");
    for command in [
        "take x",
        "count 0",
        "holds -",
        "offer 0",
        "offer",
        "offer 00 x",
        "make",
        "make queue",
        "make queue:1 x",
        "mend",
    ] {
        script.line(format!("medium m {command}"));
        script.count("m");
    }
    script.section("the one medium made, the other not");
    script.make("n", "queue:1");
    for command in ["offer 024503C8", "count", "holds", "take"] {
        for name in ["m", "n", "m"] {
            script.line(format!("medium {name} {command}"));
        }
    }
    script.make("m", "queue:0");
    script.count("m");
}

fn first_bursts(script: &mut Script) {
    script.section("a first burst over a medium of each kind");
    for spec in kinds() {
        for name in NAMES {
            script.make(name, spec);
            script.count_and_holds(name);
            script.take(name);
            script.count(name);
            for letter in LETTERS {
                let field = script.field(letter, 5);
                let burst = assemble(Kind::Sum, letter, &field);
                script.offer(name, &burst);
                script.count_and_holds(name);
            }
            script.take_all(name);
            script.count_and_holds(name);
        }
    }
}

fn lengths(script: &mut Script) {
    script.section("bursts of every telling length over a medium of each kind");
    for (number, spec) in kinds().into_iter().enumerate() {
        let name = turn(number);
        script.make(name, spec);
        for length in LENGTHS {
            let burst = script.burst(length);
            script.offer(name, &burst);
            script.count_and_holds(name);
        }
        script.take_all(name);
        script.section("the same lengths, each taken at once");
        for length in LENGTHS.into_iter().rev() {
            let burst = script.burst(length);
            script.offer(name, &burst);
            script.count_and_holds(name);
            script.take(name);
            script.count(name);
        }
    }
    script.section("bursts of every length from 0 to 110");
    script.make("m", "queue:200");
    script.make("n", "packed:65536");
    for length in 0..=110 {
        let burst = script.burst(length);
        script.offer(turn(length), &burst);
        script.offer_text(turn(length + 1), &vec![b'0' + (length % 10) as u8; length]);
    }
    for name in NAMES {
        script.count_and_holds(name);
        script.take_all(name);
    }
    script.section("a burst of 20,000 bytes");
    let burst = script.run_of(20_000, 0x30, 0x31);
    script.offer_text("n", &burst);
    script.count_and_holds("n");
}

fn second_bytes(script: &mut Script) {
    script.section("every second byte");
    for (number, spec) in ["queue:1", "packed:5"].into_iter().enumerate() {
        let name = turn(number);
        script.make(name, spec);
        for byte in 0..=0xFF {
            script.offer(name, &[0x02, byte, 0x03][..3 - number]);
            script.holds(name);
            script.take(name);
        }
    }
    script.section("letters as the first and the third byte");
    script.make("m", "queue:1");
    script.make("n", "packed:8");
    for letter in LETTERS {
        for burst in [[letter, 0x02, 0x03], [0x02, 0x03, letter]] {
            for name in NAMES {
                script.offer(name, &burst);
                script.holds(name);
                script.take(name);
            }
        }
    }
    script.section("letters and their neighbours in bursts of telling lengths");
    for letter in LETTERS {
        for byte in [letter - 1, letter, letter + 1, letter ^ 0x20, letter ^ 0x80] {
            for length in [2, 104] {
                let mut burst = script.run_of(length, 0x00, 0x1F);
                burst[1] = byte;
                let name = *script.random.pick(&NAMES);
                script.make(name, "packed:106");
                script.offer(name, &burst);
                script.holds(name);
            }
        }
    }
}

fn one_byte_bursts(script: &mut Script) {
    script.section("one-byte bursts, the letters among them");
    for (number, spec) in kinds().into_iter().enumerate() {
        let name = turn(number);
        script.make(name, spec);
        for byte in LETTERS.into_iter().chain([0x00, 0x02, 0xFF]) {
            script.offer(name, &[byte]);
            script.count_and_holds(name);
        }
        script.take_all(name);
    }
    script.section("one-byte bursts in a row: a byte of the next burst is no second byte");
    for spec in ["queue:8", "packed:30"] {
        for name in NAMES {
            script.make(name, spec);
            for letter in LETTERS {
                script.offer(name, &[letter]);
                script.offer(name, &[0x02, 0x03]);
                script.holds(name);
                script.take(name);
                script.holds(name);
            }
        }
    }
}

fn letters_together(script: &mut Script) {
    script.section("commands and answers together, taken one by one");
    let bursts: [&[u8]; 5] = [b"\x02E", b"\x02B8", b"E", b"\x021OK", b"\x02R\x03\xD5"];
    for spec in ["queue:5", "packed:24", "lossy:0/packed:23"] {
        for set in 0..1usize << bursts.len() {
            let name = turn(set);
            script.make(name, spec);
            for (index, burst) in bursts.into_iter().enumerate() {
                if set >> index & 1 == 1 {
                    script.offer(name, burst);
                }
            }
            script.count_and_holds(name);
            for _ in 0..set.count_ones() {
                script.take(name);
                script.holds(name);
            }
        }
    }
}

fn small_queues(script: &mut Script) {
    script.section("queues of 0, 1, 2 and 3 places, filled and emptied again and again");
    for (number, places) in [0, 1, 2, 3].into_iter().enumerate() {
        for below in [format!("queue:{places}"), format!("noisy:{places}:0")] {
            for loss in ["", "lossy:0/"] {
                let name = turn(number);
                script.make(name, format!("{loss}{below}"));
                for round in 0..4 {
                    for _ in 0..places + 1 {
                        let length = 1 + script.random.below(4);
                        let burst = script.burst(length);
                        script.offer(name, &burst);
                        script.count(name);
                    }
                    script.holds(name);
                    for _ in 0..1 + round % (places + 1) {
                        script.take(name);
                        script.count_and_holds(name);
                    }
                }
                script.take_all(name);
            }
        }
    }
}

fn small_packed(script: &mut Script) {
    script.section("packed memories of 0 to 12 bytes");
    for size in 0..=12 {
        let name = turn(size);
        for length in 1..=size.min(11) {
            script.make(name, format!("packed:{size}"));
            loop {
                let burst = script.burst(length);
                script.offer(name, &burst);
                if script.answer == "spoilt" {
                    break;
                }
            }
            script.count_and_holds(name);
            script.offer(name, &[0xFF]);
            script.take(name);
            script.offer(name, &[0x45, 0x45]);
            script.offer(name, &[0xFF]);
            script.count_and_holds(name);
            script.take_all(name);
        }
        script.make(name, format!("packed:{size}"));
        script.offer(name, &[0x45]);
        script.offer(name, b"");
        script.count(name);
        script.take_all(name);
    }
}

fn packed_edges(script: &mut Script) {
    script.section("packed memories with just room enough and one byte too few");
    for length in [1, 2, 3, 4, 10, 102, 103, 104] {
        for size in [length, length + 1, length + 2, length + 3] {
            let name = turn(size);
            script.make(name, format!("packed:{size}"));
            let burst = script.burst(length);
            script.offer(name, &burst);
            script.count_and_holds(name);
            script.offer(name, &[0x01]);
            script.count(name);
            script.take_all(name);
            // The same again, now at the memory's end or around it.
            script.offer(name, &burst);
            script.take_all(name);
        }
    }
    script.section("packed memories of 200 to 300 bytes");
    for size in [200, 211, 212, 213, 214, 215, 255, 256, 257, 258, 299, 300] {
        let name = turn(size);
        script.make(name, format!("packed:{size}"));
        for length in [104, 104, size.saturating_sub(214), 1, 1] {
            let burst = script.burst(length);
            script.offer(name, &burst);
            script.count_and_holds(name);
        }
        script.take(name);
        for length in [105, 104, 103, 1] {
            let burst = script.burst(length);
            script.offer(name, &burst);
            script.count(name);
        }
        script.take_all(name);
    }
}

fn packed_around(script: &mut Script) {
    script.section("packed bursts that begin at every place of a small memory");
    for size in [3, 4, 5, 6, 7, 9, 10, 13] {
        for start in 0..size {
            // The burst before is taken; it ends where the next one begins.
            for before in (1..=size - 2).filter(|before| (before + 2) % size == start) {
                let name = turn(start);
                script.make(name, format!("packed:{size}"));
                let burst = script.burst(before);
                script.offer(name, &burst);
                script.take(name);
                let burst = script.burst(size - 2);
                script.offer(name, &burst);
                script.count_and_holds(name);
                script.offer(name, &[0x30]);
                script.take_all(name);
            }
        }
    }
    script.section("bursts of one length, one under way: the places run round");
    for size in [6, 7, 8, 11] {
        for length in [1, 2, 3] {
            let name = turn(size + length);
            script.make(name, format!("packed:{size}"));
            for _ in 0..size + 2 {
                let burst = script.burst(length);
                script.offer(name, &burst);
                script.holds(name);
                script.take(name);
            }
            script.count(name);
        }
    }
    script.section("packed memories kept nearly full, their bursts running round");
    for size in [12, 17, 23, 40, 110, 300] {
        let name = turn(size);
        script.make(name, format!("packed:{size}"));
        for _ in 0..60 {
            let length = 1 + script.random.below((size - 2).min(12));
            let burst = script.burst(length);
            script.offer(name, &burst);
            while script.answer == "spoilt" {
                script.count_and_holds(name);
                script.take(name);
                script.offer(name, &burst);
            }
        }
        script.take_all(name);
    }
}

fn patterns_of_noise(script: &mut Script) {
    script.section("noise of telling and random patterns");
    for number in 0..PATTERNS.len() + 6 {
        let pattern = match PATTERNS.get(number) {
            Some(&pattern) => pattern,
            None => script.pattern(),
        };
        let name = turn(number);
        script.make(name, format!("noisy:40:{pattern:X}"));
        for offer in 0..35u8 {
            script.offer(name, &[0x02, 0x44, offer * 2]);
        }
        script.count_and_holds(name);
        script.take_all(name);
        for _ in 35..68 {
            script.offer(name, &[0x02, 0x44]);
        }
        script.count_and_holds(name);
        for _ in 0..10 {
            script.take(name);
            script.holds(name);
        }
    }
}

fn patterns_of_losses(script: &mut Script) {
    script.section("losses of telling and random patterns");
    for number in 0..PATTERNS.len() + 6 {
        let pattern = match PATTERNS.get(number) {
            Some(&pattern) => pattern,
            None => script.pattern(),
        };
        let name = turn(number);
        let below = ["queue:66", "packed:330"][number / 2 % 2];
        script.make(name, format!("lossy:{pattern:x}/{below}"));
        for offer in 0..66u8 {
            script.offer(name, &[0x02, 0x45, offer]);
        }
        script.count_and_holds(name);
        script.take_all(name);
    }
}

fn noise_by_length(script: &mut Script) {
    script.section("noise at every offer, over more offers than the length");
    for length in [1, 2, 3, 4, 7, 10] {
        let name = turn(length);
        script.make(name, "noisy:30:FFFFFFFF");
        for _ in 0..2 * length + 3 {
            let burst = script.burst(length);
            script.offer(name, &burst);
            script.holds(name);
        }
        script.count(name);
        script.take_all(name);
    }
    for (name, length) in [("m", 103), ("n", 104)] {
        script.make(name, "noisy:1:FFFFFFFF");
        for offer in 0..110 {
            let mut burst = vec![b'@'; length];
            burst[offer % length] = b'B';
            script.offer_text(name, &burst);
            script.take(name);
        }
        script.count_and_holds(name);
    }
}

fn noise_by_changing_lengths(script: &mut Script) {
    script.section("noise over bursts of changing lengths");
    for pattern in ["FFFFFFFF", "55555555", "80000001"] {
        for name in NAMES {
            script.make(name, format!("noisy:2:{pattern}"));
        }
        for _ in 0..80 {
            let name = *script.random.pick(&NAMES);
            let length = 1 + script.random.below(9);
            let burst = script.burst(length);
            script.offer(name, &burst);
            script.count_and_holds(name);
            if script.random.below(3) > 0 {
                script.take(name);
            }
        }
    }
}

fn hit_and_full(script: &mut Script) {
    script.section("hit and full: pattern and count move on, the burst is lost");
    for places in [0, 1, 2] {
        for pattern in [
            "0", "1", "2", "80000000", "FFFFFFFF", "A0000001", "60000001",
        ] {
            let name = turn(places);
            script.make(name, format!("noisy:{places}:{pattern}"));
            for _ in 0..places + 3 {
                script.offer(name, &[0x40; 5]);
                script.count(name);
            }
            script.holds(name);
            script.take(name);
            script.offer(name, &[0x44; 5]);
            script.count_and_holds(name);
            script.take_all(name);
            for _ in 0..3 {
                script.offer(name, &[0x52; 5]);
                script.take(name);
            }
        }
    }
    script.section("a full turn of the pattern over a full medium");
    for pattern in ["1", "80000000", "7FFFFFFF"] {
        for (name, places) in [("m", 0), ("n", 1)] {
            script.make(name, format!("noisy:{places}:{pattern}"));
            for _ in 0..32 {
                script.offer(name, &[0x02, 0x44, 0x03, 0x00, 0x10, 0x20, 0x30]);
            }
            script.count_and_holds(name);
            script.take(name);
            script.offer(name, &[0x02, 0x44, 0x03, 0x00, 0x10, 0x20, 0x30]);
            script.take(name);
        }
    }
}

fn altered_letters(script: &mut Script) {
    script.section("every second byte, hit by noise");
    for byte in 0..=0xFF {
        let name = turn(byte.into());
        // The second offer is hit, at place 1.
        script.make(name, "noisy:2:80000000");
        script.offer(name, &[0x02]);
        script.offer(name, &[0x02, byte, 0x03]);
        script.holds(name);
        script.take(name);
        script.take(name);
    }
    script.section("letters made and unmade behind others, hit at the second offer of three");
    for letter in LETTERS {
        for byte in [letter, letter ^ 1] {
            for other in [b"\x02E", b"\x02R", b"\x02\x02"] {
                let name = *script.random.pick(&NAMES);
                script.make(name, "noisy:3:80000000");
                script.offer(name, other);
                script.offer(name, &[0x00, byte]);
                script.holds(name);
                script.offer(name, &[0x00, byte]);
                script.holds(name);
                script.take(name);
                script.holds(name);
                script.take(name);
                script.holds(name);
            }
        }
    }
    script.section("every place of a packet hit");
    for (number, burst) in [&b"\x02E\x03\xC8"[..], b"\x02A7\x03\xFB", b"\x020OK\x03\xCD"]
        .into_iter()
        .enumerate()
    {
        let name = turn(number);
        script.make(name, "noisy:9:FFFFFFFF");
        for _ in 0..burst.len() + 1 {
            script.offer(name, burst);
            script.holds(name);
        }
        script.take_all(name);
    }
}

fn what_moves_no_pattern(script: &mut Script) {
    script.section("bursts of no bytes and of over 104 move neither pattern nor count");
    let specs = [
        "noisy:20:A5A5A5A5",
        "lossy:A5A5A5A5/queue:20",
        "lossy:A5A5A5A5/packed:90",
        "lossy:96969696/noisy:20:5A5A5A5A",
    ];
    for (number, spec) in specs.into_iter().enumerate() {
        let name = turn(number);
        for often in [0, 1, 3] {
            script.make(name, spec);
            for offer in 0..16u8 {
                for _ in 0..often {
                    match script.random.below(4) {
                        0 => script.offer_text(name, &[b'E'; 105]),
                        1 => script.offer_text(name, &[b'E'; 200]),
                        2 => script.offer_text(name, b""),
                        _ => script.offer(name, b""),
                    }
                }
                script.offer(name, &[0x02, 0x44, offer]);
            }
            script.count_and_holds(name);
            script.take_all(name);
        }
    }
    script.section("asking and taking move nothing either");
    for (number, spec) in specs.into_iter().enumerate() {
        let name = turn(number);
        script.make(name, spec);
        for offer in 0..12u8 {
            for _ in 0..script.random.below(3) {
                script.count_and_holds(name);
            }
            script.take(name);
            script.offer(name, &[0x02, 0x44, offer]);
        }
    }
}

fn lossy_over_each(script: &mut Script) {
    script.section("losses over each medium");
    for below in [
        "queue:3",
        "packed:15",
        "noisy:3:FFFFFFFF",
        "noisy:3:55555555",
    ] {
        for loss in [
            "0", "1", "2", "3", "80000000", "FFFFFFFF", "55555555", "AAAAAAAA",
        ] {
            let name = *script.random.pick(&NAMES);
            script.make(name, format!("lossy:{loss}/{below}"));
            for offer in 0..6u8 {
                script.offer(name, &[0x02, 0x44, offer]);
                script.count_and_holds(name);
                if offer % 3 == 2 {
                    script.take(name);
                }
            }
            script.take_all(name);
        }
    }
    script.section("noise counts only what losses leave over");
    for number in 0..24 {
        let (loss, noise) = (script.pattern(), script.pattern());
        let name = turn(number);
        script.make(name, format!("lossy:{loss:08X}/noisy:4:{noise:08x}"));
        for offer in 0..20u8 {
            let length = 3 + usize::from(offer) % 3;
            script.offer(name, &vec![0x44; length]);
            if offer % 2 == 1 {
                script.take(name);
            }
        }
        script.count_and_holds(name);
        script.take_all(name);
    }
    script.section("lost bursts over media of no memory");
    for below in [
        "queue:0",
        "packed:0",
        "packed:2",
        "noisy:0:0",
        "noisy:0:FFFFFFFF",
    ] {
        for name in NAMES {
            script.make(name, format!("lossy:2/{below}"));
            for _ in 0..3 {
                script.offer(name, b"\x02E");
                script.count_and_holds(name);
            }
            script.take(name);
        }
    }
}

fn short_histories(script: &mut Script) {
    script.section("every history of four calls");
    let specs = [
        "queue:2",
        "packed:9",
        "noisy:2:60000001",
        "lossy:40000000/queue:2",
        "lossy:80000000/packed:8",
        "lossy:1/noisy:1:80000001",
    ];
    for spec in specs {
        for history in 0..81usize {
            let name = turn(history);
            script.make(name, spec);
            let calls = [history / 27, history / 9 % 3, history / 3 % 3, history % 3];
            for call in calls {
                match call {
                    0 => script.offer(name, &[0x02, 0x44, 0x03]),
                    1 => script.offer(name, b"\x00R"),
                    _ => script.take(name),
                }
            }
            script.count_and_holds(name);
            script.take(name);
        }
    }
}

fn made_again(script: &mut Script) {
    script.section("media made again: nothing is under way, patterns and counts begin anew");
    for one in kinds() {
        for two in kinds() {
            let name = *script.random.pick(&NAMES);
            for spec in [one, two, two] {
                script.make(name, spec);
                script.count_and_holds(name);
                for offer in 0..5u8 {
                    script.offer(name, &[0x02, 0x45, offer]);
                }
                script.count(name);
                script.take(name);
            }
        }
    }
    script.section("a name made again leaves the other as it was");
    for spec in kinds() {
        script.make("m", spec);
        script.make("n", spec);
        for name in NAMES {
            for _ in 0..4 {
                script.offer(name, b"\x02R");
            }
        }
        script.make("m", "queue:0");
        script.count_and_holds("n");
        script.make("m", "packed:2");
        script.offer("m", b"\x02E");
        script.count_and_holds("n");
        script.offer("n", b"\x02E");
        script.take_all("n");
        script.count_and_holds("m");
    }
}

fn full_queue(script: &mut Script) {
    script.section("a queue of 4096 places, filled to the last and run round");
    script.make("m", "queue:4096");
    for number in 0..4095u16 {
        script.offer("m", &number.to_be_bytes());
    }
    script.count_and_holds("m");
    script.offer("m", b"\x02\x02last");
    script.count("m");
    script.offer("m", b"\x02\x02none");
    script.count_and_holds("m");
    for _ in 0..3 {
        script.take("m");
    }
    for burst in [b"\x02E1", b"\x02R2", b"\x0203", b"\x02A4"] {
        script.offer("m", burst);
        script.count("m");
    }
    for _ in 0..4000 {
        script.take("m");
    }
    script.count_and_holds("m");
    for number in 0..90u8 {
        script.offer("m", &[number, 0x00]);
    }
    script.count_and_holds("m");
    script.take_all("m");
    script.count_and_holds("m");
}

fn full_noisy(script: &mut Script) {
    script.section("a noisy medium of 4096 places, filled to the last and run round");
    script.make("n", "noisy:4096:10204081");
    for number in 0..4095u16 {
        script.offer("n", &number.to_be_bytes());
    }
    script.count_and_holds("n");
    for _ in 0..12 {
        script.offer("n", b"\x02\x02full");
        script.count("n");
    }
    for _ in 0..40 {
        script.take("n");
    }
    for _ in 0..48 {
        script.offer("n", b"\x02\x44round");
    }
    script.count_and_holds("n");
    for _ in 0..300 {
        script.take("n");
    }
    script.count_and_holds("n");
}

fn full_packed(script: &mut Script) {
    script.section("a packed memory of 65536 bytes, filled to its last byte but one");
    script.make("m", "packed:65536");
    for _ in 0..617 {
        let text = script.message(LONGEST);
        script.offer_text("m", &text);
    }
    for length in [104, 27, 25, 1, 104] {
        let burst = script.burst(length);
        script.offer("m", &burst);
        script.count_and_holds("m");
    }
    script.section("a length around the memory's end, and filled to the last byte");
    for lengths in [&[105, 106, 104, 1][..], &[104], &[50, 54, 53, 1]] {
        script.take("m");
        for &length in lengths {
            let burst = script.burst(length);
            script.offer("m", &burst);
            script.count_and_holds("m");
        }
    }
    script.section("full and run on");
    for _ in 0..60 {
        script.take("m");
        let burst = script.burst(LONGEST);
        script.offer("m", &burst);
    }
    script.count_and_holds("m");
    script.take_all("m");
    script.count_and_holds("m");
}

fn full_under_losses(script: &mut Script) {
    for (name, spec) in [
        ("m", "lossy:80001/queue:4096"),
        ("n", "lossy:2000/noisy:4096:80000200"),
    ] {
        script.section(&format!("{spec}, filled to the last place and run round"));
        script.make(name, spec);
        filled(script, name, 4096);
        script.holds(name);
        for _ in 0..33 {
            script.offer(name, &[0x02, 0x44]);
        }
        script.count_and_holds(name);
        for _ in 0..50 {
            script.take(name);
        }
        filled(script, name, 4096);
        script.offer(name, &[0x02, 0x44]);
        for _ in 0..100 {
            script.take(name);
        }
        script.count_and_holds(name);
    }
    script.section("lossy:10001/packed:65536, filled to the last byte and run round");
    script.make("n", "lossy:10001/packed:65536");
    let mut added = 0;
    while added < 618 {
        let text = script.message(LONGEST);
        script.offer_text("n", &text);
        added += usize::from(script.answer == "whole");
    }
    script.count_and_holds("n");
    for length in [27, 27, 26, 26, 1, 1] {
        let burst = script.burst(length);
        script.offer("n", &burst);
        script.count("n");
    }
    for _ in 0..20 {
        script.take("n");
        let burst = script.burst(LONGEST);
        script.offer("n", &burst);
        script.count("n");
    }
    for _ in 0..50 {
        script.take("n");
    }
    script.count_and_holds("n");
}

/// Offers bursts of one byte until so many are under way.
fn filled(script: &mut Script, name: &str, places: usize) {
    loop {
        script.count(name);
        let under_way: usize = script.answer.parse().expect("a count is a number");
        if under_way == places {
            return;
        }
        // So many have room for sure, whatever becomes of each.
        for number in 0..(places - under_way).div_ceil(2) {
            script.offer(name, &[(number % 251) as u8]);
        }
    }
}

fn specs(script: &mut Script) {
    script.section("words that are no SPEC: the medium stays as it was");
    script.make("m", "queue:4096");
    for word in words::SPEC.split(' ') {
        script.make("m", word);
        script.offer("m", b"\x02E");
        script.count("m");
    }
    script.section("numbers for PLACES and BYTES, right and wrong");
    for word in words::ROOM.split(' ') {
        for [head, tail] in [
            ["queue:", ""],
            ["packed:", ""],
            ["noisy:", ":1"],
            ["lossy:2/queue:", ""],
            ["lossy:0/packed:", ""],
            ["lossy:0/noisy:", ":0"],
        ] {
            script.make("m", format!("{head}{word}{tail}"));
            script.offer("m", b"\x02E");
        }
        script.count("m");
    }
    script.section("words for PATTERN, right and wrong");
    for word in words::PATTERN.split(' ') {
        for [head, tail] in [
            ["noisy:3:", ""],
            ["lossy:", "/queue:3"],
            ["lossy:", "/packed:12"],
            ["lossy:", "/noisy:3:1"],
            ["lossy:2/noisy:3:", ""],
        ] {
            script.make("n", format!("{head}{word}{tail}"));
            script.offer("n", b"\x02E");
            script.offer("n", b"\x02E");
        }
        script.count_and_holds("n");
    }
    script.section("each part of a SPEC left out, doubled and exchanged");
    for spec in ["noisy:2:5", "lossy:4/queue:2", "lossy:80000001/noisy:4:2"] {
        for (place, byte) in spec.bytes().enumerate() {
            let (head, tail) = spec.split_at(place);
            let byte = char::from(byte);
            for word in [
                format!("{head}{}", &tail[1..]),
                format!("{head}{byte}{tail}"),
                format!("{tail}{head}"),
                head.to_string(),
                format!("{head}:{tail}"),
                format!("{head}/{tail}"),
            ] {
                script.make("n", word);
            }
        }
        script.count("n");
    }
    script.section("long words for SPEC");
    let zeros = "0".repeat(1000);
    for word in [
        format!("queue:{zeros}1"),
        format!("queue:{zeros}4097"),
        format!("queue:1{zeros}"),
        format!("packed:{zeros}65536"),
        format!("packed:{zeros}65537"),
        format!("noisy:{zeros}2:1"),
        format!("noisy:2:{zeros}1"),
        format!("lossy:{zeros}/queue:2"),
        format!("lossy:1/queue:{zeros}2"),
        format!("lossy:1/queue:2{}", "/".repeat(1000)),
        "lossy:1/".repeat(100) + "queue:1",
    ] {
        script.make("m", word);
        script.offer("m", b"\x02E");
        script.count("m");
    }
}

fn texts_and_cases(script: &mut Script) {
    script.section("text after an apostrophe");
    script.make("m", "queue:4096");
    script.make("n", "packed:65536");
    for (number, text) in words::TEXTS.split('|').enumerate() {
        script.offer_text(turn(number), text.as_bytes());
        script.take(turn(number));
    }
    for name in NAMES {
        script.line(format!("medium  {name}   offer  '  E  0 "));
        script.line(format!("  medium {name} offer '\u{2}E "));
        script.holds(name);
        script.line(format!("medium {name} offer ' "));
        script.line(format!("medium {name} offer '"));
        script.count(name);
    }
    script.section("every byte as text");
    for name in NAMES {
        script.take_all(name);
    }
    for byte in line_bytes() {
        script.offer_text(turn(byte.into()), &[byte, byte]);
        script.holds(turn(byte.into()));
        script.take(turn(byte.into()));
    }
    script.section("text of 103 to 106 bytes with spaces");
    for length in 103..=106 {
        for name in NAMES {
            let mut text = script.message(length);
            text[0] = b' ';
            text[length - 1] = b' ';
            script.offer_text(name, &text);
            script.offer_text(name, &vec![b' '; length]);
            script.count(name);
        }
    }
    for name in NAMES {
        script.take_all(name);
    }
    script.section("hexadecimal digits in every case, and spaces");
    for number in 0..40 {
        let name = turn(number).as_bytes();
        let burst = script.run_of(1 + number % 9, 0xA0, 0xFF);
        let case = *script.random.pick(&[Case::Upper, Case::Lower, Case::Mixed]);
        let burst = script.bytes(case, &burst);
        script.spaced(&[b"medium", name, b"offer", &burst]);
        let call = *script.random.pick(&["take", "count", "holds"]);
        script.spaced(&[b"medium", name, call.as_bytes()]);
        if number % 8 == 7 {
            let spec = script.spec();
            script.spaced(&[b"medium", name, b"make", spec.as_bytes()]);
        }
    }
    script.section("wrong words for BYTES");
    for (number, word) in words::BYTES.split(' ').enumerate() {
        let (name, word) = (turn(number).as_bytes(), word.as_bytes());
        script.words(&[b"medium", name, b"offer", word]);
        script.spaced(&[b"medium", name, b"offer", word, b"x"]);
        script.count(turn(number));
    }
}

fn unknown_commands(script: &mut Script) {
    script.section("first words that are not medium");
    for word in "Medium MEDIUM mediu mediums medium, medium: 'medium medium\tm medium\r \
                 \tmedium mediumm media edium m n make offer"
        .split(' ')
    {
        script.words(&[word.as_bytes(), b"m count"]);
        script.words(&[word.as_bytes()]);
    }
    script.section("wrong words for NAME");
    for word in words::MEDIUM_NAME.split(' ') {
        let word = word.as_bytes();
        script.words(&[b"medium", word]);
        script.words(&[b"medium", word, b"count"]);
        script.words(&[b"medium", word, b"mend"]);
        script.words(&[b"medium", word, b"make queue"]);
        script.spaced(&[b"medium", word, b"offer", b"0", b"x"]);
    }
    script.section("unknown third words");
    for (number, word) in words::MEDIUM_THIRD.split(' ').enumerate() {
        let (name, word) = (turn(number).as_bytes(), word.as_bytes());
        script.words(&[b"medium", name, word]);
        script.words(&[b"medium", name, word, b"queue:1"]);
        script.spaced(&[b"medium", name, word, b"0", b"x"]);
    }
    script.section("right and wrong words: the first wrong one decides");
    let make: [[&[u8]; 2]; 5] = [
        [b"medium", b"mediums"],
        [b"m", b"o"],
        [b"make", b"made"],
        [b"packed:9", b"packed:x"],
        [b"x", b"'"],
    ];
    let offer: [[&[u8]; 2]; 5] = [
        [b"medium", b"media"],
        [b"n", b"N"],
        [b"offer", b"offers"],
        [b"0245", b"024"],
        [b"0", b"\r"],
    ];
    let take: [[&[u8]; 2]; 4] = [
        [b"medium", b"m"],
        [b"n", b"medium"],
        [b"take", b"taken"],
        [b"0", b"-"],
    ];
    for words in [&make[..], &offer, &take] {
        for count in 1..=words.len() {
            for set in 0..1usize << count {
                let line: Vec<&[u8]> = (0..count)
                    .map(|index| words[index][set >> index & 1])
                    .collect();
                script.words(&line);
            }
        }
    }
}

fn too_few_and_too_many_words(script: &mut Script) {
    script.section("too few words");
    for line in [
        "medium",
        "medium m",
        "medium n",
        "medium m make",
        "medium n offer",
    ] {
        script.line(line);
        script.line(format!("{line} "));
        script.line(format!("  {}   ", line.replace(' ', "   ")));
    }
    script.section("too many words");
    for name in NAMES {
        script.make(name, "queue:2");
        script.offer(name, b"\x02E");
    }
    for (number, extra) in words::LEFT_OVER.split('|').enumerate() {
        let (name, extra) = (turn(number).as_bytes(), extra.as_bytes());
        script.words(&[b"medium", name, b"take", extra]);
        script.words(&[b"medium", name, b"count", extra]);
        script.spaced(&[b"medium", name, b"holds", extra]);
        script.spaced(&[b"medium", name, b"make", b"queue:0", extra]);
        script.words(&[b"medium", name, b"offer 0252", extra]);
        script.words(&[b"medium", name, b"offer -", extra]);
        script.count_and_holds(turn(number));
    }
    for line in [
        "medium m offer 02 45",
        "medium m make lossy:1/ queue:1",
        "medium m make lossy:1 /queue:1",
        "medium m make queue: 1",
        "medium m make noisy:1 1",
        "medium m make noisy:1: 1",
        "medium m make queue 1",
        "medium m make 'queue:1 x",
        "medium m take 104",
        "medium m take m",
        "medium m count n",
    ] {
        script.line(line);
        script.count("m");
    }
}

fn foreign_bytes(script: &mut Script) {
    script.section("every byte in every part of a SPEC, and as NAME");
    for byte in line_bytes() {
        let name = turn(byte.into()).as_bytes();
        script.joined(&[b"medium ", name, b" make queue:1", &[byte]]);
        script.joined(&[b"medium ", name, b" make packed", &[byte], b"12"]);
        script.joined(&[b"medium ", name, b" make noisy:1:F", &[byte]]);
        script.joined(&[b"medium ", name, b" make lossy:", &[byte], b"/queue:2"]);
        script.joined(&[b"medium ", name, b" make lossy:2", &[byte], b"queue:2"]);
        script.joined(&[b"medium ", name, b" offer 0", &[byte]]);
        script.joined(&[b"medium ", &[byte], b" count"]);
    }
    script.section("bytes set into the words of right lines");
    let lines: [&[u8]; 4] = [
        b"medium m offer 024503C8",
        b"medium n make lossy:A/noisy:3:5",
        b"medium m holds",
        b"medium n offer 'fire in hall 2",
    ];
    for line in lines {
        for byte in [0x00, 0x09, 0x0B, 0x0D, 0x1F, 0x7F, 0x80, 0x85, 0xA0, 0xFF] {
            for _ in 0..3 {
                let (head, tail) = line.split_at(script.random.below(line.len() + 1));
                script.joined(&[head, &[byte], tail]);
            }
        }
        script.joined(&[line, b"\r"]);
        for place in (0..line.len()).filter(|&place| line[place] == b' ') {
            let mut tab = line.to_vec();
            tab[place] = b'\t';
            script.line(&tab);
        }
        script.count_and_holds("m");
        script.count_and_holds("n");
    }
}

fn random_histories(script: &mut Script) {
    script.section("random histories on both names in turn");
    for _ in 0..70 {
        for name in NAMES {
            let spec = script.spec();
            script.make(name, spec);
        }
        for _ in 0..36 {
            let name = *script.random.pick(&NAMES);
            match script.random.below(10) {
                0..=4 => {
                    let length = match script.random.below(12) {
                        0 => *script.random.pick(&LENGTHS),
                        _ => 1 + script.random.below(8),
                    };
                    let burst = script.burst(length);
                    script.offer(name, &burst);
                }
                5 | 6 => script.take(name),
                7 => script.count(name),
                8 => script.holds(name),
                _ => script.count_and_holds(name),
            }
        }
        for name in NAMES {
            script.take_all(name);
        }
    }
    script.section("packets over both names, read and written between");
    for name in NAMES {
        script.make(name, "noisy:9:88888888");
    }
    for number in 0..40 {
        let name = turn(number);
        let packet = script.packet(Kind::Xor, 6);
        script.offer(name, &packet);
        script.holds(name);
        script.take(name);
        let (_, burst) = script.answer.split_once("burst=").expect("a burst is told");
        let line = format!("packet read xor {burst}");
        script.line(line);
        script.line("packet write sum 45 -");
    }
}

fn random_lines(script: &mut Script) {
    script.section("lines of random words");
    let vocabulary: Vec<&str> = words::MEDIUM_LIKELY.split(' ').collect();
    for number in 0..300usize {
        let right: &[&[u8]] = match number % 5 {
            0 => &[b"medium", b"m", b"make"],
            1 => &[b"medium", b"n", b"offer"],
            2 => &[b"medium", b"n"],
            3 => &[b"medium", b"m", b"take"],
            _ => &[b"medium"],
        };
        let mut words = right.to_vec();
        for _ in 0..script.random.below(4) {
            let word = *script.random.pick(&vocabulary);
            words.push(word.as_bytes());
        }
        script.spaced(&words);
    }
    script.section("right lines with bytes altered, set in, left out and doubled");
    let lines: [&[u8]; 8] = [
        b"medium m make queue:3",
        b"medium n make packed:25",
        b"medium m make noisy:3:80000001",
        b"medium n make lossy:4/packed:30",
        b"medium m offer 0245AB",
        b"medium n offer 'OK 1",
        b"medium m holds",
        b"medium n count",
    ];
    let bytes = b" -':/0123456789ABCDEFabcdefgGmn\t\r\0\x80\xFF";
    for number in 0..600 {
        let mut line = lines[number % lines.len()].to_vec();
        // Mostly beyond the first two words.
        let first = [0, 9, 12][script.random.below(3)];
        let place = first + script.random.below(line.len() - first);
        let byte = *script.random.pick(bytes);
        match script.random.below(4) {
            0 => line[place] = byte,
            1 => line.insert(place, byte),
            2 => line.insert(place, line[place]),
            _ => drop(line.remove(place)),
        }
        script.line(line);
    }
}

#[cfg(test)]
mod tests {
    use super::*;
    use crate::generate::tests::answers;
    use std::collections::BTreeMap;

    #[test]
    fn the_script_is_whole() {
        let script = media();
        assert_eq!(script, media());
        assert!(script.len() < 1_500_000);
        assert!(script.ends_with(b"\nmedium n take"));
        assert!(answers(&script).len() >= 6_000);
    }

    #[test]
    fn every_answer_occurs() {
        let script = media();
        let mut counts: BTreeMap<(&str, String), usize> = BTreeMap::new();
        for (command, answer) in answers(&script) {
            let mut commands = ["make", "offer", "take", "count", "holds"].into_iter();
            let mut words = command
                .split(|&byte| byte == b' ')
                .filter(|word| !word.is_empty());
            let third = words.nth(2);
            let third = commands.find(|command| third == Some(command.as_bytes()));
            // Bursts taken and counts are counted whatever they are.
            let answer = match answer.split_once(" burst=") {
                Some(("length=0", _)) => "nothing".to_string(),
                Some(_) => "burst".to_string(),
                None if answer.parse::<usize>().is_ok() => "number".to_string(),
                None => answer,
            };
            *counts.entry((third.unwrap_or(""), answer)).or_default() += 1;
        }
        for answer in [
            ("make", "made"),
            ("offer", "whole"),
            ("offer", "spoilt"),
            ("take", "burst"),
            ("take", "nothing"),
            ("count", "number"),
            ("holds", "commands=false answers=false"),
            ("holds", "commands=false answers=true"),
            ("holds", "commands=true answers=false"),
            ("holds", "commands=true answers=true"),
            ("make", &format!("error: {}", crate::script::Error::Spec)),
        ] {
            assert!(
                counts[&(answer.0, answer.1.to_string())] >= 200,
                "{answer:?}"
            );
        }
        for answer in [
            ("make", "error: too many words"),
            ("make", "error: NAME is m or n"),
            ("offer", "error: BYTES are pairs of hexadecimal digits"),
            ("offer", "error: too many words"),
            ("offer", "error: NAME is m or n"),
            ("take", "error: too many words"),
            ("count", "error: too many words"),
            ("holds", "error: too many words"),
            ("", "error: unknown command"),
            ("", "error: too few words"),
        ] {
            assert!(
                counts[&(answer.0, answer.1.to_string())] >= 10,
                "{answer:?}"
            );
        }
        for third in ["offer", "take", "count", "holds"] {
            let answer = "error: no medium of that name is made";
            assert!(counts[&(third, answer.to_string())] >= 2, "{third}");
        }
    }

    /// Each kind of medium is filled to the last place or byte.
    #[test]
    fn full_media_are_filled() {
        let script = media();
        let mut fullest: BTreeMap<String, usize> = BTreeMap::new();
        let mut specs = [String::new(), String::new()];
        for (command, answer) in answers(&script) {
            let command = String::from_utf8_lossy(&command).into_owned();
            let words: Vec<&str> = command.split_whitespace().collect();
            let name = match words[..] {
                ["medium", "m", ..] => 0,
                ["medium", "n", ..] => 1,
                _ => continue,
            };
            match words[2..] {
                ["make", spec] if answer == "made" => specs[name] = spec.to_string(),
                ["count"] => {
                    let count = answer.parse().unwrap_or(0);
                    let fullest = fullest.entry(specs[name].clone()).or_default();
                    *fullest = count.max(*fullest);
                }
                _ => {}
            }
        }
        assert_eq!(fullest["queue:4096"], 4096);
        assert_eq!(fullest["noisy:4096:10204081"], 4096);
        assert_eq!(fullest["lossy:80001/queue:4096"], 4096);
        assert_eq!(fullest["lossy:2000/noisy:4096:80000200"], 4096);
        assert_eq!(fullest["lossy:10001/packed:65536"], 619);
        assert!(fullest["packed:65536"] >= 619);
    }
}
