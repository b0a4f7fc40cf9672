//! The script of packet commands.

use super::{line_bytes, words, Case, Script, LETTERS};
use crate::packet::{assemble, Kind, ETX, LONGEST, STX};
use std::iter;

/// Bytes at the edges of the fields' ranges, and the most telling others.
const EDGES: [u8; 15] = [
    0x00, 0x02, 0x03, 0x0A, 0x0D, 0x1F, 0x20, 0x2F, 0x30, 0x38, 0x39, 0x7E, 0x7F, 0x80, 0xFF,
];

/// The kinds in turn.
fn turn(number: impl Into<usize>) -> Kind {
    Kind::ALL[number.into() % Kind::ALL.len()]
}

/// The whole script. Its last line has no line end.
pub fn packets() -> Vec<u8> {
    let sections: [fn(&mut Script); 28] = [
        worked_packets,
        every_letter,
        every_message_length,
        every_field_byte,
        field_bytes_by_place,
        every_letter_byte,
        burst_lengths,
        field_lengths,
        sizes,
        checks,
        end_bytes,
        one_byte_altered,
        more_bytes_altered,
        cut_and_joined,
        several_conditions_of_reading,
        several_conditions_of_writing,
        hexadecimal_cases,
        texts,
        spaces,
        unknown_commands,
        too_few_and_too_many_words,
        wrong_arguments,
        first_wrong_word,
        foreign_bytes,
        comments_and_blank_lines,
        line_lengths,
        random_packets,
        random_lines,
    ];
    Script::of(&sections, "packet read sum 024503C8")
}

/// Lines that several sections need.
impl Script {
    fn read(&mut self, kind: Kind, burst: &[u8]) {
        let burst = self.bytes(Case::Upper, burst);
        self.words(&[b"packet read", kind.name().as_bytes(), &burst]);
    }

    fn write(&mut self, kind: Kind, letter: u8, field: &[u8]) {
        let letter = self.bytes(Case::Upper, &[letter]);
        let field = self.bytes(Case::Upper, field);
        self.words(&[b"packet write", kind.name().as_bytes(), &letter, &field]);
    }

    fn write_sized(&mut self, kind: Kind, letter: u8, field: &[u8], size: usize) {
        let letter = self.bytes(Case::Upper, &[letter]);
        let field = self.bytes(Case::Upper, field);
        let size = size.to_string();
        let kind = kind.name().as_bytes();
        self.words(&[b"packet write", kind, &letter, &field, size.as_bytes()]);
    }

    fn read_text(&mut self, kind: Kind, burst: &[u8]) {
        let text = [b"'", burst].concat();
        self.words(&[b"packet read", kind.name().as_bytes(), &text]);
    }

    fn write_text(&mut self, kind: Kind, letter: u8, field: &[u8]) {
        let letter = self.bytes(Case::Upper, &[letter]);
        let text = [b"'", field].concat();
        self.words(&[b"packet write", kind.name().as_bytes(), &letter, &text]);
    }
}

fn worked_packets(script: &mut Script) {
    script.section("the worked packets and their refusals");
    for line in [
        "packet read sum 024503C8",
        "packet read xor 024503C6",
        "packet read sum 025203D5",
        "packet read sum 02304F4B03CD",
        "packet read xor 02304F4B03B7",
        "packet read sum 02413703FB",
        "packet write sum 45 -",
        "packet write xor 45 -",
        "packet write sum 52 -",
        "packet write sum 30 4F4B",
        "packet write xor 30 4F4B",
        "packet write sum 30 'OK",
        "packet write xor 30 'OK",
        "packet write sum 41 37",
        "packet write sum 41 '7",
        "packet read sum 024503C9",
        "packet read sum 025803DB",
        "packet read sum 023003B3",
        "packet read sum 02413903FD",
        "packet read sum 024502C8",
        "packet read sum -",
    ] {
        script.line(line);
    }
    for length in [1, 96, 97] {
        let burst = assemble(Kind::Sum, b'0', &vec![b'a'; length]);
        script.read(Kind::Sum, &burst);
    }
}

fn every_letter(script: &mut Script) {
    script.section("packets of every letter and both kinds, read and written");
    for kind in Kind::ALL {
        for letter in LETTERS {
            let fields: Vec<Vec<u8>> = match letter {
                b'0' | b'1' => [1, 2, 3, 10, 31, 32, 33, 64, 94, 95, 96]
                    .map(|length| script.message(length))
                    .into(),
                b'A' | b'B' => (0x30..=0x38).map(|credit| vec![credit]).collect(),
                _ => vec![Vec::new()],
            };
            for field in fields {
                script.read(kind, &assemble(kind, letter, &field));
                script.write(kind, letter, &field);
            }
        }
    }
    script.section("messages of one and the same byte, the least and the greatest");
    for kind in Kind::ALL {
        for byte in [0x20, 0x7E] {
            for length in [1, 2, 95, 96] {
                let field = vec![byte; length];
                script.read(kind, &assemble(kind, b'1', &field));
                script.write(kind, b'0', &field);
            }
        }
    }
}

fn every_message_length(script: &mut Script) {
    script.section("messages of every length from 1 to 96 bytes");
    for length in 1..=LONGEST {
        let kind = turn(length);
        let field = script.message(length);
        script.read(kind, &assemble(kind, b'0', &field));
        script.write(turn(length + 1), b'1', &field);
    }
}

fn every_field_byte(script: &mut Script) {
    script.section("every byte as a field of one byte, read");
    for byte in 0..=0xFF {
        for kind in Kind::ALL {
            script.read(kind, &assemble(kind, b'0', &[byte]));
        }
        let kind = turn(byte);
        script.read(kind, &assemble(kind, b'A', &[byte]));
    }
    script.section("every byte as a field of one byte, written");
    for byte in 0..=0xFF {
        script.write(turn(byte), b'1', &[byte]);
        script.write(turn(byte), b'B', &[byte]);
    }
}

fn field_bytes_by_place(script: &mut Script) {
    script.section("edge bytes at a message's front, in its midst and at its end");
    for length in [2, 95, 96] {
        for place in [0, length / 2, length - 1] {
            for (number, byte) in EDGES.into_iter().enumerate() {
                let mut field = script.message(length);
                field[place] = byte;
                let letter = *script.random.pick(b"01");
                let kind = turn(number + place);
                script.read(kind, &assemble(kind, letter, &field));
                script.write(turn(number + place + 1), letter, &field);
            }
        }
    }
}

fn every_letter_byte(script: &mut Script) {
    script.section("every byte as the letter, read");
    for letter in 0..=0xFF {
        for kind in Kind::ALL {
            script.read(kind, &assemble(kind, letter, b""));
        }
        let kind = turn(letter);
        script.read(kind, &assemble(kind, letter, b"0"));
    }
    script.section("every byte as the letter, written");
    for letter in 0..=0xFF {
        script.write(turn(letter), letter, b"");
        script.write(turn(letter), letter, b"0");
    }
}

fn burst_lengths(script: &mut Script) {
    script.section("bursts of every length with a message's form");
    for length in (0..=106).chain([150, 199, 200, 201, 255, 256, 257, 300]) {
        for kind in Kind::ALL {
            let message = script.message(usize::max(length, 4) - 4);
            let mut burst = assemble(kind, b'0', &message);
            burst.truncate(length);
            script.read(kind, &burst);
        }
    }
    script.section("bursts of one and the same byte");
    for length in [0, 1, 2, 3, 4, 5, 99, 100, 101, 102, 200] {
        for byte in [0x00, STX, ETX, 0x30, 0x45, 0x80, 0xFF] {
            script.read(turn(byte), &vec![byte; length]);
        }
    }
}

fn field_lengths(script: &mut Script) {
    script.section("fields of right and wrong lengths under every letter");
    for letter in LETTERS {
        for length in [0, 1, 2, 3, 10, 95, 96, 97] {
            for kind in Kind::ALL {
                let field = script.run_of(length, 0x30, 0x38);
                script.read(kind, &assemble(kind, letter, &field));
                script.write(kind, letter, &field);
            }
        }
        for length in [98, 100, 101, 104, 200, 256] {
            let field = script.run_of(length, 0x30, 0x38);
            script.write(turn(length), letter, &field);
        }
    }
}

fn sizes(script: &mut Script) {
    script.section("places of every telling size");
    for kind in Kind::ALL {
        for letter in LETTERS {
            let lengths: &[usize] = match letter {
                b'0' | b'1' => &[1, 2, 95, 96],
                b'A' | b'B' => &[1],
                _ => &[0],
            };
            for length in lengths {
                let field = script.run_of(*length, 0x30, 0x38);
                let exact = 4 + length;
                for size in [0, 1, exact - 1, exact, exact + 1, 104, 65535, 65536] {
                    script.write_sized(kind, letter, &field, size);
                }
            }
        }
    }
    script.section("places larger than any memory");
    for size in words::HUGE_SIZE.split(' ') {
        for kind in Kind::ALL {
            let kind = kind.name().as_bytes();
            script.words(&[b"packet write", kind, b"30 4F4B", size.as_bytes()]);
            script.words(&[b"packet write", kind, b"41 39", size.as_bytes()]);
            script.words(&[b"packet write", kind, b"45 -", size.as_bytes(), b"x"]);
        }
    }
    script.section("a packet of six bytes into places of 0 to 12 bytes");
    for size in 0..=12 {
        for kind in Kind::ALL {
            script.write_sized(kind, b'0', b"OK", size);
        }
    }
    script.section("wrong letters and fields into places of every size");
    for size in [0, 1, 4, 5, 104, 65536] {
        for (letter, field) in [(b'X', &b""[..]), (b'0', b""), (b'A', b"9"), (b'E', b"~")] {
            script.write_sized(turn(size), letter, field, size);
        }
    }
}

fn checks(script: &mut Script) {
    script.section("each bit of the check wrong");
    for kind in Kind::ALL {
        for letter in LETTERS {
            for _ in 0..3 {
                let field = script.field(letter, 8);
                let burst = assemble(kind, letter, &field);
                for bit in 0..8 {
                    let mut burst = burst.clone();
                    *burst.last_mut().unwrap() ^= 1 << bit;
                    script.read(kind, &burst);
                }
            }
        }
    }
    script.section("checks below 80");
    for number in 0..40usize {
        let kind = turn(number);
        let mut burst = script.packet(kind, 20);
        *burst.last_mut().unwrap() -= 0x80;
        script.read(kind, &burst);
    }
    script.section("checks over too many or too few bytes");
    for kind in Kind::ALL {
        for letter in LETTERS {
            let field = script.field(letter, 20);
            let burst = assemble(kind, letter, &field);
            let last = burst.len() - 1;
            for covered in [0..last, 1..last - 1, 2..last, 0..last - 1, 2..last - 1] {
                let mut burst = burst.clone();
                burst[last] = kind.check(&burst[covered])[0];
                script.read(kind, &burst);
            }
        }
    }
    script.section("packets read by the other kind");
    for number in 0..40usize {
        let burst = script.packet(turn(number), 20);
        script.read(turn(number + 1), &burst);
    }
}

fn end_bytes(script: &mut Script) {
    script.section("every byte as the end byte, the check covering it");
    for end in 0..=0xFF {
        let kind = turn(end);
        let letter = *script.random.pick(&LETTERS);
        let field = script.field(letter, 5);
        let covered = [&[letter], &field[..], &[end]].concat();
        let burst = [&[STX], &covered[..], &kind.check(&covered)].concat();
        script.read(kind, &burst);
    }
    script.section("the byte 03 at other places");
    for kind in Kind::ALL {
        for place in 0..6 {
            for letter in [b'0', b'1'] {
                let mut field = script.message(6);
                field[place] = ETX;
                script.read(kind, &assemble(kind, letter, &field));
            }
        }
        for letter in LETTERS.into_iter().chain([ETX]) {
            for field in [&b"\x03"[..], b"\x03\x03", b"\x030", b"0\x03", b"\x03\x80"] {
                script.read(kind, &assemble(kind, letter, field));
                script.write(kind, letter, field);
            }
            // The end byte alone wrong, missing, and in the check's place.
            let field = script.field(letter, 3);
            let burst = assemble(kind, letter, &field);
            let (head, tail) = burst.split_at(burst.len() - 2);
            script.read(kind, &[head, &[0x04], &tail[1..]].concat());
            script.read(kind, &[head, &tail[1..]].concat());
            script.read(kind, &[head, &[tail[1], ETX]].concat());
            script.read(kind, &[head, tail, &[ETX]].concat());
        }
    }
}

fn one_byte_altered(script: &mut Script) {
    script.section("a short packet with one place altered to every other byte");
    let burst = assemble(Kind::Sum, b'E', b"");
    for place in 0..burst.len() {
        for byte in (0..=0xFF).filter(|&byte| byte != burst[place]) {
            let mut burst = burst.clone();
            burst[place] = byte;
            script.read(Kind::Sum, &burst);
        }
    }
    script.section("packets with one bit altered");
    for kind in Kind::ALL {
        for (letter, field) in [
            (b'R', &b""[..]),
            (b'0', b"OK"),
            (b'1', b"~"),
            (b'A', b"7"),
            (b'B', b"0"),
        ] {
            let burst = assemble(kind, letter, field);
            for bit in 0..burst.len() * 8 {
                let mut burst = burst.clone();
                burst[bit / 8] ^= 1 << (bit % 8);
                script.read(kind, &burst);
            }
        }
    }
    script.section("the longest packet with one place altered");
    for kind in Kind::ALL {
        let message = script.message(LONGEST);
        let burst = assemble(kind, b'1', &message);
        for place in 0..burst.len() {
            let mut burst = burst.clone();
            burst[place] = script.other(burst[place]);
            script.read(kind, &burst);
        }
    }
    script.section("a message with one place altered to another byte of its range");
    for kind in Kind::ALL {
        let message = script.message(40);
        let burst = assemble(kind, b'0', &message);
        for place in 2..burst.len() - 2 {
            let mut burst = burst.clone();
            burst[place] = 0x20 + (burst[place] - 0x20 + 1 + script.random.below(94) as u8) % 95;
            script.read(kind, &burst);
        }
    }
}

fn more_bytes_altered(script: &mut Script) {
    script.section("packets with two bytes exchanged");
    for number in 0..40usize {
        let kind = turn(number);
        let mut burst = script.packet(kind, 12);
        let one = 1 + script.random.below(burst.len() - 1);
        let two = 1 + script.random.below(burst.len() - 1);
        burst.swap(one, two);
        script.read(kind, &burst);
    }
    script.section("messages altered in two places so that one kind keeps its check");
    for number in 0..40usize {
        let kind = turn(number);
        let message = script.run_of(10, 0x40, 0x5F);
        let mut burst = assemble(kind, b'0', &message);
        let one = 2 + script.random.below(5);
        let two = 7 + script.random.below(5);
        if number % 4 < 2 {
            burst[one] += 1;
            burst[two] -= 1;
        } else {
            burst[one] ^= 0x04;
            burst[two] ^= 0x04;
        }
        script.read(kind, &burst);
    }
    script.section("packets with several random bytes");
    for number in 0..80usize {
        let kind = turn(number);
        let mut burst = script.packet(kind, 12);
        for _ in 0..2 + number % 3 {
            let place = script.random.below(burst.len());
            burst[place] = script.byte();
        }
        script.read(kind, &burst);
    }
}

fn cut_and_joined(script: &mut Script) {
    script.section("packets cut short, lengthened and joined");
    for kind in Kind::ALL {
        for letter in LETTERS {
            let field = script.field(letter, 4);
            let burst = assemble(kind, letter, &field);
            for length in 0..burst.len() {
                script.read(kind, &burst[..length]);
                script.read(kind, &burst[length..]);
            }
            for place in 0..burst.len() {
                let (head, tail) = burst.split_at(place);
                let byte = script.byte();
                script.read(kind, &[head, &tail[1..]].concat());
                script.read(kind, &[head, &[byte], tail].concat());
                script.read(kind, &[head, &tail[..1], tail].concat());
            }
            script.read(kind, &[&burst[..], b"\r\n"].concat());
            script.read(kind, &[&burst[..], b"\0"].concat());
            script.read(kind, &[&burst[..], &burst].concat());
        }
        let message = script.message(LONGEST);
        let burst = assemble(kind, b'0', &message);
        for place in [0, 1, 2, 50, 97, 98, 99] {
            let (head, tail) = burst.split_at(place);
            script.read(kind, &[head, &tail[1..]].concat());
            script.read(kind, &[head, &tail[..1], tail].concat());
        }
    }
}

fn several_conditions_of_reading(script: &mut Script) {
    script.section("bursts under which any set of the conditions 2 to 7 holds");
    for set in 0..64u8 {
        let holds = |number: u8| set >> (number - 2) & 1 == 1;
        for kind in Kind::ALL {
            for known in [b'0', b'A', b'E'] {
                let field: &[u8] = match (known, holds(4), holds(5)) {
                    (b'0', true, _) => b"",
                    (b'0', false, false) => b"OK",
                    (b'0', false, true) => b"O\x1F",
                    (b'A', false, false) => b"8",
                    (b'A', false, true) => b"9",
                    (b'A', true, false) => b"08",
                    (b'A', true, true) => b"0\xFF",
                    (_, false, _) => b"",
                    (_, true, false) => b"0",
                    (_, true, true) => b"\x7F\x80",
                };
                let letter = match holds(3) {
                    true => *script.random.pick(b"XeC2/@\x00\x03\xB0\xC5"),
                    false => known,
                };
                let mut burst = assemble(kind, letter, field);
                let end = burst.len() - 2;
                if holds(6) {
                    burst[end] = script.other(ETX);
                    burst[end + 1] = kind.check(&burst[1..=end])[0];
                }
                if holds(7) {
                    burst[end + 1] = script.other(burst[end + 1]);
                }
                if holds(2) {
                    burst[0] = script.other(STX);
                }
                script.read(kind, &burst);
            }
        }
    }
    script.section("bursts too short or too long with other conditions");
    for number in 0..30usize {
        let kind = turn(number);
        let mut short = script.packet(kind, 5);
        short.truncate(number % 4);
        if let Some(first) = short.first_mut().filter(|_| number % 3 == 0) {
            *first = script.other(STX);
        }
        script.read(kind, &short);
        let letter = *script.random.pick(b"01ABERX\x00\xFF");
        let field = script.run_of(
            97 + number % 5,
            0x00,
            if number % 2 == 0 { 0xFF } else { 0x7E },
        );
        let mut long = assemble(kind, letter, &field);
        let place = *script.random.pick(&[0, 1, 98, 100]);
        long[place] = script.byte();
        script.read(kind, &long);
    }
}

fn several_conditions_of_writing(script: &mut Script) {
    script.section("writes under which any set of the conditions 3, 4, 5 and 29 holds");
    for set in 0..16u8 {
        let [letter_holds, length_holds, byte_holds, room_holds] =
            [1, 2, 4, 8].map(|bit| set & bit != 0);
        for kind in Kind::ALL {
            for known in LETTERS {
                let mut field = match (known, length_holds) {
                    (b'0' | b'1', true) => script.message(97),
                    (b'A' | b'B', true) => b"08".to_vec(),
                    (_, true) => b" ".to_vec(),
                    (_, false) => script.field(known, 6),
                };
                if let Some(byte) = field.last_mut().filter(|_| byte_holds) {
                    *byte = *script.random.pick(&[0x00, 0x1F, 0x7F, 0x80, 0xFF]);
                }
                let letter = match letter_holds {
                    true => *script.random.pick(b"XeC2/@\x00\x03\xB0\xC5"),
                    false => known,
                };
                let exact = 4 + field.len();
                let size = match room_holds {
                    true => script.random.below(exact),
                    false => exact + script.random.pick(&[0, 0, 1, 100]),
                };
                script.write_sized(kind, letter, &field, size);
            }
        }
    }
}

fn hexadecimal_cases(script: &mut Script) {
    script.section("hexadecimal digits in lower, upper and mixed case");
    for case in [Case::Lower, Case::Upper, Case::Mixed, Case::Mixed] {
        for number in 0..12usize {
            let kind = turn(number);
            let name = kind.name().as_bytes();
            let field = script.run_of(1 + number * 2, 0x4A, 0x4F);
            let burst = assemble(kind, b'0', &field);
            let burst = script.bytes(case, &burst);
            script.words(&[b"packet read", name, &burst]);
            let letter = *script.random.pick(b"01\xAB\xFF\xCD\x4E");
            let letter = script.bytes(case, &[letter]);
            let field = script.bytes(case, &field);
            script.words(&[b"packet write", name, &letter, &field]);
        }
    }
}

fn texts(script: &mut Script) {
    script.section("text after an apostrophe");
    for text in words::TEXTS.split('|') {
        for letter in [b'0', b'A', b'E', b'X'] {
            let kind = script.kind();
            script.write_text(kind, letter, text.as_bytes());
        }
        let kind = script.kind();
        script.read_text(kind, text.as_bytes());
        script.read_text(kind, &assemble(kind, b'1', text.as_bytes()));
    }
    script.section("long text with spaces");
    for length in [94, 95, 96, 97, 98, 200] {
        for kind in Kind::ALL {
            let mut text = script.message(length);
            script.write_text(kind, b'0', &text);
            text[0] = b' ';
            text[length / 2..length / 2 + 3].fill(b' ');
            text[length - 1] = b' ';
            script.write_text(kind, b'1', &text);
            script.read_text(kind, &assemble(kind, b'0', &text));
            script.write_text(kind, b'1', &vec![b' '; length]);
        }
    }
    script.section("packets as text");
    for kind in Kind::ALL {
        for letter in LETTERS {
            for _ in 0..3 {
                let field = script.field(letter, 30);
                let burst = assemble(kind, letter, &field);
                script.read_text(kind, &burst);
                script.read_text(kind, &[&burst[..], b" "].concat());
                script.read_text(kind, &[b" ", &burst[..]].concat());
            }
        }
    }
    script.section("every byte as text");
    for byte in line_bytes() {
        script.write_text(turn(byte), b'0', &[byte]);
        script.write_text(turn(byte), b'A', &[byte]);
        let kind = turn(byte);
        script.read_text(kind, &assemble(kind, b'1', &[byte]));
    }
}

fn spaces(script: &mut Script) {
    script.section("spaces before, between and after the words");
    for number in 0..60usize {
        let kind = turn(number);
        let name = kind.name().as_bytes();
        let letter = *script.random.pick(&LETTERS);
        let field = script.field(letter, 10);
        let burst = assemble(kind, letter, &field);
        let burst = script.bytes(Case::Mixed, &burst);
        script.spaced(&[b"packet", b"read", name, &burst]);
        let letter = script.bytes(Case::Upper, &[letter]);
        let text = [b"'", &field[..]].concat();
        let field = script.bytes(Case::Lower, &field);
        let size = script.random.pick(&["0", "6", "104", "65536"]).as_bytes();
        script.spaced(&[b"packet", b"write", name, &letter, &field]);
        script.spaced(&[b"packet", b"write", name, &letter, &field, size]);
        script.spaced(&[b"packet", b"write", name, &letter, &text]);
    }
}

fn unknown_commands(script: &mut Script) {
    script.section("unknown first words");
    for word in words::FIRST.split(' ') {
        script.words(&[word.as_bytes()]);
        script.words(&[word.as_bytes(), b"read sum 024503C8"]);
        script.spaced(&[word.as_bytes(), b"write", b"sum", b"45", b"-"]);
    }
    script.section("unknown second words");
    for word in words::SECOND.split(' ') {
        script.words(&[b"packet", word.as_bytes()]);
        script.words(&[b"packet", word.as_bytes(), b"sum 024503C8"]);
        script.spaced(&[b"packet", word.as_bytes(), b"xor", b"45", b"-", b"104"]);
    }
    script.section("a right line after a wrong one");
    for wrong in [
        "pack",
        "packet",
        "packet read sum 0",
        "packet write sum 45 - 104 '",
        "'",
    ] {
        script.line(wrong);
        script.line("packet write sum 30 'OK");
        script.line(wrong);
        script.line("packet read sum 024503C8");
    }
}

fn too_few_and_too_many_words(script: &mut Script) {
    script.section("too few words");
    let whole: [&[&[u8]]; 4] = [
        &[b"packet", b"read", b"sum"],
        &[b"packet", b"read", b"xor"],
        &[b"packet", b"write", b"sum", b"45"],
        &[b"packet", b"write", b"xor", b"FF"],
    ];
    for words in whole {
        for count in 1..=words.len() {
            script.words(&words[..count]);
            script.words(&[&words[..count], &[b""]].concat());
            for _ in 0..3 {
                script.spaced(&words[..count]);
            }
        }
    }
    script.section("too many words");
    for extra in words::LEFT_OVER.split('|') {
        let extra = extra.as_bytes();
        script.words(&[b"packet read sum 024503C8", extra]);
        script.spaced(&[b"packet", b"read", b"xor", b"-", extra]);
        script.words(&[b"packet write sum 45 - 104", extra]);
        script.spaced(&[b"packet", b"write", b"xor", b"58", b"00", b"0", extra]);
        // Here the word stands for SIZE.
        script.words(&[b"packet write sum 45 -", extra]);
    }
    for line in [
        "packet read sum 02 45 03 C8",
        "packet read sum 024503 C8",
        "packet read sum 0245 03C8 ",
        "packet read sum 024503C8 G",
        "packet read sum 02 '",
        "packet read sum - '",
        "packet write sum 30 4F 4B",
        "packet write sum 30 4F 4",
        "packet write sum 30 4F 4 4",
        "packet write sum 30 - 'OK",
        "packet write sum 30 4F4B 104 'OK",
        "packet write sum 45 - 4 4",
        "packet write sum 45 - 4 4 4",
    ] {
        script.line(line);
    }
}

fn wrong_arguments(script: &mut Script) {
    script.section("wrong words for KIND");
    for word in words::KIND.split(' ') {
        let word = word.as_bytes();
        script.words(&[b"packet read", word]);
        script.words(&[b"packet read", word, b"024503C8"]);
        script.words(&[b"packet write", word, b"45 -"]);
        script.spaced(&[b"packet", b"write", word, b"G", b"0", b"65537x", b"x"]);
    }
    script.section("wrong words for LETTER");
    for word in words::LETTER.split(' ') {
        let word = word.as_bytes();
        script.words(&[b"packet write sum", word]);
        script.words(&[b"packet write sum", word, b"-"]);
        script.spaced(&[b"packet", b"write", b"xor", word, b"0", b"65537x", b"x"]);
    }
    script.section("wrong words for BYTES and FIELD");
    for word in words::BYTES.split(' ') {
        let word = word.as_bytes();
        script.words(&[b"packet read sum", word]);
        script.words(&[b"packet write xor 30", word]);
        script.words(&[b"packet write sum 45", word, b"104"]);
        script.spaced(&[b"packet", b"read", b"xor", word, b"x"]);
    }
    script.section("words for SIZE, right and wrong");
    for word in iter::once("").chain(words::SIZE.split(' ')) {
        let word = word.as_bytes();
        script.words(&[b"packet write sum 45 -", word]);
        script.spaced(&[b"packet", b"write", b"xor", b"30", b"4f4b", word]);
        script.words(&[b"packet write xor 58 00", word]);
        script.spaced(&[b"packet", b"write", b"sum", b"41", b"37", word, b"x"]);
    }
}

fn first_wrong_word(script: &mut Script) {
    script.section("lines of right and wrong words: the first wrong one decides");
    let write: [[&[u8]; 2]; 7] = [
        [b"packet", b"packets"],
        [b"write", b"wrote"],
        [b"sum", b"sun"],
        [b"41", b"4"],
        [b"38", b"3x"],
        [b"104", b"65537x"],
        [b"x", b"'"],
    ];
    let read: [[&[u8]; 2]; 5] = [
        [b"packet", b"Packet"],
        [b"read", b"raed"],
        [b"xor", b"nor"],
        [b"024503C6", b"024503C"],
        [b"0", b"\r"],
    ];
    for words in [&write[..], &read] {
        for count in 1..=words.len() {
            for set in 0..1usize << count {
                let line: Vec<&[u8]> = (0..count)
                    .map(|index| words[index][set >> index & 1])
                    .collect();
                script.words(&line);
            }
        }
    }
}

fn foreign_bytes(script: &mut Script) {
    script.section("every byte as a line of its own");
    for byte in line_bytes() {
        script.line([byte]);
    }
    script.section("every byte as a hexadecimal digit of LETTER and of BYTES");
    for byte in line_bytes() {
        script.joined(&[b"packet write sum ", &[byte], b"1 'OK"]);
        script.joined(&[b"packet write xor 4", &[byte], b" 30"]);
        script.joined(&[b"packet write sum 30 ", &[byte], b"5"]);
        script.joined(&[b"packet write xor 30 4", &[byte]]);
    }
    script.section("every byte as SIZE and beside it");
    for byte in line_bytes() {
        script.joined(&[b"packet write xor 45 - ", &[byte]]);
        script.joined(&[b"packet write sum 45 - 1", &[byte]]);
    }
    script.section("bytes set into the words of right lines");
    let lines: [&[u8]; 4] = [
        b"packet read sum 02304F4B03CD",
        b"packet write xor 30 4F4B 104",
        b"packet write sum 31 'fire in hall 2",
        b"packet read xor 024503C6",
    ];
    for line in lines {
        for byte in [0x00, 0x09, 0x0B, 0x0D, 0x1F, 0x7F, 0x80, 0x85, 0xA0, 0xFF] {
            for _ in 0..8 {
                let (head, tail) = line.split_at(script.random.below(line.len() + 1));
                script.joined(&[head, &[byte], tail]);
            }
        }
        script.joined(&[line, b"\r"]);
        script.joined(&[b"\xEF\xBB\xBF", line]);
        // A tab in place of each space, then of all.
        let mut tabs = line.to_vec();
        for place in (0..line.len()).filter(|&place| line[place] == b' ') {
            let mut tab = line.to_vec();
            tab[place] = b'\t';
            script.line(&tab);
            tabs[place] = b'\t';
        }
        script.line(&tabs);
    }
}

fn comments_and_blank_lines(script: &mut Script) {
    script.section("comments, blank lines, and lines that are neither");
    for line in words::LINES.split('|') {
        script.line(line);
        script.line("packet read xor 024503C6");
    }
}

fn line_lengths(script: &mut Script) {
    script.section("right lines of telling lengths, filled with spaces");
    for power in 6..=13 {
        for length in [(1usize << power) - 1, 1 << power, (1 << power) + 1] {
            let (head, tail) = (b"packet read sum", b"024503C8");
            let spaces = vec![b' '; length - head.len() - tail.len()];
            script.joined(&[head, &spaces, tail]);
        }
    }
    script.section("long words, comments and blank lines");
    let zeros = vec![b'0'; 3000];
    script.joined(&[b"packet write sum 45 - ", &zeros, b"104"]);
    script.joined(&[b"packet write sum 45 - ", &zeros, b"3"]);
    script.joined(&[b"packet write sum 45 - ", &zeros, b"65537"]);
    script.joined(&[b"packet write sum 45 - 1", &zeros]);
    script.joined(&[b"packet write sum 45 - 1", &zeros, b"x"]);
    script.joined(&[b"packet write sum 45 ", &zeros]);
    script.joined(&[b"packet write sum 45 ", &zeros, b"0"]);
    script.joined(&[b"packet write sum ", &zeros, b"45 -"]);
    script.joined(&[b"packet read sum ", &zeros]);
    script.joined(&[b"packet read sum ", &zeros, b"0"]);
    script.joined(&[b"packet read sum ", &zeros, b" x"]);
    script.joined(&[b"packet read sum", &zeros, b" 024503C8"]);
    script.joined(&[b"packet", &zeros]);
    script.joined(&[b"#", &zeros]);
    script.line([b' '; 5000]);
    script.section("lines of over 100,000 bytes");
    let burst = script.run_of(50_100, 0x00, 0xFF);
    let burst = script.bytes(Case::Mixed, &burst);
    script.words(&[b"packet read sum", &burst]);
    let text = script.message(100_100);
    script.write_text(Kind::Xor, b'0', &text);
}

fn random_packets(script: &mut Script) {
    script.section("random packets, read and written in every manner");
    for _ in 0..300 {
        let kind = script.kind();
        let name = kind.name().as_bytes();
        let letter = *script.random.pick(b"E01AB01R");
        let field = script.field(letter, LONGEST);
        let burst = assemble(kind, letter, &field);
        let case = *script.random.pick(&[Case::Upper, Case::Lower, Case::Mixed]);
        let letter = script.bytes(case, &[letter]);
        let bytes = script.bytes(case, &field);
        let text = [b"'", &field[..]].concat();
        match script.random.below(5) {
            0 => script.read_text(kind, &burst),
            1 => {
                let burst = script.bytes(case, &burst);
                script.spaced(&[b"packet", b"read", name, &burst]);
            }
            2 => script.spaced(&[b"packet", b"write", name, &letter, &bytes]),
            3 => script.spaced(&[b"packet", b"write", name, &letter, &text]),
            _ => {
                let size = burst.len() - 1 + script.random.below(3);
                let size = size.to_string();
                script.spaced(&[b"packet", b"write", name, &letter, &bytes, size.as_bytes()]);
            }
        }
    }
    script.section("random bursts");
    for number in 0..200usize {
        let length = script.random.below(12);
        let mut burst = script.run_of(length, 0x00, 0xFF);
        let likely = [STX, *script.random.pick(&LETTERS), 0x35];
        let count = length.min(number % 4);
        burst[..count].copy_from_slice(&likely[..count]);
        script.read(turn(number), &burst);
    }
    script.section("random writes");
    for number in 0..200usize {
        let letter = *script.random.pick(b"E01ABRX");
        let length = script.random.below(4);
        let field: Vec<u8> = (0..length).map(|_| *script.random.pick(&EDGES)).collect();
        let size = script.random.below(12);
        script.write_sized(turn(number), letter, &field, size);
    }
}

fn random_lines(script: &mut Script) {
    script.section("lines of random words");
    let vocabulary: Vec<&str> = words::LIKELY.split(' ').collect();
    for number in 0..300usize {
        let right: &[&[u8]] = match number % 4 {
            0 => &[b"packet", b"read", b"sum"],
            1 => &[b"packet", b"write", b"xor"],
            2 => &[b"packet"],
            _ => &[b"packet", b"write", b"sum", b"31"],
        };
        let mut words = right.to_vec();
        for _ in 0..script.random.below(5) {
            let word = *script.random.pick(&vocabulary);
            words.push(word.as_bytes());
        }
        script.spaced(&words);
    }
    script.section("right lines with bytes altered, set in, left out and doubled");
    let lines: [&[u8]; 6] = [
        b"packet read sum 02304F4B03CD",
        b"packet read xor 024503C6",
        b"packet write xor 30 4F4B 104",
        b"packet write sum 45 -",
        b"packet write sum 41 37 5",
        b"packet write sum 31 'fire in hall 2",
    ];
    let bytes = b" -'#0123456789ABCDEFabcdefgG\t\r\0\x80\xFF";
    for number in 0..500 {
        let mut line = lines[number % lines.len()].to_vec();
        for _ in 0..1 + script.random.below(2) {
            let place = script.random.below(line.len());
            let byte = *script.random.pick(bytes);
            match script.random.below(4) {
                0 => line[place] = byte,
                1 => line.insert(place, byte),
                2 => line.insert(place, line[place]),
                _ => drop(line.remove(place)),
            }
        }
        script.line(line);
    }
}

#[cfg(test)]
mod tests {
    use super::*;
    use crate::generate::tests::answers;
    use std::collections::BTreeMap;

    #[test]
    fn the_script_is_whole() {
        let script = packets();
        assert_eq!(script, packets());
        assert!(script.len() < 1_500_000);
        assert!(script.ends_with(b"\npacket read sum 024503C8"));
        assert!(answers(&script).len() >= 2_500);
        let lines = script.split(|&byte| byte == b'\n');
        assert_eq!(lines.filter(|line| line.len() > 100_000).count(), 2);
    }

    #[test]
    fn every_line_is_answered_and_every_answer_occurs() {
        let answers = answers(&packets());
        // By command and answer, packets being counted whatever their bytes.
        let mut counts: BTreeMap<(bool, &str), usize> = BTreeMap::new();
        for (command, answer) in &answers {
            let write = command.windows(6).any(|word| word == b"write ");
            let answer = match answer.split_once('=') {
                Some((name, _)) => name,
                None => answer,
            };
            *counts.entry((write, answer)).or_default() += 1;
        }
        let (_, last) = answers.last().unwrap();
        assert_eq!(last, "letter=E place=2 length=0 field=-");

        for answer in [
            "letter",
            "refused 1",
            "refused 2",
            "refused 3",
            "refused 4",
            "refused 5",
            "refused 6",
            "refused 7",
        ] {
            assert!(counts[&(false, answer)] >= 100, "{answer}");
        }
        for answer in [
            "length",
            "refused 3",
            "refused 4",
            "refused 5",
            "refused 29",
            "error: unknown command",
            "error: too few words",
            "error: KIND is sum or xor",
            "error: LETTER is one byte in hexadecimal",
            "error: BYTES are pairs of hexadecimal digits",
            "error: SIZE is a decimal number",
            "error: too many words",
        ] {
            assert!(counts[&(true, answer)] >= 20, "{answer}");
        }
    }
}
