//! The inputs: bytes in an encoding, the same in every run.

use crate::data::{Encoding, Indexes};
use crate::text::{self, Characters, Language};
use std::collections::HashMap;
use support::random::Random;

use Encoding::*;
use Language::*;

#[derive(Clone, Copy, Debug, PartialEq, Eq)]
pub enum Kind {
    Ascii,
    /// English, and a phrase of the language in each line.
    Sparse(Language),
    /// An options list.
    List(Language),
    Dense(Language),
    /// Dense text, 1 % of its bytes replaced.
    Damaged(Language),
    Random,
}

#[derive(Clone)]
pub struct Input {
    pub name: String,
    pub encoding: Encoding,
    pub kind: Kind,
}

impl Input {
    /// Text without an error, which iconv reads alike.
    pub fn valid(&self) -> bool {
        !matches!(self.kind, Kind::Damaged(_) | Kind::Random)
    }
}

fn language(encoding: Encoding) -> Language {
    match encoding {
        Windows1251 => Russian,
        Windows1252 => French,
        Gbk => Chinese,
        Gb18030 => ChineseRare,
        Big5 => Taiwanese,
        EucKr => Korean,
        Iso2022Jp => JapaneseFullWidth,
        Utf8 | EucJp | ShiftJis | Utf16Le => Japanese,
    }
}

/// Every input of the table.
pub fn inputs() -> Vec<Input> {
    let mut inputs = Vec::new();
    let mut add = |encoding: Encoding, part: &str, kind| {
        inputs.push(Input {
            name: format!("{}-{part}", encoding.name()),
            encoding,
            kind,
        })
    };
    for encoding in [Utf8, Windows1252, ShiftJis, Gbk] {
        add(encoding, "ascii", Kind::Ascii);
    }
    for encoding in [Utf8, Windows1252, ShiftJis, Gbk] {
        add(encoding, "sparse", Kind::Sparse(language(encoding)));
    }
    for encoding in crate::data::ENCODINGS {
        add(encoding, "list", Kind::List(language(encoding)));
    }
    for (part, language) in [
        ("french", French),
        ("russian", Russian),
        ("japanese", Japanese),
        ("mixed", Mixed),
    ] {
        add(Utf8, part, Kind::Dense(language));
    }
    for encoding in crate::data::ENCODINGS {
        if encoding != Utf8 {
            add(encoding, "dense", Kind::Dense(language(encoding)));
        }
    }
    for encoding in crate::data::ENCODINGS {
        add(encoding, "damaged", Kind::Damaged(language(encoding)));
    }
    for encoding in crate::data::ENCODINGS {
        add(encoding, "random", Kind::Random);
    }
    inputs
}

/// Writes scalars as bytes of an encoding.
struct Writer {
    encoding: Encoding,
    /// The bytes of a scalar, the first in the highest place.
    codes: HashMap<u32, u32>,
    ranges: Vec<(u32, u32)>,
    /// ISO-2022-JP: two-byte characters follow.
    double: bool,
}

impl Writer {
    fn new(encoding: Encoding, indexes: &Indexes) -> Writer {
        let tables = indexes.tables(encoding);
        let mut codes = HashMap::new();
        let mut enter = |pointers: std::ops::Range<usize>, index: &[u32], code: fn(u32) -> u32| {
            for pointer in pointers {
                if index[pointer] != 0 {
                    codes.entry(index[pointer]).or_insert(code(pointer as u32));
                }
            }
        };
        match encoding {
            Utf8 | Utf16Le => {}
            Windows1251 => enter(0..128, tables.first, |pointer| pointer + 0x80),
            Windows1252 => enter(0..128, &indexes.windows_1252, |pointer| pointer + 0x80),
            Gbk | Gb18030 => enter(0..23940, tables.first, |pointer| {
                let trail = pointer % 190;
                let offset = if trail < 0x3F { 0x40 } else { 0x41 };
                ((pointer / 190 + 0x81) << 8) | (trail + offset)
            }),
            Big5 => {
                let first_level = 5495;
                for pointers in [first_level..19782, 5024..first_level] {
                    enter(pointers, tables.first, |pointer| {
                        let trail = pointer % 157;
                        let offset = if trail < 0x3F { 0x40 } else { 0x62 };
                        ((pointer / 157 + 0x81) << 8) | (trail + offset)
                    });
                }
            }
            EucJp => enter(0..8836, tables.first, |pointer| {
                ((pointer / 94 + 0xA1) << 8) | (pointer % 94 + 0xA1)
            }),
            Iso2022Jp => enter(0..8836, tables.first, |pointer| {
                ((pointer / 94 + 0x21) << 8) | (pointer % 94 + 0x21)
            }),
            ShiftJis => enter(0..8272, tables.first, |pointer| {
                let (lead, trail) = (pointer / 188, pointer % 188);
                let lead = lead + if lead < 0x1F { 0x81 } else { 0xC1 };
                let offset = if trail < 0x3F { 0x40 } else { 0x41 };
                (lead << 8) | (trail + offset)
            }),
            EucKr => enter(0..23940, tables.first, |pointer| {
                ((pointer / 190 + 0x81) << 8) | (pointer % 190 + 0x41)
            }),
        }
        for half_width in 0xFF61..=0xFF9F {
            let byte = half_width - 0xFF61 + 0xA1;
            match encoding {
                ShiftJis => drop(codes.insert(half_width, byte)),
                EucJp => drop(codes.insert(half_width, 0x8E00 | byte)),
                _ => {}
            }
        }
        let ranges = tables.second.chunks_exact(2);
        Writer {
            encoding,
            codes,
            ranges: match encoding {
                Gb18030 => ranges.map(|pair| (pair[0], pair[1])).collect(),
                _ => Vec::new(),
            },
            double: false,
        }
    }

    /// The four bytes that gb18030 has for a scalar that is not in its index.
    fn four_bytes(&self, scalar: u32) -> [u8; 4] {
        let below = self
            .ranges
            .partition_point(|&(_, code_point)| code_point <= scalar);
        let (start, code_point) = self.ranges[below - 1];
        let pointer = start + scalar - code_point;
        [
            (pointer / 12600 + 0x81) as u8,
            (pointer / 1260 % 10 + 0x30) as u8,
            (pointer / 10 % 126 + 0x81) as u8,
            (pointer % 10 + 0x30) as u8,
        ]
    }

    fn write(&mut self, scalar: u32, bytes: &mut Vec<u8>) {
        let character = char::from_u32(scalar).expect("a scalar");
        match self.encoding {
            Utf8 => bytes.extend(character.encode_utf8(&mut [0; 4]).as_bytes()),
            Utf16Le => {
                for unit in character.encode_utf16(&mut [0; 2]) {
                    bytes.extend(unit.to_le_bytes());
                }
            }
            _ => {
                let double = scalar >= 0x80;
                if self.encoding == Iso2022Jp && double != self.double {
                    bytes.extend(if double { b"\x1B$B" } else { b"\x1B(B" });
                    self.double = double;
                }
                if !double {
                    bytes.push(scalar as u8);
                } else if let Some(&code) = self.codes.get(&scalar) {
                    if code > 0xFF {
                        bytes.push((code >> 8) as u8);
                    }
                    bytes.push(code as u8);
                } else if self.encoding == Gb18030 {
                    bytes.extend(self.four_bytes(scalar));
                } else {
                    panic!("{} has no {character}", self.encoding.name());
                }
            }
        }
    }
}

/// The bytes of an input: as many as asked for, or some more to end a line.
pub fn make(input: &Input, indexes: &Indexes, size: usize) -> Vec<u8> {
    let random = &mut Random::of(&input.name);
    let characters = Characters::of(indexes);
    let mut writer = Writer::new(input.encoding, indexes);
    let mut bytes = Vec::with_capacity(size + 4096);
    let mut text = Vec::new();
    while bytes.len() < size {
        match input.kind {
            Kind::Random => bytes.extend(random.number().to_le_bytes()),
            Kind::Ascii => text::line(&characters, English, random, &mut text),
            Kind::Sparse(language) => {
                characters.phrase(language, random, &mut text);
                text::line(&characters, English, random, &mut text)
            }
            Kind::List(language) => text::option(&characters, language, random, &mut text),
            Kind::Dense(language) | Kind::Damaged(language) => {
                text::line(&characters, language, random, &mut text)
            }
        }
        for scalar in text.drain(..) {
            writer.write(scalar, &mut bytes);
        }
    }
    if matches!(input.kind, Kind::Damaged(_)) {
        for _ in 0..bytes.len() / 100 {
            let place = random.below(bytes.len());
            bytes[place] = random.number() as u8;
        }
    }
    bytes
}
