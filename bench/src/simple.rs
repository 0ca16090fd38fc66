//! A simple decoder in safe Rust that does the library's job: bytes to scalars chunk by chunk, errors replaced, tables
//! lent as slices, a started sequence held at the end of a chunk.
//!
//! Each encoding is one loop that reads whole sequences and stops before an unfinished one. The shapes are the best of
//! those tried: ASCII and UTF-16 in blocks, single-byte text through a table of 256 scalars, errors as rare branches.

use crate::data::Encoding;
use support::Tables;

const ERROR: u32 = 0xFFFD;

/// The bytes read and the scalars written.
type Done = (usize, usize);

#[derive(Clone, Copy, PartialEq, Eq)]
enum Shift {
    Ascii,
    Roman,
    Katakana,
    Double,
}

pub struct Simple<'a> {
    encoding: Encoding,
    first: &'a [u32],
    second: &'a [u32],
    ranges_sorted: bool,
    held: [u8; 3],
    held_length: usize,
    shift: Shift,
    /// ISO-2022-JP: an escape was the last sequence.
    escaped: bool,
}

impl<'a> Simple<'a> {
    pub fn open(encoding: Encoding, tables: Tables<'a>) -> Simple<'a> {
        let pairs = tables.second.chunks_exact(2);
        Simple {
            encoding,
            first: tables.first,
            second: tables.second,
            ranges_sorted: pairs.map(|pair| pair[0]).is_sorted(),
            held: [0; 3],
            held_length: 0,
            shift: Shift::Ascii,
            escaped: false,
        }
    }

    #[inline(never)]
    pub fn feed(&mut self, chunk: &[u8], room: &mut [u32]) -> usize {
        let mut start = 0;
        let mut before = 0;
        let held = self.held_length;
        if held > 0 {
            let taken = chunk.len().min(4);
            let mut joined = [0; 8];
            joined[..held].copy_from_slice(&self.held[..held]);
            joined[held..held + taken].copy_from_slice(&chunk[..taken]);
            let (read, written) = self.decode(&joined[..held + taken], room);
            if taken == chunk.len() {
                self.hold(&joined[read..held + taken]);
                return written;
            }
            start = read - held;
            before = written;
        }
        let (read, written) = self.decode(&chunk[start..], &mut room[before..]);
        self.hold(&chunk[start + read..]);
        before + written
    }

    pub fn finish(&mut self, room: &mut [u32]) -> usize {
        let held = std::mem::take(&mut self.held_length);
        if held == 0 {
            return 0;
        }
        room[0] = ERROR;
        if self.encoding != Encoding::Iso2022Jp || self.held[0] != 0x1B || held == 1 {
            return 1;
        }
        let after = [self.held[1]];
        let (read, written) = self.decode(&after, &mut room[1..]);
        if read == 0 {
            room[1] = ERROR;
            return 2;
        }
        1 + written
    }

    fn hold(&mut self, rest: &[u8]) {
        self.held[..rest.len()].copy_from_slice(rest);
        self.held_length = rest.len();
    }

    fn decode(&mut self, bytes: &[u8], room: &mut [u32]) -> Done {
        match self.encoding {
            Encoding::Utf8 => utf8(bytes, room),
            Encoding::Windows1251 => single_byte(self.first, bytes, room),
            Encoding::Windows1252 => windows_1252(bytes, room),
            Encoding::Gbk | Encoding::Gb18030 => self.gb18030(bytes, room),
            Encoding::Big5 => big5(self.first, bytes, room),
            Encoding::EucJp => euc_jp(self.first, self.second, bytes, room),
            Encoding::Iso2022Jp => self.iso_2022_jp(bytes, room),
            Encoding::ShiftJis => shift_jis(self.first, bytes, room),
            Encoding::EucKr => euc_kr(self.first, bytes, room),
            Encoding::Utf16Le => utf_16le(bytes, room),
        }
    }

    fn gb18030(&self, bytes: &[u8], room: &mut [u32]) -> Done {
        let mut at = 0;
        let mut out = 0;
        while at < bytes.len() {
            let lead = bytes[at];
            if lead < 0x80 {
                let run = ascii(&bytes[at..], &mut room[out..]);
                at += run;
                out += run;
                continue;
            }
            if lead == 0x80 || lead == 0xFF {
                room[out] = if lead == 0x80 { 0x20AC } else { ERROR };
                at += 1;
                out += 1;
                continue;
            }
            let Some(&trail) = bytes.get(at + 1) else {
                break;
            };
            if (0x30..=0x39).contains(&trail) {
                let Some(&third) = bytes.get(at + 2) else {
                    break;
                };
                let mut found = None;
                let mut width = 1;
                if (0x81..=0xFE).contains(&third) {
                    let Some(&fourth) = bytes.get(at + 3) else {
                        break;
                    };
                    if (0x30..=0x39).contains(&fourth) {
                        let pointer = (u32::from(lead) - 0x81) * 12600
                            + (u32::from(trail) - 0x30) * 1260
                            + (u32::from(third) - 0x81) * 10
                            + u32::from(fourth)
                            - 0x30;
                        found = self.range(pointer);
                        width = 4;
                    }
                }
                room[out] = found.unwrap_or(ERROR);
                at += width;
                out += 1;
                continue;
            }
            let mut found = None;
            if (0x40..=0xFE).contains(&trail) && trail != 0x7F {
                let offset = 0x40 + usize::from(trail >= 0x7F);
                let pointer = (usize::from(lead) - 0x81) * 190 + usize::from(trail) - offset;
                found = cell(self.first, pointer);
            }
            at += match found {
                Some(scalar) => {
                    room[out] = scalar;
                    2
                }
                None => 1 + error(&mut room[out], trail),
            };
            out += 1;
        }
        (at, out)
    }

    /// The code point of a four-byte sequence.
    fn range(&self, pointer: u32) -> Option<u32> {
        if (pointer > 39419 && pointer < 189000) || pointer > 1237575 {
            return None;
        }
        if pointer == 7457 {
            return Some(0xE7C7);
        }
        let pairs = self.second.as_chunks::<2>().0;
        let [start, code_point] = if self.ranges_sorted {
            let below = pairs.partition_point(|pair| pair[0] <= pointer);
            *pairs.get(below.checked_sub(1)?)?
        } else {
            *pairs.iter().rev().find(|pair| pair[0] <= pointer)?
        };
        mapped(code_point.checked_add(pointer - start)?)
    }

    fn iso_2022_jp(&mut self, bytes: &[u8], room: &mut [u32]) -> Done {
        let mut at = 0;
        let mut out = 0;
        while at < bytes.len() {
            if bytes[at] == 0x1B {
                let Some((width, shift)) = escape(&bytes[at..]) else {
                    break;
                };
                if shift.is_none() || self.escaped {
                    room[out] = ERROR;
                    out += 1;
                }
                self.escaped = shift.is_some();
                self.shift = shift.unwrap_or(self.shift);
                at += width;
                continue;
            }
            let (read, written) = match self.shift {
                Shift::Ascii => one_byte(&bytes[at..], &mut room[out..], |byte| match byte {
                    0x0E | 0x0F | 0x80.. => ERROR,
                    _ => byte.into(),
                }),
                Shift::Roman => one_byte(&bytes[at..], &mut room[out..], |byte| match byte {
                    0x5C => 0xA5,
                    0x7E => 0x203E,
                    0x0E | 0x0F | 0x80.. => ERROR,
                    _ => byte.into(),
                }),
                Shift::Katakana => one_byte(&bytes[at..], &mut room[out..], |byte| match byte {
                    0x21..=0x5F => 0xFF61 - 0x21 + u32::from(byte),
                    _ => ERROR,
                }),
                Shift::Double => two_bytes(self.first, &bytes[at..], &mut room[out..]),
            };
            if read == 0 {
                break;
            }
            self.escaped = false;
            at += read;
            out += written;
        }
        (at, out)
    }
}

/// The escape at the front: its width, and the state that it chooses, if it chooses one.
fn escape(bytes: &[u8]) -> Option<(usize, Option<Shift>)> {
    let second = *bytes.get(1)?;
    if second != 0x24 && second != 0x28 {
        return Some((1, None));
    }
    let shift = match (second, *bytes.get(2)?) {
        (0x28, 0x42) => Shift::Ascii,
        (0x28, 0x4A) => Shift::Roman,
        (0x28, 0x49) => Shift::Katakana,
        (0x24, 0x40 | 0x42) => Shift::Double,
        _ => return Some((1, None)),
    };
    Some((3, Some(shift)))
}

/// Bytes up to an escape, each by itself.
#[inline(always)]
fn one_byte(bytes: &[u8], room: &mut [u32], scalar: impl Fn(u8) -> u32) -> Done {
    let mut run = 0;
    for (&byte, cell) in bytes.iter().zip(room) {
        if byte == 0x1B {
            break;
        }
        *cell = scalar(byte);
        run += 1;
    }
    (run, run)
}

/// Pairs of bytes up to an escape.
fn two_bytes(index: &[u32], bytes: &[u8], room: &mut [u32]) -> Done {
    let mut at = 0;
    let mut out = 0;
    while at < bytes.len() {
        let lead = bytes[at];
        if !(0x21..=0x7E).contains(&lead) {
            if lead == 0x1B {
                break;
            }
            room[out] = ERROR;
            at += 1;
            out += 1;
            continue;
        }
        let Some(&trail) = bytes.get(at + 1) else {
            break;
        };
        let mut found = None;
        if (0x21..=0x7E).contains(&trail) {
            let pointer = (usize::from(lead) - 0x21) * 94 + usize::from(trail) - 0x21;
            found = cell(index, pointer);
        }
        room[out] = found.unwrap_or(ERROR);
        at += if trail == 0x1B { 1 } else { 2 };
        out += 1;
    }
    (at, out)
}

/// A number that is a scalar of at least 0x80.
#[inline(always)]
fn mapped(number: u32) -> Option<u32> {
    (number >= 0x80 && char::from_u32(number).is_some()).then_some(number)
}

#[inline(always)]
fn cell(index: &[u32], pointer: usize) -> Option<u32> {
    mapped(*index.get(pointer)?)
}

/// Writes an error. The width of its sequence without the trail byte, which is read again if it is ASCII.
#[cold]
fn error(cell: &mut u32, trail: u8) -> usize {
    *cell = ERROR;
    usize::from(trail >= 0x80)
}

/// Copies the ASCII bytes at the front, eight at a time.
#[inline(always)]
fn ascii(bytes: &[u8], room: &mut [u32]) -> usize {
    let mut run = 0;
    let (eights, _) = bytes.as_chunks::<8>();
    let (cells, _) = room.as_chunks_mut::<8>();
    for (eight, cells) in eights.iter().zip(cells) {
        let high = u64::from_le_bytes(*eight) & 0x8080_8080_8080_8080;
        if high != 0 {
            let count = high.trailing_zeros() as usize / 8;
            for (cell, &byte) in cells[..count].iter_mut().zip(eight) {
                *cell = byte.into();
            }
            return run + count;
        }
        *cells = eight.map(u32::from);
        run += 8;
    }
    while run < bytes.len() && bytes[run] < 0x80 {
        room[run] = bytes[run].into();
        run += 1;
    }
    run
}

/// The sequence at the front: its width and scalar, or nothing if it is unfinished.
#[inline(always)]
fn utf8_sequence(bytes: &[u8]) -> Option<(usize, u32)> {
    let lead = bytes[0];
    let (low, high, length) = match lead {
        0x00..=0x7F => return Some((1, lead.into())),
        0xC2..=0xDF => (0x80, 0xBF, 2),
        0xE0 => (0xA0, 0xBF, 3),
        0xED => (0x80, 0x9F, 3),
        0xE1..=0xEF => (0x80, 0xBF, 3),
        0xF0 => (0x90, 0xBF, 4),
        0xF4 => (0x80, 0x8F, 4),
        0xF1..=0xF3 => (0x80, 0xBF, 4),
        _ => return Some((1, ERROR)),
    };
    let second = *bytes.get(1)?;
    if !(low..=high).contains(&second) {
        return Some((1, ERROR));
    }
    let bits = u32::from(second & 0x3F);
    if length == 2 {
        return Some((2, u32::from(lead & 0x1F) << 6 | bits));
    }
    let third = *bytes.get(2)?;
    if third & 0xC0 != 0x80 {
        return Some((2, ERROR));
    }
    let bits = bits << 6 | u32::from(third & 0x3F);
    if length == 3 {
        return Some((3, u32::from(lead & 0xF) << 12 | bits));
    }
    let fourth = *bytes.get(3)?;
    if fourth & 0xC0 != 0x80 {
        return Some((3, ERROR));
    }
    let bits = bits << 6 | u32::from(fourth & 0x3F);
    Some((4, u32::from(lead & 0x7) << 18 | bits))
}

fn utf8(bytes: &[u8], room: &mut [u32]) -> Done {
    let mut at = 0;
    let mut out = 0;
    while at < bytes.len() {
        let lead = bytes[at];
        if lead < 0x80 {
            let run = ascii(&bytes[at..], &mut room[out..]);
            at += run;
            out += run;
            continue;
        }
        let Some(&four) = bytes[at..].first_chunk::<4>() else {
            let Some((width, scalar)) = utf8_sequence(&bytes[at..]) else {
                break;
            };
            room[out] = scalar;
            at += width;
            out += 1;
            continue;
        };
        let bits = |place: usize| u32::from(four[place] & 0x3F);
        let continued = |place: usize| four[place] & 0xC0 == 0x80;
        let (width, scalar) = match lead {
            0xC2..=0xDF if continued(1) => (2, u32::from(lead & 0x1F) << 6 | bits(1)),
            0xE0..=0xEF if continued(1) && continued(2) => {
                (3, u32::from(lead & 0xF) << 12 | bits(1) << 6 | bits(2))
            }
            0xE0..=0xF4 => utf8_sequence(&four).unwrap_or((1, ERROR)),
            _ => (1, ERROR),
        };
        if width == 3 && (scalar < 0x800 || scalar & 0xF800 == 0xD800) {
            room[out] = ERROR;
            at += 1;
            out += 1;
            continue;
        }
        room[out] = scalar;
        at += width;
        out += 1;
    }
    (at, out)
}

fn single_byte(index: &[u32], bytes: &[u8], room: &mut [u32]) -> Done {
    let scalar = |byte: u8| match byte.checked_sub(0x80) {
        None => byte.into(),
        Some(pointer) => mapped(index[usize::from(pointer)]).unwrap_or(ERROR),
    };
    if bytes.len() < 512 {
        for (&byte, cell) in bytes.iter().zip(room) {
            *cell = scalar(byte);
        }
    } else {
        let table: [u32; 256] = std::array::from_fn(|byte| scalar(byte as u8));
        for (&byte, cell) in bytes.iter().zip(room) {
            *cell = table[usize::from(byte)];
        }
    }
    (bytes.len(), bytes.len())
}

/// Bytes 80 to 9F.
const WINDOWS_1252: [u32; 32] = [
    0x20AC, 0x0081, 0x201A, 0x0192, 0x201E, 0x2026, 0x2020, 0x2021, 0x02C6, 0x2030, 0x0160, 0x2039,
    0x0152, 0x008D, 0x017D, 0x008F, 0x0090, 0x2018, 0x2019, 0x201C, 0x201D, 0x2022, 0x2013, 0x2014,
    0x02DC, 0x2122, 0x0161, 0x203A, 0x0153, 0x009D, 0x017E, 0x0178,
];

/// The scalar of each byte.
const WINDOWS_1252_TABLE: [u32; 256] = {
    let mut table = [0; 256];
    let mut byte = 0;
    while byte < 256 {
        table[byte] = match byte {
            0x80..=0x9F => WINDOWS_1252[byte - 0x80],
            _ => byte as u32,
        };
        byte += 1;
    }
    table
};

fn windows_1252(bytes: &[u8], room: &mut [u32]) -> Done {
    for (&byte, cell) in bytes.iter().zip(room) {
        *cell = WINDOWS_1252_TABLE[usize::from(byte)];
    }
    (bytes.len(), bytes.len())
}

fn big5(index: &[u32], bytes: &[u8], room: &mut [u32]) -> Done {
    let mut at = 0;
    let mut out = 0;
    while at < bytes.len() {
        let lead = bytes[at];
        if lead < 0x80 {
            let run = ascii(&bytes[at..], &mut room[out..]);
            at += run;
            out += run;
            continue;
        }
        if lead == 0x80 || lead == 0xFF {
            room[out] = ERROR;
            at += 1;
            out += 1;
            continue;
        }
        let Some(&trail) = bytes.get(at + 1) else {
            break;
        };
        let offset = if trail < 0x7F { 0x40 } else { 0x62 };
        let mut found = None;
        if matches!(trail, 0x40..=0x7E | 0xA1..=0xFE) {
            let pointer = (usize::from(lead) - 0x81) * 157 + usize::from(trail) - offset;
            let pair = match pointer {
                1133 => [0xCA, 0x304],
                1135 => [0xCA, 0x30C],
                1164 => [0xEA, 0x304],
                1166 => [0xEA, 0x30C],
                _ => [0, 0],
            };
            if pair != [0, 0] {
                room[out..out + 2].copy_from_slice(&pair);
                at += 2;
                out += 2;
                continue;
            }
            found = cell(index, pointer);
        }
        at += match found {
            Some(scalar) => {
                room[out] = scalar;
                2
            }
            None => 1 + error(&mut room[out], trail),
        };
        out += 1;
    }
    (at, out)
}

fn euc_jp(jis0208: &[u32], jis0212: &[u32], bytes: &[u8], room: &mut [u32]) -> Done {
    let mut at = 0;
    let mut out = 0;
    while at < bytes.len() {
        let lead = bytes[at];
        if lead < 0x80 {
            let run = ascii(&bytes[at..], &mut room[out..]);
            at += run;
            out += run;
            continue;
        }
        if !matches!(lead, 0x8E | 0x8F | 0xA1..=0xFE) {
            room[out] = ERROR;
            at += 1;
            out += 1;
            continue;
        }
        let Some(&second) = bytes.get(at + 1) else {
            break;
        };
        let mut trail = second;
        let mut found = None;
        if (0xA1..=0xFE).contains(&second) {
            if lead >= 0xA1 {
                let pointer = (usize::from(lead) - 0xA1) * 94 + usize::from(second) - 0xA1;
                found = cell(jis0208, pointer);
            } else if lead == 0x8E {
                if second <= 0xDF {
                    found = Some(0xFF61 - 0xA1 + u32::from(second));
                }
            } else {
                let Some(&third) = bytes.get(at + 2) else {
                    break;
                };
                trail = third;
                if (0xA1..=0xFE).contains(&third) {
                    let pointer = (usize::from(second) - 0xA1) * 94 + usize::from(third) - 0xA1;
                    found = cell(jis0212, pointer);
                }
                at += 1;
            }
        }
        at += match found {
            Some(scalar) => {
                room[out] = scalar;
                2
            }
            None => 1 + error(&mut room[out], trail),
        };
        out += 1;
    }
    (at, out)
}

fn shift_jis(index: &[u32], bytes: &[u8], room: &mut [u32]) -> Done {
    let mut at = 0;
    let mut out = 0;
    while at < bytes.len() {
        let lead = bytes[at];
        if lead < 0x80 {
            let run = ascii(&bytes[at..], &mut room[out..]);
            at += run;
            out += run;
            continue;
        }
        if !matches!(lead, 0x81..=0x9F | 0xE0..=0xFC) {
            room[out] = match lead {
                0x80 => 0x80,
                0xA1..=0xDF => 0xFF61 - 0xA1 + u32::from(lead),
                _ => ERROR,
            };
            at += 1;
            out += 1;
            continue;
        }
        let lead_offset = if lead < 0xA0 { 0x81 } else { 0xC1 };
        let Some(&trail) = bytes.get(at + 1) else {
            break;
        };
        let trail_offset = 0x40 + usize::from(trail >= 0x7F);
        let mut found = None;
        if (0x40..=0xFC).contains(&trail) && trail != 0x7F {
            let pointer =
                (usize::from(lead) - lead_offset) * 188 + usize::from(trail) - trail_offset;
            found = match pointer {
                8836..=10715 => Some(0xE000 - 8836 + pointer as u32),
                _ => cell(index, pointer),
            };
        }
        at += match found {
            Some(scalar) => {
                room[out] = scalar;
                2
            }
            None => 1 + error(&mut room[out], trail),
        };
        out += 1;
    }
    (at, out)
}

fn euc_kr(index: &[u32], bytes: &[u8], room: &mut [u32]) -> Done {
    let mut at = 0;
    let mut out = 0;
    while at < bytes.len() {
        let lead = bytes[at];
        if lead < 0x80 {
            let run = ascii(&bytes[at..], &mut room[out..]);
            at += run;
            out += run;
            continue;
        }
        if lead == 0x80 || lead == 0xFF {
            room[out] = ERROR;
            at += 1;
            out += 1;
            continue;
        }
        let Some(&trail) = bytes.get(at + 1) else {
            break;
        };
        let mut found = None;
        if (0x41..=0xFE).contains(&trail) {
            let pointer = (usize::from(lead) - 0x81) * 190 + usize::from(trail) - 0x41;
            found = cell(index, pointer);
        }
        at += match found {
            Some(scalar) => {
                room[out] = scalar;
                2
            }
            None => 1 + error(&mut room[out], trail),
        };
        out += 1;
    }
    (at, out)
}

fn utf_16le(bytes: &[u8], room: &mut [u32]) -> Done {
    let mut at = 0;
    let mut out = 0;
    loop {
        while let (Some(block), Some(cells)) = (
            bytes[at..].first_chunk::<16>(),
            room[out..].first_chunk_mut::<8>(),
        ) {
            let units: [u16; 8] = std::array::from_fn(|place| {
                u16::from_le_bytes([block[2 * place], block[2 * place + 1]])
            });
            let surrogates = units.map(|unit| unit & 0xF800 == 0xD800);
            if surrogates.iter().fold(false, |any, one| any | one) {
                break;
            }
            *cells = units.map(u32::from);
            at += 16;
            out += 8;
        }
        let Some(&[low, high]) = bytes[at..].first_chunk::<2>() else {
            break;
        };
        let unit = u32::from(u16::from_le_bytes([low, high]));
        if unit & 0xF800 != 0xD800 {
            room[out] = unit;
            at += 2;
            out += 1;
            continue;
        }
        if unit >= 0xDC00 {
            room[out] = ERROR;
            at += 2;
            out += 1;
            continue;
        }
        let Some(&[low, high]) = bytes[at + 2..].first_chunk::<2>() else {
            break;
        };
        let trail = u32::from(u16::from_le_bytes([low, high]));
        if trail & 0xFC00 == 0xDC00 {
            room[out] = 0x10000 + ((unit - 0xD800) << 10) + trail - 0xDC00;
            at += 4;
        } else {
            room[out] = ERROR;
            at += 2;
        }
        out += 1;
    }
    (at, out)
}
