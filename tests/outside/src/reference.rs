//! A second implementation, written from the numbered steps of the standard's handlers: a queue of bytes, bytes
//! prepended to it, and the variables of each decoder. Around the handlers stand the calls with their refusals.

use std::collections::VecDeque;
use std::sync::OnceLock;
use support::ffi::Decoder as Record;
use support::{Tables, NO_TABLES};

/// The index of windows-1252, from its published file.
pub static WINDOWS_1252: OnceLock<Vec<u32>> = OnceLock::new();

/// Bytes to read; `None` is end-of-stream.
type Queue = VecDeque<Option<u8>>;

/// What a handler returns.
enum Outcome {
    Finished,
    Continue,
    Error,
    One(u32),
    Two(u32, u32),
}

use Outcome::{Continue, Error, Finished, One, Two};

fn prepend(queue: &mut Queue, bytes: &[u8]) {
    for &byte in bytes.iter().rev() {
        queue.push_front(Some(byte));
    }
}

pub fn is_scalar(number: u32) -> bool {
    number <= 0x10FFFF && !(0xD800..=0xDFFF).contains(&number)
}

/// The code point at a pointer of an index; null where the cell counts as unmapped.
fn index_code_point(index: &[u32], pointer: usize) -> Option<u32> {
    let cell = *index.get(pointer)?;
    (is_scalar(cell) && cell >= 0x80).then_some(cell)
}

/// The code point of a four-byte sequence of gb18030.
fn ranges_code_point(ranges: &[u32], pointer: u32) -> Option<u32> {
    if (pointer > 39419 && pointer < 189000) || pointer > 1237575 {
        return None;
    }
    if pointer == 7457 {
        return Some(0xE7C7);
    }
    let mut found = None;
    for pair in ranges.chunks_exact(2) {
        if pair[0] <= pointer {
            found = Some((pair[0], pair[1]));
        }
    }
    let (offset, code_point_offset) = found?;
    let sum = u64::from(code_point_offset) + u64::from(pointer - offset);
    let sum = u32::try_from(sum).ok()?;
    (is_scalar(sum) && sum >= 0x80).then_some(sum)
}

#[derive(Clone, Copy)]
struct Utf8 {
    code_point: u32,
    seen: u32,
    needed: u32,
    lower: u8,
    upper: u8,
}

impl Utf8 {
    const NEW: Utf8 = Utf8 {
        code_point: 0,
        seen: 0,
        needed: 0,
        lower: 0x80,
        upper: 0xBF,
    };

    fn handler(&mut self, queue: &mut Queue, byte: Option<u8>) -> Outcome {
        let Some(byte) = byte else {
            if self.needed != 0 {
                self.needed = 0;
                return Error;
            }
            return Finished;
        };
        if self.needed == 0 {
            match byte {
                0x00..=0x7F => return One(byte.into()),
                0xC2..=0xDF => {
                    self.needed = 1;
                    self.code_point = u32::from(byte & 0x1F);
                }
                0xE0..=0xEF => {
                    if byte == 0xE0 {
                        self.lower = 0xA0;
                    }
                    if byte == 0xED {
                        self.upper = 0x9F;
                    }
                    self.needed = 2;
                    self.code_point = u32::from(byte & 0xF);
                }
                0xF0..=0xF4 => {
                    if byte == 0xF0 {
                        self.lower = 0x90;
                    }
                    if byte == 0xF4 {
                        self.upper = 0x8F;
                    }
                    self.needed = 3;
                    self.code_point = u32::from(byte & 0x7);
                }
                _ => return Error,
            }
            return Continue;
        }
        if !(self.lower..=self.upper).contains(&byte) {
            *self = Utf8::NEW;
            prepend(queue, &[byte]);
            return Error;
        }
        self.lower = 0x80;
        self.upper = 0xBF;
        self.code_point = (self.code_point << 6) | u32::from(byte & 0x3F);
        self.seen += 1;
        if self.seen != self.needed {
            return Continue;
        }
        let code_point = self.code_point;
        self.code_point = 0;
        self.needed = 0;
        self.seen = 0;
        One(code_point)
    }

    /// The started sequence, from its number of bytes and its bits so far.
    fn held(&self) -> Vec<u8> {
        if self.needed == 0 {
            return Vec::new();
        }
        let mark = [0xC0, 0xE0, 0xF0][self.needed as usize - 1];
        let mut bytes = vec![mark | (self.code_point >> (6 * self.seen)) as u8];
        for place in (0..self.seen).rev() {
            bytes.push(0x80 | ((self.code_point >> (6 * place)) & 0x3F) as u8);
        }
        bytes
    }
}

#[derive(Clone, Copy)]
struct Gb18030 {
    first: u8,
    second: u8,
    third: u8,
}

impl Gb18030 {
    const NEW: Gb18030 = Gb18030 {
        first: 0,
        second: 0,
        third: 0,
    };

    fn handler(&mut self, queue: &mut Queue, byte: Option<u8>, tables: Tables) -> Outcome {
        let Some(byte) = byte else {
            if self.first == 0 && self.second == 0 && self.third == 0 {
                return Finished;
            }
            *self = Gb18030::NEW;
            return Error;
        };
        if self.third != 0 {
            if !(0x30..=0x39).contains(&byte) {
                prepend(queue, &[self.second, self.third, byte]);
                *self = Gb18030::NEW;
                return Error;
            }
            let pointer = (u32::from(self.first) - 0x81) * (10 * 126 * 10)
                + (u32::from(self.second) - 0x30) * (10 * 126)
                + (u32::from(self.third) - 0x81) * 10
                + u32::from(byte)
                - 0x30;
            *self = Gb18030::NEW;
            return match ranges_code_point(tables.second, pointer) {
                None => Error,
                Some(code_point) => One(code_point),
            };
        }
        if self.second != 0 {
            if (0x81..=0xFE).contains(&byte) {
                self.third = byte;
                return Continue;
            }
            prepend(queue, &[self.second, byte]);
            *self = Gb18030::NEW;
            return Error;
        }
        if self.first != 0 {
            if (0x30..=0x39).contains(&byte) {
                self.second = byte;
                return Continue;
            }
            let lead = usize::from(self.first);
            self.first = 0;
            let offset = if byte < 0x7F { 0x40 } else { 0x41 };
            let pointer = match byte {
                0x40..=0x7E | 0x80..=0xFE => {
                    Some((lead - 0x81) * 190 + (usize::from(byte) - offset))
                }
                _ => None,
            };
            return two_byte(queue, byte, pointer, tables.first);
        }
        match byte {
            0x00..=0x7F => One(byte.into()),
            0x80 => One(0x20AC),
            0x81..=0xFE => {
                self.first = byte;
                Continue
            }
            _ => Error,
        }
    }
}

/// The last steps that the two-byte sequences share.
fn two_byte(queue: &mut Queue, byte: u8, pointer: Option<usize>, index: &[u32]) -> Outcome {
    if let Some(code_point) = pointer.and_then(|pointer| index_code_point(index, pointer)) {
        return One(code_point);
    }
    if byte.is_ascii() {
        prepend(queue, &[byte]);
    }
    Error
}

fn end_of_lead(lead: &mut u8) -> Outcome {
    if *lead != 0 {
        *lead = 0;
        return Error;
    }
    Finished
}

fn big5(lead: &mut u8, queue: &mut Queue, byte: Option<u8>, index: &[u32]) -> Outcome {
    let Some(byte) = byte else {
        return end_of_lead(lead);
    };
    if *lead != 0 {
        let row = usize::from(*lead) - 0x81;
        *lead = 0;
        let offset = if byte < 0x7F { 0x40 } else { 0x62 };
        let pointer = match byte {
            0x40..=0x7E | 0xA1..=0xFE => Some(row * 157 + (usize::from(byte) - offset)),
            _ => None,
        };
        match pointer {
            Some(1133) => return Two(0x00CA, 0x0304),
            Some(1135) => return Two(0x00CA, 0x030C),
            Some(1164) => return Two(0x00EA, 0x0304),
            Some(1166) => return Two(0x00EA, 0x030C),
            _ => return two_byte(queue, byte, pointer, index),
        }
    }
    match byte {
        0x00..=0x7F => One(byte.into()),
        0x81..=0xFE => {
            *lead = byte;
            Continue
        }
        _ => Error,
    }
}

#[derive(Clone, Copy)]
struct EucJp {
    jis0212: bool,
    lead: u8,
}

impl EucJp {
    fn handler(&mut self, queue: &mut Queue, byte: Option<u8>, tables: Tables) -> Outcome {
        let Some(byte) = byte else {
            self.jis0212 = false;
            return end_of_lead(&mut self.lead);
        };
        if self.lead == 0x8E && (0xA1..=0xDF).contains(&byte) {
            self.lead = 0;
            return One(0xFF61 - 0xA1 + u32::from(byte));
        }
        if self.lead == 0x8F && (0xA1..=0xFE).contains(&byte) {
            self.jis0212 = true;
            self.lead = byte;
            return Continue;
        }
        if self.lead != 0 {
            let lead = self.lead;
            self.lead = 0;
            let range = 0xA1..=0xFE;
            let pointer = (range.contains(&lead) && range.contains(&byte))
                .then(|| (usize::from(lead) - 0xA1) * 94 + usize::from(byte) - 0xA1);
            let index = if self.jis0212 {
                tables.second
            } else {
                tables.first
            };
            self.jis0212 = false;
            return two_byte(queue, byte, pointer, index);
        }
        match byte {
            0x00..=0x7F => One(byte.into()),
            0x8E | 0x8F | 0xA1..=0xFE => {
                self.lead = byte;
                Continue
            }
            _ => Error,
        }
    }
}

#[derive(Clone, Copy, PartialEq, Eq)]
enum State {
    Ascii,
    Roman,
    Katakana,
    LeadByte,
    TrailByte,
    EscapeStart,
    Escape,
}

#[derive(Clone, Copy)]
struct Iso2022Jp {
    state: State,
    output_state: State,
    lead: u8,
    output: bool,
    /// The output flag as it was before the bytes held: what the record shows.
    output_before_held: bool,
}

impl Iso2022Jp {
    const NEW: Iso2022Jp = Iso2022Jp {
        state: State::Ascii,
        output_state: State::Ascii,
        lead: 0,
        output: false,
        output_before_held: false,
    };

    fn handler(&mut self, queue: &mut Queue, byte: Option<u8>, index: &[u32]) -> Outcome {
        let outcome = self.steps(queue, byte, index);
        if self.state != State::TrailByte {
            self.output_before_held = self.output;
        }
        outcome
    }

    fn steps(&mut self, queue: &mut Queue, byte: Option<u8>, index: &[u32]) -> Outcome {
        match self.state {
            State::Ascii | State::Roman | State::Katakana | State::LeadByte => self.character(byte),
            State::TrailByte => match byte {
                Some(0x1B) => {
                    self.state = State::EscapeStart;
                    Error
                }
                Some(byte @ 0x21..=0x7E) => {
                    self.state = State::LeadByte;
                    let pointer = (usize::from(self.lead) - 0x21) * 94 + usize::from(byte) - 0x21;
                    match index_code_point(index, pointer) {
                        None => Error,
                        Some(code_point) => One(code_point),
                    }
                }
                None => {
                    self.state = State::LeadByte;
                    queue.push_front(None);
                    Error
                }
                Some(_) => {
                    self.state = State::LeadByte;
                    Error
                }
            },
            State::EscapeStart => {
                if let Some(byte @ (0x24 | 0x28)) = byte {
                    self.lead = byte;
                    self.state = State::Escape;
                    return Continue;
                }
                queue.push_front(byte);
                self.output = false;
                self.state = self.output_state;
                Error
            }
            State::Escape => self.escape(queue, byte),
        }
    }

    /// The states ASCII, Roman, katakana and lead byte.
    fn character(&mut self, byte: Option<u8>) -> Outcome {
        let Some(byte) = byte else { return Finished };
        if byte == 0x1B {
            self.state = State::EscapeStart;
            return Continue;
        }
        self.output = false;
        match (self.state, byte) {
            (State::Roman, 0x5C) => One(0x00A5),
            (State::Roman, 0x7E) => One(0x203E),
            (State::Ascii | State::Roman, 0x0E | 0x0F) => Error,
            (State::Ascii | State::Roman, 0x00..=0x7F) => One(byte.into()),
            (State::Katakana, 0x21..=0x5F) => One(0xFF61 - 0x21 + u32::from(byte)),
            (State::LeadByte, 0x21..=0x7E) => {
                self.lead = byte;
                self.state = State::TrailByte;
                Continue
            }
            _ => Error,
        }
    }

    fn escape(&mut self, queue: &mut Queue, byte: Option<u8>) -> Outcome {
        let lead = self.lead;
        self.lead = 0;
        let state = match (lead, byte) {
            (0x28, Some(0x42)) => Some(State::Ascii),
            (0x28, Some(0x4A)) => Some(State::Roman),
            (0x28, Some(0x49)) => Some(State::Katakana),
            (0x24, Some(0x40 | 0x42)) => Some(State::LeadByte),
            _ => None,
        };
        if let Some(state) = state {
            self.state = state;
            self.output_state = state;
            let output = self.output;
            self.output = true;
            return if output { Error } else { Continue };
        }
        queue.push_front(byte);
        prepend(queue, &[lead]);
        self.output = false;
        self.state = self.output_state;
        Error
    }
}

fn shift_jis(lead: &mut u8, queue: &mut Queue, byte: Option<u8>, index: &[u32]) -> Outcome {
    let Some(byte) = byte else {
        return end_of_lead(lead);
    };
    if *lead != 0 {
        let offset = if byte < 0x7F { 0x40 } else { 0x41 };
        let lead_offset = if *lead < 0xA0 { 0x81 } else { 0xC1 };
        let row = usize::from(*lead - lead_offset);
        *lead = 0;
        let pointer = match byte {
            0x40..=0x7E | 0x80..=0xFC => Some(row * 188 + usize::from(byte) - offset),
            _ => None,
        };
        if let Some(pointer @ 8836..=10715) = pointer {
            return One(0xE000 - 8836 + pointer as u32);
        }
        return two_byte(queue, byte, pointer, index);
    }
    match byte {
        0x00..=0x80 => One(byte.into()),
        0xA1..=0xDF => One(0xFF61 - 0xA1 + u32::from(byte)),
        0x81..=0x9F | 0xE0..=0xFC => {
            *lead = byte;
            Continue
        }
        _ => Error,
    }
}

fn euc_kr(lead: &mut u8, queue: &mut Queue, byte: Option<u8>, index: &[u32]) -> Outcome {
    let Some(byte) = byte else {
        return end_of_lead(lead);
    };
    if *lead != 0 {
        let row = usize::from(*lead) - 0x81;
        *lead = 0;
        let pointer = match byte {
            0x41..=0xFE => Some(row * 190 + (usize::from(byte) - 0x41)),
            _ => None,
        };
        return two_byte(queue, byte, pointer, index);
    }
    match byte {
        0x00..=0x7F => One(byte.into()),
        0x81..=0xFE => {
            *lead = byte;
            Continue
        }
        _ => Error,
    }
}

#[derive(Clone, Copy)]
struct Utf16 {
    is_be: bool,
    lead_byte: Option<u8>,
    lead_surrogate: Option<u16>,
}

impl Utf16 {
    fn bytes(&self, unit: u16) -> [u8; 2] {
        if self.is_be {
            unit.to_be_bytes()
        } else {
            unit.to_le_bytes()
        }
    }

    fn handler(&mut self, queue: &mut Queue, byte: Option<u8>) -> Outcome {
        let Some(byte) = byte else {
            if self.lead_byte.is_some() || self.lead_surrogate.is_some() {
                self.lead_byte = None;
                self.lead_surrogate = None;
                return Error;
            }
            return Finished;
        };
        let Some(lead_byte) = self.lead_byte.take() else {
            self.lead_byte = Some(byte);
            return Continue;
        };
        let (high, low) = if self.is_be {
            (lead_byte, byte)
        } else {
            (byte, lead_byte)
        };
        let unit = (u16::from(high) << 8) + u16::from(low);
        if let Some(lead) = self.lead_surrogate.take() {
            if (0xDC00..=0xDFFF).contains(&unit) {
                return One(0x10000
                    + ((u32::from(lead) - 0xD800) << 10)
                    + (u32::from(unit) - 0xDC00));
            }
            prepend(queue, &self.bytes(unit));
            return Error;
        }
        match unit {
            0xD800..=0xDBFF => {
                self.lead_surrogate = Some(unit);
                Continue
            }
            0xDC00..=0xDFFF => Error,
            _ => One(unit.into()),
        }
    }
}

#[derive(Clone, Copy)]
enum Variables {
    Utf8(Utf8),
    SingleByte,
    Gb18030(Gb18030),
    Big5 { lead: u8 },
    EucJp(EucJp),
    Iso2022Jp(Iso2022Jp),
    ShiftJis { lead: u8 },
    EucKr { lead: u8 },
    Replacement { error_returned: bool },
    Utf16(Utf16),
    UserDefined,
}

impl Variables {
    fn new(encoding: u8) -> Variables {
        match encoding {
            0 => Variables::Utf8(Utf8::NEW),
            1..=28 => Variables::SingleByte,
            29 | 30 => Variables::Gb18030(Gb18030::NEW),
            31 => Variables::Big5 { lead: 0 },
            32 => Variables::EucJp(EucJp {
                jis0212: false,
                lead: 0,
            }),
            33 => Variables::Iso2022Jp(Iso2022Jp::NEW),
            34 => Variables::ShiftJis { lead: 0 },
            35 => Variables::EucKr { lead: 0 },
            36 => Variables::Replacement {
                error_returned: false,
            },
            37 | 38 => Variables::Utf16(Utf16 {
                is_be: encoding == 37,
                lead_byte: None,
                lead_surrogate: None,
            }),
            _ => Variables::UserDefined,
        }
    }

    fn handler(&mut self, queue: &mut Queue, byte: Option<u8>, tables: Tables) -> Outcome {
        match self {
            Variables::Utf8(variables) => variables.handler(queue, byte),
            Variables::SingleByte => match byte {
                None => Finished,
                Some(byte @ 0x00..=0x7F) => One(byte.into()),
                Some(byte) => match index_code_point(tables.first, usize::from(byte) - 0x80) {
                    None => Error,
                    Some(code_point) => One(code_point),
                },
            },
            Variables::Gb18030(variables) => variables.handler(queue, byte, tables),
            Variables::Big5 { lead } => big5(lead, queue, byte, tables.first),
            Variables::EucJp(variables) => variables.handler(queue, byte, tables),
            Variables::Iso2022Jp(variables) => variables.handler(queue, byte, tables.first),
            Variables::ShiftJis { lead } => shift_jis(lead, queue, byte, tables.first),
            Variables::EucKr { lead } => euc_kr(lead, queue, byte, tables.first),
            Variables::Replacement { error_returned } => {
                if byte.is_none() || *error_returned {
                    return Finished;
                }
                *error_returned = true;
                Error
            }
            Variables::Utf16(variables) => variables.handler(queue, byte),
            Variables::UserDefined => match byte {
                None => Finished,
                Some(byte @ 0x00..=0x7F) => One(byte.into()),
                Some(byte) => One(0xF780 + u32::from(byte) - 0x80),
            },
        }
    }

    /// The bytes held.
    fn held(&self) -> Vec<u8> {
        let bytes: Vec<u8> = match *self {
            Variables::Utf8(variables) => return variables.held(),
            Variables::Gb18030(Gb18030 {
                first,
                second,
                third,
            }) => vec![first, second, third],
            Variables::Big5 { lead } | Variables::ShiftJis { lead } | Variables::EucKr { lead } => {
                vec![lead]
            }
            Variables::EucJp(EucJp { jis0212, lead }) => {
                vec![if jis0212 { 0x8F } else { 0 }, lead]
            }
            Variables::Iso2022Jp(variables) => match variables.state {
                State::TrailByte => vec![variables.lead],
                State::EscapeStart => vec![0x1B],
                State::Escape => vec![0x1B, variables.lead],
                _ => Vec::new(),
            },
            Variables::Utf16(variables) => {
                let mut bytes = Vec::new();
                if let Some(unit) = variables.lead_surrogate {
                    bytes.extend(variables.bytes(unit));
                }
                bytes.extend(variables.lead_byte);
                return bytes;
            }
            Variables::SingleByte | Variables::Replacement { .. } | Variables::UserDefined => {
                Vec::new()
            }
        };
        bytes.into_iter().filter(|&byte| byte != 0).collect()
    }
}

/// The table of "BOM sniff": the bytes of a mark, the encoding that it chooses, and the library's number for that.
pub const MARKS: [(&[u8], u8, u8); 3] = [
    (b"\xEF\xBB\xBF", 0, 2),
    (b"\xFE\xFF", 37, 3),
    (b"\xFF\xFE", 38, 4),
];

/// A decoder that has not ended.
#[derive(Clone, Copy)]
struct Decoder {
    /// The encoding of the opening.
    label: u8,
    /// The encoding that reads, and the library's number for how it came to that.
    encoding: u8,
    stage: u8,
    /// The bytes that wait for a mark to choose, and how many they are; `None` where no mark is to choose.
    waiting: Option<([u8; 2], usize)>,
    mode: u8,
    /// A byte order mark that comes now is dropped.
    drop_mark: bool,
    variables: Variables,
    /// The bytes taken and the line feeds handed out since the opening.
    taken: u64,
    lines: u64,
}

/// A sequence that was replaced: the bytes taken before it, and the bytes given up.
pub type Span = (u64, u64);

/// What a run of the handler gives: the scalars, the sequences that were replaced, and where refusing mode met an error the
/// bytes before its sequence.
struct Run {
    output: Vec<u32>,
    spans: Vec<Span>,
    error: Option<u64>,
}

fn has_mark(encoding: u8) -> bool {
    matches!(encoding, 0 | 37 | 38)
}

/// The bytes of a queue: end-of-stream stands at its end alone.
fn bytes_of(queue: &Queue) -> u64 {
    let ends = queue.iter().rev().take_while(|byte| byte.is_none()).count();
    (queue.len() - ends) as u64
}

fn line_feeds(scalars: &[u32]) -> u64 {
    scalars.iter().filter(|&&scalar| scalar == 0x0A).count() as u64
}

impl Decoder {
    fn new(encoding: u8, mode: u8, rule: u8) -> Decoder {
        Decoder {
            label: encoding,
            encoding,
            stage: u8::from(rule == 2),
            waiting: (rule == 2).then_some(([0; 2], 0)),
            mode,
            drop_mark: rule == 0 && has_mark(encoding),
            variables: Variables::new(encoding),
            taken: 0,
            lines: 0,
        }
    }

    /// The bytes that it holds: those that wait for the choice, or those of the handler's variables.
    fn held(&self) -> Vec<u8> {
        match self.waiting {
            Some((bytes, count)) => bytes[..count].to_vec(),
            None => self.variables.held(),
        }
    }

    /// Puts the waiting bytes back to the front of the queue and looks for a mark there. False while one is possible.
    fn chooses(&mut self, queue: &mut Queue) -> bool {
        for byte in self.held().into_iter().rev() {
            queue.push_front(Some(byte));
        }
        let front: Vec<u8> = queue.iter().map_while(|&byte| byte).take(3).collect();
        let at_end = queue.len() > bytes_of(queue) as usize;
        if !at_end
            && MARKS
                .iter()
                .any(|(mark, ..)| mark.starts_with(&front) && mark.len() > front.len())
        {
            let mut bytes = [0; 2];
            bytes[..front.len()].copy_from_slice(&front);
            self.waiting = Some((bytes, front.len()));
            queue.clear();
            return false;
        }
        self.waiting = None;
        self.stage = 0;
        if let Some((mark, encoding, stage)) =
            MARKS.iter().find(|(mark, ..)| front.starts_with(mark))
        {
            queue.drain(..mark.len());
            self.encoding = *encoding;
            self.stage = *stage;
            self.variables = Variables::new(*encoding);
        }
        true
    }

    /// Takes the bytes of the queue and runs the handler until it is empty or the handler has finished.
    fn run(&mut self, mut queue: Queue, tables: Tables) -> Run {
        self.taken += bytes_of(&queue);
        if self.waiting.is_some() && !self.chooses(&mut queue) {
            return Run {
                output: Vec::new(),
                spans: Vec::new(),
                error: None,
            };
        }
        let tables = match self.encoding {
            21 => Tables {
                first: WINDOWS_1252.get().expect("the index is read first"),
                second: &[],
            },
            _ => tables,
        };
        let mut output = Vec::new();
        let mut spans = Vec::new();
        let mut error = None;
        loop {
            // The sequence begins with the bytes held, which stand before those of the queue.
            let place = self.taken - bytes_of(&queue) - self.variables.held().len() as u64;
            let Some(byte) = queue.pop_front() else {
                break;
            };
            match self.variables.handler(&mut queue, byte, tables) {
                Finished => break,
                Continue => {}
                Error if self.mode == 1 => {
                    error = Some(place);
                    break;
                }
                Error => {
                    // Bytes that were put back stand in the queue again.
                    let held = self.variables.held().len() as u64;
                    spans.push((place, self.taken - bytes_of(&queue) - held - place));
                    self.push(&mut output, 0xFFFD);
                }
                One(code_point) => self.push(&mut output, code_point),
                Two(one, two) => {
                    self.push(&mut output, one);
                    self.push(&mut output, two);
                }
            }
        }
        self.lines += line_feeds(&output);
        Run {
            output,
            spans,
            error,
        }
    }

    fn push(&mut self, output: &mut Vec<u32>, code_point: u32) {
        let drop = self.drop_mark && code_point == 0xFEFF;
        self.drop_mark = false;
        if !drop {
            output.push(code_point);
        }
    }

    /// The library's record of this decoder, with the library's numbers for the states.
    fn record(&self) -> Record {
        let mut record = Record {
            taken: self.taken as u32,
            lines: self.lines as u32,
            encoding: self.label,
            mode: self.mode,
            stage: self.stage,
            flag: u8::from(self.drop_mark),
            ..Record::default()
        };
        match self.variables {
            Variables::Iso2022Jp(variables) => {
                record.state = match variables.output_state {
                    State::Ascii => 0,
                    State::Roman => 1,
                    State::Katakana => 2,
                    _ => 3,
                };
                record.flag = u8::from(variables.output_before_held);
            }
            Variables::Replacement { error_returned } => record.flag = u8::from(error_returned),
            _ => {}
        }
        let held = self.held();
        record.held = held.len() as u8;
        for (field, byte) in [&mut record.first, &mut record.second, &mut record.third]
            .into_iter()
            .zip(held)
        {
            *field = byte;
        }
        record
    }

    /// The record of a decoder that has ended.
    fn ended(&self) -> Record {
        Record {
            taken: self.taken as u32,
            lines: self.lines as u32,
            ..ended(self.label, self.mode)
        }
    }

    /// What a call answers that ran to this.
    fn answer(&self, run: Run, record: Record) -> Answer {
        match run.error {
            None => Answer {
                refusal: 0,
                output: run.output,
                spans: run.spans,
                place: 0,
                line: 0,
                record,
            },
            Some(place) => Answer {
                refusal: 11,
                output: run.output,
                spans: Vec::new(),
                place,
                line: 1 + self.lines,
                record: self.ended(),
            },
        }
    }
}

fn ended(encoding: u8, mode: u8) -> Record {
    Record {
        encoding,
        mode,
        ended: 1,
        ..Record::default()
    }
}

/// A record without its totals.
fn untotalled(record: Record) -> Record {
    Record {
        taken: 0,
        lines: 0,
        ..record
    }
}

/// Tables in which the first pair is mapped, and little else.
const FEW_MAPPED: Tables = Tables {
    first: &[0x3000],
    second: &[],
};

/// A new decoder that has read a text without an error that ends it.
fn after(encoding: u8, mode: u8, rule: u8, text: &[u8]) -> Option<Decoder> {
    let mut decoder = Decoder::new(encoding, mode, rule);
    let queue = text.iter().map(|&byte| Some(byte)).collect();
    let run = decoder.run(queue, FEW_MAPPED);
    run.error.is_none().then_some(decoder)
}

/// A plain character and a line feed.
fn characters(encoding: u8) -> [&'static [u8]; 2] {
    match encoding {
        37 => [b"\x00A", b"\x00\x0A"],
        38 => [b"A\x00", b"\x0A\x00"],
        _ => [b"A", b"\x0A"],
    }
}

/// Bytes of which the short texts are made that lead to every shift.
fn shifting(encoding: u8) -> &'static [u8] {
    match encoding {
        33 => b"\x0A\x1B$(BIJ!\x80",
        _ => b"\x0AA",
    }
}

/// A text that leaves a decoder holding nothing, found by search among all short ones.
struct Way {
    decoder: Decoder,
    /// The bytes of a character that may stand before the text any number of times, and its line feeds if it is one.
    /// `None` where the decoder is then another one.
    character: Option<(u64, u64)>,
    /// Some byte behind the text is held.
    holds: bool,
    /// Some byte behind the text is an error that ends the decoder at once.
    fails: bool,
}

/// The short texts of which bytes an encoding's ways are made.
fn short_texts(encoding: u8) -> Vec<Vec<u8>> {
    let longest = if encoding == 33 { 5 } else { 2 };
    let mut texts: Vec<Vec<u8>> = vec![Vec::new()];
    let mut next = 0;
    while next < texts.len() {
        if texts[next].len() < longest {
            for &byte in shifting(encoding) {
                texts.push([&texts[next][..], &[byte]].concat());
            }
        }
        next += 1;
    }
    texts
}

/// The ways of a label's encoding: by each rule, and behind each mark by the rule that lets it choose.
fn ways(label: u8, mode: u8) -> Vec<Way> {
    let mut ways = Vec::new();
    for rule in 0..3 {
        add_ways(&mut ways, label, mode, rule, (b"", label));
    }
    for (mark, encoding, _) in MARKS {
        add_ways(&mut ways, label, mode, 2, (mark, encoding));
    }
    ways
}

/// Adds the ways behind a front, where an encoding reads.
fn add_ways(ways: &mut Vec<Way>, label: u8, mode: u8, rule: u8, (front, encoding): (&[u8], u8)) {
    for text in short_texts(encoding) {
        let Some(decoder) = after(label, mode, rule, &[front, &text].concat()) else {
            continue;
        };
        let record = decoder.record();
        let same = |way: &Way| {
            untotalled(way.decoder.record()) == untotalled(record)
                && leads_to(way, decoder.taken, decoder.lines)
        };
        if record.held != 0 || ways.iter().any(same) {
            continue;
        }
        let before = |character: &[u8]| {
            after(label, mode, rule, &[front, character, &text].concat())
                .filter(|longer| untotalled(longer.record()) == untotalled(record))
        };
        let [plain, line_feed] = characters(encoding).map(before);
        let behind = |byte: u8| {
            let mut decoder = decoder;
            let run = decoder.run(Queue::from([Some(byte)]), FEW_MAPPED);
            (run.error.is_some(), decoder.held().len() == 1)
        };
        ways.push(Way {
            decoder,
            character: plain
                .and(line_feed)
                .map(|longer| (longer.taken - decoder.taken, longer.lines - decoder.lines)),
            holds: (0..=255).any(|byte| behind(byte).1),
            fails: (0..=255).any(|byte| behind(byte).0),
        });
    }
}

/// Whether some text leaves a decoder holding nothing with these totals, by a way and characters before it.
fn leads_to(way: &Way, taken: u64, lines: u64) -> bool {
    let Some(more) = taken.checked_sub(way.decoder.taken) else {
        return false;
    };
    let Some(more_lines) = lines.checked_sub(way.decoder.lines) else {
        return false;
    };
    match way.character {
        _ if more == 0 => more_lines == 0,
        None => false,
        Some((bytes, feeds)) => more % bytes == 0 && more_lines <= more / bytes * feeds,
    }
}

/// The ways of a label's encoding in a mode, searched once.
fn ways_of(label: u8, mode: u8) -> &'static [Way] {
    static WAYS: [OnceLock<Vec<Way>>; 80] = [const { OnceLock::new() }; 80];
    let number = usize::from(label) * 2 + usize::from(mode);
    WAYS[number].get_or_init(|| ways(label, mode))
}

enum Known {
    Open(Decoder),
    Ended,
}

/// Whether some calls end a decoder with these totals: a finish with nothing or one byte held, or an error at once behind
/// what was read, with the rest of its chunk.
fn ends_with(record: Record) -> bool {
    let (taken, lines) = (u64::from(record.taken), u64::from(record.lines));
    ways_of(record.encoding, record.mode).iter().any(|way| {
        let finished = |held: u64| taken >= held && leads_to(way, taken - held, lines);
        let reported = |rest: u64| {
            (1..=65536.min(taken)).contains(&rest) && leads_to(way, taken - rest, lines)
        };
        finished(0)
            || way.holds && finished(1)
            || way.fails && [1, 2, 3, taken].into_iter().any(reported)
    })
}

/// The decoder of a record, where some calls leave it: those that feed a way with characters before it and then the
/// bytes held.
fn decoder_of(record: Record) -> Option<Known> {
    if record.encoding > 39 || record.mode > 1 || record.held > 3 {
        return None;
    }
    if record.ended != 0 {
        let bare = untotalled(record) == ended(record.encoding, record.mode);
        return (bare && ends_with(record)).then_some(Known::Ended);
    }
    let held = [record.first, record.second, record.third];
    let held = &held[..usize::from(record.held)];
    let taken = u64::from(record.taken).checked_sub(held.len() as u64)?;
    for way in ways_of(record.encoding, record.mode) {
        if !leads_to(way, taken, record.lines.into()) {
            continue;
        }
        let mut decoder = Decoder {
            taken,
            lines: record.lines.into(),
            ..way.decoder
        };
        let run = decoder.run(held.iter().map(|&byte| Some(byte)).collect(), FEW_MAPPED);
        if run.error.is_none() && run.output.is_empty() && decoder.record() == record {
            return Some(Known::Open(decoder));
        }
    }
    None
}

/// What opening, feed and finish answer; `output` is what stands at the front of the room.
pub struct Answer {
    pub refusal: u8,
    pub output: Vec<u32>,
    pub spans: Vec<Span>,
    pub place: u64,
    pub line: u64,
    pub record: Record,
}

/// A refused call.
pub fn refused(refusal: u8, record: Record) -> Answer {
    Answer {
        refusal,
        output: Vec::new(),
        spans: Vec::new(),
        place: 0,
        line: 0,
        record,
    }
}

/// The cells of an encoding's first table.
fn first_cells(encoding: u8) -> usize {
    match encoding {
        21 => 0,
        1..=28 => 128,
        29 | 30 | 35 => 23940,
        31 => 19782,
        32..=34 => 11280,
        _ => 0,
    }
}

/// Whether the lent tables have the lengths that an encoding asks for.
fn fits(encoding: u8, tables: Tables) -> bool {
    let second = tables.second.len();
    let second_fits = match encoding {
        29 | 30 => second % 2 == 0 && second <= 414,
        32 => second == 8836,
        _ => second == 0,
    };
    tables.first.len() == first_cells(encoding) && second_fits
}

pub fn open(encoding: u8, mode: u8, rule: u8) -> Answer {
    match (encoding, mode, rule) {
        (40.., _, _) => refused(2, ended(0, 0)),
        (_, 2.., _) | (_, _, 3..) => refused(3, ended(0, 0)),
        _ => refused(0, Decoder::new(encoding, mode, rule).record()),
    }
}

pub fn feed(record: Record, chunk: &[u8], tables: Tables, room: usize) -> Answer {
    let mut decoder = match decoder_of(record) {
        None => return refused(5, record),
        Some(Known::Ended) => return refused(6, record),
        Some(Known::Open(decoder)) => decoder,
    };
    if !fits(decoder.label, tables) {
        return refused(4, record);
    }
    if chunk.len() > 65536 {
        return refused(8, record);
    }
    if decoder.taken + chunk.len() as u64 > u64::from(u32::MAX) {
        return refused(14, record);
    }
    if room < chunk.len() + decoder.held().len() {
        return refused(7, record);
    }
    let run = decoder.run(chunk.iter().map(|&byte| Some(byte)).collect(), tables);
    decoder.answer(run, decoder.record())
}

pub fn finish(record: Record, tables: Tables, room: usize) -> Answer {
    let mut decoder = match decoder_of(record) {
        None => return refused(5, record),
        Some(Known::Ended) => return refused(6, record),
        Some(Known::Open(decoder)) => decoder,
    };
    let waits = decoder.waiting.is_some();
    if waits && !fits(decoder.label, tables) {
        return refused(4, record);
    }
    if room < decoder.held().len() {
        return refused(7, record);
    }
    // End-of-stream is read until the handler has finished, at most twice. Only bytes that waited are looked up.
    let tables = if waits { tables } else { NO_TABLES };
    let run = decoder.run(Queue::from([None, None]), tables);
    decoder.answer(run, decoder.ended())
}

/// What a check answers.
pub struct Checked {
    pub refusal: u8,
    pub clean: bool,
    pub place: u64,
    pub line: u64,
}

/// Is a text clean? A new decoder in refusing mode drops the mark and reads all of it and its end.
pub fn check(encoding: u8, text: &[u8], tables: Tables) -> Checked {
    let answer = |refusal, clean, place, line| Checked {
        refusal,
        clean,
        place,
        line,
    };
    if encoding > 39 {
        return answer(2, false, 0, 0);
    }
    if !fits(encoding, tables) {
        return answer(4, false, 0, 0);
    }
    if text.len() > 65536 {
        return answer(8, false, 0, 0);
    }
    let mut decoder = Decoder::new(encoding, 1, 0);
    let bytes = text.iter().map(|&byte| Some(byte));
    match decoder
        .run(bytes.chain([None, None]).collect(), tables)
        .error
    {
        None => answer(0, true, 0, 0),
        Some(place) => answer(0, false, place, 1 + decoder.lines),
    }
}

/// What the writer and its finish answer; `output` is what stands at the front of the room.
pub struct Encoded {
    pub refusal: u8,
    pub output: Vec<u8>,
    pub index: usize,
    pub state: u8,
}

/// Whether an encoding has a writer.
pub fn has_writer(encoding: u8) -> bool {
    matches!(encoding, 0..=35 | 39)
}

/// Whether the lent tables have the lengths that writing an encoding asks for.
fn fits_writer(encoding: u8, tables: Tables) -> bool {
    match encoding {
        33 => (tables.first.len(), tables.second.len()) == (11280, 63),
        _ => fits(encoding, tables),
    }
}

/// A token of the stream that ISO-2022-JP's encoder reads.
enum CodePoint {
    Scalar(u32),
    /// What 000's steps 8 and 9 made of a scalar: they come once, and it is only looked up and named.
    Changed(u32),
    /// A scalar whose katakana cell is unmapped.
    Unmapped(u32),
    EndOfStream,
}

/// What a writer looks scalars up in: the tables, and the cells of an index beside the first where one is lent.
#[derive(Clone, Copy)]
struct Sources<'a> {
    tables: Tables<'a>,
    index: Option<&'a [u32]>,
}

impl Sources<'_> {
    /// The pointer of a code point among those searched, the first or the last: by the index, and where that leads to none by a
    /// search of the table.
    fn pointer(
        &self,
        last: bool,
        searched: impl Fn(usize) -> bool,
        code_point: u32,
    ) -> Option<usize> {
        let table = self.tables.first;
        let counts = |pointer: &usize| searched(*pointer) && table[*pointer] == code_point;
        let followed = self.followed(last, &counts, code_point);
        let mut pointers = (0..table.len()).filter(counts);
        followed.or_else(|| match last {
            true => pointers.next_back(),
            false => pointers.next(),
        })
    }

    /// The same along the links of the code point's bucket, up to one that leads out of the table, 64 at the most. Where 64 are
    /// followed, the last pointer is not known.
    fn followed(
        &self,
        last: bool,
        counts: &impl Fn(&usize) -> bool,
        code_point: u32,
    ) -> Option<usize> {
        let (index, cells) = (self.index?, self.tables.first.len());
        let inside = |link: u32| (1..=cells).contains(&(link as usize));
        let head = index.get(code_point as usize / 2 % cells.max(1));
        let links = std::iter::successors(head.copied(), |&link| {
            inside(link).then(|| index[cells + link as usize - 1])
        });
        let pointers: Vec<usize> = links
            .take_while(|&link| inside(link))
            .map(|link| link as usize - 1)
            .take(64)
            .collect();
        let mut counted = pointers.iter().copied().filter(counts);
        match last {
            false => counted.next(),
            true => counted.next_back().filter(|_| pointers.len() < 64),
        }
    }
}

/// 000's ISO-2022-JP encoder, with what document 02 changes; its state: 0 ASCII, 1 Roman, 2 jis0208.
struct Iso2022JpEncoder<'a> {
    state: u8,
    sources: Sources<'a>,
    stream: VecDeque<CodePoint>,
    output: &'a mut Vec<u8>,
}

impl Iso2022JpEncoder<'_> {
    /// Runs until the stream is read; an error has the code point that it names.
    fn run(&mut self) -> Result<(), u32> {
        while let Some(code_point) = self.stream.pop_front() {
            match code_point {
                CodePoint::Scalar(scalar) => self.scalar(scalar)?,
                CodePoint::Changed(code_point) => self.pointed(code_point)?,
                CodePoint::Unmapped(scalar) => self.unwritable(scalar, CodePoint::Unmapped)?,
                // Steps 1 and 2.
                CodePoint::EndOfStream if self.state != 0 => self.switch(0, CodePoint::EndOfStream),
                CodePoint::EndOfStream => return Ok(()),
            }
        }
        Ok(())
    }

    /// Sets the state, writes its three bytes, and puts the code point back.
    fn switch(&mut self, state: u8, code_point: CodePoint) {
        self.state = state;
        self.output.extend(match state {
            0 => b"\x1B(B",
            1 => b"\x1B(J",
            _ => b"\x1B$B",
        });
        self.stream.push_front(code_point);
    }

    /// Steps 3 to 9.
    fn scalar(&mut self, scalar: u32) -> Result<(), u32> {
        let ascii = scalar < 0x80;
        match (self.state, scalar) {
            (0 | 1, 0x0E | 0x0F | 0x1B) => return Err(0xFFFD),
            (0, _) if ascii => self.output.push(scalar as u8),
            (1, 0xA5) => self.output.push(0x5C),
            (1, 0x203E) => self.output.push(0x7E),
            (1, _) if ascii && scalar != 0x5C && scalar != 0x7E => self.output.push(scalar as u8),
            _ if ascii => self.switch(0, CodePoint::Scalar(scalar)),
            (_, 0xA5 | 0x203E) => self.switch(1, CodePoint::Scalar(scalar)),
            (_, 0x2212) => self.stream.push_front(CodePoint::Changed(0xFF0D)),
            (_, 0xFF61..=0xFF9F) => {
                let cell = index_code_point(self.sources.tables.second, (scalar - 0xFF61) as usize);
                self.stream
                    .push_front(cell.map_or(CodePoint::Unmapped(scalar), CodePoint::Changed));
            }
            _ => self.stream.push_front(CodePoint::Changed(scalar)),
        }
        Ok(())
    }

    /// Steps 10 to 15.
    fn pointed(&mut self, code_point: u32) -> Result<(), u32> {
        let found = self
            .sources
            .pointer(false, |pointer| pointer < 8836, code_point);
        let Some(pointer) = found else {
            return self.unwritable(code_point, CodePoint::Changed);
        };
        if self.state != 2 {
            self.switch(2, CodePoint::Changed(code_point));
            return Ok(());
        }
        self.output.push((pointer / 94 + 0x21) as u8);
        self.output.push((pointer % 94 + 0x21) as u8);
        Ok(())
    }

    /// Step 11; document 02: from jis0208 first a return to ASCII.
    fn unwritable(&mut self, named: u32, again: fn(u32) -> CodePoint) -> Result<(), u32> {
        if self.state != 2 {
            return Err(named);
        }
        self.switch(0, again(named));
        Ok(())
    }
}

/// A code point through that encoder.
fn encode_iso_2022_jp(
    state: &mut u8,
    code_point: CodePoint,
    sources: Sources,
    output: &mut Vec<u8>,
) -> Result<(), u32> {
    let mut encoder = Iso2022JpEncoder {
        state: *state,
        sources,
        stream: VecDeque::from([code_point]),
        output,
    };
    let result = encoder.run();
    *state = encoder.state;
    result
}

/// Writes one scalar as Shift_JIS (000's steps 2 to 13) or EUC-JP (steps 2 to 11), with what document 02 changes: the
/// pointers that are passed over. `Err` has the code point that the error names.
fn encode_japanese(
    encoding: u8,
    scalar: u32,
    sources: Sources,
    output: &mut Vec<u8>,
) -> Result<(), u32> {
    let shift_jis = encoding == 34;
    match scalar {
        0x80 if shift_jis => output.push(0x80),
        0xA5 => output.push(0x5C),
        0x203E => output.push(0x7E),
        0xFF61..=0xFF9F => {
            if !shift_jis {
                output.push(0x8E);
            }
            output.push((scalar - 0xFF61 + 0xA1) as u8);
        }
        _ => {
            let code_point = if scalar == 0x2212 { 0xFF0D } else { scalar };
            let searched = |pointer: usize| match shift_jis {
                true => !(8272..=10715).contains(&pointer),
                false => pointer < 8836,
            };
            let pointer = sources
                .pointer(false, searched, code_point)
                .ok_or(code_point)?;
            if shift_jis {
                let (lead, trail) = (pointer / 188, pointer % 188);
                output.push((lead + if lead < 0x1F { 0x81 } else { 0xC1 }) as u8);
                output.push((trail + if trail < 0x3F { 0x40 } else { 0x41 }) as u8);
            } else {
                output.push((pointer / 94 + 0xA1) as u8);
                output.push((pointer % 94 + 0xA1) as u8);
            }
        }
    }
    Ok(())
}

/// The index gb18030 ranges pointer for a code point, as document 02 has it, where document 01's four-byte reading of it
/// gives the code point back.
fn ranges_pointer(ranges: &[u32], code_point: u32) -> Option<u32> {
    let pair = ranges
        .chunks_exact(2)
        .filter(|pair| pair[1] <= code_point)
        .last();
    let pointer = match (code_point, pair) {
        (0xE7C7, _) => 7457,
        (_, Some(pair)) => u64::from(pair[0]) + u64::from(code_point - pair[1]),
        (_, None) => return None,
    };
    let pointer = u32::try_from(pointer).ok()?;
    (ranges_code_point(ranges, pointer) == Some(code_point)).then_some(pointer)
}

/// Writes one scalar as GBK, gb18030, Big5 or EUC-KR, by 000's steps.
fn encode_chinese(
    encoding: u8,
    scalar: u32,
    sources: Sources,
    output: &mut Vec<u8>,
) -> Result<(), u32> {
    let pair = |pointer: usize, columns: usize, gap: usize, low: usize, high: usize| {
        let (lead, trail) = (pointer / columns, pointer % columns);
        let offset = if trail < gap { low } else { high };
        [(lead + 0x81) as u8, (trail + offset) as u8]
    };
    match encoding {
        29 | 30 => {
            if scalar == 0xE5E5 {
                return Err(scalar);
            }
            if encoding == 29 && scalar == 0x20AC {
                output.push(0x80);
                return Ok(());
            }
            if let Some(pointer) = sources.pointer(false, |_| true, scalar) {
                output.extend(pair(pointer, 190, 0x3F, 0x40, 0x41));
                return Ok(());
            }
            if encoding == 29 {
                return Err(scalar);
            }
            let pointer = ranges_pointer(sources.tables.second, scalar).ok_or(scalar)?;
            output.extend([
                (pointer / 12600 + 0x81) as u8,
                (pointer / 1260 % 10 + 0x30) as u8,
                (pointer / 10 % 126 + 0x81) as u8,
                (pointer % 10 + 0x30) as u8,
            ]);
        }
        31 => {
            let last = matches!(scalar, 0x2550 | 0x255E | 0x2561 | 0x256A | 0x5341 | 0x5345);
            let pointer = sources.pointer(last, |pointer| pointer >= 5024, scalar);
            output.extend(pair(pointer.ok_or(scalar)?, 157, 0x3F, 0x40, 0x62));
        }
        _ => {
            let pointer = sources.pointer(false, |_| true, scalar).ok_or(scalar)?;
            output.extend(pair(pointer, 190, 0, 0x41, 0x41));
        }
    }
    Ok(())
}

/// Writes the bytes of one scalar, where the encoding has any. `Err` has the code point that the error names.
fn encode_scalar(
    encoding: u8,
    state: &mut u8,
    scalar: u32,
    sources: Sources,
    output: &mut Vec<u8>,
) -> Result<(), u32> {
    if encoding == 33 {
        return encode_iso_2022_jp(state, CodePoint::Scalar(scalar), sources, output);
    }
    if scalar < 0x80 {
        output.push(scalar as u8);
        return Ok(());
    }
    match encoding {
        32 | 34 => encode_japanese(encoding, scalar, sources, output)?,
        29..=31 | 35 => encode_chinese(encoding, scalar, sources, output)?,
        0 => {
            let (mut count, offset) = match scalar {
                0x80..=0x7FF => (1, 0xC0),
                0x800..=0xFFFF => (2, 0xE0),
                _ => (3, 0xF0),
            };
            output.push(((scalar >> (6 * count)) + offset) as u8);
            while count > 0 {
                output.push((0x80 | ((scalar >> (6 * (count - 1))) & 0x3F)) as u8);
                count -= 1;
            }
        }
        39 => match scalar {
            0xF780..=0xF7FF => output.push((scalar - 0xF780 + 0x80) as u8),
            _ => return Err(scalar),
        },
        _ => {
            let pointer = match encoding {
                21 => {
                    let index = WINDOWS_1252.get().expect("the index is read first");
                    index.iter().position(|&cell| cell == scalar)
                }
                _ => sources.pointer(false, |_| true, scalar),
            };
            output.push(pointer.ok_or(scalar)? as u8 + 0x80);
        }
    }
    Ok(())
}

/// The writer's call, with an index where one is lent.
pub fn encode(
    encoding: u8,
    mode: u8,
    state: u8,
    scalars: &[u32],
    tables: Tables,
    index: Option<&[u32]>,
    room: usize,
) -> Encoded {
    let refused = |refusal| Encoded {
        refusal,
        output: Vec::new(),
        index: 0,
        state,
    };
    if encoding > 39 {
        return refused(2);
    }
    if mode > 1 {
        return refused(3);
    }
    if state > 2 {
        return refused(5);
    }
    if !has_writer(encoding) {
        return refused(9);
    }
    if !fits_writer(encoding, tables) {
        return refused(4);
    }
    if index.is_some_and(|index| index.len() != 2 * tables.first.len()) {
        return refused(15);
    }
    if scalars.len() > 16384 {
        return refused(8);
    }
    if !scalars.iter().all(|&scalar| is_scalar(scalar)) {
        return refused(10);
    }
    let mut output = Vec::new();
    let mut error = None;
    let mut reached = state;
    let sources = Sources { tables, index };
    for (index, &scalar) in scalars.iter().enumerate() {
        let written = encode_scalar(encoding, &mut reached, scalar, sources, &mut output);
        let Err(named) = written else {
            continue;
        };
        if mode == 1 {
            error = Some(index);
            break;
        }
        output.extend(format!("&#{named};").bytes());
    }
    if room < output.len() {
        return refused(7);
    }
    Encoded {
        refusal: if error.is_some() { 11 } else { 0 },
        output,
        index: error.unwrap_or(0),
        state: reached,
    }
}

pub fn encode_finish(state: u8, room: usize) -> Encoded {
    let answer = |refusal, output, state| Encoded {
        refusal,
        output,
        index: 0,
        state,
    };
    if state > 2 {
        return answer(5, Vec::new(), state);
    }
    let mut output = Vec::new();
    let mut reached = state;
    let end = CodePoint::EndOfStream;
    let nothing = Sources {
        tables: NO_TABLES,
        index: None,
    };
    encode_iso_2022_jp(&mut reached, end, nothing, &mut output).expect("the end is no error");
    if room < output.len() {
        return answer(7, Vec::new(), state);
    }
    answer(0, output, reached)
}

/// What an index line answers; the table is filled.
pub struct Entered {
    pub refusal: u8,
    pub entry: u8,
    pub pointer: u32,
}

pub fn index_line(line: &[u8], table: &mut [u32]) -> Entered {
    let answer = |refusal, entry, pointer| Entered {
        refusal,
        entry,
        pointer,
    };
    if line.len() > 1024 {
        return answer(8, 0, 0);
    }
    if line.is_empty() || line[0] == b'#' {
        return answer(0, 0, 0);
    }
    let Some((pointer, code_point)) = line_parts(line) else {
        return answer(12, 0, 0);
    };
    match table.get_mut(pointer as usize) {
        Some(cell) if *cell == 0 => *cell = code_point,
        _ => return answer(13, 0, 0),
    }
    answer(0, 1, pointer)
}

fn line_parts(line: &[u8]) -> Option<(u32, u32)> {
    let blanks = line.iter().take_while(|&&byte| byte == b' ').count();
    let mut fields = line[blanks..].splitn(3, |&byte| byte == b'\t');
    let pointer = fields.next()?;
    let code_point = fields.next()?.strip_prefix(b"0x")?;
    let decimal = pointer.iter().all(u8::is_ascii_digit);
    if !decimal || !(1..=7).contains(&pointer.len()) {
        return None;
    }
    let capital = |byte: &u8| byte.is_ascii_digit() || (b'A'..=b'F').contains(byte);
    if !code_point.iter().all(capital) || !(4..=6).contains(&code_point.len()) {
        return None;
    }
    let number =
        |digits: &[u8], radix| u32::from_str_radix(std::str::from_utf8(digits).ok()?, radix).ok();
    let code_point = number(code_point, 16)?;
    if !is_scalar(code_point) || code_point < 0x80 {
        return None;
    }
    Some((number(pointer, 10)?, code_point))
}

/// The true reverse index of a table, each cell from what it is to hold.
pub fn reverse_index(table: &[u32]) -> Vec<u32> {
    let cells = table.len();
    let buckets: Vec<Option<usize>> = (0..cells)
        .map(|pointer| Some(index_code_point(table, pointer)? as usize / 2 % cells))
        .collect();
    let link = |from: usize, bucket: usize| {
        let found = (from..cells).find(|&pointer| buckets[pointer] == Some(bucket));
        found.map_or(0, |pointer| pointer as u32 + 1)
    };
    let next = |pointer: usize| buckets[pointer].map_or(0, |bucket| link(pointer + 1, bucket));
    let heads = (0..cells).map(|bucket| link(0, bucket));
    heads.chain((0..cells).map(next)).collect()
}

/// What building answers; the index is written.
pub fn build_index(encoding: u8, table: &[u32], index: &mut Vec<u32>) -> u8 {
    if encoding > 39 {
        return 2;
    }
    if table.len() != first_cells(encoding) {
        return 4;
    }
    if index.len() != 2 * table.len() {
        return 15;
    }
    *index = reverse_index(table);
    0
}

/// An index line with an index of any cells: the entry goes behind the links of its bucket that rise and lead to pointers
/// before it.
pub fn index_line_indexed(line: &[u8], table: &mut [u32], index: &mut [u32]) -> Entered {
    let cells = table.len();
    if index.len() != 2 * cells {
        return Entered {
            refusal: 15,
            entry: 0,
            pointer: 0,
        };
    }
    let answer = index_line(line, table);
    if answer.entry == 0 {
        return answer;
    }
    let pointer = answer.pointer as usize;
    let mut place = table[pointer] as usize / 2 % cells;
    let mut passed = 0;
    while index[place] > passed && index[place] as usize <= pointer {
        passed = index[place];
        place = cells + passed as usize - 1;
    }
    index[cells + pointer] = index[place];
    index[place] = answer.pointer + 1;
    answer
}
