//! Random lists of calls beside the reference, and demand 3 over each list.

use crate::compare;
use crate::data::Published;
use crate::differences::smallest;
use crate::exhaustive::alphabet;
use crate::reference::{self, Answer, Encoded};
use std::fmt;
use support::ffi::Decoder as Record;
use support::random::Random;
use support::Tables;

/// Bytes at the edges of the ranges.
const EDGES: &[u8] = &[
    0x00, 0x09, 0x0A, 0x0D, 0x0E, 0x0F, 0x1B, 0x20, 0x21, 0x22, 0x24, 0x28, 0x2F, 0x30, 0x31, 0x35,
    0x39, 0x3A, 0x40, 0x41, 0x42, 0x49, 0x4A, 0x5C, 0x5F, 0x60, 0x7E, 0x7F, 0x80, 0x81, 0x84, 0x88,
    0x8D, 0x8E, 0x8F, 0x90, 0x9F, 0xA0, 0xA1, 0xBB, 0xBF, 0xC0, 0xC1, 0xC2, 0xD7, 0xD8, 0xDB, 0xDC,
    0xDF, 0xE0, 0xE3, 0xED, 0xEE, 0xEF, 0xF0, 0xF4, 0xF5, 0xF9, 0xFA, 0xFC, 0xFD, 0xFE, 0xFF,
];

/// Sequences with a rule of their own.
const SEQUENCES: &[&[u8]] = &[
    b"\xEF\xBB\xBF",
    b"\xFE\xFF",
    b"\xFF\xFE",
    b"\x1B(B",
    b"\x1B(J",
    b"\x1B(I",
    b"\x1B$B",
    b"\x1B$@",
    b"\x81\x30\x81\x30",
    b"\x81\x35\xF4\x37",
    b"\x84\x31\xA4\x37",
    b"\x84\x31\xA4\x39",
    b"\x8F\x39\xFE\x39",
    b"\x90\x30\x81\x30",
    b"\xE3\x32\x9A\x35",
    b"\xE3\x32\x9A\x36",
    b"\x88\x62",
    b"\x88\x64",
    b"\x88\xA3",
    b"\x88\xA5",
    b"\x8F\xA1",
    b"\x8E\xDF",
    b"\xD8\x00\xDC\x00",
    b"\x00\xD8\x00\xDC",
    b"\xF0\x9F\x92\xA9",
    b"\xED\xA0\x80",
    b"\xF4\x8F\xBF\xBF",
    b"\xE0\xA0\x80",
];

/// Cells at the edges of what counts as mapped.
const CELLS: &[u32] = &[
    0, 1, 0x0A, 0x20, 0x2F, 0x41, 0x7F, 0x80, 0xFF, 0x100, 0xD7FF, 0xD800, 0xDFFF, 0xE000, 0xF77F,
    0xF780, 0xF7FF, 0xF800, 0xFEFF, 0xFFFD, 0xFFFF, 0x10000, 0x10FFFF, 0x110000, 0x7FFFFFFF,
    0x80000000, 0xFFFFFFFF,
];

/// Pointers at the edges of the ranges.
const POINTERS: &[u32] = &[
    0, 1, 2, 36, 7456, 7457, 7458, 39394, 39419, 39420, 188999, 189000, 189001, 1237575, 1237576,
    0xFFFFFFFF,
];

/// A call; the room is given as the number of cells above what the call needs.
#[derive(Clone)]
enum Call {
    Open {
        encoding: u8,
        mode: u8,
        rule: u8,
    },
    Feed {
        chunk: Vec<u8>,
        tables: usize,
        flaw: usize,
        room: isize,
        forge: Option<(u8, u32)>,
    },
    Finish {
        tables: usize,
        flaw: usize,
        room: isize,
        forge: Option<(u8, u32)>,
    },
    Check {
        encoding: u8,
        text: Vec<u8>,
        tables: usize,
        flaw: usize,
    },
    /// From the state that the call before it left, or from a forged one.
    Encode {
        encoding: u8,
        mode: u8,
        scalars: Vec<u32>,
        tables: usize,
        flaw: usize,
        room: isize,
        state: Option<u8>,
    },
    EncodeFinish {
        room: isize,
        state: Option<u8>,
    },
}

impl fmt::Display for Call {
    fn fmt(&self, to: &mut fmt::Formatter) -> fmt::Result {
        match self {
            Call::Open {
                encoding,
                mode,
                rule,
            } => write!(to, "open {encoding} mode {mode} rule {rule}"),
            Call::Feed {
                chunk,
                tables,
                flaw,
                room,
                forge,
            } => {
                let shown = &chunk[..chunk.len().min(40)];
                let length = chunk.len();
                write!(
                    to,
                    "feed {shown:02X?} ({length} bytes) tables {tables} flaw {flaw} room {room:+} forged {forge:?}"
                )
            }
            Call::Finish {
                tables,
                flaw,
                room,
                forge,
            } => write!(
                to,
                "finish tables {tables} flaw {flaw} room {room:+} forged {forge:?}"
            ),
            Call::Check {
                encoding,
                text,
                tables,
                flaw,
            } => {
                let shown = &text[..text.len().min(40)];
                let length = text.len();
                write!(
                    to,
                    "check {encoding} {shown:02X?} ({length} bytes) tables {tables} flaw {flaw}"
                )
            }
            Call::Encode {
                encoding,
                mode,
                scalars,
                tables,
                flaw,
                room,
                state,
            } => {
                let shown = &scalars[..scalars.len().min(40)];
                let length = scalars.len();
                write!(
                    to,
                    "encode {encoding} mode {mode} {shown:X?} ({length}) tables {tables} flaw {flaw} room {room:+} state {state:?}"
                )
            }
            Call::EncodeFinish { room, state } => {
                write!(to, "encode_finish room {room:+} state {state:?}")
            }
        }
    }
}

/// The lent tables of one encoding, with a cell more than the encoding asks for.
struct Lent {
    first: Vec<u32>,
    first_length: usize,
    second: Vec<u32>,
    second_length: usize,
}

impl Lent {
    /// The tables with a length that is wrong for some encodings.
    fn with(&self, flaw: usize) -> Tables<'_> {
        let (mut first, mut second) = (self.first_length, self.second_length);
        match flaw {
            1 => first = first.saturating_sub(1),
            2 => first += 1,
            3 => second += 1,
            4 => second = second.saturating_sub(1),
            5 => first = 0,
            6 => second = 0,
            7 => second = self.second.len(),
            _ => {}
        }
        Tables {
            first: &self.first[..first],
            second: &self.second[..second],
        }
    }
}

pub const VARIANTS: usize = 6;

pub struct Lists {
    /// By encoding and variant: published, empty, with holes, with cells at the edges, and two more of these. Behind the
    /// last encoding those for writing ISO-2022-JP.
    lent: Vec<Vec<Lent>>,
}

impl Lists {
    pub fn new(published: &Published, random: &mut Random) -> Lists {
        let writer = (33, published.writer_tables(33));
        let lent = (0..40)
            .map(|encoding| (encoding, published.tables(encoding)))
            .chain([writer])
            .map(|(encoding, tables)| {
                (0..VARIANTS)
                    .map(|variant| Self::variant(tables, encoding, variant, random))
                    .collect()
            })
            .collect();
        Lists { lent }
    }

    fn variant(tables: Tables, encoding: u8, variant: usize, random: &mut Random) -> Lent {
        let mut cells = |cells: &[u32]| -> Vec<u32> {
            let mut cells = cells.to_vec();
            for cell in &mut cells {
                match variant {
                    0 => {}
                    1 => *cell = 0,
                    2 | 4 if random.one_in(3) => *cell = 0,
                    3 | 5 if random.one_in(2) => *cell = random.pick(CELLS),
                    _ => {}
                }
            }
            cells.push(0x3000);
            cells
        };
        let first = cells(tables.first);
        let mut second = cells(tables.second);
        let mut second_length = tables.second.len();
        if matches!(encoding, 29 | 30) {
            if variant > 1 {
                second_length = 2 * random.below(208);
                for place in 0..second_length {
                    second[place] = match (place % 2, random.below(3)) {
                        (0, 0) => random.below(40000) as u32,
                        (0, 1) => random.pick(POINTERS),
                        (0, _) => random.below(1_240_000) as u32,
                        (_, 0) => random.pick(CELLS),
                        (_, 1) => 0x7E,
                        _ => random.below(0x11_0000) as u32,
                    };
                }
            }
            second_length = if variant == 1 { 0 } else { second_length };
            second.resize(416, 0x3000);
        }
        Lent {
            first_length: first.len() - 1,
            first,
            second,
            second_length,
        }
    }

    pub fn tables(&self, encoding: u8, variant: usize, flaw: usize) -> Tables<'_> {
        self.lent[usize::from(encoding.min(39))][variant].with(flaw)
    }

    pub fn writer_tables(&self, encoding: u8, variant: usize, flaw: usize) -> Tables<'_> {
        match encoding {
            33 => self.lent[40][variant].with(flaw),
            _ => self.tables(encoding, variant, flaw),
        }
    }

    pub fn text(&self, encoding: u8, random: &mut Random) -> Vec<u8> {
        let length = match random.below(12) {
            0 => 0,
            1 => random.below(60),
            _ => 1 + random.below(8),
        };
        let mut bytes = Vec::new();
        while bytes.len() < length {
            match random.below(8) {
                0 => bytes.extend(random.pick(SEQUENCES)),
                1 | 2 => bytes.push(random.number() as u8),
                3..=5 => bytes.push(random.pick(alphabet(encoding))),
                _ => bytes.push(random.pick(EDGES)),
            }
        }
        bytes
    }

    /// A text, seldom of about the most bytes that a call takes.
    fn chunk(&self, encoding: u8, random: &mut Random) -> Vec<u8> {
        if random.one_in(16) {
            // a mark, or a part of one
            let (mark, ..) = random.pick(&reference::MARKS);
            return mark[..1 + random.below(mark.len())].to_vec();
        }
        let text = self.text(encoding, random);
        if !random.one_in(3000) {
            return text;
        }
        let length = 65535 + random.below(3);
        let more = text.into_iter().chain([0x81, 0x41]);
        more.cycle().take(length).collect()
    }

    fn number(&self, encoding: u8, variant: usize, random: &mut Random) -> u32 {
        let table = self.tables(encoding, variant, 0).first;
        match random.below(8) {
            0 => random.below(0x80) as u32,
            1 => random.below(0x11_0000) as u32,
            2 => random.pick(CELLS),
            3 => random.pick(&[
                0x0E, 0x0F, 0x1B, 0x5C, 0x7E, 9, 10, 99, 100, 999, 1000, 9999, 10000, 99999,
                100000, 999999, 1000000, 0x7FF, 0x800, 0x20AC, 0x80, 0x81, 0xA5, 0x178, 0x203E,
                0x2212, 0xFF0D, 0xFF60, 0xFF61, 0xFF9F, 0xFFA0, 0xFF71,
            ]),
            _ if !table.is_empty() => random.pick(table),
            _ => 0xF780 + random.below(0x80) as u32,
        }
    }

    fn list(&self, random: &mut Random) -> Vec<Call> {
        let mut list = vec![self.open(random)];
        let mut encoding = 0;
        for _ in 0..1 + random.below(14) {
            match list.last() {
                Some(Call::Open {
                    encoding: opened, ..
                }) => encoding = *opened,
                Some(Call::Finish { .. }) if !random.one_in(3) => {
                    list.push(self.open(random));
                    continue;
                }
                _ => {}
            }
            list.push(self.call(encoding, random));
        }
        list
    }

    fn open(&self, random: &mut Random) -> Call {
        let encoding = match random.below(4) {
            _ if random.one_in(100) => random.pick(&[40, 41, 127, 128, 255]),
            0 => random.below(40) as u8,
            _ => random.pick(&[0, 29, 30, 31, 32, 33, 33, 34, 35, 36, 37, 38]),
        };
        let mode = if random.one_in(3) { 1 } else { 0 };
        let rule = random.below(3) as u8;
        match random.below(100) {
            0 => Call::Open {
                encoding,
                mode: 2,
                rule,
            },
            1 => Call::Open {
                encoding,
                mode,
                rule: random.pick(&[3, 255]),
            },
            _ => Call::Open {
                encoding,
                mode,
                rule,
            },
        }
    }

    fn call(&self, encoding: u8, random: &mut Random) -> Call {
        let room = match random.below(8) {
            0 => -1,
            1 => 1,
            2 => random.below(20) as isize,
            _ => 0,
        };
        let forge = random.one_in(8).then(|| {
            let value = match random.below(3) {
                0 => random.below(4) as u32,
                1 => random.pick(EDGES).into(),
                _ => random.number() as u32,
            };
            (random.below(16) as u8, value)
        });
        let tables = random.below(VARIANTS);
        let flaw = if random.one_in(12) {
            1 + random.below(7)
        } else {
            0
        };
        match random.below(20) {
            0 => Call::Finish {
                tables,
                flaw,
                room,
                forge,
            },
            1 => self.open(random),
            4 => Call::Check {
                encoding,
                text: self.chunk(encoding, random),
                tables,
                flaw,
            },
            5 => Call::EncodeFinish {
                room,
                state: forged_state(random),
            },
            2 | 3 => {
                let encoding = match random.below(14) {
                    0 => random.pick(&[36, 37, 38, 40, 255]),
                    1 => 0,
                    2 => 39,
                    3..=6 => random.pick(&[29, 30, 30, 31, 32, 34, 35]),
                    7..=9 => 33,
                    _ => 1 + random.below(28) as u8,
                };
                let length = match random.below(400) {
                    0 if encoding < 29 => 16384 + random.below(2),
                    _ => random.below(14),
                };
                let mut scalars: Vec<u32> = (0..length)
                    .map(|_| self.number(encoding, tables, random))
                    .collect();
                if !random.one_in(6) {
                    scalars.retain(|&number| reference::is_scalar(number));
                }
                Call::Encode {
                    encoding,
                    mode: random.pick(&[0, 0, 0, 0, 1, 1, 1, 2]),
                    scalars,
                    tables,
                    flaw,
                    room,
                    state: forged_state(random),
                }
            }
            _ => {
                let chunk = self.chunk(encoding, random);
                Call::Feed {
                    chunk,
                    tables,
                    flaw,
                    room,
                    forge,
                }
            }
        }
    }
}

/// Seldom a state that no call left.
fn forged_state(random: &mut Random) -> Option<u8> {
    random
        .one_in(6)
        .then(|| random.pick(&[0, 1, 2, 2, 3, 4, 127, 128, 255]))
}

/// Is the encoding one of demand 3's first part?
pub fn keeps_separators(encoding: u8) -> bool {
    !matches!(encoding, 33 | 36 | 37 | 38)
}

/// The bytes taken and the scalars handed out since the last opening.
#[derive(Default)]
struct Taken {
    encoding: u8,
    mode: u8,
    rule: u8,
    /// The first three bytes.
    front: Vec<u8>,
    bytes: usize,
    scalars: usize,
    line_feeds: usize,
    bytes_below_30: Vec<u32>,
    scalars_below_30: Vec<u32>,
}

impl Taken {
    /// The encoding that reads what was taken.
    fn reads(&self) -> u8 {
        let chosen = reference::MARKS
            .iter()
            .find(|(mark, ..)| self.rule == 2 && self.front.starts_with(mark));
        chosen.map_or(self.encoding, |(_, encoding, _)| *encoding)
    }

    fn after(&mut self, chunk: &[u8], output: &[u32], record: Record) -> Result<(), String> {
        let below = |number: &u32| *number < 0x30;
        let missing = 3 - self.front.len();
        self.front.extend(chunk.iter().take(missing));
        self.bytes += chunk.len();
        self.scalars += output.len();
        self.line_feeds += output.iter().filter(|&&scalar| scalar == 0x0A).count();
        self.bytes_below_30
            .extend(chunk.iter().map(|&byte| u32::from(byte)).filter(below));
        self.scalars_below_30
            .extend(output.iter().copied().filter(below));
        let all = self.mode == 0 && keeps_separators(self.reads());
        if all && self.bytes_below_30 != self.scalars_below_30 {
            return Err("demand 3: a byte below 30 is lost or invented".to_string());
        }
        if self.scalars + usize::from(record.held) > self.bytes {
            return Err("demand 3: more handed out and held than taken".to_string());
        }
        if record.held > 3 {
            return Err("demand 3: more than 3 bytes held".to_string());
        }
        if record.taken as usize != self.bytes || record.lines as usize != self.line_feeds {
            return Err("a total is no count over the whole history".to_string());
        }
        Ok(())
    }
}

#[derive(Default)]
pub struct Counts {
    calls: usize,
    bytes: usize,
    refusals: [usize; 16],
    forged: usize,
}

/// A record with one field altered; of the totals, which are judged together, one or both.
fn forged(record: Record, forge: Option<(u8, u32)>) -> Record {
    let mut record = record;
    if let Some((field, value)) = forge {
        let place = match field {
            9 => {
                record.taken = record.taken.wrapping_add(value % 16).wrapping_sub(8);
                return record;
            }
            10 => {
                record.lines = record.lines.wrapping_add(value % 16).wrapping_sub(8);
                return record;
            }
            11 => {
                record.taken = value;
                return record;
            }
            12 => {
                record.taken = value;
                record.lines = (value / 2).wrapping_add(value % 16).wrapping_sub(8);
                return record;
            }
            13 => {
                record.taken = u32::MAX - value % 80;
                return record;
            }
            14 => {
                record.taken = u32::MAX - value % 80;
                record.lines =
                    (record.taken - record.taken / (1 + value % 3)).wrapping_sub(value % 8);
                return record;
            }
            0 => &mut record.encoding,
            1 => &mut record.mode,
            2 => &mut record.state,
            3 => &mut record.flag,
            4 => &mut record.held,
            5 => &mut record.first,
            6 => &mut record.second,
            7 => &mut record.third,
            15 => &mut record.stage,
            _ => &mut record.ended,
        };
        *place = value as u8;
    }
    record
}

fn room_of(need: usize, above: isize) -> usize {
    need.saturating_add_signed(above)
}

/// A decoder between the calls of a list.
struct Place<'a> {
    lists: &'a Lists,
    record: Record,
    taken: Taken,
    /// The state of the writing.
    state: u8,
}

impl Place<'_> {
    fn call(&mut self, call: &Call) -> Result<u8, String> {
        match call {
            Call::Open {
                encoding,
                mode,
                rule,
            } => {
                let answer = compare::open(*encoding, *mode, *rule)?;
                self.record = answer.record;
                self.taken = Taken {
                    encoding: answer.record.encoding,
                    mode: answer.record.mode,
                    rule: *rule,
                    ..Taken::default()
                };
                Ok(answer.refusal)
            }
            Call::Feed {
                chunk,
                tables,
                flaw,
                room,
                forge,
            } => {
                let record = forged(self.record, *forge);
                let tables = self.lists.tables(record.encoding, *tables, *flaw);
                let room = room_of(chunk.len() + usize::from(record.held), *room);
                let copy = chunk.clone();
                let answer = compare::feed(record, chunk, tables, room)?;
                if copy != *chunk {
                    return Err("the chunk is altered".to_string());
                }
                self.after(chunk, answer, forge.is_some())
            }
            Call::Finish {
                tables,
                flaw,
                room,
                forge,
            } => {
                let record = forged(self.record, *forge);
                let tables = self.lists.tables(record.encoding, *tables, *flaw);
                let room = room_of(record.held.into(), *room);
                let answer = compare::finish(record, tables, room)?;
                self.after(&[], answer, forge.is_some())
            }
            Call::Check {
                encoding,
                text,
                tables,
                flaw,
            } => {
                let tables = self.lists.tables(*encoding, *tables, *flaw);
                let copy = text.clone();
                let answer = compare::check(*encoding, text, tables)?;
                if copy != *text {
                    return Err("the text is altered".to_string());
                }
                Ok(answer.refusal)
            }
            Call::Encode {
                encoding,
                mode,
                scalars,
                tables,
                flaw,
                room,
                state,
            } => {
                let tables = self.lists.writer_tables(*encoding, *tables, *flaw);
                let from = state.unwrap_or(self.state);
                let whole =
                    reference::encode(*encoding, *mode, from, scalars, tables, None, usize::MAX);
                let room = room_of(whole.output.len(), *room);
                let answer = compare::encode(*encoding, *mode, from, scalars, tables, None, room)?;
                Ok(self.after_writing(answer))
            }
            Call::EncodeFinish { room, state } => {
                let from = state.unwrap_or(self.state);
                let needs = reference::encode_finish(from, usize::MAX).output.len();
                let answer = compare::encode_finish(from, room_of(needs, *room))?;
                Ok(self.after_writing(answer))
            }
        }
    }

    /// The list goes on with the state that a call left, forged or not, where it is one.
    fn after_writing(&mut self, answer: Encoded) -> u8 {
        if answer.state <= 2 {
            self.state = answer.state;
        }
        answer.refusal
    }

    /// After a call on a forged record the list goes on with the record that was not forged.
    fn after(&mut self, chunk: &[u8], answer: Answer, forged: bool) -> Result<u8, String> {
        if !forged {
            self.record = answer.record;
            if matches!(answer.refusal, 0 | 11) {
                self.taken.after(chunk, &answer.output, answer.record)?;
            }
        }
        Ok(answer.refusal)
    }
}

impl Lists {
    fn run(&self, list: &[Call], counts: &mut Counts) -> Result<(), String> {
        let mut place = Place {
            lists: self,
            record: compare::open(0, 0, 1)?.record,
            taken: Taken::default(),
            state: 0,
        };
        for call in list {
            let refusal = place.call(call)?;
            counts.calls += 1;
            counts.refusals[usize::from(refusal)] += 1;
            match call {
                Call::Feed { chunk, forge, .. } => {
                    counts.bytes += chunk.len();
                    counts.forged += usize::from(forge.is_some());
                }
                Call::Check { text, .. } => counts.bytes += text.len(),
                Call::Finish { forge, .. } => counts.forged += usize::from(forge.is_some()),
                _ => {}
            }
        }
        Ok(())
    }

    /// Cuts a failing list down while it still fails: no call, byte or scalar can then be left out.
    fn smallest(&self, list: &[Call]) -> Vec<Call> {
        let fails = |list: &[Call]| self.run(list, &mut Counts::default()).is_err();
        let mut list = list.to_vec();
        loop {
            let before: usize = list.iter().map(Call::size).sum();
            list = smallest(&list, fails);
            for place in 0..list.len() {
                let with = |call: Call| {
                    let mut list = list.clone();
                    list[place] = call;
                    list
                };
                list = with(list[place].smallest(|call| fails(&with(call))));
            }
            if list.iter().map(Call::size).sum::<usize>() == before {
                return list;
            }
        }
    }
}

impl Call {
    /// The call, and the bytes or scalars that it is handed.
    fn size(&self) -> usize {
        1 + match self {
            Call::Feed { chunk: bytes, .. } | Call::Check { text: bytes, .. } => bytes.len(),
            Call::Encode { scalars, .. } => scalars.len(),
            Call::Open { .. } | Call::Finish { .. } | Call::EncodeFinish { .. } => 0,
        }
    }

    fn smallest(&self, fails: impl Fn(Call) -> bool) -> Call {
        let mut call = self.clone();
        match &mut call {
            Call::Feed { chunk: bytes, .. } | Call::Check { text: bytes, .. } => {
                let with = |fewer: &[u8]| {
                    let mut call = self.clone();
                    if let Call::Feed { chunk: bytes, .. } | Call::Check { text: bytes, .. } =
                        &mut call
                    {
                        *bytes = fewer.to_vec();
                    }
                    call
                };
                *bytes = smallest(bytes, |fewer| fails(with(fewer)));
            }
            Call::Encode { scalars, .. } => {
                let with = |numbers: &[u32]| {
                    let mut call = self.clone();
                    if let Call::Encode { scalars, .. } = &mut call {
                        *scalars = numbers.to_vec();
                    }
                    call
                };
                *scalars = smallest(scalars, |numbers| fails(with(numbers)));
            }
            Call::Open { .. } | Call::Finish { .. } | Call::EncodeFinish { .. } => {}
        }
        call
    }
}

pub fn calls(published: &Published, number: usize, seed: u64) -> Result<String, String> {
    let mut random = Random::new(seed);
    let lists = Lists::new(published, &mut random);
    let mut counts = Counts::default();
    while counts.calls < number {
        let list = lists.list(&mut random);
        if lists.run(&list, &mut counts).is_ok() {
            continue;
        }
        let list = lists.smallest(&list);
        let error = lists.run(&list, &mut Counts::default());
        let shown: Vec<String> = list.iter().map(|call| format!("  {call}\n")).collect();
        return Err(format!(
            "seed {seed}, after {} calls; no call, byte or scalar can be left out of\n{}  {}",
            counts.calls,
            shown.concat(),
            error.err().unwrap_or_default()
        ));
    }
    let again = Lists::new(published, &mut Random::new(seed));
    for (one, two) in lists.lent.iter().flatten().zip(again.lent.iter().flatten()) {
        if one.first != two.first || one.second != two.second {
            return Err(format!("seed {seed}: a lent table is altered"));
        }
    }
    let refusals: Vec<String> = (0..16)
        .filter(|&refusal| counts.refusals[refusal] > 0)
        .map(|refusal| format!("{refusal}: {}", counts.refusals[refusal]))
        .collect();
    Ok(format!(
        "{} calls with {} bytes, {} on forged records, seed {seed}; answers {}",
        counts.calls,
        counts.bytes,
        counts.forged,
        refusals.join(", ")
    ))
}
