//! Every byte, every pair of bytes, every lead of UTF-8, every four-byte sequence of gb18030 and every scalar, beside
//! the reference.

use crate::compare;
use crate::data::{name, Published};
use crate::differences::{smallest_case, Differences};
use crate::reference::is_scalar;
use support::ffi::Decoder as Record;
use support::Tables;

/// Bytes before the pairs: none, and those after which a pair is read otherwise.
fn fronts(encoding: u8) -> &'static [&'static [u8]] {
    match encoding {
        0 => &[
            b"",
            b"\xC2",
            b"\xE0",
            b"\xE1",
            b"\xED",
            b"\xEF",
            b"\xF0",
            b"\xF1",
            b"\xF4",
            b"\xE0\xA0",
            b"\xF0\x90",
            b"\xF4\x8F\xBF",
        ],
        29 | 30 => &[b"", b"\x81", b"\x81\x30", b"\x81\x30\x81"],
        32 => &[b"", b"\x8F", b"\x8E"],
        33 => &[
            b"",
            b"\x1B",
            b"\x1B(",
            b"\x1B$",
            b"\x1B(J",
            b"\x1B(I",
            b"\x1B$B",
            b"\x1B$B!",
            b"\x1B$B\x1B",
        ],
        36 => &[b"", b"A"],
        37 => &[b"", b"\xD8\x00", b"\xDB\xFF", b"\xD8\x00\xDC"],
        38 => &[b"", b"\x00\xD8", b"\xFF\xDB", b"\x00\xD8\x00"],
        _ => &[b""],
    }
}

/// The record after a chunk, in a room just large enough.
fn fed(record: Record, chunk: &[u8], tables: Tables) -> Result<Record, String> {
    let room = chunk.len() + usize::from(record.held);
    Ok(compare::feed(record, chunk, tables, room)?.record)
}

/// The record after a chunk; a finish behind the chunk is compared too.
fn fed_and_finished(record: Record, chunk: &[u8], tables: Tables) -> Result<Record, String> {
    let after = fed(record, chunk, tables)?;
    compare::finish(after, tables, after.held.into())
        .map_err(|error| format!("at the finish, {error}"))?;
    Ok(after)
}

/// Whether a text leaves the same record whole and cut. A report takes its whole chunk, so where it came before the cut
/// the bytes taken are fewer.
fn same_record(whole: Record, cut: Record, before_the_cut: Record) -> bool {
    match before_the_cut.ended {
        0 => whole == cut,
        _ => {
            whole
                == Record {
                    taken: whole.taken,
                    ..cut
                }
        }
    }
}

/// An encoding, a mode and a rule for the byte order mark.
#[derive(Clone, Copy)]
struct Setting {
    encoding: u8,
    mode: u8,
    rule: u8,
}

impl Setting {
    fn case(&self, text: &[u8], error: &str) -> String {
        let name = name(self.encoding);
        format!(
            "{name}, mode {}, rule {}, {text:02X?}: {error}",
            self.mode, self.rule
        )
    }
}

/// The pairs after one front: the second byte in the same chunk and in the next one.
struct Pairs<'a> {
    setting: Setting,
    front: &'static [u8],
    tables: Tables<'a>,
    bytes: usize,
    pairs: usize,
    differences: &'a mut Differences,
}

impl Pairs<'_> {
    fn differ(&mut self, chunk: &[u8], error: &str) {
        let text = [self.front, chunk].concat();
        self.differences.add(text.len(), || {
            let cut = format!("cut behind byte {}: {error}", self.front.len());
            self.setting
                .case(&text, if self.front.is_empty() { error } else { &cut })
        });
    }

    fn walk(&mut self) -> Result<(), String> {
        let Setting {
            encoding,
            mode,
            rule,
        } = self.setting;
        let open = compare::open(encoding, mode, rule)?.record;
        let start = match fed_and_finished(open, self.front, self.tables) {
            Ok(record) => record,
            Err(error) => {
                self.differences
                    .add(self.front.len(), || self.setting.case(self.front, &error));
                return Ok(());
            }
        };
        for one in 0..=255u8 {
            self.bytes += 1;
            match fed_and_finished(start, &[one], self.tables) {
                Ok(middle) => self.pairs_of(start, middle, one),
                Err(error) => self.differ(&[one], &error),
            }
        }
        Ok(())
    }

    fn pairs_of(&mut self, start: Record, middle: Record, one: u8) {
        for two in 0..=255u8 {
            self.pairs += 1;
            let whole = fed_and_finished(start, &[one, two], self.tables);
            let cut = fed(middle, &[two], self.tables);
            match (whole, cut) {
                (Ok(whole), Ok(cut)) if same_record(whole, cut, middle) => {}
                (Ok(whole), Ok(cut)) => {
                    let error =
                        format!("cut before the last byte, record {cut:02X?}, not {whole:02X?}");
                    self.differ(&[one, two], &error);
                }
                (Err(error), _) => self.differ(&[one, two], &error),
                (_, Err(error)) => {
                    self.differ(&[one, two], &format!("cut before the last byte, {error}"))
                }
            }
        }
    }
}

/// Every encoding and mode, and all rules where the encoding has a byte order mark. (The module `marks` has rule 2 of all.)
fn settings() -> Vec<Setting> {
    let mut settings = Vec::new();
    for encoding in 0..40 {
        let rules = if matches!(encoding, 0 | 37 | 38) {
            3
        } else {
            1
        };
        for mode in 0..2 {
            settings.extend((0..rules).map(|rule| Setting {
                encoding,
                mode,
                rule,
            }));
        }
    }
    settings
}

pub fn pairs(published: &Published) -> Result<String, String> {
    let mut differences = Differences::default();
    let (mut bytes, mut pairs) = (0, 0);
    for setting in settings() {
        for front in fronts(setting.encoding) {
            let mut walk = Pairs {
                setting,
                front,
                tables: published.tables(setting.encoding),
                bytes: 0,
                pairs: 0,
                differences: &mut differences,
            };
            walk.walk()?;
            bytes += walk.bytes;
            pairs += walk.pairs;
        }
    }
    differences.result(format!(
        "{bytes} single bytes and {pairs} pairs, whole and cut, in all encodings, modes and states"
    ))
}

/// A few bytes for each decoder: the edges of its ranges and what its rules name.
pub fn alphabet(encoding: u8) -> &'static [u8] {
    match encoding {
        0 => b"\x0A\x7F\x80\x8F\x90\x9F\xA0\xBB\xBF\xC2\xE0\xED\xEF\xF0\xF1\xF4\xF5",
        1..=28 => b"\x0A\x7F\x80\xA0\xFF",
        29 | 30 => b"\x0A\x30\x39\x40\x7F\x80\x81\xFE\xFF",
        31 => b"\x0A\x40\x62\x64\x7F\x80\x88\xA3\xA5\xFE\xFF",
        32 => b"\x0A\x7F\x80\x8E\x8F\xA1\xDF\xFE\xFF",
        33 => b"\x0A\x0E\x1B\x21\x24\x28\x42\x49\x4A\x5C\x7E\x80",
        34 => b"\x0A\x40\x7E\x7F\x80\x81\xA0\xA1\xE0\xF0\xFC\xFD",
        35 => b"\x0A\x40\x41\x7F\x80\x81\xA1\xFE\xFF",
        36 => b"\x0A\xFF",
        37 | 38 => b"\x00\x0A\xD8\xDB\xDC\xDF\xFE\xFF",
        _ => b"\x0A\x7F\x80\xFF",
    }
}

/// The longest texts over an alphabet.
fn longest(encoding: u8) -> usize {
    match encoding {
        0 => 4,
        29 | 30 | 37 | 38 => 6,
        32 | 33 => 5,
        _ => 3,
    }
}

struct Texts<'a> {
    setting: Setting,
    start: Record,
    tables: Tables<'a>,
    text: Vec<u8>,
    compared: usize,
    differences: &'a mut Differences,
}

impl Texts<'_> {
    /// All texts that go on from here: byte by byte, in one chunk, and with a finish; in refusing mode checked, too.
    /// Behind a difference no longer text is tried.
    fn walk(&mut self, record: Record) {
        if self.text.len() == longest(self.setting.encoding) {
            return;
        }
        for &byte in alphabet(self.setting.encoding) {
            self.text.push(byte);
            self.compared += 1;
            match self.compare(record, byte) {
                Ok(after) if after.ended == 0 => self.walk(after),
                Ok(_) => {}
                Err(error) => self
                    .differences
                    .add(self.text.len(), || self.setting.case(&self.text, &error)),
            }
            self.text.pop();
        }
    }

    fn compare(&self, record: Record, byte: u8) -> Result<Record, String> {
        if self.setting.mode == 1 {
            compare::check(self.setting.encoding, &self.text, self.tables)
                .map_err(|error| format!("checked, {error}"))?;
        }
        let whole = fed(self.start, &self.text, self.tables)?;
        let after = fed_and_finished(record, &[byte], self.tables)
            .map_err(|error| format!("byte by byte, {error}"))?;
        if whole != after {
            return Err(format!(
                "byte by byte, record {after:02X?}, not {whole:02X?}"
            ));
        }
        Ok(after)
    }
}

pub fn texts(published: &Published) -> Result<String, String> {
    let mut differences = Differences::default();
    let mut compared = 0;
    for setting in settings().into_iter().filter(|setting| setting.rule == 0) {
        let start = compare::open(setting.encoding, setting.mode, setting.rule)?.record;
        let mut texts = Texts {
            setting,
            start,
            tables: published.tables(setting.encoding),
            text: Vec::new(),
            compared: 0,
            differences: &mut differences,
        };
        texts.walk(start);
        compared += texts.compared;
    }
    differences.result(format!(
        "{compared} short texts over few bytes, whole and byte by byte, and checked in refusing mode"
    ))
}

/// Bytes behind a lead of UTF-8: the edges of the ranges of its second byte, and a byte on each side that never follows.
const BEHIND: &[u8] = b"\x7F\x80\x8F\x90\x9F\xA0\xBF\xC0";

/// Four bytes in one chunk, and the first alone before the others.
fn compare_lead(start: Record, text: [u8; 4], tables: Tables) -> Result<(), String> {
    let whole = fed_and_finished(start, &text, tables)?;
    let lead = fed_and_finished(start, &text[..1], tables)?;
    let cut = fed(lead, &text[1..], tables)
        .map_err(|error| format!("cut behind the first byte, {error}"))?;
    if !same_record(whole, cut, lead) {
        return Err(format!(
            "cut behind the first byte, record {cut:02X?}, not {whole:02X?}"
        ));
    }
    Ok(())
}

/// Every byte as a lead of UTF-8, with three bytes behind it.
pub fn leads(published: &Published) -> Result<String, String> {
    let mut differences = Differences::default();
    let mut compared = 0;
    for setting in settings()
        .into_iter()
        .filter(|setting| setting.encoding == 0)
    {
        let start = compare::open(setting.encoding, setting.mode, setting.rule)?.record;
        for lead in 0..=255u8 {
            for places in 0..BEHIND.len().pow(3) {
                let at = |place: usize| BEHIND[place % BEHIND.len()];
                let text = [lead, at(places / 64), at(places / 8), at(places)];
                compared += 1;
                if let Err(error) = compare_lead(start, text, published.tables(setting.encoding)) {
                    differences.add(text.len(), || setting.case(&text, &error));
                }
            }
        }
    }
    differences.result(format!(
        "{compared} texts of each byte and three more, whole and cut"
    ))
}

/// Bytes held in the records that are tried.
const HELD: &[u8] =
    b"\x00\x1B\x21\x24\x28\x2F\x30\x39\x3A\x7E\x80\x81\x8E\x8F\x90\x9F\xA0\xA1\xBF\xC1\xC2\
\xD7\xD8\xDB\xDC\xDF\xE0\xED\xEF\xF0\xF4\xF5\xFC\xFE\xFF";

/// Tables that suit no encoding.
const UNFIT: Tables = Tables {
    first: &[0],
    second: &[0],
};

/// Records, counted by whether some calls leave them.
#[derive(Default)]
struct Records {
    forged: usize,
    left: usize,
    differences: Differences,
}

impl Records {
    fn compare(&mut self, record: Record) {
        // Where the choice is still to come the answer is 4, and 5 comes before it.
        match compare::finish(record, UNFIT, 3) {
            Ok(answer) if answer.refusal == 5 => self.forged += 1,
            Ok(_) => self.left += 1,
            Err(error) => self.differences.add(record.held.into(), || {
                format!("finish {record:02X?}, room 3: {error}")
            }),
        }
    }

    /// One byte in each place, with any number of bytes held, which are taken too.
    fn one_byte(&mut self, record: Record) {
        for held in 0..5 {
            for &byte in HELD {
                let record = Record {
                    held,
                    taken: record.taken + u32::from(held),
                    ..record
                };
                self.compare(Record {
                    first: byte,
                    ..record
                });
                self.compare(Record {
                    second: byte,
                    ..record
                });
                self.compare(Record {
                    third: byte,
                    ..record
                });
            }
        }
    }

    /// Every byte and pair of bytes held, and three from a choice.
    fn all_held(&mut self, record: Record) {
        let with = |held, first, second, third| Record {
            taken: record.taken + u32::from(held),
            held,
            first,
            second,
            third,
            ..record
        };
        for first in 0..=255 {
            self.compare(with(1, first, 0, 0));
            for second in 0..=255 {
                self.compare(with(2, first, second, 0));
            }
        }
        for &first in HELD {
            for &second in HELD {
                for &third in HELD {
                    self.compare(with(3, first, second, third));
                }
            }
        }
    }
}

/// Totals: the bytes before those held, and the line feeds. With the first pair marks are still to be dropped and
/// replacement has given no error; the second leads to every other shift.
const TOTALS: [(u32, u32); 2] = [(0, 0), (8, 1)];

/// Bytes taken at the edges: few, and the most.
const TAKEN: [u32; 24] = [
    0,
    1,
    2,
    3,
    4,
    5,
    6,
    7,
    8,
    9,
    10,
    11,
    12,
    65535,
    65536,
    65537,
    65538,
    65539,
    65540,
    0x7FFF_FFFF,
    0x8000_0000,
    0xFFFF_FFFD,
    0xFFFF_FFFE,
    0xFFFF_FFFF,
];

impl Records {
    /// Totals at the edges of what a record may have, with nothing and with one byte held.
    fn totals(&mut self, record: Record) {
        for taken in TAKEN {
            let lines = (0..7)
                .chain((0..7).map(|less| taken.saturating_sub(less)))
                .chain((0..7).map(|more| (taken / 2).saturating_sub(3) + more))
                .chain([0x8000_0000, 0xFFFF_FFFF]);
            for lines in lines {
                let record = Record {
                    taken,
                    lines,
                    ..record
                };
                self.compare(record);
                self.compare(Record {
                    held: 1,
                    first: if record.encoding == 33 { 0x1B } else { 0xC2 },
                    ..record
                });
            }
        }
    }
}

/// Encodings of the records that are tried, and those of records in another stage than 0.
const ENCODINGS: &[u8] = &[
    0, 1, 21, 28, 29, 30, 31, 32, 33, 34, 35, 36, 37, 38, 39, 40, 255,
];
const STAGED: &[u8] = &[0, 1, 33, 36, 38, 40];

/// Which records calls leave: refusal 5 for all others.
pub fn records() -> Result<String, String> {
    let mut records = Records::default();
    for stage in [0, 1, 2, 3, 4, 5, 255] {
        records.of_stage(stage, if stage == 0 { ENCODINGS } else { STAGED });
    }
    records.differences.result(format!(
        "{} records that no calls leave, {} that calls leave",
        records.forged, records.left
    ))
}

impl Records {
    fn of_stage(&mut self, stage: u8, encodings: &[u8]) {
        for (&encoding, number) in encodings
            .iter()
            .flat_map(|encoding| (0..3 * 5 * 3 * 3).map(move |number| (encoding, number)))
        {
            let record = Record {
                encoding,
                mode: number % 3,
                stage,
                state: number / 3 % 5,
                flag: number / 15 % 3,
                ended: number / 45,
                ..Record::default()
            };
            let states = if encoding == 33 { 4 } else { 1 };
            let likely = record.mode < 2 && record.state < states && record.flag < 2;
            for (taken, lines) in TOTALS {
                let record = Record {
                    taken,
                    lines,
                    ..record
                };
                self.one_byte(record);
                if likely && record.ended == 0 && (stage == 0 || record.flag + record.state == 0) {
                    self.all_held(record);
                }
            }
            if likely && record.ended < 2 {
                self.totals(record);
            }
        }
    }
}

pub fn four_bytes(published: &Published) -> Result<String, String> {
    let mut sequences = 0;
    for encoding in [29, 30] {
        let tables = published.tables(encoding);
        let setting = Setting {
            encoding,
            mode: 0,
            rule: 0,
        };
        let start = compare::open(encoding, 0, 0)?.record;
        let read = |text: &[u8]| compare::feed(start, text, tables, text.len());
        for first in 0x81..=0xFEu8 {
            let mut chunk = Vec::new();
            for second in 0x30..=0x39u8 {
                for third in 0x81..=0xFEu8 {
                    for fourth in 0x30..=0x39u8 {
                        chunk.extend([first, second, third, fourth]);
                    }
                }
            }
            let answer = read(&chunk).map_err(|_| {
                let (text, error) = smallest_case(&chunk, read);
                let case = setting.case(&text, &error);
                format!("no byte can be left out of\n  {case}")
            })?;
            let expected = chunk.len() / 4;
            let came = answer.output.len();
            if came != expected {
                let name = name(encoding);
                return Err(format!(
                    "{name}, all from {first:02X}: expected {expected} scalars, came {came}"
                ));
            }
            sequences += came;
        }
    }
    Ok(format!(
        "{sequences} four-byte sequences of GBK and gb18030"
    ))
}

/// Writes scalars in refusing mode and reads them back; false where one of them cannot be written.
fn round_trip(encoding: u8, scalars: &[u32], tables: Tables) -> Result<bool, String> {
    let written = compare::encode(encoding, 1, 0, scalars, tables, None, 4 * scalars.len())?;
    if written.refusal == 11 {
        return Ok(false);
    }
    let bytes = written.output;
    let start = compare::open(encoding, 0, 1)?.record;
    let read = compare::feed(start, &bytes, tables, bytes.len())
        .map_err(|error| format!("read back, {error}"))?
        .output;
    let expected: Vec<u32> = scalars.iter().map(|&c| image(encoding, c)).collect();
    if read != expected {
        return Err(format!(
            "read back: expected {expected:04X?}, came {read:04X?}"
        ));
    }
    Ok(true)
}

/// What a scalar that a writer writes is read back as.
fn image(encoding: u8, scalar: u32) -> u32 {
    match (encoding, scalar) {
        (32 | 34, 0xA5) => 0x5C,
        (32 | 34, 0x203E) => 0x7E,
        (32 | 34, 0x2212) => 0xFF0D,
        _ => scalar,
    }
}

/// Every scalar through every writer of one byte and of UTF-8; what refusing mode writes is read back.
pub fn scalars(published: &Published) -> Result<String, String> {
    let all: Vec<u32> = (0..=0x10FFFF).filter(|&scalar| is_scalar(scalar)).collect();
    let (mut html, mut refusing, mut read_back) = (0, 0, 0);
    for encoding in (0..=28).chain([39u8]) {
        let tables = published.tables(encoding);
        let write_html =
            |list: &[u32]| compare::encode(encoding, 0, 0, list, tables, None, 10 * list.len());
        let write_and_read = |list: &[u32]| round_trip(encoding, list, tables);
        let case = |mode: u8, (list, error): (Vec<u32>, String)| {
            let name = name(encoding);
            format!("no scalar can be left out of\n  {name}, mode {mode}, {list:04X?}: {error}")
        };
        for part in all.chunks(16384) {
            write_html(part).map_err(|_| case(0, smallest_case(part, write_html)))?;
            html += part.len();
            // All are written in UTF-8; in the others most are errors, and each call takes one.
            let size = if encoding == 0 { part.len() } else { 1 };
            for list in part.chunks(size) {
                let written = write_and_read(list)
                    .map_err(|_| case(1, smallest_case(list, write_and_read)))?;
                refusing += list.len();
                read_back += if written { list.len() } else { 0 };
            }
        }
    }
    Ok(format!(
        "{html} scalars in html mode, {refusing} in refusing mode, {read_back} of them read back"
    ))
}

/// Tables of an index at the edges: as published; duplicates of other cells, the scalars with rules of their own and
/// numbers that are no scalars strewn over it; and cells on both sides of the pointers that are passed over.
fn edged(published: &[u32]) -> Vec<Vec<u32>> {
    let mut strewn = published.to_vec();
    let odd = [
        0xA5, 0x203E, 0x2212, 0xFF0D, 0xFF61, 0xFF9F, 0x80, 0x41, 0xD800, 0x110000, 0x20AC, 0xE5E5,
        0xE7C7, 0x2550, 0x5341,
    ];
    for (place, cell) in strewn.iter_mut().enumerate() {
        match place % 7 {
            0 => *cell = published[place / 3],
            3 => *cell = odd[place / 7 % odd.len()],
            _ => {}
        }
    }
    let mut sides = vec![0; published.len()];
    for (place, cell) in [5023, 5024, 8271, 8272, 8835, 8836, 10715, 10716, 11279]
        .into_iter()
        .zip(0x4E00..)
    {
        sides[place] = cell;
    }
    vec![published.to_vec(), strewn, sides]
}

/// Every scalar of the first plane, and some beyond it, through the writers of Shift_JIS and EUC-JP, and every fourth, and
/// those with rules of their own, through the other writers of pairs, whose tables are longer; what refusing mode writes
/// is read back.
pub fn pair_writers(published: &Published) -> Result<String, String> {
    let plane: Vec<u32> = (0..=0xFFFF)
        .chain([0x10000, 0x1F4A9, 0x2000B, 0x10FFFF])
        .filter(|&scalar| is_scalar(scalar))
        .collect();
    let ruled = [
        0x20AC, 0x2550, 0x255E, 0x2561, 0x256A, 0x5341, 0x5345, 0xE5E5, 0xE7C7, 0x4E00, 0x4E01,
    ];
    let fourth: Vec<u32> = plane.iter().copied().step_by(4).chain(ruled).collect();
    let (mut written, mut refused) = (0, 0);
    for encoding in [29u8, 30, 31, 32, 34, 35] {
        let all = match encoding {
            32 | 34 => &plane,
            _ => &fourth,
        };
        let tables = published.tables(encoding);
        for first in edged(tables.first) {
            let tables = Tables {
                first: &first,
                second: tables.second,
            };
            let write =
                |list: &[u32]| compare::encode(encoding, 0, 0, list, tables, None, 10 * list.len());
            let case = |mode: u8, (list, error): (Vec<u32>, String)| {
                let name = name(encoding);
                format!("no scalar can be left out of\n  {name}, mode {mode}, {list:04X?}: {error}")
            };
            for part in all.chunks(16384) {
                write(part).map_err(|_| case(0, smallest_case(part, write)))?;
            }
            for scalar in all.chunks(1) {
                let read = |list: &[u32]| round_trip(encoding, list, tables);
                match read(scalar).map_err(|error| case(1, (scalar.to_vec(), error)))? {
                    true => written += 1,
                    false => refused += 1,
                }
            }
        }
    }
    Ok(format!(
        "{written} scalars written and read back, {refused} unwritable, by published and by other tables"
    ))
}

/// A scalar of ISO-2022-JP in a state, in both modes.
fn iso_in_state(scalar: u32, state: u8, tables: Tables) -> Result<bool, String> {
    compare::encode(33, 0, state, &[scalar], tables, None, 13)?;
    let refusing = compare::encode(33, 1, state, &[scalar], tables, None, 5)?;
    if let room @ 1.. = refusing.output.len() {
        let small = compare::encode(33, 1, state, &[scalar], tables, None, room - 1)?;
        if small.refusal != 7 {
            return Err(format!("room {}: expected 7", room - 1));
        }
    }
    Ok(refusing.refusal == 0)
}

/// A whole writing of ISO-2022-JP in refusing mode, cut behind the first scalar, with its finish, read back with the same
/// first table.
fn iso_read_back(scalars: &[u32], tables: Tables) -> Result<(), String> {
    let one = compare::encode(33, 1, 0, &scalars[..1], tables, None, 5)?;
    let other = compare::encode(
        33,
        1,
        one.state,
        &scalars[1..],
        tables,
        None,
        5 * scalars.len(),
    )?;
    let last = compare::encode_finish(other.state, 3)?;
    let bytes = [one.output, other.output, last.output].concat();
    let start = compare::open(33, 1, 1)?.record;
    let first = Tables {
        second: &[],
        ..tables
    };
    let read = compare::feed(start, &bytes, first, bytes.len())?.output;
    let expected: Vec<u32> = scalars.iter().map(|&c| iso_image(c, tables)).collect();
    if read != expected {
        return Err(format!(
            "read back: expected {expected:04X?}, came {read:04X?}"
        ));
    }
    Ok(())
}

/// All of them in long calls: in html mode from each state; and those that can be written in refusing mode, the state going
/// from call to call, with a finish, read back as a whole.
fn iso_long(all: &[u32], writable: &[u32], tables: Tables) -> Result<(), String> {
    for state in 0..3 {
        for part in all.chunks(16384) {
            compare::encode(33, 0, state, part, tables, None, 13 * part.len())?;
        }
    }
    let (mut state, mut bytes) = (0, Vec::new());
    for part in writable.chunks(5000) {
        let answer = compare::encode(33, 1, state, part, tables, None, 5 * part.len())?;
        state = answer.state;
        bytes.extend(answer.output);
    }
    bytes.extend(compare::encode_finish(state, 3)?.output);
    let mut record = compare::open(33, 1, 1)?.record;
    let first = Tables {
        second: &[],
        ..tables
    };
    let mut read = Vec::new();
    for chunk in bytes.chunks(65536) {
        let answer = compare::feed(record, chunk, first, chunk.len() + 3)?;
        record = answer.record;
        read.extend(answer.output);
    }
    let expected: Vec<u32> = writable.iter().map(|&c| iso_image(c, tables)).collect();
    match read == expected {
        true => Ok(()),
        false => Err("a long text is not read back".to_string()),
    }
}

/// What a scalar that ISO-2022-JP writes is read back as.
fn iso_image(scalar: u32, tables: Tables) -> u32 {
    match scalar {
        0x2212 => 0xFF0D,
        0xFF61..=0xFF9F => tables.second[(scalar - 0xFF61) as usize],
        _ => scalar,
    }
}

/// Every scalar of the first plane, and some beyond it, through the writer of ISO-2022-JP, from each of its states, by the
/// published tables, and every fourth, and those with rules of their own, by others; what refusing mode writes is read
/// back, from ASCII and behind a scalar of each other state.
pub fn iso_2022_jp(published: &Published) -> Result<String, String> {
    let plane: Vec<u32> = (0..=0xFFFF)
        .chain([0x10000, 0x1F4A9, 0x2000B, 0x10FFFF])
        .filter(|&scalar| is_scalar(scalar))
        .collect();
    let ruled = (0..0x100)
        .chain([0x203E, 0x2212, 0xFF0D, 0x4E00])
        .chain(0xFF60..=0xFFA0);
    let fourth: Vec<u32> = plane.iter().copied().step_by(4).chain(ruled).collect();
    let tables = published.writer_tables(33);
    let odd: Vec<u32> = [
        0xA5, 0x203E, 0x2212, 0xFF0D, 0xFF61, 0xFF9F, 0, 0x41, 0xD800, 0x4E00,
    ]
    .into_iter()
    .cycle()
    .take(63)
    .collect();
    let (mut written, mut refused) = (0, 0);
    for (number, first) in edged(tables.first).into_iter().enumerate() {
        let all = if number == 0 { &plane } else { &fourth };
        for second in [tables.second, &odd] {
            let tables = Tables {
                first: &first,
                second,
            };
            let pair = (0..8836).find(|&pointer| {
                let cell = first[pointer];
                cell > 0x4000 && is_scalar(cell) && iso_in_state(cell, 0, tables) == Ok(true)
            });
            let pair = first[pair.ok_or("no pair is written")?];
            let mut writable = Vec::new();
            for &scalar in all {
                let case = |error: String| format!("ISO-2022-JP, {scalar:04X}: {error}");
                let mut writes = false;
                for state in 0..3 {
                    let case = |error: String| case(format!("state {state}, {error}"));
                    writes = iso_in_state(scalar, state, tables).map_err(case)?;
                }
                if !writes {
                    refused += 1;
                    continue;
                }
                written += 1;
                writable.push(scalar);
                for list in [[scalar, 0x41], [0xA5, scalar], [pair, scalar]] {
                    iso_read_back(&list, tables).map_err(case)?;
                }
            }
            iso_long(all, &writable, tables)?;
        }
    }
    Ok(format!(
        "{written} scalars written from each state and read back, {refused} unwritable, by published and by other tables"
    ))
}
