//! The published tests.

use crate::data::Published;
use crate::differences::Differences;
use crate::labels::Labels;
use crate::reference::has_writer;
use support::ffi::{Decoder, Written};
use support::{calls, data, Tables};

struct Spellings<'a> {
    labels: &'a Labels,
    compared: usize,
    differences: Differences,
}

impl Spellings<'_> {
    fn compare(&mut self, bytes: &[u8]) {
        let expected = self.labels.find(bytes);
        let found = calls::label(bytes);
        let found = (found.refusal, found.encoding, found.start, found.length);
        self.compared += 1;
        if found != expected {
            self.differences.add(bytes.len(), || {
                format!(
                    "label {bytes:02X?}: refusal, encoding, start, length: \
                     expected {expected:?}, came {found:?}"
                )
            });
        }
    }

    fn compare_all(&mut self, bytes: &[u8]) {
        self.compare(bytes);
        self.compare(&bytes.to_ascii_uppercase());
        let mixed: Vec<u8> = (0..bytes.len())
            .map(|place| match place % 2 {
                0 => bytes[place].to_ascii_uppercase(),
                _ => bytes[place],
            })
            .collect();
        self.compare(&mixed);
        for around in 0..=255u8 {
            self.compare(&[&[around], bytes].concat());
            self.compare(&[bytes, &[around]].concat());
            self.compare(&[b"\t\n", bytes, &[around, 0x0C, b'\r', b' ']].concat());
        }
        for place in 0..bytes.len() {
            self.compare(&[&bytes[..place], &bytes[place + 1..]].concat());
            for byte in 0..=255u8 {
                self.compare(&[&bytes[..place], &[byte], &bytes[place..]].concat());
                self.compare(&[&bytes[..place], &[byte], &bytes[place + 1..]].concat());
            }
        }
    }
}

/// The labels: as they are, in other cases, with white space, and with one byte dropped, added or changed.
pub fn labels(labels: &Labels) -> Result<String, String> {
    let mut spellings = Spellings {
        labels,
        compared: 0,
        differences: Differences::default(),
    };
    spellings.compare(b"");
    spellings.compare(b" \t\n\x0C\r ");
    let all = labels.all();
    for label in &all {
        spellings.compare_all(label.as_bytes());
    }
    let compared = spellings.compared;
    spellings.differences.result(format!(
        "{} labels, in {compared} spellings and near misses",
        all.len()
    ))
}

/// The names, in rooms of every length.
pub fn names(labels: &Labels) -> Result<String, String> {
    let mut differences = Differences::default();
    let mut compared = 0;
    for encoding in 0..=255 {
        for room in 0..18 {
            let mut cells = [0xA5; 20];
            let answer = calls::name(encoding, &mut cells[..room]);
            let (refusal, name) = match labels.name(encoding) {
                None => (2, ""),
                Some(name) if name.len() > room => (7, ""),
                Some(name) => (0, name),
            };
            let mut expected = [0xA5; 20];
            expected[..name.len()].copy_from_slice(name.as_bytes());
            let expected = (refusal, name.len(), expected);
            let came = (answer.refusal, answer.length, cells);
            if came != expected {
                differences.add(room, || {
                    format!(
                        "name of encoding {encoding}, room {room}: refusal, length, room: \
                         expected {expected:02X?}, came {came:02X?}"
                    )
                });
            }
            compared += 1;
        }
    }
    differences.result(format!("40 names, {compared} calls"))
}

fn encoding_of(label: &str) -> Result<u8, String> {
    let found = calls::label(label.as_bytes());
    match found.refusal {
        0 => Ok(found.encoding),
        _ => Err(format!("label {label} is unknown")),
    }
}

fn bytes_of(hex: &str) -> Result<Vec<u8>, String> {
    (0..hex.len())
        .step_by(2)
        .map(|place| {
            let digits = hex.get(place..place + 2).unwrap_or("");
            u8::from_str_radix(digits, 16).map_err(|_| format!("bytes {hex}"))
        })
        .collect()
}

fn scalars_of(text: &str) -> Result<Vec<u32>, String> {
    text.split_whitespace()
        .map(|digits| u32::from_str_radix(digits, 16).map_err(|_| format!("scalars {text}")))
        .collect()
}

/// A decoder of the library alone, with rooms that are just large enough.
struct Reader<'a> {
    decoder: Decoder,
    tables: Tables<'a>,
}

impl Reader<'_> {
    fn open(tables: Tables<'_>, encoding: u8, mode: u8, rule: u8) -> Reader<'_> {
        let answer = calls::open(encoding, mode, rule);
        Reader {
            decoder: answer.decoder,
            tables,
        }
    }

    fn feed(&mut self, chunk: &[u8]) -> (u8, Vec<u32>) {
        let mut room = vec![0; chunk.len() + usize::from(self.decoder.held)];
        let answer = calls::feed(
            self.decoder,
            chunk,
            self.tables.first,
            self.tables.second,
            &mut room,
        );
        self.decoder = answer.decoder;
        room.truncate(answer.written);
        (answer.refusal, room)
    }

    fn finish(&mut self) -> (u8, Vec<u32>) {
        let mut room = vec![0; usize::from(self.decoder.held)];
        let answer = calls::finish(
            self.decoder,
            self.tables.first,
            self.tables.second,
            &mut room,
        );
        self.decoder = answer.decoder;
        room.truncate(answer.written);
        (answer.refusal, room)
    }

    /// What the chunks give.
    fn read(&mut self, chunks: &[Vec<u8>], finish: bool) -> Reading {
        let mut output = Vec::new();
        let mut parts: Vec<Option<&Vec<u8>>> = chunks.iter().map(Some).collect();
        if finish {
            parts.push(None);
        }
        for part in parts {
            let (refusal, scalars) = match part {
                Some(chunk) => self.feed(chunk),
                None => self.finish(),
            };
            output.extend(scalars);
            match refusal {
                0 => {}
                11 => return Reading::Error,
                _ => return Reading::Refused(refusal),
            }
        }
        Reading::Scalars(output)
    }
}

/// What a list of chunks gives.
#[derive(Debug, PartialEq)]
enum Reading {
    Scalars(Vec<u32>),
    /// Refusing mode met an error.
    Error,
    Refused(u8),
}

fn chunks_of(field: &str) -> Result<Vec<Vec<u8>>, String> {
    match field {
        "" => Ok(Vec::new()),
        _ => field.split(',').map(bytes_of).collect(),
    }
}

/// A line of `decode.txt`.
struct Decoding {
    encoding: u8,
    mode: u8,
    rule: u8,
    before: Vec<Vec<u8>>,
    chunks: Vec<Vec<u8>>,
    finish: bool,
    expected: Reading,
}

impl Decoding {
    fn of_line(line: &str) -> Result<Decoding, String> {
        let fields: Vec<&str> = line.split('\t').collect();
        let [label, mode, rule, before, chunks, end, expected] = fields[..] else {
            return Err(format!("decode.txt: {line}"));
        };
        Ok(Decoding {
            encoding: encoding_of(label)?,
            mode: u8::from(mode == "1"),
            rule: u8::from(rule == "1"),
            before: chunks_of(before)?,
            chunks: chunks_of(chunks)?,
            finish: end == "finish",
            expected: match expected {
                "error" => Reading::Error,
                scalars => Reading::Scalars(scalars_of(scalars)?),
            },
        })
    }

    /// A line of `characters.txt`.
    fn of_character(line: &str) -> Result<Decoding, String> {
        let fields: Vec<&str> = line.split('\t').collect();
        let [label, bytes, scalars] = fields[..] else {
            return Err(format!("characters.txt: {line}"));
        };
        Ok(Decoding {
            encoding: encoding_of(label)?,
            mode: 0,
            rule: 0,
            before: Vec::new(),
            chunks: vec![bytes_of(bytes)?],
            finish: true,
            expected: Reading::Scalars(scalars_of(scalars)?),
        })
    }

    fn read(&self, published: &Published) -> Reading {
        let tables = published.tables(self.encoding);
        let mut reader = Reader::open(tables, self.encoding, self.mode, self.rule);
        match reader.read(&self.before, false) {
            Reading::Scalars(_) => reader.read(&self.chunks, self.finish),
            refused => refused,
        }
    }
}

type Parser = fn(&str) -> Result<Decoding, String>;

fn compare_decodings(published: &Published, file: &str, parse: Parser) -> Result<String, String> {
    let text = data::read(file)?;
    let mut differences = Differences::default();
    let mut compared = 0;
    for line in data::lines(&text) {
        let decoding = parse(line)?;
        let came = decoding.read(published);
        let expected = &decoding.expected;
        compared += 1;
        if came != *expected {
            let size = decoding
                .before
                .iter()
                .chain(&decoding.chunks)
                .map(Vec::len)
                .sum();
            differences.add(size, || {
                format!("{line}: expected {expected:04X?}, came {came:04X?}")
            });
        }
    }
    differences.result(compared.to_string())
}

pub fn decodings(published: &Published) -> Result<String, String> {
    let compared = compare_decodings(published, "vectors/decode.txt", Decoding::of_line)?;
    Ok(format!("{compared} decodings"))
}

pub fn characters(published: &Published) -> Result<String, String> {
    let compared = compare_decodings(published, "vectors/characters.txt", Decoding::of_character)?;
    Ok(format!("{compared} characters"))
}

/// A whole writing: one call, and a finish.
fn whole(published: &Published, encoding: u8, mode: u8, scalars: &[u32]) -> (Written, Vec<u8>) {
    let tables = published.writer_tables(encoding);
    let mut room = vec![0; 13 * scalars.len() + 3];
    let answer = calls::encode(
        encoding,
        mode,
        0,
        scalars,
        tables.first,
        tables.second,
        &mut room,
    );
    let last = calls::encode_finish(answer.state, &mut room[answer.written..]);
    room.truncate(answer.written + last.written);
    (answer, room)
}

/// The published characters whose encodings have a writer, written again: the published bytes, or those of another
/// pair with the same character, which comes first in the index.
pub fn characters_written(published: &Published) -> Result<String, String> {
    let text = data::read("vectors/characters.txt")?;
    let mut differences = Differences::default();
    let (mut same, mut other) = (0, 0);
    for line in data::lines(&text) {
        let character = Decoding::of_character(line)?;
        let tables = published.tables(character.encoding);
        let Reading::Scalars(scalars) = &character.expected else {
            return Err(format!("{line}: no characters"));
        };
        if !has_writer(character.encoding) {
            continue;
        }
        let (answer, written) = whole(published, character.encoding, 1, scalars);
        if answer.refusal == 11 && read_only(character.encoding, &character.chunks.concat()) {
            other += 1;
            continue;
        }
        if written == character.chunks.concat() {
            same += 1;
            continue;
        }
        other += 1;
        let again = Reader::open(tables, character.encoding, 0, 1).read(&[written.clone()], true);
        if answer.refusal != 0 || again != character.expected {
            differences.add(scalars.len(), || {
                format!("{line}: refusal {}, written {written:02X?}", answer.refusal)
            });
        }
    }
    differences.result(format!(
        "{same} characters by their published bytes, {other} by others or, where they are only read, not at all"
    ))
}

/// Is a character only read: in EUC-JP by three bytes, from jis0212, in Big5 from the rows before A1?
fn read_only(encoding: u8, bytes: &[u8]) -> bool {
    match encoding {
        31 => bytes[0] < 0xA1,
        32 => bytes[0] == 0x8F,
        _ => false,
    }
}

const SHIFT_JIS: u8 = 34;

fn shift_jis_pointer(lead: u8, trail: u8) -> Option<usize> {
    let row = match lead {
        0x81..=0x9F => lead - 0x81,
        0xE0..=0xFC => lead - 0xC1,
        _ => return None,
    };
    let cell = match trail {
        0x40..=0x7E => trail - 0x40,
        0x80..=0xFC => trail - 0x41,
        _ => return None,
    };
    Some(usize::from(row) * 188 + usize::from(cell))
}

/// What a pair reads as: a private code point if its lead is F0 to F9, otherwise the cell of the index.
fn shift_jis_pair(index: &[u32], lead: u8, trail: u8) -> Vec<u32> {
    match shift_jis_pointer(lead, trail) {
        Some(pointer @ 8836..=10715) => return vec![0xE000 + pointer as u32 - 8836],
        Some(pointer) if index[pointer] != 0 => return vec![index[pointer]],
        _ => {}
    }
    let mut error = vec![0xFFFD];
    error.extend((trail < 0x80).then_some(u32::from(trail)));
    error
}

/// Shift_JIS F0 40 to F9 FC, and the rows beside them, with cells there and without: pair by pair, and in one text.
pub fn shift_jis(published: &Published) -> Result<String, String> {
    let mut differences = Differences::default();
    let unfilled = published.tables(SHIFT_JIS);
    let mut filled = unfilled.first.to_vec();
    for pointer in 8648..10904 {
        filled[pointer] = 0x3000 + pointer as u32;
    }
    let filled = Tables {
        first: &filled,
        second: &[],
    };
    let mut compared = 0;
    for tables in [unfilled, filled] {
        let mut cases = Vec::new();
        for lead in 0xEF..=0xFA {
            for trail in 0..=255 {
                let pair = vec![lead, trail];
                cases.push((pair, shift_jis_pair(tables.first, lead, trail)));
            }
        }
        let (pairs, scalars): (Vec<_>, Vec<_>) = cases.iter().cloned().unzip();
        cases.push((pairs.concat(), scalars.concat()));
        for (text, expected) in cases {
            let expected = Reading::Scalars(expected);
            let bytes = text.iter().map(|&byte| vec![byte]).collect();
            for chunks in [vec![text.clone()], bytes] {
                let came = Reader::open(tables, SHIFT_JIS, 0, 0).read(&chunks, true);
                compared += 1;
                if came != expected {
                    differences.add(2, || {
                        let start = &text[..2];
                        format!("{start:02X?}: expected {expected:04X?}, came {came:04X?}")
                    });
                }
            }
        }
    }
    differences.result(format!(
        "{compared} readings of leads EF to FA, of which F0 to F9 are U+E000 and up"
    ))
}

/// Code points that the published tests of GBK and gb18030 write by the side table of GB18030-2022, which document 000
/// does not have: there they go by the index and the ranges.
const OF_2022: [u32; 18] = [
    0xE78D, 0xE78E, 0xE78F, 0xE790, 0xE791, 0xE792, 0xE793, 0xE794, 0xE795, 0xE796, 0xE81E, 0xE826,
    0xE82B, 0xE82C, 0xE832, 0xE843, 0xE854, 0xE864,
];

pub fn encodings(published: &Published) -> Result<String, String> {
    let text = data::read("vectors/encode.txt")?;
    let mut differences = Differences::default();
    let (mut compared, mut without, mut of_2022) = (0, 0, 0);
    for line in data::lines(&text) {
        let fields: Vec<&str> = line.split('\t').collect();
        let encoding = encoding_of(fields[0])?;
        let scalars = scalars_of(fields[1])?;
        let (answer, written) = whole(published, encoding, 0, &scalars);
        let expected = if !has_writer(encoding) {
            without += 1;
            (9, Vec::new())
        } else {
            compared += 1;
            (0, bytes_of(fields[2])?)
        };
        let came = (answer.refusal, written);
        let differs = matches!(encoding, 29 | 30) && OF_2022.contains(&scalars[0]);
        if differs {
            of_2022 += 1;
            compared -= 1;
        }
        if (came != expected) != differs {
            differences.add(scalars.len(), || {
                format!("{line}: refusal, bytes: expected {expected:02X?}, came {came:02X?}, differs {differs}")
            });
        }
    }
    differences.result(format!(
        "{compared} encodings, {of_2022} that differ as they should, by GB18030-2022, and {without} of encodings without a writer"
    ))
}
