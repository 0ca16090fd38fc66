//! The program `showtext`: what it prints for an input, however the input reaches it, beside the reference.

use crate::differences::smallest_case;
use crate::exhaustive::alphabet;
use crate::labels::Labels;
use crate::program;
use crate::reference;
use std::cell::Cell;
use std::fs;
use std::io::{Read, Write};
use std::path::PathBuf;
use std::process::ChildStdout;
use support::ffi::Decoder as Record;
use support::random::Random;
use support::NO_TABLES;

/// The lines of a text, by the reference's decoder.
struct Text {
    record: Record,
    count: usize,
}

impl Text {
    fn feed(&mut self, chunk: &[u8], lines: &mut Vec<u8>) {
        let room = chunk.len() + usize::from(self.record.held);
        let answer = reference::feed(self.record, chunk, NO_TABLES, room);
        assert_eq!(answer.refusal, 0, "the reference takes every chunk");
        self.record = answer.record;
        self.show(&answer.output, lines);
    }

    fn finish(&mut self, lines: &mut Vec<u8>) {
        let answer = reference::finish(self.record, NO_TABLES, self.record.held.into());
        self.show(&answer.output, lines);
        lines.extend(format!("end\t{}\n", self.count).bytes());
    }

    fn show(&mut self, scalars: &[u32], lines: &mut Vec<u8>) {
        for scalar in scalars {
            writeln!(lines, "{}\tU+{scalar:04X}", self.count).expect("memory takes every line");
            self.count += 1;
        }
    }
}

/// Nothing, or the first line that differs; so many lines stand before these.
fn compare(expected: &[u8], came: &[u8], lines_before: usize) -> Result<(), String> {
    if expected == came {
        return Ok(());
    }
    let show = |line: Option<&[u8]>| match line {
        None => "the end of the output".to_string(),
        Some(line) => format!("{:?}", String::from_utf8_lossy(&line[..line.len().min(80)])),
    };
    let mut number = lines_before + 1;
    let mut expected = expected.split_inclusive(|&byte| byte == b'\n');
    let mut came = came.split_inclusive(|&byte| byte == b'\n');
    loop {
        let (one, two) = (expected.next(), came.next());
        if one != two {
            let (one, two) = (show(one), show(two));
            return Err(format!("line {number}: expected {one}, came {two}"));
        }
        number += 1;
    }
}

/// The bytes of an input, or how many there are.
fn shown(input: &[u8]) -> String {
    match input.len() {
        0..=48 => format!("{input:02X?}"),
        length => format!("{:02X?} and so on, {length} bytes", &input[..48]),
    }
}

/// An input cut behind the places.
fn pieces<'a>(input: &'a [u8], places: &[usize]) -> Vec<&'a [u8]> {
    let mut pieces = Vec::new();
    let mut start = 0;
    for &place in places.iter().chain([&input.len()]) {
        pieces.push(&input[start..place]);
        start = place;
    }
    pieces
}

pub struct Showtext {
    program: PathBuf,
    labels: Labels,
    runs: Cell<usize>,
}

impl Showtext {
    pub fn new(program: &str) -> Result<Showtext, String> {
        let program = fs::canonicalize(program).map_err(|error| format!("{program}: {error}"))?;
        Ok(Showtext {
            program,
            labels: Labels::read()?,
            runs: Cell::new(0),
        })
    }

    /// The text behind a label and the name of its encoding, or the refusal.
    fn open(&self, label: &[u8]) -> Result<(Text, &str), u8> {
        let (refusal, encoding, _, _) = self.labels.find(label);
        let name = self.labels.name(encoding);
        let Some(name) = name.filter(|_| refusal == 0 && label.len() <= 255) else {
            return Err(1);
        };
        let record = reference::open(encoding, 0, 0).record;
        match reference::feed(record, b"", NO_TABLES, 0).refusal {
            0 => Ok((Text { record, count: 0 }, name)),
            refusal => Err(refusal),
        }
    }

    /// The lines for an input.
    fn expected(&self, input: &[u8]) -> Vec<u8> {
        let mut parts = input.splitn(2, |&byte| byte == b'\n');
        let label = parts.next().unwrap_or_default();
        let rest = parts.next().unwrap_or_default();
        match self.open(label) {
            Err(refusal) => format!("refused\t{refusal}\n").into_bytes(),
            Ok((mut text, name)) => {
                let mut lines = format!("encoding\t{name}\n").into_bytes();
                for chunk in rest.chunks(65536) {
                    text.feed(chunk, &mut lines);
                }
                text.finish(&mut lines);
                lines
            }
        }
    }

    /// Compares what the program printed for an input.
    fn check(&self, input: &[u8], how: &str, came: Result<Vec<u8>, String>) -> Result<(), String> {
        self.runs.set(self.runs.get() + 1);
        came.and_then(|came| compare(&self.expected(input), &came, 0))
            .map_err(|error| format!("{}, {how}: {error}", shown(input)))
    }

    /// An input that is cut behind the places.
    fn cut(&self, input: &[u8], places: &[usize]) -> Result<(), String> {
        let came = program::with_pieces(&self.program, &pieces(input, places));
        let how = match places.len() + 1 == input.len() {
            true => "byte by byte".to_string(),
            false => format!("cut behind {places:?}"),
        };
        self.check(input, &how, came)
    }

    /// An input that is written at once.
    fn whole(&self, input: &[u8]) -> Result<(), String> {
        let came = program::with_pieces(&self.program, &[input]);
        self.check(input, "written at once", came)
    }

    /// An input from a file.
    fn file(&self, input: &[u8]) -> Result<(), String> {
        let came = program::with_file(&self.program, input);
        self.check(input, "from a file", came)
    }

    /// How many runs a part had.
    fn runs(&self, part: impl FnOnce() -> Result<(), String>) -> Result<usize, String> {
        let before = self.runs.get();
        part()?;
        Ok(self.runs.get() - before)
    }

    /// The example of document 01.
    pub fn example(&self) -> Result<String, String> {
        let input = b" Latin1\n\x80\x09\x41";
        let expected = b"encoding\twindows-1252\n0\tU+20AC\n1\tU+0009\n2\tU+0041\nend\t3\n";
        let came = program::with_pieces(&self.program, &[input])?;
        compare(expected, &came, 0)?;
        Ok("1 run".to_string())
    }

    /// Every label, so every encoding: closed by the end of input, with an empty rest, and with every byte.
    pub fn encodings(&self) -> Result<String, String> {
        let mut refused = Vec::new();
        let bytes: Vec<u8> = (0..=255).collect();
        let runs = self.runs(|| {
            for label in self.labels.all() {
                let label = label.as_bytes();
                for input in [
                    label.to_vec(),
                    [label, b"\n"].concat(),
                    [label, b"\n", &bytes].concat(),
                ] {
                    self.whole(&input)?;
                }
                let (_, encoding, _, _) = self.labels.find(label);
                if self.expected(label) == b"refused\t4\n" && !refused.contains(&encoding) {
                    refused.push(encoding);
                }
            }
            Ok(())
        })?;
        // All single-byte encodings but windows-1252, and 29 to 35.
        let with_tables: Vec<u8> = (1..=35).filter(|&encoding| encoding != 21).collect();
        if refused != with_tables {
            return Err(format!("refusal 4 for the encodings {refused:?}"));
        }
        Ok(format!(
            "{runs} runs with all labels; 6 encodings print text, {} are refused with 4",
            refused.len()
        ))
    }

    /// Unknown labels, the empty input, and labels of 254 to 257 bytes and of more than a buffer.
    pub fn refusals(&self) -> Result<String, String> {
        let unknown: [&[u8]; 13] = [
            b"",
            b"\n",
            b"\n\n",
            b"\nutf-8",
            b" \t\r\x0C\nutf-8\n",
            b"latin-1\nabc",
            b"utf-7",
            b"utf 8\n",
            b"\x0Butf-8\n",
            b"utf-8\0\n",
            b"\xEF\xBB\xBFutf-8\n",
            b"\xFF\xFE\n\xFF",
            b"utf-8\x85\n",
        ];
        let runs = self.runs(|| {
            for input in unknown {
                self.expect(input, b"refused\t1\n")?;
            }
            self.file(b"")?;
            for label in ["utf-8", "Windows-1252", "utf-16le", "gbk", "latin-1"] {
                for length in [254, 255, 256, 257, 4095, 4096, 4097, 10000] {
                    self.label_of(label.as_bytes(), length)?;
                }
            }
            Ok(())
        })?;
        Ok(format!(
            "{runs} runs with unknown labels, and with labels of 254 to 10000 bytes"
        ))
    }

    /// Compares with lines that are written out here, too.
    fn expect(&self, input: &[u8], lines: &[u8]) -> Result<(), String> {
        compare(lines, &self.expected(input), 0)
            .map_err(|error| format!("{}: the reference, {error}", shown(input)))?;
        self.whole(input)
    }

    /// A label with white space around it, of some length: closed by a line feed and by the end of input.
    fn label_of(&self, label: &[u8], length: usize) -> Result<(), String> {
        let blanks: Vec<u8> = b" \t\r\x0C"
            .iter()
            .copied()
            .cycle()
            .take(length - label.len())
            .collect();
        for before in [0, 1, blanks.len() / 2, blanks.len()] {
            let label = [&blanks[..before], label, &blanks[before..]].concat();
            let closed = [&label, &b"\nA\n\xC2\xA0"[..]].concat();
            let refused = label.len() > 255;
            for input in [label, closed] {
                match refused {
                    true => self.expect(&input, b"refused\t1\n")?,
                    false => self.whole(&input)?,
                }
                self.file(&input)?;
            }
        }
        Ok(())
    }

    /// Short inputs in two pieces, cut everywhere, and byte by byte; the program reads each piece by itself.
    pub fn cuts(&self) -> Result<String, String> {
        let label = [&[b' '; 250][..], b"utf-8\n\xE2\x82\xAC"].concat();
        let long_label = [&[b' '; 251][..], b"utf-8\n\xE2\x82\xAC"].concat();
        let inputs: [&[u8]; 13] = [
            b" Latin1\n\x80\x09\x41",
            b"utf-8\n\xEF\xBB\xBF\xF0\x9F\x92\xA9\xE2\x82",
            b"utf-8\r\n\xEF\xBB\x41\xED\xA0\x80\n",
            b"utf-16le\n\xFF\xFE\x3D\xD8\xA9\xDC\x3D\xD8\x41",
            b"utf-16be\n\xFE\xFF\xD8\x3D\xDC\xA9\xD8\x3D\x00\x41",
            b"iso-2022-kr\nAB",
            b"x-user-defined\n\x7F\x80\xFF",
            b"gbk\n\x81\x30",
            b"latin-1\nabc",
            b"utf-8",
            b"\n\n",
            &label,
            &long_label,
        ];
        let runs = self.runs(|| {
            for input in inputs {
                for place in 1..input.len() {
                    self.cut(input, &[place])?;
                }
                let everywhere: Vec<usize> = (1..input.len()).collect();
                self.cut(input, &everywhere)?;
            }
            Ok(())
        })?;
        Ok(format!(
            "{runs} runs, {} inputs cut in two everywhere and byte by byte",
            inputs.len()
        ))
    }

    /// Sequences around the ends of the first two buffers of 4096 bytes, in every phase, counted with and without the
    /// label's line.
    pub fn buffers(&self) -> Result<String, String> {
        let texts: [(&[u8], &[&[u8]]); 6] = [
            (
                b"utf-8\n",
                &[
                    b"\xC3\xA9",
                    b"\xE2\x82\xAC",
                    b"\xF0\x9F\x92\xA9",
                    b"\xEF\xBB\xBF",
                    b"\xE2\x82\x41",
                    b"\xF0\x9F\x92\x41",
                    b"\xED\xA0\x80",
                    b"\xF4\x90\x80\x80",
                ],
            ),
            (
                b"utf-16le\n",
                &[
                    b"\x3D\xD8\xA9\xDC",
                    b"\x3D\xD8\x41\x00",
                    b"\xA9\xDC\x3D\xD8",
                ],
            ),
            (
                b"utf-16be\n",
                &[
                    b"\xD8\x3D\xDC\xA9",
                    b"\xD8\x3D\x00\x41",
                    b"\xDC\xA9\xD8\x3D",
                ],
            ),
            (b"latin1\n", &[b"\x80\xFF"]),
            (b"x-user-defined\n", &[b"\x80\xFF"]),
            (b"replacement\n", &[b"\x80\xFF"]),
        ];
        let runs = self.runs(|| {
            for (label, sequences) in texts {
                for sequence in sequences {
                    for border in [4096, 8192] {
                        for start in border - sequence.len() - 1..=border + label.len() + 1 {
                            let filler = vec![b'a'; start - label.len()];
                            for end in [&b""[..], b"b"] {
                                self.file(&[label, &filler, sequence, end].concat())
                                    .map_err(|error| {
                                        format!("{sequence:02X?} at {start}: {error}")
                                    })?;
                            }
                        }
                    }
                }
            }
            Ok(())
        })?;
        let sequences: usize = texts.iter().map(|(_, sequences)| sequences.len()).sum();
        Ok(format!(
            "{runs} runs, {sequences} sequences in every phase at the ends of the buffers"
        ))
    }

    /// Random inputs in random pieces.
    pub fn random(&self, number: usize, seed: u64) -> Result<String, String> {
        let mut random = Random::new(seed);
        let labels = self.labels.all();
        let text_labels = [
            "utf-8",
            "UTF8",
            "latin1",
            "utf-16",
            "utf-16be",
            "x-user-defined",
            "hz-gb-2312",
        ];
        let mut bytes = 0;
        for _ in 0..number {
            let label = match random.below(8) {
                0 => random.pick(&labels),
                _ => random.pick(&text_labels),
            };
            let (_, encoding, _, _) = self.labels.find(label.as_bytes());
            let mut input = vec![b' '; random.below(3)];
            input.extend(label.bytes());
            input.push(if random.one_in(20) { b'!' } else { b'\n' });
            let length = match random.below(4) {
                0 => random.below(20000),
                1 => 4096 * (1 + random.below(3)) - random.below(input.len() + 5),
                _ => random.below(60),
            };
            for _ in 0..length {
                input.push(match random.below(3) {
                    0 => random.number() as u8,
                    _ => random.pick(alphabet(encoding)),
                });
            }
            let mut places: Vec<usize> = (0..random.below(6))
                .map(|_| random.below(input.len()))
                .collect();
            places.sort();
            places.dedup();
            bytes += input.len();
            self.cut(&input, &places).map_err(|error| {
                let (_, smallest) = smallest_case(&input, |input| self.whole(input));
                match smallest.is_empty() {
                    true => format!("seed {seed}: {error}"),
                    false => format!("seed {seed}; no byte can be left out of\n  {smallest}"),
                }
            })?;
        }
        Ok(format!("{number} runs with {bytes} bytes, seed {seed}"))
    }

    /// 100 MiB of UTF-8: the output is compared as it comes, and the program's memory is bounded.
    pub fn long_input(&self, seed: u64) -> Result<String, String> {
        let label = b"utf-8\n";
        let period = long_text(seed);
        let rest = LONG_INPUT - label.len();
        let (whole, last) = (rest / period.len(), rest % period.len());
        let blocks = || std::iter::repeat_n(&period[..], whole).chain([&period[..last]]);
        let Ok((mut text, name)) = self.open(b"utf-8") else {
            return Err("the reference refuses UTF-8".to_string());
        };
        let (mut count, mut size) = (0, 0);
        let read = |mut output: ChildStdout| {
            let mut lines = format!("encoding\t{name}\n").into_bytes();
            for block in blocks() {
                let lines_before = if text.count == 0 { 0 } else { text.count + 1 };
                text.feed(block, &mut lines);
                compare_next(&mut output, &lines, lines_before)?;
                size += lines.len();
                lines.clear();
            }
            let lines_before = text.count + 1;
            text.finish(&mut lines);
            compare_next(&mut output, &lines, lines_before)?;
            count = text.count + 2;
            size += lines.len();
            compare_next(&mut output.take(100), b"", count)
        };
        let input = [&label[..]].into_iter().chain(blocks());
        let memory = program::with_blocks(&self.program, input, read)
            .map_err(|error| format!("seed {seed}: {error}"))?;
        if memory > MEMORY {
            return Err(format!(
                "seed {seed}: the program took {memory} KiB, more than {MEMORY}"
            ));
        }
        Ok(format!(
            "{LONG_INPUT} bytes in, {count} lines with {size} bytes out, {memory} KiB of memory, seed {seed}"
        ))
    }
}

/// The bytes of the long input.
const LONG_INPUT: usize = 100 << 20;

/// The most memory that the program may take for it, in KiB.
const MEMORY: usize = 16 << 10;

/// UTF-8 with a few errors. The length is a prime, so that its repetition meets the ends of buffers in every phase.
fn long_text(seed: u64) -> Vec<u8> {
    let length = 65521;
    let mut random = Random::new(seed);
    let mut text = Vec::new();
    while text.len() < length {
        let scalar = match random.below(16) {
            0 => {
                text.push(random.number() as u8);
                continue;
            }
            1 => random.below(0x80),
            2 => 0x80 + random.below(0x780),
            3 => 0x800 + random.below(0xD000),
            _ => 0x10000 + random.below(0x100000),
        };
        let scalar = char::from_u32(scalar as u32).expect("no surrogate among these");
        text.extend(scalar.encode_utf8(&mut [0; 4]).bytes());
    }
    text.truncate(length);
    text
}

/// Compares as many bytes as are expected; where none are, all that come.
fn compare_next(
    output: &mut impl Read,
    expected: &[u8],
    lines_before: usize,
) -> Result<(), String> {
    let mut came = Vec::new();
    let limit = if expected.is_empty() {
        u64::MAX
    } else {
        expected.len() as u64
    };
    let read = output.take(limit).read_to_end(&mut came);
    read.map_err(|error| format!("the output: {error}"))?;
    compare(expected, &came, lines_before)
}
