//! The program `mend`: what it writes to both streams for an input and an index file, however the input reaches it, beside
//! the reference.

use crate::exhaustive::alphabet;
use crate::labels::Labels;
use crate::program;
use crate::reference;
use std::cell::Cell;
use std::fs;
use std::path::{Path, PathBuf};
use support::data;
use support::random::Random;
use support::Tables;

/// Standard output and standard error.
type Streams = (Vec<u8>, Vec<u8>);

/// The file of the one table of an encoding that the program takes, and its cells.
fn index_of(encoding: u8, labels: &Labels) -> Option<(String, usize)> {
    let name = match encoding {
        0 | 21 | 29..=32 | 35.. => return None,
        33 | 34 => "jis0208".to_string(),
        9 => "iso-8859-8".to_string(),
        _ => labels.name(encoding)?.to_lowercase(),
    };
    let cells = if encoding < 29 { 128 } else { 11280 };
    Some((format!("index-{name}.txt"), cells))
}

/// The table that a file fills, or the refusal of its first line at fault.
fn load(file: &[u8], cells: usize) -> Result<Vec<u32>, u8> {
    let mut table = vec![0; cells];
    for line in file.split(|&byte| byte == b'\n') {
        match reference::index_line(line, &mut table).refusal {
            0 => {}
            refusal => return Err(refusal),
        }
    }
    Ok(table)
}

/// The text behind the first line.
fn text(encoding: u8, tables: Tables, bytes: &[u8]) -> Streams {
    let (mut output, mut report) = (String::new(), String::new());
    let mut record = reference::open(encoding, 0, 0).record;
    let mut take = |answer: &reference::Answer| {
        assert_eq!(answer.refusal, 0, "the reference takes every chunk");
        let scalars = answer.output.iter().copied();
        output.extend(scalars.map(|scalar| char::from_u32(scalar).expect("a scalar")));
        for (place, width) in &answer.spans {
            report.push_str(&format!("{place}\t{width}\tU+FFFD\n"));
        }
    };
    for chunk in bytes.chunks(60_000) {
        let room = chunk.len() + usize::from(record.held);
        let answer = reference::feed(record, chunk, tables, room);
        take(&answer);
        record = answer.record;
    }
    take(&reference::finish(record, tables, record.held.into()));
    (output.into_bytes(), report.into_bytes())
}

fn refused(refusal: u8) -> Streams {
    (Vec::new(), format!("refused\t{refusal}\n").into_bytes())
}

/// The first place where two streams differ.
fn compare(what: &str, expected: &[u8], came: &[u8]) -> Result<(), String> {
    if expected == came {
        return Ok(());
    }
    let place = expected
        .iter()
        .zip(came)
        .take_while(|(one, two)| one == two)
        .count();
    let show = |bytes: &[u8]| {
        String::from_utf8_lossy(&bytes[place..bytes.len().min(place + 60)]).into_owned()
    };
    let (lengths, expected, came) = ((expected.len(), came.len()), show(expected), show(came));
    Err(format!(
        "{what} from {place} on, of {lengths:?} bytes: expected {expected:?}, came {came:?}"
    ))
}

/// A folder of its own, removed at the end.
struct Folder(PathBuf);

impl Folder {
    fn new(name: &str) -> Result<Folder, String> {
        let path = std::env::temp_dir().join(format!("mend-{name}-{}", std::process::id()));
        let made = fs::create_dir_all(&path);
        made.map_err(|error| format!("{}: {error}", path.display()))?;
        Ok(Folder(path))
    }

    fn put(&self, name: &str, bytes: &[u8]) -> Result<(), String> {
        fs::write(self.0.join(name), bytes).map_err(|error| format!("{name}: {error}"))
    }
}

impl Drop for Folder {
    fn drop(&mut self) {
        // a folder that is left behind harms nothing
        let _ = fs::remove_dir_all(&self.0);
    }
}

pub struct Mend {
    program: PathBuf,
    labels: Labels,
    indexes: PathBuf,
    runs: Cell<usize>,
}

impl Mend {
    pub fn new(program: &str) -> Result<Mend, String> {
        let program = fs::canonicalize(program).map_err(|error| format!("{program}: {error}"))?;
        let indexes = data::path("indexes");
        let indexes = fs::canonicalize(&indexes)
            .map_err(|error| format!("{}: {error}", indexes.display()))?;
        Ok(Mend {
            program,
            labels: Labels::read()?,
            indexes,
            runs: Cell::new(0),
        })
    }

    /// What is written for an input, with the files of a folder.
    fn expected(&self, input: &[u8], folder: &Path) -> Streams {
        let mut parts = input.splitn(2, |&byte| byte == b'\n');
        let label = parts.next().unwrap_or_default();
        let rest = parts.next().unwrap_or_default();
        let (refusal, encoding, _, _) = self.labels.find(label);
        if refusal != 0 || label.len() > 255 {
            return refused(1);
        }
        match encoding {
            29..=32 | 35 => return refused(4),
            36 => return refused(9),
            _ => {}
        }
        let table = match index_of(encoding, &self.labels) {
            None => Ok(Vec::new()),
            Some((name, cells)) => match fs::read(folder.join(name)) {
                Err(_) => Err(4),
                Ok(file) => load(&file, cells),
            },
        };
        match table {
            Err(refusal) => refused(refusal),
            Ok(table) => text(
                encoding,
                Tables {
                    first: &table,
                    second: &[],
                },
                rest,
            ),
        }
    }

    fn check(&self, input: &[u8], folder: &Path, pieces: &[&[u8]]) -> Result<(), String> {
        self.runs.set(self.runs.get() + 1);
        let (output, report) = self.expected(input, folder);
        program::streams(&self.program, folder, pieces)
            .and_then(|came| {
                compare("the report", &report, &came.1)?;
                compare("the output", &output, &came.0)
            })
            .map_err(|error| {
                format!(
                    "{:02X?} ({} bytes, {} pieces): {error}",
                    &input[..input.len().min(40)],
                    input.len(),
                    pieces.len()
                )
            })
    }

    /// An input at once, with the published index files.
    fn whole(&self, input: &[u8]) -> Result<(), String> {
        self.check(input, &self.indexes, &[input])
    }

    /// An input byte by byte.
    fn bytes(&self, input: &[u8]) -> Result<(), String> {
        let pieces: Vec<&[u8]> = input.chunks(1).collect();
        self.check(input, &self.indexes, &pieces)
    }

    fn taken(&self) -> Vec<u8> {
        (0..40)
            .filter(|&encoding| !matches!(encoding, 29..=32 | 35 | 36))
            .collect()
    }

    fn input(&self, encoding: u8, text: &[u8]) -> Vec<u8> {
        let label = self.labels.name(encoding).unwrap_or_default();
        [label.as_bytes(), b"\n", text].concat()
    }

    /// Document 02's example.
    pub fn example(&self) -> Result<String, String> {
        let came = program::streams(&self.program, &self.indexes, &[b"Shift_JIS\n\x41\x82\x22"])?;
        compare("the output", b"\x41\xEF\xBF\xBD\x22", &came.0)?;
        compare("the report", b"1\t1\tU+FFFD\n", &came.1)?;
        Ok("as printed".to_string())
    }

    /// Each encoding that is taken: every byte, some pairs and sequences, at once and byte by byte.
    pub fn encodings(&self) -> Result<String, String> {
        for encoding in self.taken() {
            let every: Vec<u8> = (0..=255).chain((0..=255).rev()).collect();
            self.whole(&self.input(encoding, &every))?;
            self.bytes(&self.input(encoding, &every[..256]))?;
            let mut sequences = Vec::new();
            for sequence in [
                &b"\xEF\xBB\xBF"[..],
                b"A\xEF\xBF\xBDB\xE2\x82\xFF\xC0\x80\xF0\x9F\x92",
                b"\x82\xA0\x82\x22\x81\x39\xFC\xFC",
                b"\x1B(B\x1B(J\x1B$B\x24\x22\x24\x1B(B\x1B(B\x1B$\x1B",
                b"\x3D\xD8\xA9\xDC\x3D\xD8\x41\x00\x00\xDC\x3D",
            ] {
                self.whole(&self.input(encoding, sequence))?;
                sequences.extend_from_slice(sequence);
                self.bytes(&self.input(encoding, &sequences))?;
            }
        }
        Ok(format!("{} runs", self.runs.take()))
    }

    /// The refusals before the text, and those of index files.
    pub fn refusals(&self) -> Result<String, String> {
        let long = [vec![b' '; 252], b"866".to_vec(), b"\nA".to_vec()].concat();
        let longer = [b" ".to_vec(), long.clone()].concat();
        for input in [
            &b""[..],
            b"\n",
            b"none\nA",
            b"big5",
            b"gbk\n\x80",
            b"gb18030\nA",
            b"euc-jp\n",
            b"euc-kr\nA",
            b"replacement\nA",
            b"iso-2022-cn\n",
            &long,
            &longer,
        ] {
            self.whole(input)?;
        }
        let folder = Folder::new("refusals")?;
        for label in [
            "sjis",
            "ibm866",
            "iso-8859-8-i",
            "iso-2022-jp",
            "latin1",
            "utf-8",
        ] {
            let input = [label.as_bytes(), b"\nA\xE2"].concat();
            // no file
            self.check(&input, &folder.0, &[&input])?;
        }
        let line = |count: usize| [&b"#"[..], &vec![b'x'; count - 1]].concat();
        let (fits, too_long) = (line(1024), line(1025));
        let split = |file: &[u8], last: &[u8]| [&vec![b'\n'; 16_390][..], file, last].concat();
        let files: Vec<Vec<u8>> = vec![
            b"".to_vec(),
            b"0\t0x0410".to_vec(),
            b"0\t0x0410\n0\t0x0411\n".to_vec(),
            b"  1\t0x0410\tLETTER\n# comment\n\n127\t0x20AC".to_vec(),
            b"128\t0x0410\n".to_vec(),
            b"1 0x0410\n".to_vec(),
            b"1\t0x0041\n".to_vec(),
            b"0\t0x0410\n\n1\t0x0410\r\n".to_vec(),
            fits.clone(),
            too_long.clone(),
            [&too_long[..], b"\n1 0x"].concat(),
            split(b"0\t0x0410\n", b"1\t0x0411"),
            split(&fits, b"\n1\t0x0411\n"),
            split(&too_long, b"\n"),
        ];
        for file in &files {
            folder.put("index-ibm866.txt", file)?;
            folder.put("index-jis0208.txt", file)?;
            for input in [
                &b"ibm866\n\x80\x81\xFF"[..],
                b"sjis\n\x81\x40\x81\x41",
                b"iso-2022-jp\n\x1B$B\x21\x21\x1B(B",
            ] {
                self.check(input, &folder.0, &[input])?;
            }
        }
        let directory = Folder::new("directory")?;
        fs::create_dir_all(directory.0.join("index-ibm866.txt"))
            .map_err(|error| error.to_string())?;
        let input = b"ibm866\nA";
        self.check(input, &directory.0, &[input])?;
        Ok(format!("{} runs", self.runs.take()))
    }

    /// Sequences across the ends of buffers, and reports that are longer than the input.
    pub fn buffers(&self) -> Result<String, String> {
        for encoding in self.taken() {
            for shift in 0..6 {
                for bad in [
                    &b"\x82\xA0\x81"[..],
                    b"\xE2\x82\xFF",
                    b"\x1B(B\x1B(B",
                    b"\xF0\x9F\x92\xA9",
                    b"\x3D\xD8\xA9\xDC",
                ] {
                    let label = self.input(encoding, b"");
                    let before = 4096 - label.len() - shift;
                    let text =
                        [&vec![b'a'; before][..], bad, &vec![b'b'; 4090], bad, b"c"].concat();
                    self.whole(&[&label[..], &text].concat())?;
                }
            }
            self.whole(&self.input(encoding, &vec![0xFF; 10_000]))?;
        }
        Ok(format!("{} runs", self.runs.take()))
    }

    /// Random texts, cut anywhere by the pipe.
    pub fn random(&self, number: usize, seed: u64) -> Result<String, String> {
        for run in 0..number {
            let mut random = Random::of(&format!("mend {seed} {run}"));
            let encoding = random.pick(&self.taken());
            let bytes = alphabet(encoding);
            let length = match random.below(3) {
                0 => random.below(40),
                1 => random.below(1_000),
                _ => random.below(20_000),
            };
            let text: Vec<u8> = (0..length)
                .map(|_| match random.below(4) {
                    0 => random.below(256) as u8,
                    1 => b'a',
                    _ => random.pick(bytes),
                })
                .collect();
            let input = self.input(encoding, &text);
            let cut = 1 + random.below(input.len());
            let pieces: Vec<&[u8]> = input.chunks(cut.max(input.len() / 50 + 1)).collect();
            self.check(&input, &self.indexes, &pieces)
                .map_err(|error| format!("run {run}, seed {seed}: {error}"))?;
        }
        Ok(format!("{} runs", self.runs.take()))
    }
}
