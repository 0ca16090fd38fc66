//! The writer beside iconv.

use crate::data::{Encoding, Indexes};
use crate::decoders::Ours;
use crate::iconv::Iconv;
use crate::measure::{rounds, warm, whole, Run};
use crate::table::{row, Bar, Counts};
use std::time::Instant;
use support::{calls, Tables};

/// The most scalars that a call takes.
pub const SCALARS: usize = 16384;

/// The most bytes of a scalar: an escape sequence and `&#1114111;`.
const BYTES: usize = 13;

/// The most bytes of a finish.
const FINISH: usize = 3;

/// The library's writer, with an index where one is lent, and with the state that goes from call to call. No scalars end the
/// text.
pub fn ours<'a>(
    encoding: Encoding,
    tables: Tables<'a>,
    index: Option<&'a [u32]>,
) -> impl FnMut(&[u32], &mut [u8]) -> usize + 'a {
    let mut state = 0;
    let Tables { first, second } = tables;
    move |scalars: &[u32], room: &mut [u8]| {
        let number = encoding.number();
        let answer = match (scalars, index) {
            ([], _) => calls::encode_finish(state, room),
            (_, None) => calls::encode(number, 0, state, scalars, first, second, room),
            (_, Some(index)) => {
                calls::encode_indexed(number, 0, state, scalars, first, second, index, room)
            }
        };
        assert_eq!(answer.refusal, 0);
        state = answer.state;
        answer.written
    }
}

/// A timed run. Behind the clock the number of bytes and those of the last chunk are compared with what the writer wrote before.
pub fn writing<'a>(
    scalars: &'a [u32],
    expected: &'a [u8],
    mut write: impl FnMut(&[u32], &mut [u8]) -> usize + 'a,
) -> Run<'a> {
    let mut room = vec![0; SCALARS * BYTES + FINISH];
    Box::new(move || {
        let mut written = 0;
        let mut last = 0;
        warm(scalars, &mut room);
        let start = Instant::now();
        for part in scalars.chunks(SCALARS) {
            last = write(part, &mut room);
            written += last;
        }
        let end = write(&[], &mut room[last..]);
        let seconds = start.elapsed().as_secs_f64();
        let same = written + end == expected.len() && expected.ends_with(&room[..last + end]);
        assert!(same, "two runs of one writer differ");
        seconds
    })
}

/// What a writer writes for all scalars.
pub fn all(scalars: &[u32], mut write: impl FnMut(&[u32], &mut [u8]) -> usize) -> Vec<u8> {
    let mut room = vec![0; SCALARS * BYTES];
    let mut bytes = Vec::new();
    for part in scalars.chunks(SCALARS).chain([&[][..]]) {
        let written = write(part, &mut room);
        bytes.extend_from_slice(&room[..written]);
    }
    bytes
}

/// The true index of an encoding's first table.
pub fn index(encoding: Encoding, tables: Tables) -> Vec<u32> {
    let mut index = vec![0; calls::index_size(tables.first.len())];
    let refusal = calls::build_index(encoding.number(), tables.first, &mut index);
    assert_eq!(refusal, 0);
    index
}

/// Reads bytes, and measures how fast they are written again; with an index a second time.
pub fn measure(
    name: &str,
    encoding: Encoding,
    bytes: &[u8],
    indexes: &Indexes,
    number: usize,
    counts: &mut Counts,
) -> Result<(), String> {
    let tables = indexes.writer_tables(encoding);
    let scalars = whole(Ours::open(encoding, indexes.tables(encoding)), bytes, 65536);
    let mut converter = Iconv::open("UTF-32LE", encoding.iconv())?;
    let mut iconv = |scalars: &[u32], room: &mut [u8]| {
        if scalars.is_empty() {
            return converter.finish(room);
        }
        let (read, written, _) = converter.encode(scalars, room);
        assert_eq!(read, scalars.len());
        written
    };
    let index = index(encoding, tables);
    let mut notes = Vec::new();
    let by_ours = all(&scalars, ours(encoding, tables, None));
    if by_ours != bytes {
        notes.push("ours differs from the input".to_string());
    }
    let by_iconv = all(&scalars, &mut iconv);
    if by_iconv != by_ours {
        notes.push("iconv differs".to_string());
    }
    let ways = match index.is_empty() {
        true => vec![(name.to_string(), None)],
        false => vec![
            (name.to_string(), None),
            (format!("{name} indexed"), Some(index.as_slice())),
        ],
    };
    for (name, index) in ways {
        let measured = {
            let mut runs = [
                writing(&scalars, &by_ours, ours(encoding, tables, index)),
                writing(&scalars, &by_iconv, &mut iconv),
            ];
            rounds(number, &mut runs)
        };
        let bar = Bar {
            of: "iconv",
            ratio: measured[1].ratio,
            least: 1.0,
        };
        let remarks = counts.remarks(&[bar], &notes, !notes.is_empty());
        let times = [Some(measured[0]), None, Some(measured[1]), None];
        row(&name, bytes.len(), &times, &remarks);
    }
    Ok(())
}
