//! The writer on 16,384 scalars spread over a published index, by the ways that it finds a pointer, beside iconv.

use crate::data::{Encoding, Indexes};
use crate::iconv::Iconv;
use crate::measure::{rounds, Run, Times};
use crate::table::Counts;
use crate::write::{all, index, ours, writing, SCALARS};
use support::Tables;

const ENCODINGS: [Encoding; 7] = [
    Encoding::Gbk,
    Encoding::Gb18030,
    Encoding::Big5,
    Encoding::EucKr,
    Encoding::ShiftJis,
    Encoding::EucJp,
    Encoding::Iso2022Jp,
];

/// The scalars of a call in which every pointer is searched for: with more of them a call makes slots.
const SEARCHED: usize = 31;

/// A scalar that no published index has.
const MISSING: u32 = 0x1F4A9;

/// The part of the plain search's time that the writer with an index may take.
const PART: f64 = 0.1;

/// A writer in calls of so many scalars.
fn in_calls<'a>(
    mut write: impl FnMut(&[u32], &mut [u8]) -> usize + 'a,
    call: usize,
) -> impl FnMut(&[u32], &mut [u8]) -> usize + 'a {
    move |scalars: &[u32], room: &mut [u8]| {
        if scalars.is_empty() {
            return write(scalars, room);
        }
        let mut end = 0;
        for part in scalars.chunks(call) {
            end += write(part, &mut room[end..]);
        }
        end
    }
}

/// iconv's writer, which has to write all of them.
fn by_iconv(converter: &mut Iconv) -> impl FnMut(&[u32], &mut [u8]) -> usize + '_ {
    |scalars: &[u32], room: &mut [u8]| match scalars {
        [] => converter.finish(room),
        _ => converter.encode(scalars, room).1,
    }
}

/// 16,384 scalars, one after the other from places spread over the table, that the library and iconv write alike.
fn spread(encoding: Encoding, tables: Tables, converter: &mut Iconv) -> Vec<u32> {
    let mut alike: Vec<u32> = tables.first.to_vec();
    alike.retain(|&scalar| {
        scalar >= 0x80
            && all(&[scalar], ours(encoding, tables, None)) == all(&[scalar], by_iconv(converter))
    });
    let step = 7919;
    (0..SCALARS)
        .map(|place| alike[place * step % alike.len()])
        .collect()
}

/// A row: microseconds with an index, without one in one call and in short calls, and by iconv where it writes the same.
fn row(name: &str, times: &[Times], counts: &mut Counts) {
    let shown = |place: usize| match times.get(place) {
        Some(times) => format!("{:.0}", times.least * 1e6),
        None => "-".to_string(),
    };
    let part = |place: usize| 1.0 / times[place].ratio;
    let remarks = match name.ends_with("spread") {
        true => counts.limit(part(2) <= PART, "above a tenth of the search"),
        false => "",
    };
    println!(
        "{name:<24} {:>9} {:>9} {:>9} {:>9} | {:>8.3} {:>8.3} | {remarks}",
        shown(0),
        shown(1),
        shown(2),
        shown(3),
        part(1),
        part(2)
    );
}

fn measure(
    encoding: Encoding,
    indexes: &Indexes,
    number: usize,
    counts: &mut Counts,
) -> Result<(), String> {
    let tables = indexes.writer_tables(encoding);
    let index = index(encoding, tables);
    let mut converter = Iconv::open("UTF-32LE", encoding.iconv())?;
    let hits = spread(encoding, tables, &mut converter);
    let mut misses = hits.clone();
    misses
        .iter_mut()
        .step_by(16)
        .for_each(|scalar| *scalar = MISSING);
    for (name, scalars, beside) in [("spread", &hits, true), ("misses", &misses, false)] {
        let expected = all(scalars, ours(encoding, tables, None));
        let mut runs: Vec<Run> = vec![
            writing(scalars, &expected, ours(encoding, tables, Some(&index))),
            writing(scalars, &expected, ours(encoding, tables, None)),
            writing(
                scalars,
                &expected,
                in_calls(ours(encoding, tables, None), SEARCHED),
            ),
        ];
        if beside {
            runs.push(writing(scalars, &expected, by_iconv(&mut converter)));
        }
        let times = rounds(number, &mut runs);
        row(&format!("{}-{name}", encoding.name()), &times, counts);
    }
    Ok(())
}

pub fn rows(indexes: &Indexes, number: usize, counts: &mut Counts) -> Result<(), String> {
    println!();
    println!(
        "Writer: {SCALARS} scalars spread over a published index, and with one in 16 that it has not, in microseconds, best round; by a true index, without one in one call (with slots) and in calls of {SEARCHED} (every scalar searched for)"
    );
    println!(
        "{:<24} {:>9} {:>9} {:>9} {:>9} | {:>8} {:>8} |",
        "input",
        "indexed",
        "one call",
        format!("by {SEARCHED}"),
        "iconv",
        "of one",
        format!("of {SEARCHED}")
    );
    for encoding in ENCODINGS {
        measure(encoding, indexes, number, counts)?;
    }
    Ok(())
}
