//! Long texts beside the reference: most of their sequences are good, so that the library reads them in runs.

use crate::compare;
use crate::data::{name, Published};
use crate::differences::smallest_case;
use crate::exhaustive::alphabet;
use crate::random::{Lists, VARIANTS};
use crate::reference;
use support::random::Random;
use support::Tables;

/// Bytes that may be a sequence of the encoding.
fn candidate(encoding: u8, random: &mut Random) -> Vec<u8> {
    let mut between = |low: usize, high: usize| (low + random.below(high + 1 - low)) as u8;
    match encoding {
        0 => {
            let scalar = match between(0, 3) {
                0 => u32::from(between(0x80, 0xFF)),
                1 => 0x400 + u32::from(between(0, 0x5F)),
                2 => 0x3000 + 0x100 * u32::from(between(0, 0x7F)) + u32::from(between(0, 0xFF)),
                _ => 0x1F600 + u32::from(between(0, 0x3F)),
            };
            char::from_u32(scalar).map_or(vec![], |scalar| scalar.to_string().into_bytes())
        }
        29 | 30 if between(0, 2) == 0 => {
            let first = if between(0, 1) == 0 { 0x81 } else { 0x90 };
            vec![
                between(first, first + 3),
                between(0x30, 0x39),
                between(0x81, 0xFE),
                between(0x30, 0x39),
            ]
        }
        32 if between(0, 3) == 0 => vec![0x8F, between(0xA1, 0xFE), between(0xA1, 0xFE)],
        34 if between(0, 3) == 0 => vec![between(0xA1, 0xDF)],
        29..=32 | 34 | 35 => vec![between(0x81, 0xFE), between(0x40, 0xFE)],
        33 if between(0, 9) == 0 => match between(0, 3) {
            0 => b"\x1B(B".to_vec(),
            1 => b"\x1B(J".to_vec(),
            2 => b"\x1B(I".to_vec(),
            _ => b"\x1B$B".to_vec(),
        },
        33 => vec![between(0x21, 0x7E), between(0x21, 0x7E)],
        37 if between(0, 9) == 0 => vec![between(0xD8, 0xDB), 0x3D, between(0xDC, 0xDF), 0x00],
        38 if between(0, 9) == 0 => vec![0x3D, between(0xD8, 0xDB), 0x00, between(0xDC, 0xDF)],
        37 => vec![between(0, 0xD7), between(0, 0xFF)],
        38 => vec![between(0, 0xFF), between(0, 0xD7)],
        _ => vec![between(0x80, 0xFF)],
    }
}

/// Does a decoder that refuses errors take the bytes and hold none?
fn good(encoding: u8, bytes: &[u8], tables: Tables) -> bool {
    let record = reference::open(encoding, 1, 1).record;
    let answer = reference::feed(record, bytes, tables, bytes.len());
    answer.refusal == 0 && answer.record.held == 0
}

/// A text of at least so many bytes: stretches of ASCII, short and long, good sequences and, where errors are wanted, other bytes.
fn text(encoding: u8, length: usize, errors: bool, tables: Tables, random: &mut Random) -> Vec<u8> {
    let mut bytes = Vec::new();
    while bytes.len() < length {
        match random.below(8) {
            0 | 1 => {
                let longest = random.pick(&[2, 40, 40, 400]);
                for _ in 0..1 + random.below(longest) {
                    let byte = match random.below(24) {
                        0 => 0x0A,
                        _ => 0x20 + random.below(0x5F) as u8,
                    };
                    match encoding {
                        37 => bytes.extend([0, byte]),
                        38 => bytes.extend([byte, 0]),
                        _ => bytes.push(byte),
                    }
                }
            }
            2 if errors => bytes.push(random.pick(alphabet(encoding))),
            _ => {
                for _ in 0..1 + random.below(40) {
                    let sequence = candidate(encoding, random);
                    if errors || good(encoding, &sequence, tables) {
                        bytes.extend(sequence);
                    }
                }
            }
        }
    }
    bytes
}

/// The text in one chunk or in two, and the finish.
fn compare_text(
    encoding: u8,
    mode: u8,
    tables: Tables,
    bytes: &[u8],
    cut: usize,
) -> Result<(), String> {
    let mut record = compare::open(encoding, mode, 0)?.record;
    for chunk in [
        &bytes[..cut.min(bytes.len())],
        &bytes[cut.min(bytes.len())..],
    ] {
        let room = chunk.len() + usize::from(record.held);
        record = compare::feed(record, chunk, tables, room)?.record;
        if record.ended == 1 {
            return Ok(());
        }
    }
    compare::finish(record, tables, record.held.into()).map(drop)
}

/// All pairs with one of 16 leads, a separator behind each: long enough for the tables that a run makes.
fn pairs(first: u8) -> Vec<u8> {
    let mut bytes = Vec::new();
    for lead in first..=first + 15 {
        for trail in 0..=0xFF {
            bytes.extend([lead, trail, [b'\t', b'\n'][usize::from(trail) % 2]]);
        }
    }
    bytes
}

/// Bytes of which each value comes at even and at odd places.
fn all_bytes(length: usize) -> Vec<u8> {
    (0..length)
        .map(|place| (place * 7 + place / 256) as u8)
        .collect()
}

/// 200 units of UTF-16 that are scalars, and others from a place on.
fn units(big: bool, others: &[u16], place: usize) -> Vec<u8> {
    let scalars = [0x41, 0xD7FF, 0xE000, 0xFFFF, 0x3042, 0x0A, 0x0A0A, 0x0A00];
    let mut units: Vec<u16> = scalars.into_iter().cycle().take(200).collect();
    units[place..place + others.len()].copy_from_slice(others);
    units
        .into_iter()
        .flat_map(|unit| match big {
            true => unit.to_be_bytes(),
            false => unit.to_le_bytes(),
        })
        .collect()
}

/// Texts around the borders of the blocks that the runs of single-byte text and UTF-16 read at once: each length there,
/// and surrogates at each place.
pub fn borders(published: &Published) -> Result<String, String> {
    let mut count = 0;
    let mut compared = |encoding, mode, bytes: &[u8], cut, what: String| {
        count += 1;
        let tables = published.tables(encoding);
        compare_text(encoding, mode, tables, bytes, cut).map_err(|error| {
            format!(
                "{} in mode {mode}, cut at {cut}, {what}\n  {error}",
                name(encoding)
            )
        })
    };
    for encoding in 1..=28 {
        for length in [511, 512, 513, 1023, 1024, 1025, 1536, 2047] {
            for (mode, cut) in [(0, 0), (0, 1), (1, 0)] {
                let what = format!("{length} bytes");
                compared(encoding, mode, &all_bytes(length), cut, what)?;
            }
        }
    }
    let others: [&[u16]; 7] = [
        &[0xD800],
        &[0xDBFF],
        &[0xDC00],
        &[0xDFFF],
        &[0xD83D, 0xDCA9],
        &[0xDBFF, 0xD800],
        &[0xDFFF, 0xDBFF, 0xDFFF],
    ];
    for (encoding, big) in [(37, true), (38, false)] {
        for others in others {
            for place in 0..=130 {
                for (mode, cut) in [(0, 0), (0, 1), (0, 128), (1, 0)] {
                    let what = format!("{others:04X?} at unit {place}");
                    let bytes = units(big, others, place);
                    compared(encoding, mode, &bytes, cut, what)?;
                }
            }
        }
    }
    Ok(format!("{count} texts"))
}

/// Checked: a long good text, its fronts that end about the borders of the parts that a check feeds, and the text with a
/// byte put in there.
pub fn checks(published: &Published, seed: u64) -> Result<String, String> {
    let mut random = Random::new(seed);
    let mut count = 0;
    for encoding in 0..40 {
        let tables = published.tables(encoding);
        let mut compared = |bytes: &[u8], what: String| {
            count += 1;
            compare::check(encoding, bytes, tables)
                .map(|answer| answer.clean)
                .map_err(|error| format!("{}, seed {seed}, {what}\n  {error}", name(encoding)))
        };
        let good = match encoding {
            36 => Vec::new(),
            _ => text(encoding, 20000, false, tables, &mut random),
        };
        compared(&good, "a good text".to_string())?;
        let borders = [0, 512, 4096, 8192, 16384, good.len()];
        for place in borders
            .into_iter()
            .flat_map(|border| border.max(5) - 5..border + 6)
        {
            if place > good.len() {
                continue;
            }
            compared(&good[..place], format!("the first {place} bytes"))?;
            for &byte in alphabet(encoding) {
                let put_in = [&good[..place], &[byte], &good[place..]].concat();
                compared(&put_in, format!("{byte:02X} put in at {place}"))?;
            }
        }
    }
    Ok(format!("{count} texts, seed {seed}"))
}

pub fn texts(published: &Published, seed: u64) -> Result<String, String> {
    let mut random = Random::new(seed);
    let lists = Lists::new(published, &mut random);
    let (mut count, mut total) = (0, 0);
    for encoding in 0..40 {
        for variant in 0..VARIANTS {
            let tables = lists.tables(encoding, variant, 0);
            for first in (0..16).map(|group| 16 * group) {
                let bytes = pairs(first);
                compare_text(encoding, 0, tables, &bytes, 0).map_err(|error| {
                    format!(
                        "{} with the tables {variant}, all pairs with the leads from {first:02X} on in one chunk\n  {error}",
                        name(encoding)
                    )
                })?;
                count += 1;
                total += bytes.len();
            }
            for turn in 0..8 {
                let mode = turn % 2;
                let length = random.pick(&[300, 1500, 5000, 12000]);
                let bytes = text(encoding, length, turn < 4, tables, &mut random);
                let cut = if turn % 4 < 2 {
                    0
                } else {
                    random.below(bytes.len())
                };
                let compared = |bytes: &[u8]| compare_text(encoding, mode, tables, bytes, cut);
                if compared(&bytes).is_err() {
                    let (bytes, error) = smallest_case(&bytes, compared);
                    return Err(format!(
                        "seed {seed}, {} in mode {mode} with the tables {variant}, cut at {cut}; no byte can be left out of\n  {bytes:02X?}\n  {error}",
                        name(encoding)
                    ));
                }
                count += 1;
                total += bytes.len();
            }
        }
    }
    Ok(format!("{count} texts with {total} bytes, seed {seed}"))
}
