//! Document 02, Ask 13: texts parted behind each byte below 30, in replacing mode with the mark kept.

use crate::compare;
use crate::data::{name, Published};
use crate::differences::smallest_case;
use crate::random::{keeps_separators, Lists, VARIANTS};
use support::ffi::Decoder as Record;
use support::random::Random;
use support::Tables;

/// What a fresh decoder hands out for some bytes without a finish, and the record after them.
fn fed(encoding: u8, tables: Tables, bytes: &[u8]) -> Result<(Vec<u32>, Record), String> {
    let record = compare::open(encoding, 0, 1)?.record;
    let answer = compare::feed(record, bytes, tables, bytes.len())?;
    Ok((answer.output, answer.record))
}

/// What it hands out with the finish.
fn whole(encoding: u8, tables: Tables, bytes: &[u8]) -> Result<Vec<u32>, String> {
    let (mut scalars, record) = fed(encoding, tables, bytes)?;
    scalars.extend(compare::finish(record, tables, record.held.into())?.output);
    Ok(scalars)
}

/// The part up to and with each separator, not finished, and the rest by a fresh decoder, beside the whole; the number of parts.
fn compare_parts(encoding: u8, tables: Tables, bytes: &[u8]) -> Result<usize, String> {
    let expected = whole(encoding, tables, bytes)?;
    let places: Vec<usize> = (0..bytes.len()).filter(|&at| bytes[at] < 0x30).collect();
    for &place in &places {
        let (part, rest) = bytes.split_at(place + 1);
        let (mut scalars, record) = fed(encoding, tables, part)?;
        let new = Record {
            taken: record.taken,
            lines: record.lines,
            ..compare::open(encoding, 0, 1)?.record
        };
        scalars.extend(whole(encoding, tables, rest)?);
        if scalars != expected || record != new {
            return Err(format!(
                "parted behind byte {place} (hex): expected {expected:02X?} and {new:02X?}, came {scalars:02X?} and {record:02X?}"
            ));
        }
    }
    Ok(places.len())
}

pub fn fields(published: &Published, seed: u64) -> Result<String, String> {
    let mut random = Random::new(seed);
    let lists = Lists::new(published, &mut random);
    let (mut count, mut parts) = (0, 0);
    for encoding in (0..40).filter(|&encoding| keeps_separators(encoding)) {
        for variant in 0..VARIANTS {
            let tables = lists.tables(encoding, variant, 0);
            for _ in 0..200 {
                let mut bytes = lists.text(encoding, &mut random);
                for _ in 0..random.below(4) {
                    bytes.push(random.pick(b"\t\n ,/"));
                    bytes.extend(lists.text(encoding, &mut random));
                }
                let compared = |bytes: &[u8]| compare_parts(encoding, tables, bytes);
                let Ok(places) = compared(&bytes) else {
                    let (bytes, error) = smallest_case(&bytes, compared);
                    return Err(format!(
                        "seed {seed}, {} with the tables {variant}; no byte can be left out of\n  {bytes:02X?}\n  {error}",
                        name(encoding)
                    ));
                };
                count += 1;
                parts += places;
            }
        }
    }
    Ok(format!(
        "{count} texts, parted behind {parts} separators, seed {seed}"
    ))
}
