//! Document 02, Ask 9: stretches of ASCII beside the reference, at every border of the steps that copy them. Each feed is
//! compared with its record: the totals of bytes and line feeds are among what is compared.

use crate::compare;
use crate::data::{name, Published};
use crate::exhaustive::alphabet;
use crate::random::keeps_separators;
use support::Tables;

const MARK: &[u8] = b"\xEF\xBB\xBF";

/// The longest stretch of which every part is tried.
const LONGEST: usize = 70;

/// ASCII of a length: trails of pairs, digits, line feeds and control characters, in an order that fits no step.
fn stretch(length: usize) -> Vec<u8> {
    let bytes = b"a0\nZ@ \t~9\x7F\n\x00k";
    bytes.iter().copied().cycle().take(length).collect()
}

/// Stretches on both sides of other bytes.
fn around(before: usize, other: &[u8], after: usize) -> Vec<u8> {
    [&stretch(before), other, &stretch(after)].concat()
}

/// What may stand in a stretch: each byte of 80 or above that the encoding's sequences tell apart, and good sequences.
fn others(encoding: u8) -> Vec<Vec<u8>> {
    let bytes = alphabet(encoding).iter().filter(|&&byte| byte >= 0x80);
    let good: &[&[u8]] = match encoding {
        0 => &[b"\xC3\xA9", b"\xE2\x82\xAC", b"\xF0\x9F\x98\x80"],
        29 | 30 => &[b"\xB0\xA1", b"\x81\x30\x81\x30"],
        34 => &[b"\x88\x9F", b"\xB1"],
        31 | 32 | 35 => &[b"\xB0\xA1"],
        _ => &[],
    };
    let good = good.iter().map(|sequence| sequence.to_vec());
    bytes.map(|&byte| vec![byte]).chain(good).collect()
}

/// A decoder as it is opened.
#[derive(Clone, Copy)]
struct Setting {
    encoding: u8,
    mode: u8,
    rule: u8,
}

/// A text in two chunks, up to a place and from there on.
fn compare_cut(setting: Setting, tables: Tables, bytes: &[u8], cut: usize) -> Result<(), String> {
    let mut record = compare::open(setting.encoding, setting.mode, setting.rule)?.record;
    let (first, second) = bytes.split_at(cut);
    for chunk in [first, second] {
        if record.ended == 1 {
            break;
        }
        let room = chunk.len() + usize::from(record.held);
        record = compare::feed(record, chunk, tables, room)?.record;
    }
    Ok(())
}

/// A text, cut at each of some places.
fn compare_cuts(
    setting: Setting,
    published: &Published,
    bytes: &[u8],
    cuts: impl IntoIterator<Item = usize>,
    count: &mut usize,
) -> Result<(), String> {
    let tables = published.tables(setting.encoding);
    for cut in cuts {
        *count += 1;
        compare_cut(setting, tables, bytes, cut).map_err(|error| {
            let Setting { mode, rule, .. } = setting;
            let name = name(setting.encoding);
            format!(
                "{name} in mode {mode} with rule {rule}, cut at {cut}\n  {bytes:02X?}\n  {error}"
            )
        })?;
    }
    Ok(())
}

/// Short stretches: other bytes at each place, cut at each place. So each length up to the longest stands before and
/// behind the other bytes, at the end of a chunk, and at each distance from its start.
fn short(setting: Setting, published: &Published, count: &mut usize) -> Result<(), String> {
    for other in others(setting.encoding) {
        for place in 0..=LONGEST {
            let bytes = around(place, &other, LONGEST - place);
            compare_cuts(setting, published, &bytes, 0..=bytes.len(), count)?;
        }
    }
    Ok(())
}

/// Long stretches, around the borders of the blocks of 192 bytes.
fn long(setting: Setting, published: &Published, count: &mut usize) -> Result<(), String> {
    for place in (180..=205).chain(376..=400) {
        for other in [&b"\x80"[..], b"\n"] {
            let bytes = around(place, other, 20);
            compare_cuts(
                setting,
                published,
                &bytes,
                [0, 1, 7, 8, 9, 191, 192, 193],
                count,
            )?;
        }
    }
    Ok(())
}

/// A mark before a stretch, which is dropped, and one behind it, which is not: the stretch has used the rule up. Without
/// the first mark the stretch uses it up, too.
fn marks(published: &Published, count: &mut usize) -> Result<(), String> {
    for (mode, rule) in [(0, 0), (0, 1), (1, 0), (1, 1)] {
        let setting = Setting {
            encoding: 0,
            mode,
            rule,
        };
        for length in 0..=LONGEST {
            let behind = around(length, MARK, 9);
            let both = [MARK, &behind].concat();
            compare_cuts(setting, published, &behind, 0..=behind.len(), count)?;
            compare_cuts(setting, published, &both, 0..=both.len(), count)?;
        }
    }
    Ok(())
}

/// Stretches in every encoding in which ASCII stands for itself.
pub fn stretches(published: &Published) -> Result<String, String> {
    let mut count = 0;
    for encoding in (0..40).filter(|&encoding| keeps_separators(encoding)) {
        for mode in [0, 1] {
            let setting = Setting {
                encoding,
                mode,
                rule: 1,
            };
            short(setting, published, &mut count)?;
            long(setting, published, &mut count)?;
        }
    }
    marks(published, &mut count)?;
    Ok(format!("{count} texts in two chunks"))
}
