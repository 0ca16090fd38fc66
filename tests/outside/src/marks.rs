//! Document 02, Ask 1: marks that choose the encoding, whole and not, under every label, cut in every way.

use crate::compare;
use crate::data::{name, Published};
use crate::reference::MARKS;
use support::ffi::Decoder as Record;
use support::Tables;

/// What may stand at the front: each mark, its parts, what is no mark after its first bytes, and two marks.
fn fronts() -> Vec<Vec<u8>> {
    let mut fronts = vec![Vec::new()];
    for (mark, ..) in MARKS {
        for length in 1..=mark.len() {
            fronts.push(mark[..length].to_vec());
        }
        for length in 1..mark.len() {
            for byte in [0x00, 0x0A, 0x41, 0x80, 0xBB, 0xBF, 0xEF, 0xFE, 0xFF] {
                fronts.push([&mark[..length], &[byte]].concat());
            }
        }
        for (second, ..) in MARKS {
            fronts.push([mark, second].concat());
        }
    }
    fronts
}

/// What may follow: nothing, a line feed and letters, and bytes at which decoders differ.
const BEHIND: &[&[u8]] = &[
    b"",
    b"\x0A",
    b"A\x00\x0A\x00",
    b"\x00A\x00",
    b"\xE2\x82",
    b"\xE2\x82\xAC\x0A",
    b"\x81",
    b"\xFF",
];

/// What a text gives: the scalars, the refusals with place and line, and the record without the bytes taken.
#[derive(PartialEq, Debug)]
struct Given {
    scalars: Vec<u32>,
    reports: Vec<(u64, u64)>,
    record: Record,
}

/// A setting: the label, the mode, and the tables that the label wants.
struct Setting<'a> {
    label: u8,
    mode: u8,
    tables: Tables<'a>,
}

/// Tables that suit no encoding.
const UNFIT: Tables = Tables {
    first: &[0],
    second: &[0],
};

impl Setting<'_> {
    /// The text cut behind the places whose bits are set, finished; a feed of unfit tables before each chunk is refused.
    fn read(&self, text: &[u8], cuts: u32) -> Result<Given, String> {
        let mut record = compare::open(self.label, self.mode, 2)?.record;
        let mut given = Given {
            scalars: Vec::new(),
            reports: Vec::new(),
            record,
        };
        let mut start = 0;
        for end in 1..=text.len() {
            if end < text.len() && cuts >> (end - 1) & 1 == 0 {
                continue;
            }
            let chunk = &text[start..end];
            start = end;
            let refused = compare::feed(record, chunk, UNFIT, chunk.len() + 3)?;
            if refused.record != record || !matches!(refused.refusal, 4 | 6) {
                return Err(format!("unfit tables: refusal {}", refused.refusal));
            }
            if record.ended == 1 {
                continue;
            }
            let room = chunk.len() + usize::from(record.held);
            let answer = compare::feed(record, chunk, self.tables, room)?;
            record = answer.record;
            given.scalars.extend(answer.output);
            if answer.refusal == 11 {
                given.reports.push((answer.place, answer.line));
            }
        }
        if record.ended == 0 {
            let answer = compare::finish(record, self.tables, record.held.into())?;
            record = answer.record;
            given.scalars.extend(answer.output);
            if answer.refusal == 11 {
                given.reports.push((answer.place, answer.line));
            }
        }
        given.record = Record { taken: 0, ..record };
        Ok(given)
    }

    /// The text by a decoder that keeps marks: what a mark chose, behind the mark, or the label's over everything.
    fn expected(&self, text: &[u8], published: &Published) -> Result<Vec<u32>, String> {
        let mark = MARKS.iter().find(|(mark, ..)| text.starts_with(mark));
        let (width, encoding, tables) = match mark {
            Some((mark, encoding, _)) => (mark.len(), *encoding, published.tables(*encoding)),
            None => (0, self.label, self.tables),
        };
        let text = &text[width..];
        let open = compare::open(encoding, self.mode, 1)?.record;
        let fed = compare::feed(open, text, tables, text.len())?;
        let mut scalars = fed.output;
        if fed.record.ended == 0 {
            let last = compare::finish(fed.record, tables, fed.record.held.into())?;
            scalars.extend(last.output);
        }
        Ok(scalars)
    }
}

pub fn marks(published: &Published) -> Result<String, String> {
    let (mut texts, mut cuttings) = (0, 0);
    for number in 0..80u8 {
        let setting = Setting {
            label: number / 2,
            mode: number % 2,
            tables: published.tables(number / 2),
        };
        for front in fronts() {
            for behind in BEHIND {
                let text = [&front[..], behind].concat();
                let case = |error: String| {
                    let name = name(setting.label);
                    format!("{name}, mode {}, {text:02X?}: {error}", setting.mode)
                };
                let whole = setting.read(&text, 0).map_err(case)?;
                let expected = setting.expected(&text, published).map_err(case)?;
                if whole.scalars != expected {
                    let came = &whole.scalars;
                    return Err(case(format!("expected {expected:04X?}, came {came:04X?}")));
                }
                texts += 1;
                for cuts in 1..1 << text.len().saturating_sub(1) {
                    let cut = setting.read(&text, cuts).map_err(case)?;
                    if cut != whole {
                        return Err(case(format!("cut {cuts:b}: {cut:04X?}, not {whole:04X?}")));
                    }
                    cuttings += 1;
                }
            }
        }
    }
    Ok(format!(
        "{texts} texts behind a mark or a part of one, and {cuttings} cuttings of them, under every label"
    ))
}
