//! The order of refusals: calls with every combination of causes.

use crate::compare;
use crate::data::Published;
use crate::differences::Differences;
use crate::reference::has_writer;
use support::ffi::Decoder as Record;
use support::Tables;

/// The causes that a number stands for, in the order of the call.
fn causes(order: &[u8], set: usize) -> Vec<u8> {
    (0..order.len())
        .filter(|place| set >> place & 1 == 1)
        .map(|place| order[place])
        .collect()
}

/// Calls with causes for refusals; the smallest difference is that with the fewest causes.
#[derive(Default)]
struct Calls {
    compared: usize,
    differences: Differences,
}

impl Calls {
    /// Compares the refusal with the first of the causes.
    fn expect(&mut self, causes: &[u8], call: String, answer: Result<u8, String>) {
        let expected = causes.first().copied().unwrap_or(0);
        self.compared += 1;
        let error = match answer {
            Ok(refusal) if refusal == expected => return,
            Ok(refusal) => format!("refusal: expected {expected}, came {refusal}"),
            Err(error) => error,
        };
        self.differences.add(causes.len(), || {
            format!("{call}, causes {causes:?}: {error}")
        });
    }
}

/// Bytes that are an error in every encoding that has errors, with tables of zeros.
const ERROR: &[u8] = b"\xDC\xDC\xFF\xFF";

fn has_errors(encoding: u8) -> bool {
    !matches!(encoding, 21 | 39)
}

/// A byte that the decoder holds.
fn lead(encoding: u8) -> Option<u8> {
    match encoding {
        0 => Some(0xC2),
        32 => Some(0xA1),
        29..=31 | 34 | 35 | 37 | 38 => Some(0x81),
        33 => Some(0x1B),
        _ => None,
    }
}

/// A decoder in refusing mode. With cause 14 it has taken most of what it may; by rule 2 behind a mark of UTF-8.
fn opened(encoding: u8, rule: u8, causes: &[u8], tables: Tables) -> Result<Record, String> {
    let mut record = compare::open(encoding, 1, rule)?.record;
    if causes.contains(&6) {
        record = compare::finish(record, tables, 0)?.record;
    } else if causes.contains(&14) && rule == 2 {
        record.stage = 2;
    }
    if causes.contains(&14) {
        record.taken = u32::MAX - 1;
        record.flag = 0;
    }
    if causes.contains(&5) {
        record.third = 1;
    }
    Ok(record)
}

/// Tables of zeros; with cause 4 one of them is too long.
fn zeros(tables: Tables, causes: &[u8], which: usize) -> (Vec<u32>, Vec<u32>) {
    let mut first = vec![0; tables.first.len()];
    let mut second = vec![0; tables.second.len()];
    if causes.contains(&4) {
        match which {
            0 => first.push(0),
            _ => second.push(0),
        }
    }
    (first, second)
}

fn feeds(published: &Published, calls: &mut Calls) -> Result<(), String> {
    let order = [5, 6, 4, 8, 14, 7, 11];
    for encoding in 0..40 {
        for set in 0..1 << order.len() {
            let causes = causes(&order, set);
            if causes.contains(&11) && !has_errors(encoding) {
                continue;
            }
            for number in 0..4 {
                let (which, rule) = (number % 2, (number / 2 * 2) as u8);
                // The first byte of replacement ends it in refusing mode, so that, not ended, it takes none.
                if causes.contains(&14) && encoding == 36 && rule == 0 && !causes.contains(&6) {
                    continue;
                }
                let record = opened(encoding, rule, &causes, published.tables(encoding))?;
                let (first, second) = zeros(published.tables(encoding.min(39)), &causes, which);
                let mut chunk = if causes.contains(&11) {
                    ERROR.to_vec()
                } else {
                    b"\0A".to_vec()
                };
                let utf_8 = rule == 2 && causes.contains(&14);
                if encoding == 36 && !causes.contains(&11) && !utf_8 {
                    chunk.clear();
                }
                if causes.contains(&8) {
                    chunk.resize(65537, b'A');
                }
                let small = causes.contains(&7);
                if small && chunk.is_empty() {
                    continue;
                }
                let room = chunk.len() - usize::from(small);
                let tables = Tables {
                    first: &first,
                    second: &second,
                };
                let call = format!(
                    "feed {record:02X?}, {} bytes, tables of {} and {} cells, room {room}",
                    chunk.len(),
                    first.len(),
                    second.len()
                );
                let answer = compare::feed(record, &chunk, tables, room);
                calls.expect(&causes, call, answer.map(|answer| answer.refusal));
            }
        }
    }
    Ok(())
}

/// Finishes with a byte held, where there is one, by rule 0 and by rule 2 while it waits for the choice. The tables do
/// not matter by rule 0: then 4 is no cause.
fn finishes(published: &Published, calls: &mut Calls) -> Result<(), String> {
    let order = [5, 6, 4, 7, 11];
    for number in 0..160 * (1 << order.len()) {
        let (encoding, rule) = ((number % 40) as u8, (number / 40 % 2 * 2) as u8);
        let which = number / 80 % 2;
        let mut causes = causes(&order, number / 160);
        let holds = causes.contains(&7) || causes.contains(&11);
        let byte = match rule {
            0 => lead(encoding),
            _ => Some(0xEF).filter(|_| has_errors(encoding) || !causes.contains(&11)),
        };
        let chunk: Vec<u8> = byte.filter(|_| holds).into_iter().collect();
        if holds && chunk.is_empty() {
            continue;
        }
        let refusing = causes.contains(&11);
        let open = compare::open(encoding, u8::from(refusing), rule)?.record;
        let (first, second) = zeros(published.tables(encoding), &[], 0);
        let tables = Tables {
            first: &first,
            second: &second,
        };
        let mut record = compare::feed(open, &chunk, tables, chunk.len())?.record;
        let held = usize::from(record.held);
        if causes.contains(&6) {
            record = compare::finish(record, tables, held)?.record;
        }
        if causes.contains(&5) {
            record.third = 1;
        }
        let (first, second) = zeros(published.tables(encoding.min(39)), &causes, which);
        let tables = Tables {
            first: &first,
            second: &second,
        };
        causes.retain(|&cause| cause != 4 || rule == 2);
        let room = held - usize::from(causes.contains(&7));
        let call = format!(
            "finish {record:02X?}, tables of {} and {} cells, room {room}",
            first.len(),
            second.len()
        );
        let answer = compare::finish(record, tables, room);
        calls.expect(&causes, call, answer.map(|answer| answer.refusal));
    }
    Ok(())
}

fn opens(calls: &mut Calls) {
    for encoding in 0..=255 {
        for mode in [0, 1, 2, 255] {
            for rule in [0, 1, 2, 3, 255] {
                let mut causes = Vec::new();
                if encoding > 39 {
                    causes.push(2);
                }
                if mode > 1 || rule > 2 {
                    causes.push(3);
                }
                let call = format!("open {encoding} mode {mode} rule {rule}");
                let answer = compare::open(encoding, mode, rule);
                calls.expect(&causes, call, answer.map(|answer| answer.refusal));
            }
        }
    }
}

fn checks(published: &Published, calls: &mut Calls) {
    let order = [2, 4, 8];
    for encoding in (0..=40).chain([255]) {
        for set in 0..1 << order.len() {
            let causes = causes(&order, set);
            if causes.contains(&2) != (encoding > 39) {
                continue;
            }
            for which in 0..2 {
                for byte in [b'A', 0xFF] {
                    let (first, second) = zeros(published.tables(encoding.min(39)), &causes, which);
                    let length = 65536 + usize::from(causes.contains(&8));
                    let tables = Tables {
                        first: &first,
                        second: &second,
                    };
                    let call = format!(
                        "check {encoding}, {length} bytes {byte:02X}, tables of {} and {} cells",
                        first.len(),
                        second.len()
                    );
                    let answer = compare::check(encoding, &vec![byte; length], tables);
                    calls.expect(&causes, call, answer.map(|answer| answer.refusal));
                }
            }
        }
    }
}

fn encodes(published: &Published, calls: &mut Calls) {
    let order = [2, 3, 5, 9, 4, 15, 8, 10, 7, 11];
    for encoding in (0..=40).chain([255]) {
        for set in 0..1 << order.len() {
            let causes = causes(&order, set);
            let no_writer = encoding < 40 && !has_writer(encoding);
            if causes.contains(&2) != (encoding > 39)
                || causes.contains(&9) != no_writer
                || (causes.contains(&11) && encoding == 0)
            {
                continue;
            }
            for which in 0..2 {
                let (first, second) =
                    zeros(published.writer_tables(encoding.min(39)), &causes, which);
                let mut scalars = vec![0x41];
                if causes.contains(&11) {
                    scalars.push(0xE5E5);
                }
                if causes.contains(&8) {
                    scalars.resize(16385, 0x41);
                }
                if causes.contains(&10) {
                    *scalars.last_mut().expect("a scalar is there") = 0xD800;
                    if scalars.len() < 3 {
                        scalars.insert(0, 0x41);
                    }
                }
                let mode = if causes.contains(&3) { 2 } else { 1 };
                let state = match (causes.contains(&5), which) {
                    (false, _) => 0,
                    (true, 0) => 3,
                    (true, _) => 255,
                };
                let room = if causes.contains(&7) {
                    0
                } else {
                    scalars.len()
                };
                let tables = Tables {
                    first: &first,
                    second: &second,
                };
                let call = format!(
                    "encode {encoding} mode {mode} state {state}, {} numbers, tables of {} and {} cells, room {room}",
                    scalars.len(),
                    first.len(),
                    second.len()
                );
                let wrong = causes.contains(&15);
                if !wrong {
                    let answer =
                        compare::encode(encoding, mode, state, &scalars, tables, None, room);
                    calls.expect(&causes, call.clone(), answer.map(|answer| answer.refusal));
                }
                let cells = match (wrong, which) {
                    (false, _) => 2 * first.len(),
                    (true, 0) => 2 * first.len() + 1,
                    (true, _) => (2 * first.len()).checked_sub(1).unwrap_or(2),
                };
                let index = vec![0; cells];
                let call = format!("{call}, an index of {cells} cells");
                let answer =
                    compare::encode(encoding, mode, state, &scalars, tables, Some(&index), room);
                calls.expect(&causes, call, answer.map(|answer| answer.refusal));
            }
        }
    }
}

fn encode_finishes(calls: &mut Calls) {
    for state in 0..=255 {
        for room in 0..5 {
            let needs = if state == 0 { 0 } else { 3 };
            let causes = [(5, state > 2), (7, room < needs)];
            let causes: Vec<u8> = causes
                .into_iter()
                .filter_map(|(cause, holds)| holds.then_some(cause))
                .collect();
            let answer = compare::encode_finish(state, room);
            let call = format!("encode_finish state {state}, room {room}");
            calls.expect(&causes, call, answer.map(|answer| answer.refusal));
        }
    }
}

pub fn refusals(published: &Published) -> Result<String, String> {
    let mut calls = Calls::default();
    opens(&mut calls);
    let opens = calls.compared;
    feeds(published, &mut calls)?;
    let feeds = calls.compared - opens;
    finishes(published, &mut calls)?;
    let finishes = calls.compared - opens - feeds;
    checks(published, &mut calls);
    let checks = calls.compared - opens - feeds - finishes;
    encodes(published, &mut calls);
    encode_finishes(&mut calls);
    let encodes = calls.compared - opens - feeds - finishes - checks;
    calls.differences.result(format!(
        "{opens} openings, {feeds} feeds, {finishes} finishes, {checks} checks, {encodes} encodings with combined causes"
    ))
}
