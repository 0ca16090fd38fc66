//! Each call of the library beside the reference: answer, record and every cell of the room. What is expected is the
//! reference's, what came is the library's.

use crate::reference::{self, Answer, Checked, Encoded};
use std::fmt::Debug;
use support::ffi::{self, Decoder as Record, Written};
use support::{calls, Tables};

/// Cells behind the lent room.
const BEHIND: usize = 4;

/// What stands in a room before the call: no scalar, and another number in each cell.
fn cell_before(place: usize) -> u32 {
    0xA500_0000 | place as u32
}

fn byte_before(place: usize) -> u8 {
    0xA5 ^ place as u8
}

/// Compares numbers, and shows them in decimal.
fn numbers(what: &str, library: usize, reference: usize) -> Result<(), String> {
    if library == reference {
        return Ok(());
    }
    Err(format!("{what}: expected {reference}, came {library}"))
}

/// Compares anything else, and shows it in hexadecimal.
fn equal<T: PartialEq + Debug>(what: &str, library: T, reference: T) -> Result<(), String> {
    if library == reference {
        return Ok(());
    }
    Err(format!(
        "{what} (hex): expected {reference:02X?}, came {library:02X?}"
    ))
}

/// Compares lists, and shows some of each from the first place on where they differ.
fn lists<T: PartialEq + Debug>(what: &str, library: &[T], reference: &[T]) -> Result<(), String> {
    let same = library
        .iter()
        .zip(reference)
        .take_while(|(one, other)| one == other);
    let place = same.count();
    let some = |list: &[T]| {
        list[place..]
            .iter()
            .take(16)
            .map(|cell| format!("{cell:02X?}"))
            .collect::<Vec<_>>()
            .join(" ")
    };
    if place == library.len() && place == reference.len() {
        return Ok(());
    }
    Err(format!(
        "{what} from {place} on (hex): expected {}, came {}",
        some(reference),
        some(library)
    ))
}

/// Compares what a call wrote to the front of its room, and what stood behind it.
fn rooms<T: PartialEq + Debug + Copy>(
    what: &str,
    room: &[T],
    written: usize,
    reference: &[T],
    before: fn(usize) -> T,
) -> Result<(), String> {
    lists(what, &room[..written.min(room.len())], reference)?;
    numbers("written", written, reference.len())?;
    for (place, &cell) in room.iter().enumerate().skip(written) {
        if cell != before(place) {
            return Err(format!(
                "place {place} of the room, behind the {what}, is altered to {cell:02X?}"
            ));
        }
    }
    Ok(())
}

fn answers(library: ffi::Answer, room: &[u32], reference: Answer) -> Result<Answer, String> {
    numbers("refusal", library.refusal.into(), reference.refusal.into())?;
    rooms(
        "scalars",
        room,
        library.written,
        &reference.output,
        cell_before,
    )?;
    numbers("place", library.place as usize, reference.place as usize)?;
    numbers("line", library.line as usize, reference.line as usize)?;
    equal("record", library.decoder, reference.record)?;
    Ok(reference)
}

pub fn open(encoding: u8, mode: u8, rule: u8) -> Result<Answer, String> {
    let library = calls::open(encoding, mode, rule);
    answers(library, &[], reference::open(encoding, mode, rule))
        .map_err(|error| format!("open {encoding} mode {mode} rule {rule}: {error}"))
}

/// The answer of a call on a lent decoder, with the decoder as the call left it.
fn answer_of(reply: ffi::Reply, decoder: Record) -> ffi::Answer {
    ffi::Answer {
        written: reply.written,
        place: reply.place,
        line: reply.line,
        refusal: reply.refusal,
        decoder,
    }
}

/// Compares a call that also tells what was replaced, with every cell of its spans.
fn told(
    library: ffi::Replacing,
    room: &[u32],
    spans: &[u32],
    reference: Answer,
) -> Result<Answer, String> {
    let reference = answers(library.answer, room, reference)?;
    let cells = reference.spans.iter();
    let cells: Vec<u32> = cells
        .flat_map(|&(place, width)| [place as u32, width as u32])
        .collect();
    rooms("spans", spans, 2 * library.count, &cells, cell_before)?;
    Ok(reference)
}

/// A call that tells what was replaced, with just enough spans, and with a cell less: an accepted one is then refused with 7.
fn telling(
    record: Record,
    bytes: usize,
    room: usize,
    call: impl Fn(&mut [u32], &mut [u32]) -> ffi::Replacing,
    reference: Answer,
) -> Result<Answer, String> {
    let needed = 2 * (bytes + usize::from(record.held));
    let mut cells: Vec<u32> = (0..room + BEHIND).map(cell_before).collect();
    let mut spans: Vec<u32> = (0..needed + BEHIND).map(cell_before).collect();
    let library = call(&mut cells[..room], &mut spans[..needed]);
    let reference = told(library, &cells, &spans, reference)?;
    if (3..=64).contains(&bytes) || (bytes == 0 && needed > 0) {
        let refusal = match reference.refusal {
            0 | 11 => 7,
            refusal => refusal,
        };
        let mut cells: Vec<u32> = (0..room + BEHIND).map(cell_before).collect();
        let mut spans: Vec<u32> = (0..needed + BEHIND).map(cell_before).collect();
        let library = call(&mut cells[..room], &mut spans[..needed - 1]);
        let refused = reference::refused(refusal, record);
        told(library, &cells, &spans, refused).map_err(|error| format!("few spans, {error}"))?;
    }
    Ok(reference)
}

/// A feed in its three forms: by value, on a lent decoder, and telling what was replaced.
pub fn feed(record: Record, chunk: &[u8], tables: Tables, room: usize) -> Result<Answer, String> {
    let mut cells: Vec<u32> = (0..room + BEHIND).map(cell_before).collect();
    let library = calls::feed(
        record,
        chunk,
        tables.first,
        tables.second,
        &mut cells[..room],
    );
    let reference = answers(
        library,
        &cells,
        reference::feed(record, chunk, tables, room),
    )?;
    let mut lent = record;
    let mut again: Vec<u32> = (0..room + BEHIND).map(cell_before).collect();
    let reply = calls::feed_in_place(
        &mut lent,
        chunk,
        tables.first,
        tables.second,
        &mut again[..room],
    );
    let reference = answers(answer_of(reply, lent), &again, reference)
        .map_err(|error| format!("lent, {error}"))?;
    let (first, second) = (tables.first, tables.second);
    let call = |room: &mut [u32], spans: &mut [u32]| {
        calls::feed_replaced(record, chunk, first, second, room, spans)
    };
    telling(record, chunk.len(), room, call, reference).map_err(|error| format!("telling, {error}"))
}

/// A finish in its three forms.
pub fn finish(record: Record, tables: Tables, room: usize) -> Result<Answer, String> {
    let mut cells: Vec<u32> = (0..room + BEHIND).map(cell_before).collect();
    let library = calls::finish(record, tables.first, tables.second, &mut cells[..room]);
    let reference = answers(library, &cells, reference::finish(record, tables, room))?;
    let mut lent = record;
    let mut again: Vec<u32> = (0..room + BEHIND).map(cell_before).collect();
    let reply = calls::finish_in_place(&mut lent, tables.first, tables.second, &mut again[..room]);
    let reference = answers(answer_of(reply, lent), &again, reference)
        .map_err(|error| format!("lent, {error}"))?;
    let (first, second) = (tables.first, tables.second);
    let call = |room: &mut [u32], spans: &mut [u32]| {
        calls::finish_replaced(record, first, second, room, spans)
    };
    telling(record, 0, room, call, reference).map_err(|error| format!("telling, {error}"))
}

pub fn check(encoding: u8, text: &[u8], tables: Tables) -> Result<Checked, String> {
    let library = calls::check(encoding, text, tables.first, tables.second);
    let reference = reference::check(encoding, text, tables);
    numbers("refusal", library.refusal.into(), reference.refusal.into())?;
    numbers("clean", library.clean.into(), reference.clean.into())?;
    numbers("place", library.place as usize, reference.place as usize)?;
    numbers("line", library.line as usize, reference.line as usize)?;
    Ok(reference)
}

/// What the writer's calls answer, beside each other.
fn written(library: Written, cells: &[u8], reference: Encoded) -> Result<Encoded, String> {
    numbers("refusal", library.refusal.into(), reference.refusal.into())?;
    rooms(
        "bytes",
        cells,
        library.written,
        &reference.output,
        byte_before,
    )?;
    numbers("index", library.index, reference.index)?;
    numbers("state", library.state.into(), reference.state.into())?;
    Ok(reference)
}

/// The writer's call, with an index where one is lent.
pub fn encode(
    encoding: u8,
    mode: u8,
    state: u8,
    scalars: &[u32],
    tables: Tables,
    index: Option<&[u32]>,
    room: usize,
) -> Result<Encoded, String> {
    let mut cells: Vec<u8> = (0..room + BEHIND).map(byte_before).collect();
    let (Tables { first, second }, lent) = (tables, &mut cells[..room]);
    let library = match index {
        None => calls::encode(encoding, mode, state, scalars, first, second, lent),
        Some(index) => {
            calls::encode_indexed(encoding, mode, state, scalars, first, second, index, lent)
        }
    };
    let reference = reference::encode(encoding, mode, state, scalars, tables, index, room);
    written(library, &cells, reference)
}

pub fn encode_finish(state: u8, room: usize) -> Result<Encoded, String> {
    let mut cells: Vec<u8> = (0..room + BEHIND).map(byte_before).collect();
    let library = calls::encode_finish(state, &mut cells[..room]);
    written(library, &cells, reference::encode_finish(state, room))
}

fn entered(library: ffi::Line, reference: &reference::Entered) -> Result<(), String> {
    numbers("refusal", library.refusal.into(), reference.refusal.into())?;
    numbers("entry", library.entry.into(), reference.entry.into())?;
    numbers(
        "pointer",
        library.pointer as usize,
        reference.pointer as usize,
    )
}

pub fn index_line(line: &[u8], table: &mut Vec<u32>) -> Result<reference::Entered, String> {
    let mut filled = table.clone();
    let library = calls::index_line(line, table);
    let reference = reference::index_line(line, &mut filled);
    entered(library, &reference)?;
    equal("table", &*table, &filled)?;
    Ok(reference)
}

pub fn index_line_indexed(
    line: &[u8],
    table: &mut Vec<u32>,
    index: &mut Vec<u32>,
) -> Result<reference::Entered, String> {
    let (mut filled, mut linked) = (table.clone(), index.clone());
    let library = calls::index_line_indexed(line, table, index);
    let reference = reference::index_line_indexed(line, &mut filled, &mut linked);
    entered(library, &reference)?;
    equal("table", &*table, &filled)?;
    lists("index", index, &linked)?;
    Ok(reference)
}

pub fn build_index(encoding: u8, first: &[u32], index: &mut Vec<u32>) -> Result<u8, String> {
    let mut built = index.clone();
    let library = calls::build_index(encoding, first, index);
    let reference = reference::build_index(encoding, first, &mut built);
    numbers("refusal", library.into(), reference.into())?;
    lists("index", index, &built)?;
    Ok(reference)
}
