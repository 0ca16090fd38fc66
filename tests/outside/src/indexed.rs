//! The writer with an index beside the reference, and beside the writer without: true indexes and any cells.

use crate::compare;
use crate::data::{name, Published};
use crate::random::{Lists, VARIANTS};
use crate::reference::{self, is_scalar, Encoded};
use support::random::Random;
use support::Tables;

/// The most bytes of a scalar.
const BYTES: usize = 13;

/// Every scalar of the first plane, and some beyond it, in the encodings with a first table of their own, by the published table
/// and its true index: answer and bytes are those of the call without an index. In the encodings of pairs it is every fourth, and
/// those with rules of their own.
pub fn plane(published: &Published) -> Result<String, String> {
    let plane: Vec<u32> = (0..=0xFFFF)
        .chain([0x10000, 0x1F4A9, 0x2000B, 0x10FFFF])
        .filter(|&scalar| is_scalar(scalar))
        .collect();
    let ruled = (0..0x100)
        .chain([
            0x20AC, 0x2212, 0x203E, 0xFF0D, 0x2550, 0x255E, 0x2561, 0x256A,
        ])
        .chain([0x5341, 0x5345, 0xE5E5, 0xE7C7, 0x4E00])
        .chain(0xFF60..=0xFFA0);
    let fourth: Vec<u32> = plane.iter().copied().step_by(4).chain(ruled).collect();
    let mut written = 0;
    for encoding in (0..=35u8).chain([39]) {
        let tables = published.writer_tables(encoding);
        let index = reference::reverse_index(tables.first);
        let all = if encoding < 29 { &plane } else { &fourth };
        for part in all.chunks(16384) {
            let room = BYTES * part.len();
            let case = |error| format!("{}: {error}", name(encoding));
            let with =
                compare::encode(encoding, 0, 0, part, tables, Some(&index), room).map_err(case)?;
            let plain = without(encoding, 0, 0, part, tables, room);
            if (with.output, with.state) != (plain.output, plain.state) {
                return Err(case("a true index writes otherwise".to_string()));
            }
            written += part.len();
        }
    }
    Ok(format!("{written} scalars as without an index"))
}

/// The library's call without an index.
fn without(
    encoding: u8,
    mode: u8,
    state: u8,
    scalars: &[u32],
    tables: Tables,
    room: usize,
) -> Encoded {
    let mut cells = vec![0; room];
    let Tables { first, second } = tables;
    let answer = support::calls::encode(encoding, mode, state, scalars, first, second, &mut cells);
    cells.truncate(answer.written);
    Encoded {
        refusal: answer.refusal,
        output: cells,
        index: answer.index,
        state: answer.state,
    }
}

/// Cells beside a table: its true index, and that with some cells altered; links to cells with the same code point only; zeros; any
/// pointers; any numbers.
fn cells(encoding: u8, table: &[u32], random: &mut Random) -> Vec<u32> {
    let mut index = vec![0; 2 * table.len()];
    support::calls::build_index(encoding, table, &mut index);
    let way = random.below(6);
    for cell in &mut index {
        match way {
            1 if random.one_in(9) => *cell = random.below(table.len() + 2) as u32,
            2 if random.one_in(3) => *cell = 0,
            3 => *cell = random.below(table.len() + 2) as u32,
            4 => *cell = random.number() as u32,
            5 => *cell = 0,
            _ => {}
        }
    }
    index
}

/// A scalar: of the table, or with a rule of its own, or any.
fn scalar(table: &[u32], random: &mut Random) -> u32 {
    let number = match random.below(8) {
        0 => random.below(0x80) as u32,
        1 => random.below(0x11_0000) as u32,
        2 => random.pick(&[
            0x0E, 0x1B, 0x5C, 0x7E, 0x80, 0xA5, 0x203E, 0x2212, 0xFF0D, 0xFF61, 0xFF9F, 0x20AC,
            0xE5E5, 0x2550, 0x5341, 0xE7C7,
        ]),
        _ if table.is_empty() => 0xF780 + random.below(0x80) as u32,
        _ => random.pick(table),
    };
    if is_scalar(number) {
        number
    } else {
        0x41
    }
}

/// What refusing mode wrote, and a finish, through the decoder: the scalars that the text without an index gives.
fn read_back(encoding: u8, bytes: &[u8], plain: &[u8], tables: Tables) -> Result<(), String> {
    let tables = match encoding {
        33 => Tables {
            second: &[],
            ..tables
        },
        _ => tables,
    };
    let start = compare::open(encoding, 1, 1)?.record;
    let read = compare::feed(start, bytes, tables, bytes.len())?;
    let expected = compare::feed(start, plain, tables, plain.len())?;
    if (read.refusal, &read.output) != (0, &expected.output) {
        return Err(format!(
            "read back: expected {:04X?}, came refusal {} and {:04X?}",
            expected.output, read.refusal, read.output
        ));
    }
    Ok(())
}

/// A text with an index of any cells: the reference's bytes, the shape of those without an index, in pieces the same, and read back.
fn text(
    encoding: u8,
    mode: u8,
    scalars: &[u32],
    tables: Tables,
    index: &[u32],
    random: &mut Random,
) -> Result<bool, String> {
    let room = BYTES * scalars.len();
    let whole = compare::encode(encoding, mode, 0, scalars, tables, Some(index), room)?;
    let plain = without(encoding, mode, 0, scalars, tables, room);
    let shape = |answer: &Encoded| {
        let Encoded {
            refusal,
            output,
            index,
            state,
        } = answer;
        (*refusal, output.len(), *index, *state)
    };
    if shape(&whole) != shape(&plain) {
        return Err(format!(
            "{:?} with the index, {:?} without",
            shape(&whole),
            shape(&plain)
        ));
    }
    if let small @ 1.. = whole.output.len() {
        let refused = compare::encode(encoding, mode, 0, scalars, tables, Some(index), small - 1)?;
        if refused.refusal != 7 {
            return Err(format!("room {}: expected 7", small - 1));
        }
    }
    let cut = random.below(scalars.len() + 1);
    let one = compare::encode(
        encoding,
        mode,
        0,
        &scalars[..cut],
        tables,
        Some(index),
        room,
    )?;
    let mut pieces = one.output;
    if one.refusal == 0 {
        let rest = &scalars[cut..];
        pieces.extend(
            compare::encode(encoding, mode, one.state, rest, tables, Some(index), room)?.output,
        );
    }
    if pieces != whole.output {
        return Err(format!("cut behind {cut} the bytes are others"));
    }
    if mode == 1 && whole.refusal == 0 {
        let last = compare::encode_finish(whole.state, 3)?.output;
        let ended = |bytes: &[u8]| [bytes, &last].concat();
        read_back(
            encoding,
            &ended(&whole.output),
            &ended(&plain.output),
            tables,
        )?;
    }
    Ok(whole.output != plain.output)
}

/// Long texts of the writers of pairs, for which a call makes slots: by published tables and others, with true, altered and any
/// cells and without an index. In refusing mode most are of the table alone.
pub fn long(published: &Published, seed: u64) -> Result<String, String> {
    let mut random = Random::new(seed);
    let lists = Lists::new(published, &mut random);
    let (mut texts, mut others) = (0, 0);
    for encoding in 29..=35u8 {
        for variant in 0..VARIANTS {
            let tables = lists.writer_tables(encoding, variant, 0);
            for mode in 0..2 {
                let index = cells(encoding, tables.first, &mut random);
                let scalars: Vec<u32> = (0..LONG)
                    .map(|place| match mode {
                        1 if place < LONG - 30 => of_table(tables.first, &mut random),
                        _ => scalar(tables.first, &mut random),
                    })
                    .collect();
                let case = |error| {
                    let name = name(encoding);
                    format!("seed {seed}, {name}, variant {variant}, mode {mode}, {scalars:04X?}: {error}")
                };
                let all = text(encoding, mode, &scalars, tables, &index, &mut random);
                others += usize::from(all.map_err(case)?);
                for length in [31, 32, 33, 80, LONG] {
                    let front = &scalars[..length];
                    let room = BYTES * length;
                    compare::encode(encoding, mode, 0, front, tables, None, room).map_err(case)?;
                }
                texts += 1;
            }
        }
    }
    Ok(format!(
        "{texts} texts of {LONG} scalars in two ways of cutting, {others} of them with other bytes than without an index, seed {seed}"
    ))
}

/// Scalars of a long text: well over 1,024 of them are not ASCII.
const LONG: usize = 1300;

/// A scalar of a table, ASCII now and then.
fn of_table(table: &[u32], random: &mut Random) -> u32 {
    let cell = random.pick(table);
    match is_scalar(cell) && cell >= 0x80 && !random.one_in(12) {
        true => cell,
        false => 0x20 + random.below(0x5F) as u32,
    }
}

/// Short texts of every writer, by published tables and others, with true, altered and any cells.
pub fn random(published: &Published, seed: u64) -> Result<String, String> {
    let mut random = Random::new(seed);
    let lists = Lists::new(published, &mut random);
    let (texts, mut others) = (100_000, 0);
    let mut lent: Vec<(u8, usize, Vec<u32>)> = Vec::new();
    for number in 0..texts {
        // The cells are made anew for every 25 texts.
        if number % 25 == 0 {
            let encoding = random.pick(&WRITERS);
            let variant = random.below(VARIANTS);
            let table = lists.writer_tables(encoding, variant, 0).first;
            lent = vec![(encoding, variant, cells(encoding, table, &mut random))];
        }
        let (encoding, variant, index) = &lent[0];
        let tables = lists.writer_tables(*encoding, *variant, 0);
        let length = if random.one_in(200) {
            300
        } else {
            random.below(9)
        };
        let scalars: Vec<u32> = (0..length)
            .map(|_| scalar(tables.first, &mut random))
            .collect();
        let mode = random.below(2) as u8;
        others += usize::from(
            text(*encoding, mode, &scalars, tables, index, &mut random).map_err(|error| {
                let name = name(*encoding);
                format!("seed {seed}, text {number}, {name}, variant {variant}, mode {mode}, {scalars:04X?}: {error}")
            })?,
        );
    }
    Ok(format!(
        "{texts} texts in two ways of cutting, {others} of them with other bytes than without an index, seed {seed}"
    ))
}

/// Encodings with a writer: those of pairs, some of one byte, and those without a table.
const WRITERS: [u8; 14] = [0, 1, 14, 21, 26, 29, 30, 31, 32, 33, 34, 35, 35, 39];
