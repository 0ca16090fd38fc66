//! Reverse indexes beside the reference: those of the published tables, and of random ones.

use crate::compare;
use crate::data::{name, Published};
use crate::lines::line;
use crate::reference;
use support::random::Random;

/// Cells of an index before it is built.
fn any_cells(random: &mut Random, number: usize) -> Vec<u32> {
    (0..number).map(|_| random.number() as u32).collect()
}

/// The published table of an encoding, filled through the library in another order beside its index: the index is then the one that
/// is built, and the reference's.
fn filled(encoding: u8, first: &[u32], random: &mut Random) -> Result<(), String> {
    let mut built = any_cells(random, 2 * first.len());
    compare::build_index(encoding, first, &mut built)?;
    let mut pointers: Vec<usize> = (0..first.len()).collect();
    random.shuffle(&mut pointers);
    let mut table = vec![0; first.len()];
    let mut index = vec![0; 2 * first.len()];
    for pointer in pointers.into_iter().filter(|&pointer| first[pointer] != 0) {
        let line = format!("{pointer}\t0x{:04X}", first[pointer]);
        let answer = support::calls::index_line_indexed(line.as_bytes(), &mut table, &mut index);
        if answer.refusal != 0 {
            return Err(format!("{line}: refusal {}", answer.refusal));
        }
    }
    if (table.as_slice(), &index) != (first, &built) {
        return Err("filled line by line, table or index is another".to_string());
    }
    Ok(())
}

/// The tables of all encodings, each once, and the refusals of building.
pub fn published(tables: &Published, seed: u64) -> Result<String, String> {
    let mut random = Random::new(seed);
    let (mut cells, mut refused) = (0, 0);
    for encoding in 0..=255 {
        let known = encoding < 40;
        let first = if known {
            tables.tables(encoding).first
        } else {
            &[]
        };
        let same = (0..encoding.min(40)).any(|other| tables.tables(other).first == first);
        if known && !same {
            filled(encoding, first, &mut random)
                .map_err(|error| format!("{}: {error}", name(encoding)))?;
            cells += 2 * first.len();
        }
        for (less, other) in [(0, 1), (1, 0), (1, 1), (0, 2)] {
            let table = &first[..first.len().saturating_sub(less)];
            let mut index = any_cells(
                &mut random,
                (2 * first.len() + other).saturating_sub(2 * less),
            );
            let refusal = compare::build_index(encoding, table, &mut index).map_err(|error| {
                format!(
                    "encoding {encoding}, {} and {} cells: {error}",
                    table.len(),
                    index.len()
                )
            })?;
            refused += usize::from(refusal != 0);
        }
    }
    Ok(format!("{cells} cells of published tables, built and filled in another order; {refused} refused buildings"))
}

/// A cell of a random table: most of them in few buckets, some that do not count as mapped.
fn cell(random: &mut Random) -> u32 {
    match random.below(6) {
        0 => 0,
        1 => random.pick(&[
            0x41,
            0x7F,
            0x80,
            0xD7FF,
            0xD800,
            0xDFFF,
            0xE000,
            0x10FFFF,
            0x110000,
            u32::MAX,
        ]),
        2 => random.below(0x11_0000) as u32,
        _ => random.between(0x80, 0x180) as u32,
    }
}

/// Random tables of a single-byte encoding built; short ones with their true index, and with any cells, and a line.
pub fn random(seed: u64) -> Result<String, String> {
    let mut random = Random::new(seed);
    let tables = 2_000;
    for _ in 0..tables {
        let first: Vec<u32> = (0..128).map(|_| cell(&mut random)).collect();
        compare::build_index(1, &first, &mut any_cells(&mut random, 256))
            .map_err(|error| format!("seed {seed}, table {first:X?}: {error}"))?;
    }
    let (lines, mut entries) = (200_000, 0);
    for _ in 0..lines {
        let cells = random.below(13);
        let mut table: Vec<u32> = (0..cells)
            .map(|_| {
                if random.one_in(2) {
                    0
                } else {
                    cell(&mut random)
                }
            })
            .collect();
        let kept = random.one_in(2);
        let length = if random.one_in(20) {
            random.below(30)
        } else {
            2 * cells
        };
        let mut index = match kept {
            true => reference::reverse_index(&table),
            false => (0..length)
                .map(|_| {
                    if random.one_in(9) {
                        random.number() as u32
                    } else {
                        random.below(cells + 3) as u32
                    }
                })
                .collect(),
        };
        let case = (line(&mut random), table.clone(), index.clone());
        let shown = || {
            format!(
                "seed {seed}, line {:02X?}, table {:X?}, index {:X?}",
                case.0, case.1, case.2
            )
        };
        let answer = compare::index_line_indexed(&case.0, &mut table, &mut index)
            .map_err(|error| format!("{}: {error}", shown()))?;
        if kept && index != reference::reverse_index(&table) {
            return Err(format!("{}: the index is no longer true", shown()));
        }
        entries += usize::from(answer.entry);
    }
    Ok(format!("{tables} tables built, {lines} lines with an index, {entries} of them entries, seed {seed}"))
}
