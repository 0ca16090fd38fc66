//! Index lines beside the reference.

use crate::compare;
use crate::differences::smallest_case;
use support::random::Random;

const PIECES: &[&[u8]] = &[
    b" ",
    b"  ",
    b"\t",
    b"0",
    b"7",
    b"00",
    b"12",
    b"0000003",
    b"10000000",
    b"0x",
    b"0X",
    b"0080",
    b"007F",
    b"00E9",
    b"00e9",
    b"D7FF",
    b"D800",
    b"DFFF",
    b"E000",
    b"10FFFF",
    b"110000",
    b"0000E9",
    b"00000E9",
    b"FFF",
    b"#",
    b"\r",
    b"\n",
    b"\x00",
    b"x",
    b"-1",
    b"+1",
    b"\xE9",
];

/// A line whose pointer, if it has one, is mostly below 12.
pub fn line(random: &mut Random) -> Vec<u8> {
    let mut line = Vec::new();
    if random.one_in(4) {
        for _ in 0..random.below(8) {
            line.extend(random.pick(PIECES));
        }
        return line;
    }
    line.extend(vec![b' '; random.below(4)]);
    line.extend(format!("{:01$}", random.below(12), random.below(9)).bytes());
    line.extend(b"\t0x");
    line.extend(match random.below(4) {
        0 => random.pick(PIECES).to_vec(),
        1 => format!("{:04X}", random.below(0x200)).into_bytes(),
        _ => format!("{:04X}", random.below(0x110400)).into_bytes(),
    });
    if random.one_in(2) {
        line.push(b'\t');
        line.extend(random.pick(PIECES));
        if random.one_in(200) {
            line.resize(1023 + random.below(3), b'.');
        }
    }
    if random.one_in(4) && !line.is_empty() {
        let place = random.below(line.len());
        match random.below(3) {
            0 => line[place] = random.number() as u8,
            1 => line.insert(place, random.number() as u8),
            _ => drop(line.remove(place)),
        }
    }
    line
}

pub fn lines(seed: u64) -> Result<String, String> {
    let mut random = Random::new(seed);
    let mut refusals = [0; 16];
    let number = 100_000;
    for _ in 0..number {
        let cells = [0, 0, 0, 0x41, 0x80, 0xFFFFFFFF];
        let table: Vec<u32> = (0..random.below(12)).map(|_| random.pick(&cells)).collect();
        let line = line(&mut random);
        let answer = compare::index_line(&line, &mut table.clone()).map_err(|_| {
            let compare = |line: &[u8]| compare::index_line(line, &mut table.clone());
            let (line, error) = smallest_case(&line, compare);
            let shown = String::from_utf8_lossy(&line);
            format!("seed {seed}; no byte can be left out of\n  line {line:02X?} {shown:?}, table {table:X?}: {error}")
        })?;
        refusals[usize::from(answer.refusal)] += 1;
    }
    Ok(format!(
        "{number} index lines, seed {seed}; answers 0: {}, 8: {}, 12: {}, 13: {}",
        refusals[0], refusals[8], refusals[12], refusals[13]
    ))
}
