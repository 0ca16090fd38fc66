//! The list call beside a second implementation, which is written from the words of the request: lines split at line
//! feeds, names in sets.

use crate::differences::{smallest_case, Differences};
use std::collections::HashSet;
use support::calls;
use support::random::Random;

const TAB: u32 = 0x09;
const LF: u32 = 0x0A;
const CR: u32 = 0x0D;

/// The cells of an option.
const CELLS: usize = 5;

/// Cells behind the lent room.
const BEHIND: usize = 4;

/// What a list comes to: the cells of its options, or a refusal and its line.
type Read = Result<Vec<[u64; CELLS]>, (u8, usize)>;

/// The known names, which are not empty. What stands behind the last line feed is none.
fn known(names: &[u32]) -> HashSet<&[u32]> {
    let mut known: Vec<&[u32]> = names.split(|&c| c == LF).collect();
    known.pop();
    known.into_iter().filter(|name| !name.is_empty()).collect()
}

fn reference(text: &[u32], known: &HashSet<&[u32]>, room: usize) -> Read {
    let pieces: Vec<&[u32]> = text.split(|&c| c == LF).collect();
    let mut used = HashSet::new();
    let mut options = Vec::new();
    let mut start = 0;
    for (index, piece) in pieces.iter().enumerate() {
        let number = index + 1;
        let line = match piece {
            [line @ .., CR] if number < pieces.len() => line,
            line => line,
        };
        if !line.is_empty() {
            let mut tabs = (0..line.len()).filter(|&place| line[place] == TAB);
            let (Some(tab), None) = (tabs.next(), tabs.next()) else {
                return Err((16, number));
            };
            let name = &line[..tab];
            if !known.contains(name) {
                return Err((17, number));
            }
            if !used.insert(name) {
                return Err((18, number));
            }
            let places = [start, start + tab, start + tab + 1, start + line.len()];
            let [from, to, value, end] = places.map(|place| place as u64);
            options.push([number as u64, from, to, value, end]);
        }
        start += piece.len() + 1;
    }
    if room / CELLS < options.len() {
        return Err((7, 0));
    }
    Ok(options)
}

/// The call beside the reference: the answer, and every cell of the room and behind it.
fn compare(text: &[u32], names: &[u32], room: usize) -> Result<Read, String> {
    compare_known(text, names, &known(names), room)
}

fn compare_known(
    text: &[u32],
    names: &[u32],
    known: &HashSet<&[u32]>,
    room: usize,
) -> Result<Read, String> {
    let before = |place: usize| 0xA5A5_0000_0000_0000 | place as u64;
    let mut cells: Vec<u64> = (0..room + BEHIND).map(before).collect();
    let answer = calls::read_list(text, names, &mut cells[..room]);
    let read = reference(text, known, room);
    let expected = match &read {
        Ok(options) => (0, 0, options.len()),
        Err((refusal, line)) => (*refusal, *line, 0),
    };
    let came = (answer.refusal, answer.line, answer.options);
    if came != expected {
        return Err(format!(
            "refusal, line, options: expected {expected:?}, came {came:?}"
        ));
    }
    let written: Vec<u64> = read.iter().flatten().flatten().copied().collect();
    for (place, &cell) in cells.iter().enumerate() {
        let expected = *written.get(place).unwrap_or(&before(place));
        if cell != expected {
            return Err(format!("cell {place}: expected {expected}, came {cell}"));
        }
    }
    Ok(read)
}

fn shown(characters: &[u32]) -> String {
    let characters = characters.iter().map(|&c| match char::from_u32(c) {
        Some(c) => c.escape_debug().to_string(),
        None => format!("\\x{{{c:X}}}"),
    });
    format!("\"{}\"", characters.collect::<String>())
}

fn characters(text: &str) -> Vec<u32> {
    text.chars().map(u32::from).collect()
}

/// The answers that came, by number.
#[derive(Default)]
struct Answers([usize; 19]);

impl Answers {
    fn add(&mut self, read: &Read) {
        let number = match read {
            Ok(_) => 0,
            Err((refusal, _)) => *refusal,
        };
        self.0[usize::from(number)] += 1;
    }

    fn shown(&self) -> String {
        let of = |number: usize| format!("{number}: {}", self.0[number]);
        [0, 7, 16, 17, 18].map(of).join(", ")
    }
}

/// Rooms for a list: plenty, as many cells as its options have, and one less.
fn rooms(read: &Read, most: usize) -> Vec<usize> {
    let exact = read.as_ref().map_or(0, |options| options.len() * CELLS);
    match exact {
        0 => vec![most],
        _ => vec![most, exact, exact - 1],
    }
}

/// Every text of up to seven characters over a small alphabet, with some known names.
pub fn short_texts() -> Result<String, String> {
    let alphabet = [u32::from('a'), u32::from('b'), TAB, LF, CR];
    let lists = ["a\nb\nab\n", "\n\na\n", "a\nb", "\r\na\r\nb\n", ""].map(characters);
    let mut differences = Differences::default();
    let mut answers = Answers::default();
    let mut count = 0;
    for length in 0..=7u32 {
        for number in 0..alphabet.len().pow(length) {
            let digit = |place: u32| number / alphabet.len().pow(place) % alphabet.len();
            let text: Vec<u32> = (0..length).map(|place| alphabet[digit(place)]).collect();
            for names in &lists {
                let most = CELLS * (text.len() + 1);
                for room in rooms(&reference(&text, &known(names), most), most) {
                    count += 1;
                    match compare(&text, names, room) {
                        Ok(read) => answers.add(&read),
                        Err(error) => differences.add(text.len(), || {
                            let (text, names) = (shown(&text), shown(names));
                            format!("text {text}, names {names}, room {room}: {error}")
                        }),
                    }
                }
            }
        }
    }
    differences.result(format!("{count} calls; answers {}", answers.shown()))
}

/// A name over a small alphabet, seldom with a character that has a part of its own elsewhere.
fn name(random: &mut Random, least: usize, most: usize) -> Vec<u32> {
    let letters = ['a', 'b', 'c'].map(u32::from);
    let odd = [CR, TAB, 0x20, 0, 0x0B, 0x85, 0x2028, 0x10_FFFF, 0xFFFF_FFFF];
    (0..random.between(least, most))
        .map(|_| match random.one_in(100) {
            true => random.pick(&odd),
            false => random.pick(&letters),
        })
        .collect()
}

/// Known names, each closed by a line feed but for a seldom last one.
fn names(random: &mut Random, number: usize) -> (Vec<Vec<u32>>, Vec<u32>) {
    let list: Vec<Vec<u32>> = (0..number)
        .map(|_| match random.one_in(20) {
            true => Vec::new(),
            false => name(random, 1, 4),
        })
        .collect();
    let mut names = Vec::new();
    for name in &list {
        names.extend(name);
        names.push(LF);
    }
    if random.one_in(8) {
        names.pop();
    }
    (list, names)
}

/// A list of lines, most of them right.
fn list(random: &mut Random, known: &[Vec<u32>], lines: usize) -> Vec<u32> {
    let mut order: Vec<&Vec<u32>> = known.iter().collect();
    random.shuffle(&mut order);
    let mut text = Vec::new();
    for place in 0..lines {
        if random.one_in(8) {
            text.extend(random.pick(&[&[LF][..], &[LF], &[CR, LF], &[CR, LF], &[CR], &[TAB, LF]]));
            continue;
        }
        match order.get(place) {
            Some(name) if !random.one_in(60) => text.extend(*name),
            _ => text.extend(name(random, 0, 4)),
        }
        if !random.one_in(60) {
            text.push(TAB);
        }
        text.extend(name(random, 0, 5));
        if random.one_in(3) {
            text.push(CR);
        }
        text.push(LF);
    }
    if random.one_in(4) {
        text.pop();
    }
    text
}

/// Random lists of short lines over a small alphabet.
pub fn random_lists(seed: u64) -> Result<String, String> {
    let mut random = Random::new(seed);
    let mut answers = Answers::default();
    let number = 100_000;
    for _ in 0..number {
        let lines = random.below(12);
        let many = lines + random.below(4);
        let (list_of_names, names) = names(&mut random, many);
        let text = list(&mut random, &list_of_names, lines);
        let most = CELLS * (lines + 1);
        let room = random.pick(&rooms(&reference(&text, &known(&names), most), most));
        let compared = |text: &[u32]| compare(text, &names, room);
        let read = compared(&text).map_err(|_| {
            let (text, error) = smallest_case(&text, compared);
            let (text, names) = (shown(&text), shown(&names));
            format!("seed {seed}; no character can be left out of\n  {text}, names {names}, room {room}: {error}")
        })?;
        answers.add(&read);
    }
    Ok(format!(
        "{number} lists, seed {seed}; answers {}",
        answers.shown()
    ))
}

/// Long lists: as many names as slots, more, and about the number of characters from which the call has more slots; the
/// list in the order of the names, in another, and with a fault in its last line.
pub fn long_lists(seed: u64) -> Result<String, String> {
    let mut random = Random::new(seed);
    let mut count = 0;
    for (number, lines) in [
        (4_000, 4_000),
        (4_096, 4_096),
        (4_097, 4_097),
        (49_152, 49_152),
        (49_153, 49_153),
        (60_000, 2_000),
    ] {
        // names of one character: two for each with its line feed
        let mut order: Vec<u32> = (0..number).map(|place| 0x100 + place as u32).collect();
        let names: Vec<u32> = order.iter().flat_map(|&name| [name, LF]).collect();
        let known = known(&names);
        for (shuffled, last) in [(false, 0), (true, 0), (true, 1), (true, 2), (true, 3)] {
            if shuffled {
                random.shuffle(&mut order);
            } else {
                order.reverse();
            }
            let mut text: Vec<u32> = order[..lines]
                .iter()
                .flat_map(|&name| [name, TAB, name, LF])
                .collect();
            match last {
                0 => {}
                1 => text.extend([order[0], TAB, LF]),
                2 => text.extend([0xFFFF_FFFF, TAB, LF]),
                _ => text.extend([order[0], LF]),
            }
            let compared = compare_known(&text, &names, &known, CELLS * lines).map(drop);
            compared.map_err(|error| {
                format!("seed {seed}, {lines} lines, {number} names, last line {last}: {error}")
            })?;
            count += 1;
        }
    }
    Ok(format!("{count} lists, seed {seed}"))
}
