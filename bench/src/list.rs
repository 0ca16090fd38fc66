//! Options lists, by lines and known names, beside a simple reader with Rust's hash sets.

use crate::measure::{rounds, warm, Run, Times};
use crate::table::Counts;
use std::collections::HashSet;
use std::time::Instant;
use support::calls;

/// The cells of an option.
const CELLS: usize = 5;

/// Lines, known names, and the most milliseconds. A list has at most as many options as there are names; its other lines
/// are empty.
const LISTS: [(usize, usize, Option<f64>); 9] = [
    (10, 10, None),
    (100, 100, None),
    (1_000, 1_000, None),
    (4_000, 4_000, Some(5.0)),
    (10_000, 10_000, None),
    (40_000, 40_000, Some(1_000.0)),
    (100_000, 10_000, None),
    (1_000, 40_000, None),
    (50_000, 50_000, None),
];

/// Rounds of a list with more names than slots.
const FEW: usize = 3;

fn characters(text: &str) -> impl Iterator<Item = u32> + '_ {
    text.chars().map(u32::from)
}

/// The names `option-0` and so on.
fn names(number: usize) -> Vec<u32> {
    let mut names = Vec::new();
    for name in 0..number {
        names.extend(characters(&format!("option-{name}\n")));
    }
    names
}

/// A list of the names in another order.
fn text(lines: usize, names: usize) -> Vec<u32> {
    let mut text = Vec::new();
    for line in 0..lines {
        if line < names {
            let name = line * 7919 % names;
            text.extend(characters(&format!("option-{name}\tvalue {line}")));
        }
        text.extend(characters("\r\n"));
    }
    text
}

fn ours(text: &[u32], names: &[u32], room: &mut [u64]) -> usize {
    let answer = calls::read_list(text, names, room);
    assert_eq!((answer.refusal, answer.line), (0, 0));
    answer.options
}

/// The same job: the list is judged whole, and written then.
fn simple(text: &[u32], names: &[u32], room: &mut [u64]) -> usize {
    let (tab, line_feed, carriage_return) = (9, 10, 13);
    let known: HashSet<&[u32]> = names.split(|&c| c == line_feed).collect();
    let mut used = HashSet::new();
    let mut options = Vec::new();
    let mut start = 0;
    for (line, piece) in text.split(|&c| c == line_feed).enumerate() {
        let characters = match piece {
            [front @ .., last] if *last == carriage_return => front,
            all => all,
        };
        if !characters.is_empty() {
            let place = characters.iter().position(|&c| c == tab);
            let place = place.expect("a tab");
            assert!(!characters[place + 1..].contains(&tab), "one tab");
            let name = &characters[..place];
            assert!(known.contains(name) && used.insert(name), "a name");
            let end = start + characters.len();
            options.push([line + 1, start, start + place, start + place + 1, end]);
        }
        start += piece.len() + 1;
    }
    for (cells, option) in room.chunks_exact_mut(CELLS).zip(&options) {
        for (cell, place) in cells.iter_mut().zip(option) {
            *cell = *place as u64;
        }
    }
    options.len()
}

/// A timed run; behind the clock its cells are compared.
fn run<'a>(
    text: &'a [u32],
    names: &'a [u32],
    expected: &'a [u64],
    read: fn(&[u32], &[u32], &mut [u64]) -> usize,
) -> Run<'a> {
    let mut room = vec![0; expected.len()];
    Box::new(move || {
        warm(text, &mut room);
        warm::<u32, u64>(names, &mut []);
        let start = Instant::now();
        let options = read(text, names, &mut room);
        let seconds = start.elapsed().as_secs_f64();
        let same = options * CELLS == expected.len() && room == expected;
        assert!(same, "two readers of one list differ");
        seconds
    })
}

/// Measures each list and prints its row.
pub fn lists(number: usize, counts: &mut Counts) {
    println!();
    println!("Options lists, in milliseconds");
    println!(
        "{:<24} {:>7} {:>7} | {:>15} | {:>15} |",
        "", "", "ratio", "best", "median"
    );
    println!(
        "{:<16} {:>7} {:>7} {:>7} | {:>7} {:>7} | {:>7} {:>7} | above a bar",
        "", "lines", "names", "o/s", "ours", "simple", "ours", "simple"
    );
    for (lines, known, most) in LISTS {
        let (text, names) = (text(lines, known), names(known));
        let mut expected = vec![0; lines.min(known) * CELLS];
        simple(&text, &names, &mut expected);
        let mut runs = [
            run(&text, &names, &expected, ours),
            run(&text, &names, &expected, simple),
        ];
        let slots = 49_152;
        let number = if known > slots {
            number.min(FEW)
        } else {
            number
        };
        let measured: Vec<Times> = rounds(number, &mut runs);
        let remark = match most {
            Some(most) => counts.limit(measured[0].least * 1e3 < most, "above the bar"),
            None => "",
        };
        let times = |seconds: fn(&Times) -> f64| {
            let [ours, simple] = [&measured[0], &measured[1]].map(|times| seconds(times) * 1e3);
            format!("{ours:>7.3} {simple:>7.3}")
        };
        println!(
            "{:<16} {lines:>7} {known:>7} {:>7.2} | {} | {} | {remark}",
            "options",
            measured[1].ratio,
            times(|times| times.least),
            times(|times| times.median)
        );
    }
}
