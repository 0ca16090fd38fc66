//! The check of lists beside a feed in refusing mode.

use crate::data::{Encoding, Indexes};
use crate::measure::{room, rounds, warm, Run, Times};
use crate::table::{rate, Bar, Counts};
use std::time::Instant;
use support::{calls, Tables};

/// Parts of a text that are lists of whole lines: of at most so many bytes, or of one line.
fn lists(encoding: Encoding, text: &[u8], most: usize) -> Vec<&[u8]> {
    let line_feed: &[u8] = match encoding {
        Encoding::Utf16Le => b"\n\0",
        _ => b"\n",
    };
    let unit = line_feed.len();
    let ends_line = |end: usize| end % unit == 0 && text[..end].ends_with(line_feed);
    let mut lists = Vec::new();
    let mut at = 0;
    while at < text.len() {
        let far = text.len().min(at + most);
        let within = (at + unit..=far).rev().find(|&end| ends_line(end));
        let behind = || (far..text.len()).find(|&end| ends_line(end));
        let end = within.or_else(behind).unwrap_or(text.len());
        lists.push(&text[at..end]);
        at = end;
    }
    lists
}

/// A timed run over all lists; each has to be clean.
fn run<'a>(
    lists: Vec<&'a [u8]>,
    cells: usize,
    mut clean: impl FnMut(&[u8], &mut [u32]) -> bool + 'a,
) -> Run<'a> {
    let all = lists.concat();
    let mut room = vec![0; cells];
    Box::new(move || {
        warm(&all, &mut room);
        let start = Instant::now();
        let clean = lists.iter().all(|list| clean(list, &mut room));
        let seconds = start.elapsed().as_secs_f64();
        assert!(clean, "a list is not clean");
        seconds
    })
}

/// Opening, a feed and a finish.
fn fed(encoding: Encoding, tables: Tables, list: &[u8], room: &mut [u32]) -> bool {
    let (refusing, drop_mark) = (1, 0);
    let answer = calls::open(encoding.number(), refusing, drop_mark);
    let answer = calls::feed(answer.decoder, list, tables.first, tables.second, room);
    answer.refusal == 0
        && calls::finish(answer.decoder, tables.first, tables.second, room).refusal == 0
}

pub fn head(size: usize) {
    println!();
    println!(
        "Check of lists of at most so many bytes, {} KiB in all, beside opening, feed in refusing mode and finish",
        size / 1024
    );
    println!(
        "{:<24} {:>6} {:>7} | {:>15} | {:>15} |",
        "", "", "ratio", "MB/s, best", "MB/s, median"
    );
    println!(
        "{:<24} {:>6} {:>7} | {:>7} {:>7} | {:>7} {:>7} | below a bar",
        "input", "bytes", "c/f", "check", "feed", "check", "feed"
    );
}

/// Measures the lists of a text and prints their row.
pub fn measure(
    name: &str,
    encoding: Encoding,
    text: &[u8],
    most: usize,
    indexes: &Indexes,
    number: usize,
    counts: &mut Counts,
) {
    let tables = indexes.tables(encoding);
    let lists = lists(encoding, text, most);
    let cells = room(lists.iter().map(|list| list.len()).max().unwrap_or(0));
    let check = move |list: &[u8], _: &mut [u32]| {
        calls::check(encoding.number(), list, tables.first, tables.second).clean == 1
    };
    let feed = move |list: &[u8], room: &mut [u32]| fed(encoding, tables, list, room);
    let mut runs = [run(lists.clone(), 0, check), run(lists, cells, feed)];
    let measured: Vec<Times> = rounds(number, &mut runs);
    let bar = Bar {
        of: "feed",
        ratio: measured[1].ratio,
        least: 0.7,
    };
    let bars = if most == 65536 { vec![bar] } else { Vec::new() };
    let remarks = counts.remarks(&bars, &[], false);
    let rates = |seconds: fn(&Times) -> f64| {
        let [check, feed] =
            [&measured[0], &measured[1]].map(|times| rate(text.len(), seconds(times)));
        format!("{check:>7.0} {feed:>7.0}")
    };
    println!(
        "{name:<24} {most:>6} {:>7.2} | {} | {} | {remarks}",
        measured[1].ratio,
        rates(|times| times.least),
        rates(|times| times.median)
    );
}
