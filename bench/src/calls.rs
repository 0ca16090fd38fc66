//! The cost of single calls: an empty feed, a label, the lines of an index file.

use crate::data::{Indexes, ENCODINGS};
use crate::decoders::{Decoder, Host, Lent, Ours};
use crate::measure::{self, nanoseconds};
use crate::simple::Simple;
use crate::table::{rate, Counts};
use std::hint::black_box;
use std::time::Instant;
use support::calls;
use support::data::{self, Index};

fn empty<D: Decoder>(mut decoder: D, rounds: usize) -> f64 {
    let mut room = vec![D::Unit::default(); measure::room(0)];
    nanoseconds(rounds, || {
        black_box(decoder.feed(black_box(&[]), &mut room));
    })
}

/// A feed of an empty chunk: the decoder handed over, and lent.
pub fn empty_feeds(indexes: &Indexes) -> Result<(), String> {
    let rounds = 200;
    println!();
    println!("Feed of an empty chunk, in nanoseconds");
    println!(
        "{:<24} {:>7} {:>7} {:>7} {:>7}",
        "encoding", "ours", "lent", "simple", "iconv"
    );
    for encoding in ENCODINGS {
        let tables = indexes.tables(encoding);
        println!(
            "{:<24} {:>7.1} {:>7.1} {:>7.1} {:>7.1}",
            encoding.name(),
            empty(Ours::open(encoding, tables), rounds),
            empty(Lent::open(encoding, tables), rounds),
            empty(Simple::open(encoding, tables), rounds),
            empty(Host::open(encoding)?, rounds),
        );
    }
    Ok(())
}

/// The label that takes longest, and its nanoseconds.
fn slowest(labels: &[String], rounds: usize, refusal: u8) -> (&str, f64) {
    let mut slowest = ("", 0.0);
    for label in labels {
        let found = calls::label(label.as_bytes());
        assert_eq!(found.refusal, refusal, "{label}");
        let time = nanoseconds(rounds, || {
            black_box(calls::label(black_box(label.as_bytes())));
        });
        if time > slowest.1 {
            slowest = (label, time);
        }
    }
    slowest
}

/// Every label, and every label with another last character.
pub fn labels(counts: &mut Counts) -> Result<(), String> {
    let text = data::read("vectors/labels.txt")?;
    let hits: Vec<String> = data::lines(&text)
        .filter_map(|line| line.split('\t').nth(2))
        .map(str::to_string)
        .collect();
    let misses: Vec<String> = hits
        .iter()
        .map(|label| format!("{}~", &label[..label.len() - 1]))
        .collect();
    let rounds = 10;
    println!();
    println!("Label look-up, in nanoseconds");
    let (label, time) = slowest(&hits, rounds, 0);
    println!(
        "{:<24} {time:>7.0}   {label}",
        format!("slowest of {} hits", hits.len())
    );
    let (label, time) = slowest(&misses, rounds, 1);
    let remarks = counts.limit(time < 1000.0, "above 1000 ns");
    println!(
        "{:<24} {time:>7.0}   {label} {remarks}",
        format!("slowest of {} misses", misses.len())
    );
    Ok(())
}

/// The lines of an index file, already cut at their line feeds, into a table of zeros.
fn index(index: Index, rounds: usize, counts: &mut Counts) -> Result<(), String> {
    let text = index.text()?;
    let lines: Vec<&str> = text.split('\n').collect();
    let mut least = f64::INFINITY;
    for _ in 0..rounds.max(5) {
        let mut table = vec![0; index.cells];
        table.fill(0);
        let start = Instant::now();
        for line in &lines {
            let answer = calls::index_line(line.as_bytes(), &mut table);
            assert_eq!(answer.refusal, 0, "{line}");
        }
        least = least.min(start.elapsed().as_secs_f64());
    }
    let rate = rate(text.len(), least);
    let remarks = counts.limit(rate >= 50.0, "below 50 MB/s");
    let name = format!("index-{}.txt", index.name);
    println!("{name:<24} {rate:>7.0}   {remarks}");
    Ok(())
}

/// The reverse index of a table, built in cells of any kind, and then again from the lines of its file beside the table.
fn reverse_index(
    encoding: u8,
    index: Index,
    rounds: usize,
    counts: &mut Counts,
) -> Result<(), String> {
    let table = index.table()?;
    let text = index.text()?;
    let lines: Vec<&str> = text.split('\n').collect();
    let mut built = vec![u32::MAX; calls::index_size(table.len())];
    let (mut least, mut least_filled) = (f64::INFINITY, f64::INFINITY);
    for _ in 0..rounds.max(5) {
        built.fill(u32::MAX);
        let start = Instant::now();
        let refusal = calls::build_index(encoding, black_box(&table), &mut built);
        least = least.min(start.elapsed().as_secs_f64());
        assert_eq!(refusal, 0);
        let (mut cells, mut links) = (vec![0; table.len()], vec![0; built.len()]);
        links.fill(0);
        let start = Instant::now();
        for line in &lines {
            calls::index_line_indexed(line.as_bytes(), &mut cells, &mut links);
        }
        least_filled = least_filled.min(start.elapsed().as_secs_f64());
        assert!(cells == table && links == built, "the index that is built");
    }
    let microseconds = least * 1e6;
    let remarks = counts.limit(microseconds < 1000.0, "above a millisecond");
    let name = format!("index-{}.txt", index.name);
    let rate = rate(text.len(), least_filled);
    println!("{name:<24} {microseconds:>7.0} {rate:>7.0}   {remarks}");
    Ok(())
}

pub fn indexes(rounds: usize, counts: &mut Counts) -> Result<(), String> {
    println!();
    println!("Index file loaded line by line, in MB/s, best round");
    for published in [
        data::JIS0208,
        data::GB18030,
        data::BIG5,
        data::single_byte("windows-1251"),
    ] {
        index(published, rounds, counts)?;
    }
    println!();
    println!("Reverse index built from a table, in microseconds; file loaded with it, in MB/s; best round");
    for (encoding, published) in [
        (34, data::JIS0208),
        (29, data::GB18030),
        (31, data::BIG5),
        (35, data::EUC_KR),
        (20, data::single_byte("windows-1251")),
    ] {
        reverse_index(encoding, published, rounds, counts)?;
    }
    Ok(())
}
