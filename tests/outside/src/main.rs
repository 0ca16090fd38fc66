//! Compares the library with the published tests of the Encoding Standard and with a second implementation.
//!
//! Arguments, each with its default where it may be left out:
//!
//! - `[NUMBER [SEED]]`: every comparison; the number of random calls (1000000) and their seed (1).
//! - `random [NUMBER [SEED]]`: long texts, fields, random calls, random index lines, random reverse indexes, random writing
//!   with an index and random lists alone.
//! - `showtext PROGRAM [SEED]`: the program `showtext` beside the reference; the seed of its random inputs (1).
//! - `mend PROGRAM [SEED]`: the program `mend`, in the same way.

mod compare;
mod data;
mod differences;
mod exhaustive;
mod fields;
mod indexed;
mod labels;
mod lines;
mod list;
mod long;
mod marks;
mod mend;
mod order;
mod program;
mod published;
mod random;
mod reference;
mod reverse_index;
mod showtext;
mod stretches;

use std::process::ExitCode;
use std::thread;
use std::time::Instant;

fn show(what: &str, part: impl FnOnce() -> Result<String, String>) -> Result<(), String> {
    let start = Instant::now();
    match part() {
        Ok(counts) => {
            println!("{what}: {counts} ({:.1} s)", start.elapsed().as_secs_f32());
            Ok(())
        }
        Err(error) => Err(format!("{what}: {error}")),
    }
}

fn compare_all(number: usize, seed: u64) -> Result<(), String> {
    let labels = labels::Labels::read()?;
    show("labels", || published::labels(&labels))?;
    show("names", || published::names(&labels))?;
    let tables = data::Published::read()?;
    println!("indexes: {} entries by their lines", tables.entries);
    show("decode", || published::decodings(&tables))?;
    show("characters", || published::characters(&tables))?;
    show("characters written", || {
        published::characters_written(&tables)
    })?;
    show("encode", || published::encodings(&tables))?;
    show("Shift_JIS", || published::shift_jis(&tables))?;
    // The readers on a thread of their own, beside the writers.
    thread::scope(|scope| {
        let readers = scope.spawn(|| compare_readers(&tables));
        compare_writers(&tables, seed)?;
        readers.join().expect("no comparison panics")
    })?;
    compare_random(&tables, number, seed)
}

fn compare_readers(tables: &data::Published) -> Result<(), String> {
    show("order of refusals", || order::refusals(tables))?;
    show("records", exhaustive::records)?;
    show("bytes and pairs", || exhaustive::pairs(tables))?;
    show("short texts", || exhaustive::texts(tables))?;
    show("marks that choose", || marks::marks(tables))?;
    show("leads of UTF-8", || exhaustive::leads(tables))?;
    show("four bytes", || exhaustive::four_bytes(tables))
}

fn compare_writers(tables: &data::Published, seed: u64) -> Result<(), String> {
    show("writers", || exhaustive::scalars(tables))?;
    show("writers of pairs", || exhaustive::pair_writers(tables))?;
    show("writer with a state", || exhaustive::iso_2022_jp(tables))?;
    show("writers with a true index", || indexed::plane(tables))?;
    show("block borders", || long::borders(tables))?;
    show("stretches of ASCII", || stretches::stretches(tables))?;
    show("reverse indexes", || reverse_index::published(tables, seed))?;
    show("short lists", list::short_texts)
}

fn compare_random(tables: &data::Published, number: usize, seed: u64) -> Result<(), String> {
    show("long texts", || long::texts(tables, seed))?;
    show("long texts checked", || long::checks(tables, seed))?;
    show("fields", || fields::fields(tables, seed))?;
    show("random calls", || random::calls(tables, number, seed))?;
    show("random index lines", || lines::lines(seed))?;
    show("random reverse indexes", || reverse_index::random(seed))?;
    show("random writing with an index", || {
        indexed::random(tables, seed)
    })?;
    show("long writing with an index", || indexed::long(tables, seed))?;
    show("random lists", || list::random_lists(seed))?;
    show("long lists", || list::long_lists(seed))
}

fn compare_showtext(program: &str, seed: u64) -> Result<(), String> {
    data::read_windows_1252()?;
    let showtext = showtext::Showtext::new(program)?;
    show("showtext, document 01's example", || showtext.example())?;
    show("showtext, encodings", || showtext.encodings())?;
    show("showtext, refusals", || showtext.refusals())?;
    show("showtext, input cut by the pipe", || showtext.cuts())?;
    show("showtext, ends of buffers", || showtext.buffers())?;
    show("showtext, random inputs", || showtext.random(500, seed))?;
    show("showtext, long input", || showtext.long_input(seed))
}

fn compare_mend(program: &str, seed: u64) -> Result<(), String> {
    data::read_windows_1252()?;
    let mend = mend::Mend::new(program)?;
    show("mend, document 02's example", || mend.example())?;
    show("mend, encodings", || mend.encodings())?;
    show("mend, refusals", || mend.refusals())?;
    show("mend, ends of buffers", || mend.buffers())?;
    show("mend, random inputs", || mend.random(500, seed))
}

fn numbers(arguments: &[String]) -> Option<(usize, u64)> {
    let (number, seed) = match arguments {
        [] => return Some((1_000_000, 1)),
        [number] => (number, None),
        [number, seed] => (number, Some(seed)),
        _ => return None,
    };
    let seed = seed.map_or(Ok(1), |seed| seed.parse());
    Some((number.parse().ok()?, seed.ok()?))
}

/// The comparison that the arguments ask for.
fn run(arguments: &[String]) -> Option<Result<(), String>> {
    match arguments {
        [mode, rest @ ..] if mode == "random" => {
            let (number, seed) = numbers(rest)?;
            Some(data::Published::read().and_then(|tables| compare_random(&tables, number, seed)))
        }
        [mode, program] if mode == "showtext" => Some(compare_showtext(program, 1)),
        [mode, program] if mode == "mend" => Some(compare_mend(program, 1)),
        [mode, program, seed] if mode == "mend" => Some(compare_mend(program, seed.parse().ok()?)),
        [mode, program, seed] if mode == "showtext" => {
            Some(compare_showtext(program, seed.parse().ok()?))
        }
        rest => {
            let (number, seed) = numbers(rest)?;
            Some(compare_all(number, seed))
        }
    }
}

fn main() -> ExitCode {
    let arguments: Vec<String> = std::env::args().skip(1).collect();
    match run(&arguments) {
        Some(Ok(())) => {
            println!("outside: no difference");
            ExitCode::SUCCESS
        }
        Some(Err(error)) => {
            eprintln!("outside: FAILED: {error}");
            ExitCode::FAILURE
        }
        None => {
            eprintln!(
                "usage: outside [NUMBER [SEED]] | random [NUMBER [SEED]] | showtext PROGRAM [SEED] | mend PROGRAM [SEED]"
            );
            ExitCode::from(2)
        }
    }
}
