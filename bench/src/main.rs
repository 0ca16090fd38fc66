//! The library's speed, measured beside a simple decoder in Rust, glibc's iconv and encoding_rs.

mod arguments;
mod calls;
mod check;
mod data;
mod decode;
mod decoders;
mod iconv;
mod inputs;
mod list;
mod measure;
mod simple;
mod spread;
mod table;
mod text;
mod write;

use arguments::{Arguments, Part};
use data::Indexes;
use decode::Job;
use inputs::Input;
use std::process::ExitCode;
use table::Counts;

/// The lengths of short chunks, and whether the decoder is lent to each call.
const CHUNKS: [(usize, bool); 6] = [
    (1, false),
    (1, true),
    (16, false),
    (16, true),
    (256, false),
    (4096, false),
];

/// The inputs that are also measured in short chunks.
const SHORT: [&str; 8] = [
    "utf-8-ascii",
    "utf-8-japanese",
    "shift_jis-dense",
    "gbk-dense",
    "windows-1251-dense",
    "windows-1252-dense",
    "utf-16le-dense",
    "iso-2022-jp-dense",
];

/// The longest lists of a check.
const CHECKED: [usize; 4] = [512, 4096, 16384, 65536];

/// The inputs that are written again.
const WRITTEN: [&str; 22] = [
    "utf-8-ascii",
    "utf-8-french",
    "utf-8-russian",
    "utf-8-japanese",
    "utf-8-mixed",
    "windows-1251-dense",
    "windows-1252-ascii",
    "windows-1252-dense",
    "euc-jp-list",
    "euc-jp-dense",
    "iso-2022-jp-list",
    "iso-2022-jp-dense",
    "shift_jis-list",
    "shift_jis-dense",
    "gbk-list",
    "gbk-dense",
    "gb18030-list",
    "gb18030-dense",
    "big5-list",
    "big5-dense",
    "euc-kr-list",
    "euc-kr-dense",
];

fn about(arguments: &Arguments) {
    #[cfg(encoding_rs)]
    let encoding_rs = format!("encoding_rs {} to UTF-16", decoders::utf_16::VERSION);
    #[cfg(not(encoding_rs))]
    let encoding_rs =
        "no encoding_rs, whose Debian package librust-encoding-rs-dev is not installed";
    println!(
        "ours, through C; simple: safe Rust, same job; iconv: glibc {} to UTF-32LE; enc_rs: {encoding_rs}.",
        iconv::version()
    );
    println!(
        "{} interleaved rounds, there and back; a ratio is the median of the rounds' ratios. Before each clock starts the input is read once and the output buffer, one for all chunks, is cleared.",
        arguments.rounds
    );
    println!(
        "All outputs are compared; iconv's only on text without errors: at an error it stops, the host writes U+FFFD, skips a byte (in UTF-16 two) and goes on."
    );
}

fn decode_part(
    arguments: &Arguments,
    indexes: &Indexes,
    counts: &mut Counts,
) -> Result<(), String> {
    table::head(&format!(
        "Decoder: inputs of {} KiB in chunks of {} bytes",
        arguments.size / 1024,
        arguments.chunk
    ));
    for input in chosen(arguments)? {
        let bytes = inputs::make(&input, indexes, arguments.size);
        arguments.save(&input.name, &bytes)?;
        let job = Job {
            name: &input.name,
            input: &input,
            bytes: &bytes,
            chunk: arguments.chunk,
            lent: false,
        };
        decode::measure(&job, indexes, arguments.rounds, counts)?;
    }
    Ok(())
}

fn short_part(arguments: &Arguments, indexes: &Indexes, counts: &mut Counts) -> Result<(), String> {
    let size = arguments.size.min(1 << 20);
    table::head(&format!("Short chunks: inputs of {} KiB", size / 1024));
    for input in chosen(arguments)? {
        if !SHORT.contains(&input.name.as_str()) {
            continue;
        }
        let bytes = inputs::make(&input, indexes, size);
        for (chunk, lent) in CHUNKS {
            let job = Job {
                name: &format!("{} {chunk}{}", input.name, if lent { " lent" } else { "" }),
                input: &input,
                bytes: &bytes,
                chunk,
                lent,
            };
            decode::measure(&job, indexes, arguments.rounds, counts)?;
        }
    }
    Ok(())
}

fn check_part(arguments: &Arguments, indexes: &Indexes, counts: &mut Counts) -> Result<(), String> {
    check::head(arguments.size);
    for input in chosen(arguments)? {
        if !input.valid() {
            continue;
        }
        let text = inputs::make(&input, indexes, arguments.size);
        for most in CHECKED {
            check::measure(
                &input.name,
                input.encoding,
                &text,
                most,
                indexes,
                arguments.rounds,
                counts,
            );
        }
    }
    Ok(())
}

fn write_part(arguments: &Arguments, indexes: &Indexes, counts: &mut Counts) -> Result<(), String> {
    table::head(&format!(
        "Writer: {} KiB to write in calls of {} scalars; the rates are of the bytes written",
        arguments.size / 1024,
        write::SCALARS
    ));
    for input in chosen(arguments)? {
        if !WRITTEN.contains(&input.name.as_str()) {
            continue;
        }
        let bytes = inputs::make(&input, indexes, arguments.size);
        write::measure(
            &input.name,
            input.encoding,
            &bytes,
            indexes,
            arguments.rounds,
            counts,
        )?;
    }
    spread::rows(indexes, arguments.rounds, counts)
}

fn chosen(arguments: &Arguments) -> Result<Vec<Input>, String> {
    let mut inputs = inputs::inputs();
    inputs.retain(|input| arguments.chooses(&input.name));
    if inputs.is_empty() {
        return Err("no input has such a name".to_string());
    }
    Ok(inputs)
}

fn run(arguments: &Arguments) -> Result<(), String> {
    chosen(arguments)?;
    let indexes = Indexes::read()?;
    let mut counts = Counts::default();
    about(arguments);
    if arguments.has(Part::Decode) {
        decode_part(arguments, &indexes, &mut counts)?;
    }
    if arguments.has(Part::Short) {
        short_part(arguments, &indexes, &mut counts)?;
    }
    if arguments.has(Part::Check) {
        check_part(arguments, &indexes, &mut counts)?;
    }
    if arguments.has(Part::Write) {
        write_part(arguments, &indexes, &mut counts)?;
    }
    if arguments.has(Part::Empty) {
        calls::empty_feeds(&indexes)?;
    }
    if arguments.has(Part::Labels) {
        calls::labels(&mut counts)?;
    }
    if arguments.has(Part::Indexes) {
        calls::indexes(arguments.rounds, &mut counts)?;
    }
    if arguments.has(Part::Lists) {
        list::lists(arguments.rounds, &mut counts);
    }
    println!();
    println!(
        "{} rows with a bar or a comparison: {} below a bar, {} where a decoder or writer of the same job differs",
        counts.rows, counts.below, counts.differ
    );
    if counts.aiming > 0 {
        println!(
            "aim: {} of {} rows below encoding_rs, plain ASCII left out",
            counts.below_aim, counts.aiming
        );
    }
    Ok(())
}

fn main() -> ExitCode {
    let arguments = match Arguments::read(std::env::args().skip(1)) {
        Ok(Some(arguments)) => arguments,
        Ok(None) => {
            print!("{}", arguments::HELP);
            return ExitCode::SUCCESS;
        }
        Err(error) => {
            eprintln!("bench: {error}; --help tells the arguments");
            return ExitCode::FAILURE;
        }
    };
    match run(&arguments) {
        Ok(()) => ExitCode::SUCCESS,
        Err(error) => {
            eprintln!("bench: {error}");
            ExitCode::FAILURE
        }
    }
}
