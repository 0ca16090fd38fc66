//! The decoders on whole inputs and on short chunks.

use crate::data::Indexes;
use crate::decoders::{Decoder, Host, Lent, Ours};
use crate::inputs::{Input, Kind};
use crate::measure::{compare, decoding, rounds, whole, Run};
use crate::simple::Simple;
use crate::table::{row, Bar, Counts};
use support::Tables;

/// The bars of a row.
fn bars(input: &Input, chunk: usize, simple: f64, iconv: f64) -> Vec<Bar> {
    let of_iconv = |least| Bar {
        of: "iconv",
        ratio: iconv,
        least,
    };
    match chunk {
        65536 => vec![
            Bar {
                of: "simple",
                ratio: simple,
                least: if input.kind == Kind::Random { 0.8 } else { 1.0 },
            },
            of_iconv(1.0),
        ],
        16 => vec![of_iconv(0.8)],
        _ => Vec::new(),
    }
}

/// One input in chunks of one length.
pub struct Job<'a> {
    pub name: &'a str,
    pub input: &'a Input,
    pub bytes: &'a [u8],
    pub chunk: usize,
    /// The library's decoder is lent to each call, and not handed over by value.
    pub lent: bool,
}

/// What differs between the outputs of a job.
#[derive(Default)]
struct Differences {
    notes: Vec<String>,
    /// Outputs differ that are of the same job.
    same_job: bool,
}

impl Differences {
    fn note(&mut self, other: &str, difference: String, same_job: bool) {
        if !difference.is_empty() {
            self.notes.push(format!("{other} differs: {difference}"));
            self.same_job |= same_job;
        }
    }
}

/// A decoder's output of a job, and its run.
fn output_and_run<'a, D: Decoder<Unit = u32> + 'a>(
    open: impl Fn() -> D + 'a,
    job: &Job<'a>,
) -> (Vec<u32>, Run<'a>) {
    let output = whole(open(), job.bytes, job.chunk);
    let run = decoding(open, job.bytes, job.chunk, &output);
    (output, run)
}

/// The runs of a job, whose outputs are compared before.
fn runs<'a>(
    job: &Job<'a>,
    tables: Tables<'a>,
    differences: &mut Differences,
) -> Result<Vec<Run<'a>>, String> {
    let encoding = job.input.encoding;
    Host::open(encoding)?;

    let (ours, run) = if job.lent {
        output_and_run(move || Lent::open(encoding, tables), job)
    } else {
        output_and_run(move || Ours::open(encoding, tables), job)
    };
    let mut runs = vec![run];
    let (simple, run) = output_and_run(move || Simple::open(encoding, tables), job);
    differences.note("simple", compare(&ours, &simple), true);
    runs.push(run);
    let open_iconv = move || Host::open(encoding).expect("iconv knows it");
    let (iconv, run) = output_and_run(open_iconv, job);
    if job.input.valid() {
        differences.note("iconv", compare(&ours, &iconv), true);
    }
    runs.push(run);
    #[cfg(encoding_rs)]
    {
        let open = move || crate::decoders::utf_16::Utf16::open(encoding);
        let units = whole(open(), job.bytes, job.chunk);
        let scalars: Vec<u32> = char::decode_utf16(units.iter().copied())
            .map(|scalar| scalar.map_or(0xFFFD, u32::from))
            .collect();
        differences.note("enc_rs", compare(&ours, &scalars), false);
        runs.push(decoding(open, job.bytes, job.chunk, &units));
    }
    Ok(runs)
}

/// Measures a job and prints its row.
pub fn measure(
    job: &Job,
    indexes: &Indexes,
    number: usize,
    counts: &mut Counts,
) -> Result<(), String> {
    let mut differences = Differences::default();
    let tables = indexes.tables(job.input.encoding);
    let measured = rounds(number, &mut runs(job, tables, &mut differences)?);
    let ratios: Vec<f64> = measured.iter().map(|other| other.ratio).collect();
    let bars = bars(job.input, job.chunk, ratios[1], ratios[2]);
    if job.chunk == 65536 && job.input.kind != Kind::Ascii && ratios.len() > 3 {
        counts.aim(ratios[3]);
    }
    let remarks = counts.remarks(&bars, &differences.notes, differences.same_job);
    let times = std::array::from_fn(|place| measured.get(place).copied());
    row(job.name, job.bytes.len(), &times, &remarks);
    Ok(())
}
