//! Interleaved rounds, and the comparison of what was written.

use crate::decoders::Decoder;
use std::hint::black_box;
use std::ops::BitXor;
use std::time::Instant;

/// The rounds of a run: its least and its median seconds, and the rate of the first run over its own, the median of
/// the ratios of each round.
#[derive(Clone, Copy)]
pub struct Times {
    pub least: f64,
    pub median: f64,
    pub ratio: f64,
}

fn median(mut numbers: Vec<f64>) -> f64 {
    numbers.sort_by(f64::total_cmp);
    numbers[numbers.len() / 2]
}

impl Times {
    fn of(seconds: &[f64], first: &[f64]) -> Times {
        let ratios = seconds.iter().zip(first).map(|(own, first)| own / first);
        Times {
            least: seconds.iter().copied().fold(f64::INFINITY, f64::min),
            median: median(seconds.to_vec()),
            ratio: median(ratios.collect()),
        }
    }
}

/// A run that is timed: it answers with its seconds.
pub type Run<'a> = Box<dyn FnMut() -> f64 + 'a>;

/// Runs all in turn, round by round: from the first to the last, then back, so that none always follows the same one.
pub fn rounds(rounds: usize, runs: &mut [Run]) -> Vec<Times> {
    let mut seconds = vec![Vec::new(); runs.len()];
    for round in 0..rounds {
        for turn in 0..runs.len() {
            let place = if round % 2 == 0 {
                turn
            } else {
                runs.len() - 1 - turn
            };
            seconds[place].push(runs[place]());
        }
    }
    seconds
        .iter()
        .map(|own| Times::of(own, &seconds[0]))
        .collect()
}

/// The nanoseconds of one call, the least of some rounds of many calls.
pub fn nanoseconds(rounds: usize, mut call: impl FnMut()) -> f64 {
    let calls = 1000;
    let mut least = f64::INFINITY;
    for _ in 0..rounds {
        let start = Instant::now();
        for _ in 0..calls {
            call();
        }
        least = least.min(start.elapsed().as_secs_f64());
    }
    least / calls as f64 * 1e9
}

/// How many cells a decoder is lent for a chunk.
pub fn room(chunk: usize) -> usize {
    chunk + 8
}

/// What a decoder writes for a whole input.
pub fn whole<D: Decoder>(mut decoder: D, input: &[u8], chunk: usize) -> Vec<D::Unit> {
    let mut room = vec![D::Unit::default(); room(chunk)];
    let mut output = Vec::with_capacity(input.len());
    for part in input.chunks(chunk) {
        let written = decoder.feed(part, &mut room);
        output.extend_from_slice(&room[..written]);
    }
    let written = decoder.finish(&mut room);
    output.extend_from_slice(&room[..written]);
    output
}

/// Reads an input and clears a room, so that every run begins with the same in the caches, whatever ran before it.
pub fn warm<S, T>(input: &[S], room: &mut [T])
where
    S: Copy + Default + BitXor<Output = S>,
    T: Copy + Default,
{
    black_box(input.iter().fold(S::default(), |all, &one| all ^ one));
    room.fill(T::default());
    black_box(room);
}

/// A timed run of a decoder over a whole input into one room. Behind the clock the number of scalars and those of the
/// last chunk are compared with what the decoder wrote before.
pub fn decoding<'a, D: Decoder + 'a>(
    open: impl Fn() -> D + 'a,
    input: &'a [u8],
    chunk: usize,
    expected: &[D::Unit],
) -> Run<'a>
where
    D::Unit: PartialEq,
{
    let mut room = vec![D::Unit::default(); room(chunk)];
    let mut end = vec![D::Unit::default(); room.len()];
    let total = expected.len();
    let tail = expected[total - total.min(2 * room.len())..].to_vec();
    Box::new(move || {
        let mut decoder = open();
        let mut written = 0;
        let mut last = 0;
        warm(input, &mut room);
        let start = Instant::now();
        for part in input.chunks(chunk) {
            last = decoder.feed(part, &mut room);
            written += last;
        }
        let at_end = decoder.finish(&mut end);
        let seconds = start.elapsed().as_secs_f64();
        let run = [&room[..last], &end[..at_end]].concat();
        let same = written + at_end == total && tail.ends_with(&run);
        assert!(same, "two runs of one decoder differ");
        seconds
    })
}

/// How two outputs of one job compare.
pub fn compare(one: &[u32], other: &[u32]) -> String {
    if one.len() != other.len() {
        return format!("{} and {} scalars", one.len(), other.len());
    }
    match one.iter().zip(other).filter(|(a, b)| a != b).count() {
        0 => String::new(),
        different => format!("{different} of {} scalars", one.len()),
    }
}
