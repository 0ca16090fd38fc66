//! The command's arguments.

use std::fs;
use std::path::PathBuf;

pub const HELP: &str = include_str!("../help.txt");

#[derive(Clone, Copy, PartialEq, Eq)]
pub enum Part {
    Decode,
    Short,
    Check,
    Write,
    Empty,
    Labels,
    Indexes,
    Lists,
}

const PARTS: [(&str, Part); 8] = [
    ("decode", Part::Decode),
    ("short", Part::Short),
    ("check", Part::Check),
    ("write", Part::Write),
    ("empty", Part::Empty),
    ("labels", Part::Labels),
    ("indexes", Part::Indexes),
    ("lists", Part::Lists),
];

pub struct Arguments {
    only: Vec<String>,
    parts: Vec<Part>,
    pub rounds: usize,
    /// Bytes of an input.
    pub size: usize,
    pub chunk: usize,
    save: bool,
}

impl Arguments {
    /// The arguments; none if help is asked for.
    pub fn read(mut words: impl Iterator<Item = String>) -> Result<Option<Arguments>, String> {
        let mut arguments = Arguments {
            only: Vec::new(),
            parts: Vec::new(),
            rounds: 15,
            size: 16 << 20,
            chunk: 65536,
            save: false,
        };
        while let Some(word) = words.next() {
            let mut value = || words.next().ok_or(format!("{word} needs a value"));
            match word.as_str() {
                "--help" => return Ok(None),
                "--only" => arguments.only.push(value()?.to_lowercase()),
                "--part" => arguments.parts.push(part(&value()?)?),
                "--rounds" => arguments.rounds = number(&word, &value()?, 1, 10_000)?,
                "--size" => arguments.size = number(&word, &value()?, 1, 256)? << 20,
                "--chunk" => arguments.chunk = number(&word, &value()?, 1, 65536)?,
                "--save" => arguments.save = true,
                _ => return Err(format!("unknown argument {word}")),
            }
        }
        if !arguments.only.is_empty() && arguments.parts.is_empty() {
            arguments.parts.push(Part::Decode);
        }
        Ok(Some(arguments))
    }

    pub fn has(&self, part: Part) -> bool {
        self.parts.is_empty() || self.parts.contains(&part)
    }

    pub fn chooses(&self, name: &str) -> bool {
        self.only.is_empty() || self.only.iter().any(|only| name.contains(only))
    }

    /// Keeps an input, if asked to.
    pub fn save(&self, name: &str, bytes: &[u8]) -> Result<(), String> {
        if !self.save {
            return Ok(());
        }
        let folder = PathBuf::from(env!("CARGO_MANIFEST_DIR")).join("../target/bench/inputs");
        fs::create_dir_all(&folder)
            .and_then(|()| fs::write(folder.join(name), bytes))
            .map_err(|error| format!("{}: {error}", folder.display()))
    }
}

fn part(value: &str) -> Result<Part, String> {
    let found = PARTS.iter().find(|(name, _)| *name == value);
    found
        .map(|(_, part)| *part)
        .ok_or(format!("unknown part {value}"))
}

fn number(word: &str, value: &str, least: usize, most: usize) -> Result<usize, String> {
    match value.parse() {
        Ok(number) if (least..=most).contains(&number) => Ok(number),
        _ => Err(format!("{word} needs a number from {least} to {most}")),
    }
}
